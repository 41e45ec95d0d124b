//! The service: pieces, records, and sealing by one call.

mod common;

use std::fs;

use common::{book, days, ledger, Folder};
use daybook::{seal, seal_to_vec, Layout, Refusal, Service, PART, RECORD, VALUE};

const LAYOUTS: [Layout; 3] = [Layout::black(4, 2), Layout::tile(4, 2), Layout::tree(4)];

/// The book of the days, closed one after the other into the rest of one buffer.
fn closed(layout: Layout, days: &[Vec<u8>]) -> Vec<u8> {
    let mut service = Service::open(layout).unwrap();
    let mut book = vec![0; PART * days.len()];
    let mut written = 0;
    for day in days {
        service.add(day).unwrap();
        written += VALUE * service.close(&mut book[written..]).unwrap().values as usize;
    }
    book.truncate(written);
    book
}

#[test]
fn a_fresh_service() {
    let service = Service::open(Layout::tile(16, 2)).unwrap();
    assert_eq!(service.layout(), Layout::tile(16, 2));
    assert_eq!((service.scheme(), service.n(), service.f()), (2, 16, 2));
    assert_eq!((service.days(), service.open_bytes()), (0, 0));
    let kept = service.to_bytes();
    let head = [2, 0, 0, 0, 16, 0, 0, 0, 2, 0, 0, 0, 0, 0, 0, 0, 0, 0, 0, 0];
    assert_eq!(kept[..20], head);
}

#[test]
fn seal_is_open_add_close() {
    for layout in LAYOUTS {
        let days = days(16);
        let (ledger, ends) = ledger(&days);
        let expected = book(layout, &days);
        assert_eq!(closed(layout, &days), expected);
        assert_eq!(seal_to_vec(layout, 16, &ledger, &ends), Ok(expected));
    }
}

#[test]
fn seal_reads_and_writes_no_more_than_its_need() {
    let days = days(8);
    let layout = Layout::black(4, 2);
    let expected = book(layout, &days);
    let (mut ledger, mut ends) = ledger(&days);
    ledger.extend([7; 9]);
    ends.extend([0, u32::MAX]);
    let mut book = vec![170; expected.len() + 5];
    seal(layout, 8, &ledger, &ends, &mut book).unwrap();
    assert_eq!(book[..expected.len()], expected);
    assert_eq!(book[expected.len()..], [170; 5]);
}

#[test]
fn any_cutting_into_pieces() {
    for layout in LAYOUTS {
        for size in [1, 3, 55, 56, 64, 200] {
            let days: Vec<Vec<u8>> = (1..=8).map(|g| common::day(g, 200 + g)).collect();
            let mut service = Service::open(layout).unwrap();
            let mut made = Vec::new();
            for day in &days {
                for piece in day.chunks(size) {
                    service.add(piece).unwrap();
                    service.add(&[]).unwrap();
                }
                assert_eq!(service.open_bytes() as usize, day.len());
                made.extend(service.close_day().unwrap());
            }
            assert_eq!(made, book(layout, &days), "{layout}, pieces of {size}");
        }
    }
}

#[test]
fn a_record_to_bytes_and_back_after_every_call() {
    for layout in LAYOUTS {
        let days = days(8);
        let mut kept = Service::open(layout).unwrap().to_bytes();
        let mut made = Vec::new();
        for day in &days {
            for piece in day.chunks(50) {
                let mut service = Service::from_bytes(kept);
                assert!(service.add(piece).is_ok());
                kept = service.to_bytes();
            }
            let mut service = Service::from_bytes(kept);
            made.extend(service.close_day().unwrap());
            kept = service.to_bytes();
        }
        assert_eq!(Service::from_bytes(kept).days(), 8);
        assert_eq!(made, book(layout, &days), "{layout}");
    }
}

#[test]
fn a_record_in_a_file_between_two_runs() {
    let folder = Folder::new("record");
    let file = folder.file("record");
    let days = days(8);
    let layout = Layout::tree(4);

    let mut service = Service::open(layout).unwrap();
    let mut made = Vec::new();
    for day in &days[..5] {
        service.add(day).unwrap();
        made.extend(service.close_day().unwrap());
    }
    service.add(&days[5][..11]).unwrap();
    fs::write(&file, service.to_bytes()).unwrap();

    let bytes = fs::read(&file).unwrap();
    let record: [u8; RECORD] = bytes.try_into().unwrap();
    let mut service = Service::from_bytes(record);
    assert_eq!((service.days(), service.open_bytes()), (5, 11));
    service.add(&days[5][11..]).unwrap();
    made.extend(service.close_day().unwrap());
    for day in &days[6..] {
        service.add(day).unwrap();
        made.extend(service.close_day().unwrap());
    }
    assert_eq!(made, book(layout, &days));
}

#[test]
fn close_writes_the_front_of_its_part() {
    let mut service = Service::open(Layout::tile(1, 1)).unwrap();
    let mut part = [170; 70];
    assert_eq!(service.close(&mut part).unwrap().values, 2);
    assert_ne!(part[..64], [170; 64]);
    assert_eq!(part[64..], [170; 6]);
}

#[test]
fn a_close_without_values_needs_no_part() {
    let mut service = Service::open(Layout::black(2, 1)).unwrap();
    assert_eq!(service.close(&mut []).unwrap().values, 0);
    assert_eq!(service.close(&mut []), Err(Refusal::ShortBuffer));
    assert_eq!(service.days(), 1);
}

#[test]
fn all_days_of_a_book() {
    let mut service = Service::open(Layout::black(256, 1)).unwrap();
    let mut values = 0;
    for _ in 0..65_536 {
        values += service.close(&mut [0; VALUE]).unwrap().values;
    }
    assert_eq!(values, 256);
    assert_eq!(service.days(), 65_536);
    assert_eq!((service.season(), service.open_bytes()), (0, 0));
    // a book has no more: the next day is one of another book
    assert_eq!(service.close(&mut []).unwrap().values, 0);
    assert_eq!((service.season(), service.days()), (1, 1));
}

#[test]
fn seventeen_values_on_the_last_day_of_a_tree() {
    let mut service = Service::open(Layout::tree(256)).unwrap();
    let mut part = [0; PART];
    let mut values = 0;
    for _ in 1..65_536 {
        values += service.close(&mut part).unwrap().values;
    }
    assert_eq!(service.close(&mut part[1..]), Err(Refusal::ShortBuffer));
    assert_eq!(service.close(&mut part).unwrap().values, 17);
    // 2 D, less 1 one bit, D / N for black, less 1 + 8
    assert_eq!(values + 17, 131_072 - 1 + 256 - 9);
}

#[test]
fn a_day_of_the_greatest_length() {
    let mut service = Service::open(Layout::black(1, 1)).unwrap();
    let half = vec![0; 8_388_608];
    service.add(&half).unwrap();
    service.add(&half).unwrap();
    assert_eq!(service.open_bytes(), 16_777_216);
    let full = service.clone();
    assert_eq!(service.add(&[0]), Err(Refusal::DayTooLong));
    assert_eq!(service, full);
    service.add(&[]).unwrap();
    service.close_day().unwrap();
    assert_eq!((service.days(), service.open_bytes()), (1, 0));
}
