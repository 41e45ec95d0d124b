//! Pictures as their tests look at them.

/// Every element that starts ends, in order; nothing is taken from elsewhere and nothing runs.
pub fn well_formed(picture: &str) {
    let mut open = Vec::new();
    let mut rest = picture;
    while let Some((_, behind)) = rest.split_once('<') {
        let (tag, after) = behind.split_once('>').unwrap();
        let name = |tag: &str| tag.split_whitespace().next().unwrap().to_string();
        match tag.strip_prefix('/') {
            Some(ended) => assert_eq!(open.pop(), Some(name(ended))),
            None if tag.ends_with('/') => {}
            None => open.push(name(tag)),
        }
        rest = after;
    }
    assert_eq!(open, Vec::<String>::new());
    assert!(picture.starts_with("<svg xmlns=\"http://www.w3.org/2000/svg\""));
    for foreign in ["script", "href", "@import", "&"] {
        assert!(!picture.contains(foreign), "{foreign}");
    }
}

/// One of its lines is this one.
pub fn has(picture: &str, line: &str) {
    assert!(
        picture.lines().any(|found| found == line),
        "{line}\n{picture}"
    );
}
