"""Expected output: seal, alter, check and read under each layout."""

import daybook
from pattern import day_bytes


def start(ends, g):
    return 0 if g < 2 else ends[g - 2]


def trip(scheme, n, f, d, days):
    ledger = bytearray()
    ends = []
    for g in range(1, 1001):
        ledger += day_bytes(g, g * 7 % 131)
        ends.append(len(ledger))
    book = bytearray(67584)
    sealed = daybook.seal(scheme, n, f, d, bytes(ledger), ends, book)
    for g in days:
        ledger[start(ends, g)] ^= 1
    work = bytearray(32000)
    outcomes = bytearray(b"\x09" * 2112)
    checked = daybook.check(scheme, n, f, d, bytes(ledger), ends, bytes(book), work, outcomes)
    listed = [0] * 1000
    passed = daybook.validation_before(n, f, d)
    answer = daybook.read(scheme, n, f, d, passed, outcomes, listed)
    print(f"{sealed}{checked} ", end="")
    if answer.kind == "refused":
        print(f"NO,{answer.refusal}")
        return
    print(f"REF,{scheme},{answer.listed},{answer.first},{answer.low},{answer.high},{answer.last_good}")
    if answer.kind == "changed":
        print("".join(f"{g} " for g in listed[: answer.listed]))


def main():
    trip(2, 16, 2, 64, [19, 20, 27])
    trip(3, 2, 1, 16, [4, 7, 10])
    trip(3, 2, 1, 14, [4, 7, 10])
    trip(1, 2, 3, 24, [16])
    for scheme, f in ((1, 25), (2, 25), (3, 1)):
        trip(scheme, 8, f, 1000, [])
        trip(scheme, 8, f, 1000, [500])
        trip(scheme, 8, f, 1000, [3, 777, 1000])


if __name__ == "__main__":
    main()
