"""What crates/test_sha256 must write: the same digests by hashlib. crates/test_sha256/stdout holds the output."""
from hashlib import sha256
from struct import pack

EXAMPLES = [
    b"",
    b"abc",
    b"abcdbcdecdefdefgefghfghighijhijkijkljklmklmnlmnomnopnopq",
    b"abcdefghbcdefghicdefghijdefghijkefghijklfghijklmghijklmnhijklmnoijklmnopjklmnopqklmnopqrlmnopqrsmnopqrstnopqrstu",
    b"a" * 1000000,
]


def message(length):
    return bytes((7 * i + 3 * length + 1) % 256 for i in range(length))


def words(k):
    return pack(">8I", *(((i + 1) * 2654435761 + k * 1013904223) % 2**32 for i in range(8)))


def show(data):
    print(sha256(data).hexdigest())


for example in EXAMPLES:
    show(example)
for length in range(201):
    show(message(length))  # in pieces of 7 bytes
    show(message(length))  # in pieces of 100 bytes
    show(bytes([length]) + message(length))
for k in range(16):
    show(b"\x01" + words(2 * k) + words(2 * k + 1))
