"""Day contents used by the expected outputs."""


def day_bytes(g, length):
    """The bytes of day g: byte i is (31 g + 7 i + 5) mod 256."""
    return bytes((g * 31 + i * 7 + 5) % 256 for i in range(length))
