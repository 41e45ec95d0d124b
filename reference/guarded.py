"""Calls of a library on arrays that lie between guard bytes."""

import ctypes
import mmap
from array import array

import daybook
import record
from wanted import WANT

# n number, b bytes with their length, w words with their length, B and W
# the same without a length, Q numbers of 64 bits without a length.
FORMS = {"open": "nnnB", "add": "BbW", "close": "BbWW", "seal": "nnnnbwb",
         "check": "nnnnbwbbb", "read": "nnnnnbwW", "search": "nnnnbnwW",
         "values": "nnnnW", "record_values": "BW", "forecast": "nnnnwQ",
         "chain_at": "nnnnnW", "position_of": "nnnnWW", "tile_counts": "nnW",
         "version": ""}
LABELS = {
    "open": ("scheme", "n", "f", "record"),
    "add": ("record", "piece", "blocks"),
    "close": ("record", "part", "values", "blocks"),
    "seal": ("scheme", "n", "f", "d", "ledger", "ends", "book"),
    "check": ("scheme", "n", "f", "d", "ledger", "ends", "book", "work",
              "outcomes"),
    "read": ("scheme", "n", "f", "d", "passed", "outcomes", "list",
             "numbers"),
    "search": ("scheme", "n", "f", "d", "outcomes", "limit", "list",
               "progress"),
    "values": ("scheme", "n", "f", "d", "values"),
    "record_values": ("record", "values"),
    "forecast": ("scheme", "n", "f", "d", "lengths", "sizes"),
    "chain_at": ("scheme", "n", "f", "d", "position", "chain"),
    "position_of": ("scheme", "n", "f", "d", "chain", "position"),
    "tile_counts": ("n", "k", "counts"),
    "version": ()}
WRITTEN = {"record", "part", "values", "blocks", "work", "list", "numbers",
           "progress", "sizes", "counts"}
ANSWERS = {"open": (0, 1, 2, 3), "add": (0, 6, 5, 4), "close": (0, 6, 5, 8),
           "seal": (0, 1, 2, 3, 7, 9, 10, 8),
           "check": (0, 1, 2, 3, 7, 9, 10, 11, 8),
           "read": (0, 1, 2, 3, 7, 19, 8, 12, 13, 14),
           "search": (0, 1, 2, 3, 7, 8, 12, 13, 14, 20),
           "values": (0, 1, 2, 3, 7), "record_values": (0, 6),
           "forecast": (0, 1, 2, 3, 7, 16, 17),
           "chain_at": (0, 1, 2, 3, 7, 18),
           "position_of": (0, 1, 2, 3, 7, 18), "tile_counts": (0, 2, 21),
           "version": (daybook.VERSION,)}


def is_written(name, label):
    """Whether the call may write the array."""
    if name == "record_values":
        return label == "values"
    return (label in WRITTEN or (name, label) in
            {("seal", "book"), ("check", "outcomes"), ("chain_at", "chain"),
             ("position_of", "position")})


def load(path):
    """The calls of a shared library, by name."""
    library = ctypes.CDLL(path)
    kinds = {"n": [ctypes.c_uint32], "b": [ctypes.c_void_p, ctypes.c_size_t],
             "B": [ctypes.c_void_p]}
    kinds["w"], kinds["W"], kinds["Q"] = kinds["b"], kinds["B"], kinds["B"]
    calls = {}
    for name, form in FORMS.items():
        call = getattr(library, "daybook_" + name)
        call.restype = ctypes.c_uint32
        call.argtypes = [kind for letter in form for kind in kinds[letter]]
        calls[name] = call
    return calls


WIDE = 2 ** 32              # elements of a wide array
SHOWN = 1 << 13             # bytes at a wide array's front that are compared
NORESERVE = 0x4000          # Linux: memory is taken when it is written


class Arena:
    """The memory in which the arrays of a call are placed."""

    def __init__(self):
        self.size = 0
        self.reserve(1 << 16)
        self.wide_memory = None

    def wide(self):
        """The address of room for 2^32 words, all zeros."""
        if self.wide_memory is None:
            self.wide_memory = mmap.mmap(
                -1, 4 * WIDE,
                flags=mmap.MAP_PRIVATE | mmap.MAP_ANONYMOUS | NORESERVE)
        return ctypes.addressof(ctypes.c_char.from_buffer(self.wide_memory))

    def reserve(self, size):
        """The address, a multiple of 16, of at least size bytes."""
        if size > self.size:
            self.size = size
            self.buffer = ctypes.create_string_buffer(size + 16)
            address = ctypes.addressof(self.buffer)
            self.base = address + -address % 16
        return self.base


GUARD = bytes((89 * k + 41) % 251 for k in range(64))


class Different(Exception):
    """The library's answer or arrays are not the expected ones."""


def as_bytes(letter, x):
    """The memory of an array of the form."""
    if letter in "bB":
        return x
    return array("Q" if letter == "Q" else "I", x).tobytes()


def brief(x):
    """An argument, shortened."""
    if isinstance(x, bytes):
        text = x[:24].hex() + (".." if len(x) > 24 else "")
        return f"[{len(x)}]{text}"
    if isinstance(x, (list, tuple, array)):
        text = ",".join(map(str, x[:12])) + (",.." if len(x) > 12 else "")
        return f"({len(x)}){text}"
    return str(x)


def brief_call(name, arguments):
    """A call with its arguments, shortened."""
    text = [f"{label}={brief(x)}"
            for label, x in zip(LABELS[name], arguments)]
    if name in ("add", "close", "record_values"):
        text.insert(0, f"fields={record.fields(arguments[0])}")
    return " ".join([name, *text])


def describe(name, arguments, answer, wanted, image, expected, places):
    """Where answer and arrays are not as expected."""
    text = [brief_call(name, arguments)]
    if answer != wanted:
        text.append(f"answer {answer}, expected {wanted}")
    positions = [k for k in range(len(image)) if image[k] != expected[k]]
    if positions:
        first = positions[0]
        where = "guard bytes"
        for label, place in zip(LABELS[name], places):
            if place and place[0] is not None \
                    and place[0] <= first < place[0] + place[1]:
                where = f"{label}, byte {first - place[0]}"
        text.append(f"{len(positions)} bytes differ, the first in "
                    f"{where}: {image[first:first + 8].hex()}, expected "
                    f"{expected[first:first + 8].hex()}")
    return "\n    ".join(text)


class Case:
    """The calls of one case.

    With break_at, the library's answer to the call of that number is
    corrupted in one place before it is compared.
    """

    def __init__(self, calls, arena, scheme, rng, counts, break_at=None,
                 breaker=None, verbose=False):
        self.calls, self.arena = calls, arena
        self.scheme, self.rng, self.counts = scheme, rng, counts
        self.break_at, self.breaker = break_at, breaker
        self.verbose = verbose
        self.made = 0

    def place(self, name, arguments, nulls, wide):
        """The parts of the memory's image, with the arrays' places in it."""
        rng = self.rng
        parts, places, position = [], [], 0
        for letter, label, x in zip(FORMS[name], LABELS[name], arguments):
            if letter == "n":
                places.append(None)
                continue
            data = as_bytes(letter, x)
            if label == wide:
                ctypes.memmove(self.arena.wide(), data, len(data))
                data = b""
            gap = 16 + rng.getrandbits(4)
            if letter in "wWQ":
                gap += -(position + gap) % (8 if letter == "Q" else 4)
            parts += (GUARD[:gap], data)
            position += gap
            null = (not data and letter in "bw" and label != wide
                    and (nulls or rng.getrandbits(1) == 1))
            if null:
                self.counts["null", name + "." + label] += 1
            places.append((None if null else position, len(data)))
            position += len(data)
        parts.append(GUARD[:32])
        return parts, places

    def call(self, name, *arguments, want=None, nulls=False, day=None,
             wide=None):
        """Make a call and compare it; gives the answer and the arguments.

        want is what the call must give, by WANT if it is None.  With day,
        the digest of the open day, the hash words in the record given back
        are taken as good if that digest follows from them.  The array
        labelled wide has 2^32 elements, those given and then zeros.
        """
        answer_wanted, after_wanted = want or WANT[name](*arguments)
        parts, places = self.place(name, arguments, nulls, wide)
        before = b"".join(parts)
        base = self.arena.reserve(len(before))
        ctypes.memmove(base, before, len(before))
        answer = self.calls[name](
            *self.given(name, arguments, base, places, wide))
        image = ctypes.string_at(base, len(before))
        if self.made == self.break_at:
            answer, image = self.corrupt(name, answer, image, places)
        self.made += 1
        self.counts["answer", name, answer_wanted] += 1
        if name in ("add", "close") \
                and record.fields(arguments[0])[3] == daybook.DAYS_LIMIT:
            self.counts["full", name, answer_wanted] += 1
        if self.verbose:
            print(f"  {brief_call(name, arguments)}\n    answer {answer}, "
                  f"expected {answer_wanted}")
        if day is not None:
            after_wanted = (self.words_by_digest(image, places[0][0], day,
                                                 after_wanted[0]),
                            *after_wanted[1:])
        wanted = self.image_wanted(name, after_wanted, parts, wide)
        if answer != answer_wanted or image != wanted:
            raise Different(describe(name, arguments, answer, answer_wanted,
                                     image, wanted, places))
        return answer, after_wanted

    def given(self, name, arguments, base, places, wide):
        """The arguments as the library takes them."""
        out = []
        for letter, label, x, place in zip(FORMS[name], LABELS[name],
                                           arguments, places):
            if letter == "n":
                out.append(x)
            elif label == wide:
                out += (self.arena.wide(), WIDE)
            else:
                out.append(None if place[0] is None else base + place[0])
                if letter in "bw":
                    out.append(len(x))
        return out

    def image_wanted(self, name, after, parts, wide):
        """The memory's image that is due: guards and arrays afterwards."""
        arrays = []
        for letter, label, x in zip(FORMS[name], LABELS[name], after):
            if letter != "n":
                data = as_bytes(letter, x)
                if label == wide:
                    self.compare_wide(name, label, data)
                    data = b""
                arrays.append(data)
        parts[1::2] = arrays
        return b"".join(parts)

    def compare_wide(self, name, label, data):
        """Compare the front of the wide array and make it zeros again."""
        found = ctypes.string_at(self.arena.wide(), SHOWN)
        ctypes.memset(self.arena.wide(), 0, SHOWN)
        if found != data + bytes(SHOWN - len(data)):
            raise Different(f"{name}: {label}, of 2^32 elements, is not "
                            "as expected")

    def words_by_digest(self, image, start, day, wanted):
        """The expected record with the hash words found, if they are good."""
        found = image[start:start + record.SIZE]
        if record.digest_of(found) != day:
            raise Different("the open day's digest does not follow from the "
                            "record given back")
        return wanted[:record.WORDS] + found[record.WORDS:record.CHAINS] \
            + wanted[record.CHAINS:]

    def claim(self, holds, text):
        """What must hold besides the comparison of each call."""
        if not holds:
            raise Different(text)

    def corrupt(self, name, answer, image, places):
        """One place made wrong: the answer, a bit of an array or a guard."""
        rng = self.breaker
        choice = rng.randrange(4)
        spans = [(place[0], place[0] + place[1])
                 for label, place in zip(LABELS[name], places)
                 if place and place[1] and is_written(name, label)]
        if choice == 0:
            return answer + 1, image
        low, high = (0, len(image)) if choice == 1 or not spans \
            else rng.choice(spans)
        position = rng.randrange(low, high)
        spoilt = bytearray(image)
        spoilt[position] ^= 1 << rng.randrange(8)
        return answer, bytes(spoilt)
