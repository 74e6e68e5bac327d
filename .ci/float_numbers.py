"""Draws numbers, and returns the double and the float nearest to each, for .ci/c_library.py.

The double is that of Python's `float` and of the C library's `strtod`. The float is that of the C
library's `strtof`. They read the number without its underscores, and an integer in base 2, 8 or 16
in hexadecimal digits.
"""
import ctypes
import decimal
import random
import struct
import sys

C = ctypes.CDLL(None)
C.strtod.restype, C.strtof.restype = ctypes.c_double, ctypes.c_float
C.strtod.argtypes = C.strtof.argtypes = [ctypes.c_char_p, ctypes.c_void_p]
PREFIXES = {2: "0b", 8: "0o", 10: "", 16: "0x"}
SUFFIXES = ["", "", "f32", "f64", "x"]


def bits_of(letter, value):
    """Returns the bits of `value` as a double if `letter` is `d`, and as a float if it is `f`."""
    size = {"d": "Q", "f": "I"}[letter]
    return struct.unpack(f"<{size}", struct.pack(f"<{letter}", value))[0]


def wanted_of(kind, parts):
    """Returns the bits of the double and of the float nearest to the number of a row, and the
    number of allocations of each call. Returns `None` if the row is not a number."""
    if kind == "float":
        digits, copies = parts[0].replace(b"_", b""), b"_" in parts[0]
        if float(digits) != C.strtod(digits, None):
            sys.exit(f"c library: {digits} is read otherwise by Python than by C")
    elif kind == "integer":
        base, digits = int(parts[0]), parts[1].replace(b"_", b"")
        copies = base == 10 and b"_" in parts[1] and int(digits) >= 2**64
        digits = digits if base == 10 else hex(int(digits, base)).encode()
    else:
        return None
    wide, narrow = C.strtod(digits, None), C.strtof(digits, None)
    return bits_of("d", wide), bits_of("f", narrow), int(copies)


def drawn():
    """Yields the text, kind, suffix and parts of numbers, the same in each run."""
    by = random.Random(1)
    for _ in range(2000):
        yield drawn_float(by)
    for letter in "df":
        for _ in range(200):
            yield from halfway_points(by, letter)
    for _ in range(800):
        yield drawn_integer(by)
    for exponent in ("308", "309", "38", "39", "-45", "-46", "-324", "-325", "0" * 30 + "1"):
        yield float_of("1", None, f"e{exponent}", "")
        yield float_of("9", "9" * 40, f"E{exponent}", "f32")
    yield float_of("1", None, f"e{'9' * 40}", "")
    yield float_of("1", None, f"e-{'9' * 40}", "")
    yield float_of("1", "", "", "")


def digits_of(by, most, first=""):
    """Returns up to `most` digits after those of `first`, half of the time with underscores."""
    digits = first + "".join(by.choice("0123456789") for _ in range(by.randint(1, most)))
    return grouped(by, digits)


def grouped(by, digits):
    if by.random() < 0.5:
        return digits
    return "".join(it + by.choice(["", "", "", "", "_", "__"]) for it in digits)


def drawn_float(by):
    most = by.choice([1, 3, 20, 60])
    fraction = by.choice([None, digits_of(by, most)])
    exponent = ""
    if fraction is None or by.random() < 0.5:
        power = by.choice(["", "_"]) + grouped(by, str(by.randint(0, by.choice([9, 60, 340]))))
        exponent = by.choice("eE") + by.choice(["", "+", "-"]) + power
    return float_of(digits_of(by, most), fraction, exponent, by.choice(SUFFIXES))


def halfway_points(by, letter):
    """Yields the number halfway between two neighboring floats, a slightly lesser one, and a
    slightly greater one."""
    size, most = {"d": ("Q", 0x7FEF), "f": ("I", 0x7F7F)}[letter]
    low = by.randrange(most << (8 * struct.calcsize(size) - 16))
    pair = [struct.unpack(f"<{letter}", struct.pack(f"<{size}", it))[0] for it in (low, low + 1)]
    with decimal.localcontext() as context:
        context.prec = 2000
        middle = sum(map(decimal.Decimal, pair)) / 2
        least = decimal.Decimal(1).scaleb(min(middle.as_tuple().exponent, 0) - 1)
        for number in (middle - least, middle, middle + least):
            integer, _, fraction = f"{number:f}".partition(".")
            yield float_of(integer, grouped(by, fraction or "0"), "", by.choice(SUFFIXES))


def float_of(integer, fraction, exponent, suffix):
    number = integer + ("" if fraction is None else f".{fraction}") + exponent
    parts = [number, integer, "-" if fraction is None else fraction, exponent]
    return (number + suffix).encode(), "float", suffix.encode(), [it.encode() for it in parts]


def drawn_integer(by):
    """Returns an integer. Half of the time it lies halfway between two floats, or beside such a
    point."""
    base, size = by.choice(list(PREFIXES)), by.choice([10, 64, 130, 1100])
    value = by.getrandbits(by.randint(1, size))
    if by.random() < 0.5:
        kept = by.getrandbits(by.choice([24, 53])) | 1
        value = ((2 * kept + 1) << by.randint(0, size)) + by.choice([-1, 0, 0, 1])
    digits = grouped(by, {2: f"{value:b}", 8: f"{value:o}", 10: str(value), 16: f"{value:x}"}[base])
    suffix = by.choice(["", "u8", "i128", *(["f32"] if base == 10 else [])])
    parts = [str(base), digits, str(value) if value < 2**128 else "none"]
    text = PREFIXES[base] + digits + suffix
    return text.encode(), "integer", suffix.encode(), [it.encode() for it in parts]
