#!/usr/bin/env python3
"""Compares the values of litrs_value with those of rustc and of Rust's str::parse.

    bench/values.py [PROGRAM]

PROGRAM is the program litrs_vectors, which `rt ci` leaves in crates/litrs_vectors/out/. Its input
is a table with three parts:

- Numbers with and without a sign, a suffix and underscores, and other literals. Each is read as
  twelve integer types, `f32`, `f64`, `bool` and `char`. The wanted value is that of
  `let value: TYPE = TEXT;` in rustc, or an error if rustc rejects that. Integers without a suffix
  are not read as floats, since rustc rejects them.
- Float literals as an `f64` and an `f32`, a quarter of them at or beside a point halfway between
  two floats. The wanted bits are those of str::parse for the text without underscores and suffix.
- Integers of all four bases, of up to 1,100 bits. The wanted bits are those of str::parse for their
  digits in base ten.

Prints the reads that differ. Fails if there are others than `-0` as an unsigned type, which rustc
rejects. Run this by hand: the gate does not need a Rust compiler.
"""
import fractions
import json
import pathlib
import random
import re
import struct
import subprocess
import sys
import tempfile

TOP = pathlib.Path(__file__).resolve().parent.parent
PROGRAM = TOP / "crates/litrs_vectors/out/litrs_vectors"
INTEGERS = ["u8", "u16", "u32", "u64", "u128", "usize", "i8", "i16", "i32", "i64", "i128", "isize"]
TYPES = [*INTEGERS, "f32", "f64", "bool", "char"]
# The arguments of `println!` that print a value in the form of the table, by type.
PRINTS = {
    "f32": '"{:x}", value.to_bits()', "f64": '"{:x}", value.to_bits()', "char": '"{:x}", value as u32'
}
FLOATS = [
    "3.4028234e38", "3.4028235e38", "3.40282356e38", "3.4028236e38", "1e38", "1e39", "1e308", "1e309",
    "1.7976931348623157e308", "1.7976931348623158e308", "1.7976931348623159e308", "1e400", "0.0", "1.5",
    "0.1", "1_0.5E-1", "1e-400", "5e-324", "1e-46", "16777217.0", "9007199254740993.0", "1e+5", "1E_5",
    "1__.5_e-0_3_",
]
OTHERS = [
    "2.", "1f64", "7f32", "-2.", "-1f64", "-7f32", "true", "false", "'a'", r"'\n'", r"'\u{1F600}'",
    r"'\''", "b'a'", '"x"', 'b"x"', 'c"x"', 'r"x"', "-true", "-'a'", '-"x"', "-0", "-0x0_u8", "-0isize",
]
NUMBERS = 20_000
REPORTED = re.compile(r"line (\d+): .*?: litrs_value over &str: (.*)")
ORACLE = """use std::io::{self, BufRead};

fn main() {
    for line in io::stdin().lock().lines() {
        let line = line.unwrap();
        let (wide, narrow): (f64, f32) = (line.parse().unwrap(), line.parse().unwrap());
        println!("{:x} {:x}", wide.to_bits(), narrow.to_bits());
    }
}
"""


def grouped(draw, digits, share):
    """Returns the digits, with underscores after this share of them."""
    return "".join(it + "_" * (draw.random() < share and draw.choice([1, 1, 1, 2, 3])) for it in digits)


def integer(draw, number):
    """Returns an integer literal of `number` without a suffix."""
    front, code = draw.choice([("", "d"), ("0x", "x"), ("0x", "X"), ("0o", "o"), ("0b", "b")])
    digits = format(number, code)
    return front + (grouped(draw, digits, 0.15) if draw.random() < 0.4 else digits)


def typed_texts(draw):
    """Yields numbers around the ends of the integer and float types, small ones, and other
    literals."""
    suffixes = [""] * 8 + [*INTEGERS, "f32", "f64", "u7", "i256"]
    numbers = [2**bits + more for bits in [7, 8, 15, 16, 31, 32, 63, 64, 127, 128] for more in [-1, 0, 1]]
    for number in 5 * numbers:
        for sign in ["", "-"]:
            yield sign + integer(draw, number) + draw.choice(suffixes)
    for _ in range(150):
        number = draw.choice([0, 0, 1, 3, 10, 16, 99, 127, 128, 255, 256, 300, draw.randrange(2**70)])
        yield draw.choice(["", "-"]) + integer(draw, number) + draw.choice([""] * 5 + INTEGERS)
    for number in FLOATS:
        for suffix in ["", "f32", "f64"]:
            yield from [number + suffix, f"-{number}{suffix}"]
    yield from OTHERS


def is_left_out(text, kind):
    """Returns whether `text` is an integer without a suffix, and `kind` a float type."""
    return kind in ("f32", "f64") and re.fullmatch("-?(0x[0-9a-fA-F_]+|(0[ob])?[0-9_]+)", text)


def lets(cases, skipped):
    """Yields the lines of a program that prints the value of each case, except the skipped ones.
    Its functions have at most 50 cases each."""
    for number, (text, kind) in enumerate(cases):
        if number % 50 == 0:
            yield f"fn part_{number // 50}() {{"
        print_it = PRINTS.get(kind, '"{}", value').replace('"', f'"{number} ', 1)
        let = f"{{ let value: {kind} = {text}; println!({print_it}); }}"
        yield "" if number in skipped else let
        if number % 50 == 49 or number + 1 == len(cases):
            yield "}"
    yield f"fn main() {{ {''.join(f'part_{it}();' for it in range((len(cases) + 49) // 50))} }}"


def of_rustc(cases, folder):
    """Returns the values of the cases that rustc accepts, by their numbers."""
    skipped = set()
    while True:
        lines = list(lets(cases, skipped))
        numbers, number = {}, 0
        for line, it in enumerate(lines, 1):
            if not it or it.startswith("{"):
                numbers[line], number = number, number + 1
        (folder / "typed.rs").write_text("\n".join(lines))
        words = ["rustc", "--edition", "2021", "--error-format=json", "-A", "warnings", "typed.rs"]
        done = subprocess.run(words, cwd=folder, text=True, capture_output=True)
        if done.returncode == 0:
            break
        errors = [json.loads(it) for it in done.stderr.splitlines()]
        places = [span for it in errors if it["level"] == "error" for span in it["spans"]]
        wrong = {numbers[it["line_start"]] for it in places if it["is_primary"]}
        assert wrong - skipped, done.stderr[:2000]
        skipped |= wrong
    printed = subprocess.check_output([folder / "typed"], text=True)
    return {int(number): value for number, value in (it.split() for it in printed.splitlines())}


def typed_rows(draw, folder):
    """Yields the rows of texts that are read as a type."""
    texts = list(dict.fromkeys(typed_texts(draw)))
    cases = [(text, kind) for text in texts for kind in TYPES if not is_left_out(text, kind)]
    values = of_rustc(cases, folder)
    print(f"{len(texts)} texts, {len(cases)} reads, of which rustc takes {len(values)}")
    for number, (text, kind) in enumerate(cases):
        yield f"read\t{text}\t{kind}\t{values.get(number, 'refused')}"


def digits_of(draw, *counts):
    return "".join(draw.choice("0123456789") for _ in range(draw.choice(counts)))


def exponent(draw, number, share):
    sign = "-" if number < 0 else draw.choice(["", "+"])
    digits = "0" * draw.choice([0, 0, 0, 0, 1, 2, 3]) + str(abs(number))
    return draw.choice("eE") + sign + draw.choice(["", "_"]) + grouped(draw, digits, share)


def plain_float(draw, share):
    """Returns a float of drawn digits."""
    whole = grouped(draw, digits_of(draw, 1, 1, 2, 3, 5, 10, 17, 19, 20, 25, 40), share)
    fraction = grouped(draw, digits_of(draw, 1, 2, 3, 8, 16, 20, 30, 60), share)
    tens = draw.choice([range(-30, 31), range(-345, 310), range(-60, 40), range(-2000, 2000)])
    tail = exponent(draw, draw.choice(tens), share)
    return draw.choice([f"{whole}.{fraction}", f"{whole}.{fraction}{tail}", whole + tail, f"{whole}."])


def halfway_float(draw, share):
    """Returns a float at or beside a point halfway between two floats."""
    real, whole, most = draw.choice([("<d", "<Q", 0x7FEF_FFFF_FFFF_FFFE), ("<f", "<I", 0x7F7F_FFFE)])
    bits = draw.choice([0, most, draw.randrange(most), draw.randrange(most >> 9)])
    ends = [struct.unpack(real, struct.pack(whole, it))[0] for it in (bits, bits + 1)]
    middle = sum(map(fractions.Fraction, ends)) / 2
    places = middle.denominator.bit_length() - 1
    digits = str(middle.numerator * 5**places).rjust(places + 1, "0")
    cut = len(digits) - places
    front, fraction = digits[:cut], digits[cut:] or "0"
    below = f"{fraction[:-1]}{max(int(fraction[-1]) - 1, 0)}"
    fraction = draw.choice([fraction, fraction, below, f"{fraction}001", f"{fraction}1"])
    if draw.random() < 0.7:
        return f"{grouped(draw, front, share)}.{grouped(draw, fraction, share)}"
    return grouped(draw, front + fraction, share) + exponent(draw, -len(fraction), share)


def numbers(draw):
    """Yields numbers, each with its text for str::parse."""
    for _ in range(NUMBERS):
        make = halfway_float if draw.random() < 0.25 else plain_float
        text = make(draw, draw.choice([0, 0, 0.05, 0.3]))
        suffix = "" if text.endswith(".") else draw.choice(["", "", "", "f64", "f32", "f33"])
        yield text + suffix, text.replace("_", "")
    for _ in range(NUMBERS):
        bits = draw.choice([8, 53, 64, 65, 100, 128, 200, 1024, 1100])
        number = draw.randrange(2**bits)
        # Half of the long numbers have one significant bit more than a float, or are next to such a
        # number.
        unit = draw.choice([24, 53])
        if bits > unit + 1 and draw.random() < 0.5:
            number = number >> (bits - unit - 1) << (bits - unit - 1)
            number = max(0, number + draw.choice([-1, 0, 0, 1]))
        yield integer(draw, number), str(number)


def number_rows(draw, folder):
    """Yields the rows of numbers that are read as floats."""
    found = list(numbers(draw))
    (folder / "oracle.rs").write_text(ORACLE)
    subprocess.run(["rustc", "-O", "--edition", "2021", "oracle.rs"], cwd=folder, check=True)
    lines = "".join(f"{plain}\n" for _, plain in found)
    bits = subprocess.check_output([folder / "oracle"], input=lines, text=True).splitlines()
    print(f"{len(found)} numbers as f64 and as f32")
    for (text, _), both in zip(found, bits, strict=True):
        for kind, it in zip(["f64", "f32"], both.split()):
            yield f"float\t{text}\t{kind}\t{it}"


def main():
    program = sys.argv[1] if len(sys.argv) > 1 else PROGRAM
    draw = random.Random(5)
    with tempfile.TemporaryDirectory() as name:
        folder = pathlib.Path(name)
        rows = [*typed_rows(draw, folder), *number_rows(draw, folder)]
    table = "".join(f"{row}\n" for row in rows)
    done = subprocess.run([program], input=table, text=True, capture_output=True)
    lines = done.stdout.splitlines()
    reported = [REPORTED.fullmatch(line) for line in lines[:-1]]
    assert all(reported) and lines, done.stdout[:2000] + done.stderr
    other = 0
    for it in reported:
        _, text, kind, wanted = rows[int(it[1]) - 1].split("\t")
        other += not (kind[0] == "u" and re.match("-0(?![.eE])", text) and wanted == "refused")
        print(f"{text} as {kind}, for Rust {wanted}: {it[2]}")
    print(f"{len(reported)} differ, {other} of them not `-0` as an unsigned type; {lines[-1]}")
    sys.exit(other > 0)


if __name__ == "__main__":
    main()
