#!/usr/bin/env python3
"""Compiles with rustc the literals that litrs_build writes, and compares their values.

    bench/written.py [FORMATTER]

FORMATTER is the program uses_formatter, which `rt run` leaves in crates/uses_formatter/out/. Its
input has chars, strings, byte strings and C strings that consist of numeric escapes. It also has
raw strings of each kind with more hashes than they need. A Rust program compares each literal of
the output with its value. That program is compiled with every warning an error. This includes the
lints on text that changes direction.

Run this by hand: the gate does not need a Rust compiler.
"""
import pathlib
import random
import subprocess
import sys
import tempfile

TOP = pathlib.Path(__file__).resolve().parent.parent
FORMATTER = TOP / "crates/uses_formatter/out/uses_formatter"
SEED = 1
CHARS = 20_000
STRINGS = 4_000
HASHES = 8 * "#"


def scalars(draw):
    """Returns every character below U+3000, those of special blocks and at the ends of ranges, and
    drawn ones."""
    chosen = set(range(0x3000)) | set(range(0xFE00, 0xFE10)) | set(range(0xE0000, 0xE0200))
    chosen |= {0xD7FF, 0xE000, 0xFEFF, 0xFFFE, 0xFFFF, 0x10000, 0x1F98A, 0x10FFFF}
    chosen |= {draw.randrange(0x110000) for _ in range(CHARS)}
    return sorted(c for c in chosen if not 0xD800 <= c < 0xE000)


def numbered(values):
    return "".join(f"\\u{{{c:x}}}" for c in values)


def bytes_numbered(values):
    return "".join(f"\\x{b:02x}" for b in values)


def samples(draw):
    """Yields lines for the formatter, each with the Rust expression that compares the literal
    `L`."""
    chars = scalars(draw)
    for c in chars:
        yield f"'{numbered([c])}'", f"L as u32 == {c}"
    for b in range(256):
        yield f"b'\\x{b:02x}'", f"L == {b}"
    for _ in range(STRINGS):
        text = [draw.choice(chars) for _ in range(draw.randrange(12))]
        wanted = ", ".join(str(c) for c in text)
        yield f'"{numbered(text)}"', f"L.chars().map(|c| c as u32).eq([{wanted}] as [u32; {len(text)}])"
        data = [draw.randrange(256) for _ in range(draw.randrange(12))]
        yield f'b"{bytes_numbered(data)}"', f"L == &{data}"
        data = [draw.choice([1, 9, 10, 34, 39, 92, 0xC3, 0xA9, 0xFF, 0x7F, 65]) for _ in data]
        yield f'c"{bytes_numbered(data)}"', f"L.to_bytes() == {data} as [u8; {len(data)}]"
        text = "".join(draw.choice('ab"#\\é ') for _ in range(draw.randrange(8)))
        data = list(text.encode())
        yield f'r{HASHES}"{text}"{HASHES}', f"L.as_bytes() == {data} as [u8; {len(data)}]"
        yield f'cr{HASHES}"{text}"{HASHES}', f"L.to_bytes() == {data} as [u8; {len(data)}]"
        data = [b for b in data if b < 128]
        yield f'br{HASHES}"{bytes(data).decode()}"{HASHES}', f"L == &{data}"


def main():
    formatter = sys.argv[1] if len(sys.argv) > 1 else FORMATTER
    rows = list(samples(random.Random(SEED)))
    lines = "".join(line + "\n" for line, _ in rows).encode()
    written = subprocess.run([formatter], input=lines, stdout=subprocess.PIPE, check=True).stdout
    literals = written.decode().split("\n")[:-1]
    assert len(literals) == len(rows), (len(literals), len(rows))
    tests = [
        f"    if !({test.replace('L', literal, 1)}) {{ wrong += 1; }}\n"
        for literal, (_, test) in zip(literals, rows)
    ]
    parts = [tests[i : i + 500] for i in range(0, len(tests), 500)]
    source = "#![deny(warnings)]\n#![allow(clippy::all)]\n"
    for n, part in enumerate(parts):
        source += f"fn part_{n}() -> u32 {{\n    let mut wrong = 0;\n{''.join(part)}    wrong\n}}\n"
    calls = " + ".join(f"part_{n}()" for n in range(len(parts)))
    source += f"fn main() {{\n    println!(\"{{}}\", {calls});\n}}\n"
    with tempfile.TemporaryDirectory() as folder:
        path = pathlib.Path(folder, "written.rs")
        path.write_text(source)
        command = ["rustc", "--edition", "2024", "-C", "opt-level=0", "-o", f"{folder}/written", path]
        subprocess.run(command, check=True)
        wrong = int(subprocess.check_output([f"{folder}/written"]))
    print(f"{len(rows)} literals compiled, {wrong} with another value")
    sys.exit(wrong > 0)


if __name__ == "__main__":
    main()
