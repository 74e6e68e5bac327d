#!/usr/bin/env python3
"""Measures the memory that litrs_lines_cli holds at most over one literal of many lines.

    .ci/memory.py

Runs both builds of crates/litrs_lines_cli, which `rt ci` leaves in its out/, on strings of many
lines: continuations, lines with escapes, plain ones and raw ones. The lengths include those at
which a buffer that doubles has the most free room. .ci/peak.c measures the bytes of the blocks that
a run holds together. Fails if they are more than twice the input and `ROOM`, or at most half the
input, so not measured, or if the report is wrong.
"""
import os
import pathlib
import subprocess
import sys
import tempfile

TOP = pathlib.Path(__file__).resolve().parent.parent
PROGRAM = TOP / "crates/litrs_lines_cli/out/litrs_lines_cli"
# The memory for a piece of the reports, and for the bytes that the C library adds to a block.
ROOM = 1 << 16
LINES = [1_000, 40_000, 81_000, 82_000, 83_000, 100_000]
# The bytes of a line without its LF.
LENGTH = 50
# A name, the end of a line, its value with that of its LF, and the texts around the lines.
SHAPES = [
    ("continuations", b"\\", b"", b'"', b'"'),
    ("escapes", b"\\n\\t", b"\n\t\n", b'"', b'"'),
    ("plain", b"", b"\n", b'"', b'"'),
    ("raw", b"", b"\n", b'r#"', b'"#'),
    ("C", b"\\", b"", b'c"', b'"'),
]


def held(program, library, folder, text):
    """Returns the output of the program for the text, and the number of bytes that it holds at
    most."""
    peak = folder / "peak"
    environment = os.environ | {"LD_PRELOAD": str(library), "PEAK": str(peak)}
    ran = subprocess.run([program], input=text, capture_output=True, env=environment, check=True)
    return ran.stdout, int(peak.read_text())


def main():
    failed = False
    with tempfile.TemporaryDirectory(prefix="memory-") as room:
        folder = pathlib.Path(room)
        library = folder / "peak.so"
        source = TOP / ".ci/peak.c"
        subprocess.run(["cc", "-O1", "-shared", "-fPIC", "-o", library, source], check=True)
        for program in PROGRAM, PROGRAM.with_suffix(".by-rattle"):
            most = 0
            for name, end, value, front, closing in SHAPES:
                plain = b"x" * (LENGTH - len(end))
                for lines in LINES:
                    text = front + lines * (plain + end + b"\n") + closing
                    printed, peak = held(program, library, folder, text)
                    bound = 2 * len(text) + ROOM
                    most = max(most, (peak - ROOM) / len(text))
                    wanted = (lines * (plain + value)).hex().encode() + b"\n"
                    is_measured = len(text) < 2 * peak <= 2 * bound
                    if not is_measured or not printed.endswith(b" value=" + wanted):
                        allowed = f"{len(text) // 2} to {bound} allowed"
                        print(f"{program.name}: {name}, {lines} lines: {peak} bytes, {allowed}")
                        failed = True
            number = len(SHAPES) * len(LINES)
            print(f"{program.name}: {number} texts, at most {most:.2f} times one and {ROOM} bytes")
    sys.exit(1 if failed else 0)


main()
