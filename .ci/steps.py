#!/usr/bin/env python3
"""Counts the instructions that a collector takes for the pieces that are fed to it.

    .ci/steps.py [PROGRAM]

Runs crates/litrs_vectors, which `rt ci` leaves in its out/, or the program given, on rows that feed
a collector a piece N, 2N and 4N times. .ci/steps.c counts the instructions of each run.

The growth is the difference between 4N and 2N, divided by that between 2N and N. It is 2 if each
piece takes as many instructions as the one before it. It is 4 if the instructions of a piece are in
proportion to the text before it. Fails if the growth is above `MOST`.
"""
import concurrent.futures
import functools
import os
import pathlib
import subprocess
import sys
import tempfile

TOP = pathlib.Path(__file__).resolve().parent.parent
PROGRAM = TOP / "crates/litrs_vectors/out/litrs_vectors"
# The number N of pieces.
COUNT = 100
MOST = 2.5
# Keeps copies from using the instruction that copies many bytes, which counts once for each byte.
TUNABLES = ":".join(f"glibc.cpu.x86_rep_{it}_threshold=0x40000000" for it in ("movsb", "stosb"))
# A first line, a piece, and a last line that completes a literal, as fields of the table.
SHAPES = [
    ('"', "\\%0A ", '"'),
    ('"', "a\\", '"'),
    ('"\\', "  ", '"'),
    ('"', "\\n\\u{e9}", '"'),
    ('"', "%(50*x)", '"'),
    ('b"', "%0A", '"'),
    ('c"', "é\\%0A%0A", '"'),
    ('r#"', '%(9*x")%0A', '"#'),
]


def instructions(steps, program, shape, count):
    """Returns the number of instructions of a row that feeds the piece `count` times."""
    first, piece, last = shape
    row = f"feed\t{first}\t{piece}\t{count}\t{last}\n".encode()
    with tempfile.NamedTemporaryFile(dir=steps.parent) as number:
        words = [steps, number.name, program]
        how = {"capture_output": True, "timeout": 600, "env": {"GLIBC_TUNABLES": TUNABLES}}
        ran = subprocess.run(words, input=row, check=False, **how)
        if (ran.stdout, ran.returncode) != (b"1 rows hold\n", 0):
            sys.exit(f"{program}: {row}: {ran.stdout + ran.stderr}, status {ran.returncode}")
        return int(pathlib.Path(number.name).read_text())


def growth(numbers):
    """Returns the instructions of the last pieces divided by those of the pieces before them."""
    once, twice, four_times = numbers
    return (four_times - twice) / (twice - once)


def main():
    program = sys.argv[1] if len(sys.argv) > 1 else str(PROGRAM)
    failed = False
    with tempfile.TemporaryDirectory(prefix="steps-") as room:
        steps = pathlib.Path(room) / "steps"
        subprocess.run(["cc", "-O1", "-o", steps, TOP / ".ci/steps.c"], check=True)
        counts = [COUNT, 2 * COUNT, 4 * COUNT]
        with concurrent.futures.ThreadPoolExecutor(os.cpu_count()) as pool:
            run = functools.partial(pool.submit, instructions, steps, program)
            runs = [[run(shape, count) for count in counts] for shape in SHAPES]
            for (first, piece, _), of_shape in zip(SHAPES, runs):
                numbers = [it.result() for it in of_shape]
                times = growth(numbers)
                failed |= times > MOST
                print(f"{first} and {piece}: {numbers} instructions, {times:.2f} times as many")
    sys.exit(1 if failed else 0)


main()
