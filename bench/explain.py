#!/usr/bin/env python3
"""Times litrs_explain over lines that are not literals: bench/explain.py UPSTREAM [PROGRAM]

UPSTREAM is a source tree of the Rust crate litrs, with src/lib.rs. A loop over it, explain.rs, must
write the same lines. PROGRAM is litrs_explain, if it is not the one that `rt ci` left. The input
has a million lines, each drawn from LINES with a fixed seed. The programs take turns ten times, and
the least time of each counts.
"""
import pathlib
import random
import subprocess
import sys
import tempfile
import time

BENCH = pathlib.Path(__file__).resolve().parent
PROGRAM = BENCH.parent / "crates/litrs_explain/out/litrs_explain"
COUNT, TURNS = 1_000_000, 10
# Each has the same error by both crates.
LINES = [
    "0b12", "0o9", "0xZZ", "1e+_", "1.5e+x", "'ab'", "''", "'\\u{110000}'", '"abc\\q"', '"a\\x80b"',
    'c"a\\0"', '"there" x', "hello", "x = 3", "12 34", "fn main() {",
]


def compiled(upstream, room):
    """Compiles the loop over upstream. Returns its path."""
    rustc = ["rustc", "-O", "--edition", "2024", "--out-dir", room]
    source = pathlib.Path(upstream) / "src/lib.rs"
    words = [*rustc, "--crate-type", "lib", "--crate-name", "litrs", "--cap-lints", "allow", source]
    subprocess.run([it if it != "2024" else "2021" for it in words], check=True)
    program = [*rustc, "--extern", f"litrs={room}/liblitrs.rlib", BENCH / "explain.rs"]
    subprocess.run(program, check=True)
    return f"{room}/explain"


def output(program, given):
    """Returns what a program writes for the file `given`."""
    with open(given, "rb") as lines:
        how = {"stdin": lines, "stdout": subprocess.PIPE, "stderr": subprocess.DEVNULL}
        return subprocess.run([program], check=False, **how).stdout


def seconds(program, given):
    """Returns how long a program takes for the file `given`."""
    with open(given, "rb") as lines:
        start = time.perf_counter()
        how = {"stdin": lines, "stdout": subprocess.DEVNULL, "stderr": subprocess.DEVNULL}
        subprocess.run([program], check=False, **how)
        return time.perf_counter() - start


def main(upstream, program=PROGRAM):
    """Compares the outputs, and prints the times."""
    draw = random.Random(1)
    with tempfile.TemporaryDirectory() as room:
        loop, given = compiled(upstream, room), f"{room}/lines"
        text = "".join(f"{draw.choice(LINES)}\n" for _ in range(COUNT))
        pathlib.Path(given).write_text(text)
        if output(program, given) != output(loop, given):
            sys.exit("the two programs write different lines")
        turns = [(seconds(program, given), seconds(loop, given)) for _ in range(TURNS)]
    ours, theirs = (min(it) for it in zip(*turns))
    print(f"{COUNT} lines: litrs_explain {ours:.3f} s, upstream {theirs:.3f} s, ratio {ours / theirs:.2f}")


if __name__ == "__main__":
    if len(sys.argv) not in (2, 3) or sys.argv[1].startswith("-"):
        sys.exit(__doc__)
    main(*sys.argv[1:])
