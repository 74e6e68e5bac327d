#!/usr/bin/env python3
"""Times the shapes of the benchmark in this tree and in an earlier state: bench/compare.py COMMIT

Both libraries are built by library.py. Each is linked into six programs, with another order of the
functions in each. A figure is the median of six times, in nanoseconds per text. Each of the six is
the least time of the rounds of one program.

The builds are kept in the folder that LITRS_BENCH_WORK names, or in ~/.cache/litrs_bench.
"""
import os
import pathlib
import shutil
import statistics
import subprocess
import sys

from library import KIT, TOP, build, run

CACHE = os.environ.get("XDG_CACHE_HOME") or pathlib.Path.home() / ".cache"
WORK = pathlib.Path(os.environ.get("LITRS_BENCH_WORK") or f"{CACHE}/litrs_bench").resolve()
ORDERS = range(1, 7)
CALLS = ["parse", "parse and value", "parse a String"]
# The columns in a line of the program: the end of the name, and the start of the figures.
NAMES, FIGURES = 43, 52


def tree_of(commit):
    """Returns a folder with the files of the commit."""
    folder = WORK / "trees" / commit
    if not folder.exists():
        files = subprocess.check_output(["git", "-C", TOP, "archive", commit])
        part = folder.with_name(f"{folder.name}.part")
        shutil.rmtree(part, ignore_errors=True)
        part.mkdir(parents=True)
        subprocess.run(["tar", "x", "-C", part], input=files, check=True)
        part.rename(folder)
    return folder


def link(out, order):
    """Links the program of this tree over the library in `out`, with the functions in this order,
    and returns its path. The program leaves out tokens and values, since an earlier state may lack
    their crates."""
    program = out / f"program.{order}"
    words = ["rustc", "-O", "--edition", "2024", "--cfg", "shapes"]
    words += ["--check-cfg", "cfg(upstream, check_suffix, rustc_lexer, shapes)"]
    words += ["-C", "llvm-args=-x86-branches-within-32B-boundaries"]
    words += ["-L", out / "litrs_bench", "-L", KIT / "c", "-C", "link-arg=-fuse-ld=lld"]
    wrap = "--wrap=malloc,--wrap=calloc,--wrap=realloc,--wrap=posix_memalign"
    words += ["-C", f"link-arg=-Wl,{wrap},--shuffle-sections=.text.*={order}"]
    path = f"{KIT}/toolchain/bin:{os.environ['PATH']}"
    run([*words, "-o", program, TOP / "bench/bench.rs"], env={**os.environ, "PATH": path})
    return program


def times_of(program):
    """Returns the nanoseconds of each call over each shape, by the names of both."""
    times = {}
    for line in run([program, "shapes"]).splitlines():
        name, figures = line[:NAMES].rstrip(), line[FIGURES:].split()
        if len(figures) == len(CALLS) and figures[0][0].isdigit():
            for call, figure in zip(CALLS, figures):
                if figure != "-":
                    times[call, name] = float(figure)
    return times


def main(commit):
    commit = run(["git", "-C", TOP, "rev-parse", "--short", commit]).strip()
    outs = [WORK / commit, WORK]
    print("Proving and building both states, by what was proved before.", flush=True)
    build(tree_of(commit), outs[0])
    build(TOP, outs[1])
    rounds = [[times_of(link(out, order)) for out in outs] for order in ORDERS]
    print(f"{'':<59}{commit:>10}{'this tree':>11}{'ratio':>7}")
    for call, name in rounds[0][0]:
        before, now = (statistics.median(both[i][call, name] for both in rounds) for i in (0, 1))
        print(f"{call:<16}{name:<43}{before:>10.1f}{now:>11.1f}{now / before:>7.2f}")


if __name__ == "__main__":
    if len(sys.argv) != 2:
        sys.exit(__doc__)
    main(sys.argv[1])
