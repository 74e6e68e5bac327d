#!/usr/bin/env python3
"""Proves and builds the static library of the benchmark: bench/library.py OUT

The results of earlier proofs in OUT are used. Some processors of Intel do not keep a jump in
decoded form if it crosses or ends at a 32-byte boundary. Such code takes up to a quarter longer. So
the library is compiled without such jumps, by the compiler of the toolchain with one more flag.
"""
import os
import pathlib
import re
import shlex
import shutil
import subprocess
import sys

TOP = pathlib.Path(__file__).resolve().parent.parent
sys.path.append(str(TOP / ".ci"))
from libraries import KIT, Crate, crates_of  # noqa: E402

NAME = "litrs_bench"


def run(words, **more):
    """Returns the output of a command. Stops with the output if the command fails."""
    words = [str(it) for it in words]
    done = subprocess.run(words, text=True, capture_output=True, **more)
    if done.returncode:
        sys.exit(f"{' '.join(words[:5])} ..:\n{done.stdout}{done.stderr}")
    return done.stdout


def toolchain(folder):
    """Links the kit's toolchain into the folder, with a compiler that keeps jumps off the
    boundaries. Returns the folder."""
    shutil.rmtree(folder, ignore_errors=True)
    (folder / "bin").mkdir(parents=True)
    (folder / "lib").symlink_to(KIT / "toolchain/lib")
    for tool in (KIT / "toolchain/bin").iterdir():
        if tool.name != "clang":
            (folder / "bin" / tool.name).symlink_to(tool)
    clang = shlex.quote(f"{KIT}/toolchain/bin/clang")
    call = f'exec -a clang {clang} "$@" -mbranches-within-32B-boundaries'
    (folder / "bin/clang").write_text(f"#!/bin/bash\n{call}\n")
    (folder / "bin/clang").chmod(0o755)
    return folder


def in_order(name, crates):
    """Returns the names of this crate and the crates of the repository below it. Each comes after
    those below it."""
    found = []
    for dep in crates[name].deps:
        found += in_order(dep, crates) if dep in crates else []
    return list(dict.fromkeys([*found, name]))


def words_of(crate, crates, out):
    """Returns the command that builds the crate in its folder, over the libraries in `out`."""
    words = [f"{KIT}/bin/rattle", "build", "--crate-name", crate.name, "src/lib.rt"]
    for dep in ["std", *crate.deps]:
        top = out / dep if dep in crates else f"{KIT}/rlibs"
        words += ["--extern", f"{dep}={top}/{dep}.rlib"]
    words += ["-L", f"dependency={KIT}/rlibs"]
    for dep in crate.below(crates):
        words += ["-L", f"dependency={out / dep}"]
    words += ["--antt-project", f"{KIT}/rattle/logic/antt-project.json", "--links", f"{crate.name}="]
    words += ["--logic-built", f"{KIT}/logic_built", "--incremental", out / crate.name / "kept"]
    return [*words, "--jobs", os.cpu_count()]


def build(tree, out):
    """Builds `out`/litrs_bench/liblitrs_bench.a from the tree, after the libraries below it."""
    exports = (tree / f"bench/{NAME}.rt.in").read_text()
    deps = sorted(set(re.findall(r"^use (litrs\w*)::", exports, re.MULTILINE)))
    crates = crates_of(tree) | {NAME: Crate(NAME, [], deps)}
    (out / NAME / "src").mkdir(parents=True, exist_ok=True)
    (out / NAME / "src/lib.rt").write_text(exports)
    for name in in_order(NAME, crates):
        folder = out / name
        folder.mkdir(exist_ok=True)
        words = words_of(crates[name], crates, out)
        if name == NAME:
            words += ["--crate-type", "staticlib", "--toolchain", toolchain(out / "toolchain")]
            run([*words, "-o", folder / f"lib{NAME}.a"], cwd=folder)
        else:
            run([*words, "-o", folder / f"{name}.rlib"], cwd=tree / "crates" / name)


if __name__ == "__main__":
    if len(sys.argv) != 2 or sys.argv[1].startswith("-"):
        sys.exit(__doc__)
    build(TOP, pathlib.Path(sys.argv[1]).resolve())
