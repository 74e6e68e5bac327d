#!/usr/bin/env python3
"""Copies crates to a new folder, and calls them there as another repository would.

    .ci/vendored.py

Runs after `rt ci`. `bin/vendor` copies the libraries that have a page CALLING.md, the C library and
a program. It does so twice, the second time over a changed copy. Each crate there must be ours,
file by file, with our line in crates.txt, our version and no broken link. There must be no other
crate. So the copies are the crates that `rt ci` proved.

The callers on all pages, and the examples at the top of these libraries, are proved over the
libraries that `rt ci` left. They are modules of one crate, since a crate costs more than a caller.
A caller must name only the crates in the line of crates.txt that its page has for it.

The lines of README are run too, in their order, starting without the folder. Its program, compiled
there from copied sources, must print the output on the page. The line that runs a program here must
end with status 0.

The cases of vendor_cases.py test the other runs of `bin/vendor`.
"""
import concurrent.futures
import dataclasses
import os
import pathlib
import re
import subprocess
import sys
import tempfile

import libraries
import vendor_cases
from libraries import TOP

# The libraries that have a page CALLING.md.
CALLED = ["litrs", "litrs_token", "litrs_prefix", "litrs_lexer", "litrs_build", "litrs_value"]
CALLED += ["litrs_diagnostic", "litrs_explanation", "litrs_lines"]
COPIED = [*CALLED, "litrs_c", "litrs_lines_cli"]
# The folders of a crate that are not copied.
LEFT = {"out", "wrong", "must-fail"}
# The first line of a caller.
TACTICS = "#![tactic(auto)]\n"
BLOCK = re.compile(r"^```(\w+)\n(.*?)^```$", re.M | re.S)
# A block of Rust in the documentation of a crate.
EXAMPLE = re.compile(r"^```(?:rust)?\n(.*?)^```$", re.M | re.S)
README = (TOP / "README.md").read_text()
VERSION = re.search(r"^## \[(\d\S*)\]", (TOP / "CHANGELOG.md").read_text(), re.M)[1]


def vendor(folder):
    """Copies the crates into the folder, changes the copies, and copies the crates again."""
    words = [TOP / "bin/vendor", folder, *COPIED]
    subprocess.run(words, check=True)
    (folder / "crates/litrs/src/lib.rt").write_text("")
    (folder / "crates/litrs/src/older.rt").write_text("")
    lines = (folder / "crates.txt").read_text().replace("litrs:", "litrs: itoa")
    lines = lines.replace("litrs_c staticlib:", "litrs_c:")
    (folder / "crates.txt").write_text(lines)
    subprocess.run(words, check=True)


def files_of(crate):
    """Returns the files of a crate's folder that are copied, by their paths in it."""
    files = (it for it in crate.rglob("*") if it.is_file())
    paths = {it.relative_to(crate): it for it in files}
    return {str(path): it.read_bytes() for path, it in paths.items() if path.parts[0] not in LEFT}


def names_of_copies():
    """Returns the crates that are copied, with those that they depend on."""
    crates = libraries.crates_of(TOP)
    return {it for name in COPIED for it in [name, *crates[name].below(crates)]}


def broken_links(crate):
    """Yields the links of a crate's pages to files that do not exist."""
    for page in crate.glob("*.md"):
        for link in re.findall(r"\]\(([^)#:]+)\)", page.read_text()):
            if not (crate / link).exists():
                yield f"{crate.name}/{page.name}: {link}"


def faults_of_copies(folder):
    """Yields the differences between the copies and our crates."""
    ours, copied = libraries.crates_of(TOP), libraries.crates_of(folder)
    wanted = names_of_copies()
    folders = {it.name for it in (folder / "crates").iterdir()}
    if folders != wanted or copied != {it: ours[it] for it in wanted}:
        yield f"crates {sorted(folders)}, of crates.txt {sorted(copied)}; wanted {sorted(wanted)}"
    for name in sorted(wanted & folders):
        licences = {it.name: it.read_bytes() for it in TOP.glob("LICENSE-*")}
        copy = files_of(folder / "crates" / name)
        version = copy.pop("VERSION", b"").decode()
        if not re.fullmatch(re.escape(VERSION) + r"(\+[0-9a-f]+)?\n", version):
            yield f"{name}: its version is {version!r}, and not {VERSION}"
        files = files_of(TOP / "crates" / name) | licences
        if differing := {it[0] for it in files.items() ^ copy.items()}:
            yield f"{name}: {len(differing)} files differ: {sorted(differing)[:5]}"
        yield from broken_links(folder / "crates" / name)


def blocks_of(page, language):
    """Returns the blocks of a page in this language."""
    return [found[2] for found in BLOCK.finditer(page) if found[1] == language]


@dataclasses.dataclass
class Caller:
    """A crate on a page: its line of crates.txt, and its files by their paths."""

    line: str
    files: dict


def callers_of(page):
    """Returns the callers of a page. Each is a block of Rust, below its line of crates.txt. The
    blocks of its proofs and definitions follow, each below the path of its file."""
    callers = []
    for block in BLOCK.finditer(page):
        spans = re.findall(r"`([^`\n]+)`", BLOCK.sub("", page[: block.start()]))
        if block[1] == "rust":
            line = next(it for it in reversed(spans) if re.fullmatch(r"\w+: [\w ]+", it))
            callers.append(Caller(line, {"src/lib.rt": block[2].removeprefix(TACTICS)}))
        elif block[1] == "antt":
            path = next(it for it in reversed(spans) if it.endswith(".antt"))
            callers[-1].files[path] = block[2]
    return callers


def examples_of(name):
    """Yields the examples at the top of a crate's documentation, as callers of what they use."""
    head = (TOP / "crates" / name / "src/lib.rt").read_text().split(TACTICS)[0]
    page = "\n".join(re.sub("^//! ?", "", line) for line in head.splitlines())
    for example in EXAMPLE.findall(page):
        deps = sorted(set(re.findall(r"^use (litrs\w*)::", example, re.M)))
        yield Caller(f"example_of_{name}: {' '.join(deps)}", {"src/lib.rt": example})


def strangers(caller):
    """Returns the crates that a caller names but its line does not."""
    name, deps = caller.line.split(":")
    libraries_of_kit = {it.stem for it in (libraries.KIT / "rlibs").glob("*.rlib")}
    known = {*libraries.crates_of(TOP), *libraries_of_kit} - {"std", name}
    text = "\n".join(caller.files.values())
    named = set(re.findall(r"\b([a-z]\w*)(?=::)|\bRattle\.(\w+)", text))
    return sorted({it for pair in named for it in pair} & known - set(deps.split()))


def add_callers(folder, callers):
    """Adds a crate to a repository, with a module for each caller. Returns its folder."""
    crate = folder / "crates/callers"
    root, deps = TACTICS, set()
    for number, caller in enumerate(callers):
        name, named = caller.line.split(":")
        module = f"{name}_{number}"
        root += f"pub mod {module};\n"
        deps |= set(named.split())
        for path, text in caller.files.items():
            inside = pathlib.Path(path.replace("proofs/", f"proofs/{module}/"))
            if path == "src/lib.rt":
                inside = pathlib.Path(f"src/{module}.rt")
            text = text.replace(f"Rattle.{name}.proofs.", f"Rattle.callers.proofs.{module}.")
            (crate / inside).parent.mkdir(parents=True, exist_ok=True)
            (crate / inside).write_text(text)
    (crate / "src/lib.rt").write_text(root)
    with (folder / "crates.txt").open("a") as lines:
        lines.write(f"callers: {' '.join(sorted(deps))}\n")
    return crate


def fault_of_proof(folder, crate):
    """Returns why the callers in this folder are not proved, or `None` if they are."""
    crates = libraries.crates_of(folder)
    words = libraries.words_of("check", crates[crate.name], crates, "src/lib.rt")
    how = {"cwd": crate, "stdout": subprocess.PIPE, "stderr": subprocess.STDOUT, "text": True}
    ran = subprocess.run([*words, "--jobs", "1"], check=False, **how)
    if ran.returncode or not re.search(r"^logic=proved ", ran.stdout, re.M):
        return f"the callers are not proved: {ran.stdout[-2000:]}"
    return None


def run_lines(lines, folder):
    """Returns the output of shell lines in this folder, and why they failed, or `None`."""
    how = {"stdin": subprocess.DEVNULL, "capture_output": True, "text": True, "cwd": folder}
    ran = subprocess.run(["bash", "-e", "-o", "pipefail", "-c", lines], check=False, **how)
    if ran.returncode:
        return "", f"status {ran.returncode} of {lines}: {ran.stdout}{ran.stderr[-2000:]}"
    return ran.stdout, None


def fault_of_readme(room):
    """Returns why README's lines do not make its program or print other output, or `None` if they
    are correct."""
    set_up, run = (it.replace("../yours", str(room)) for it in blocks_of(README, "sh")[:2])
    _, fault = run_lines(set_up, TOP)
    if fault:
        return fault
    (room / "crates/app/src/main.rt").write_text(blocks_of(README, "rust")[0])
    printed, fault = run_lines(run, room)
    if not fault and printed != blocks_of(README, "text")[0]:
        return f"README's program prints {printed}"
    return fault


def fault_of_line_here():
    """Returns why README's line that runs a program here fails, or `None` if it does not."""
    return run_lines(blocks_of(README, "sh")[2], TOP)[1]


def faults_of_callers(folder, callers, room):
    """Yields the faults of the callers and of README, with a test on each processor at a time."""
    for caller in callers:
        if named := strangers(caller):
            yield f"{caller.line}: it names {named}"
    crate = add_callers(folder, callers)
    with concurrent.futures.ThreadPoolExecutor(len(os.sched_getaffinity(0))) as pool:
        tried = [pool.submit(fault_of_proof, folder, crate)]
        tried += [pool.submit(fault_of_readme, room), pool.submit(fault_of_line_here)]
    yield from (it.result() for it in tried if it.result())


def main():
    libraries.stop_unless_built(names_of_copies() - {"litrs_c", "litrs_lines_cli"})
    pages = [(TOP / "crates" / it / "CALLING.md").read_text() for it in CALLED]
    callers = [it for page in pages for it in callers_of(page)]
    callers += [it for name in CALLED for it in examples_of(name)]
    with tempfile.TemporaryDirectory(prefix="vendored-") as name:
        folder, room = pathlib.Path(name, "copies"), pathlib.Path(name, "yours")
        cases = vendor_cases.faults(pathlib.Path(name, "cases"))
        faults_of_cases = [it for case in cases for it in case[:1]]
        vendor(folder)
        subprocess.run(["git", "init", "-q", folder], check=True)
        faults = list(faults_of_copies(folder))
        tried = 1 if faults else len(callers) + 3
        faults = faults or list(faults_of_callers(folder, callers, room))
        tried, faults = tried + len(cases), faults + faults_of_cases
    print(*faults, sep="\n", end="\n" if faults else "")
    print(f"vendored: {tried - len(faults)} passed, {len(faults)} failed")
    return 1 if faults else 0


if __name__ == "__main__":
    sys.exit(main())
