#!/usr/bin/env python3
"""Checks that the files have each line of code that docs/TOUR.md quotes.

    .ci/tour.py

A block of code is a run of lines that are indented by four spaces. One of the files that its
section names before it must have these lines, in their order. `..` marks a part that is left out.
A file is named by the end of its path, and must exist.
"""
import pathlib
import re
import sys

TOP = pathlib.Path(__file__).resolve().parent.parent
PAGE = TOP / "docs/TOUR.md"
NAMED = re.compile(r"`((?:\w+/)*\w+\.(?:rt|antt)|\w+/stdout)`")


def files():
    """Returns the files of the crates that the page may name."""
    crates, parts = TOP / "crates", ("src/**/*.rt", "specs/**/*.antt", "proofs/**/*.antt", "stdout")
    return [it for part in parts for it in crates.glob(f"*/{part}")]


def sections(text):
    """Returns the sections of the page, each a heading and its lines."""
    return re.split(r"^(?=## )", text, flags=re.M)


def blocks(section):
    """Yields the blocks of code of a section, each with the text before it."""
    for found in re.finditer(r"(?:^ {4}.*\n(?:\s*\n(?= {4}))?)+", section, re.M):
        yield section[: found.start()], found[0]


def squeezed(text):
    return " ".join(text.split())


def is_in(block, text):
    """Returns whether `text` has the pieces of a block, one after the other."""
    place, text = 0, squeezed(text)
    for line in block.splitlines():
        for piece in re.split(r"(?:^|(?<=\s))\.\.(?=\s|$)", line):
            if piece := squeezed(piece):
                found = text.find(piece, place)
                if found < 0:
                    return False
                place = found + len(piece)
    return True


def main():
    every, faults, count = files(), [], 0
    for section in sections(PAGE.read_text()):
        head = section.splitlines()[0]
        for name in NAMED.findall(section):
            if not any(it.as_posix().endswith("/" + name) for it in every):
                faults.append(f"{head}: no file {name}")
        for before, block in blocks(section):
            names = NAMED.findall(before)
            near = [it for it in every if any(it.as_posix().endswith("/" + n) for n in names)]
            count += 1
            if not any(is_in(block, it.read_text()) for it in near):
                faults.append(f"{head}: not in {', '.join(names) or 'a file'}:\n{block}")
    print(*faults, sep="\n", end="\n" if faults else "")
    print(f"tour: {count} blocks, {len(faults)} faults")
    return 1 if faults else 0


if __name__ == "__main__":
    sys.exit(main())
