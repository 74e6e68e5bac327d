#!/usr/bin/env python3
"""Counts the lines of each crate, and its wrong bodies, for the table of docs/GATE.md.

    .ci/lines.py            prints the table
    .ci/lines.py --write    writes it into docs/GATE.md
    .ci/lines.py --check    fails if the page has another one

Lines that are blank or only a comment do not count. The crates are those of crates.txt.
"""
import pathlib
import re
import sys

TOP = pathlib.Path(__file__).resolve().parent.parent
PAGE = TOP / "docs/GATE.md"
HEAD = "| Crate | Code with contracts | Definitions | Proofs | Examples | Wrong bodies |"
# The table on the page: its head and the lines of the table below it.
TABLE = re.compile(rf"^{re.escape(HEAD)}\n(?:\|.*\n)+", re.M)


def is_counted(line):
    return bool(line.strip()) and not line.strip().startswith(("//", "--"))


def lines_of(paths):
    return sum(sum(map(is_counted, it.read_text().splitlines())) for it in paths)


def counts_of(crate):
    """Returns the numbers of a crate, in the order of the table."""
    proofs = set(crate.glob("proofs/**/*.antt"))
    examples = {it for it in proofs if "Examples" in it.as_posix()}
    edits = [*crate.glob("wrong/*.edit"), *crate.glob("must-fail/*.edit")]
    return [
        lines_of(crate.glob("src/**/*.rt")),
        lines_of(crate.glob("specs/**/*.antt")),
        lines_of(proofs - examples),
        lines_of(examples),
        len(edits),
    ]


def crates():
    """Returns the names of the crates in crates.txt."""
    text = (TOP / "crates.txt").read_text()
    return re.findall(r"^(\w+)[^:#\n]*:", text, re.M)


def table():
    """Returns the table, with the sums in its last line."""
    rows = {f"`{it}`": counts_of(TOP / "crates" / it) for it in crates()}
    rows["all"] = [sum(column) for column in zip(*rows.values())]
    lines = [HEAD, "|---" * 6 + "|"]
    for name, counts in rows.items():
        lines.append("| " + " | ".join([name, *(f"{it:,}" if it else "" for it in counts)]) + " |")
    return "\n".join(lines) + "\n"


def main(words):
    page, wanted = PAGE.read_text(), table()
    if words not in ([], ["--write"], ["--check"]):
        sys.exit(__doc__)
    if not words:
        print(wanted, end="")
    elif len(TABLE.findall(page)) != 1:
        sys.exit(f"{PAGE.name} has no such table, or more than one: {HEAD}")
    elif words == ["--write"]:
        PAGE.write_text(TABLE.sub(lambda _: wanted, page))
    elif TABLE.search(page)[0] != wanted:
        sys.exit("docs/GATE.md has other lines of the crates: run .ci/lines.py --write")
    else:
        print(f"lines: {wanted.count(chr(10)) - 3} crates")


if __name__ == "__main__":
    main(sys.argv[1:])
