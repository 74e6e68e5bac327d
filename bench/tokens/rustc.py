#!/usr/bin/env python3
"""Writes the results of rustc into the table of tokens: bench/tokens/rustc.py

The table is crates/litrs_lexer/tokens, whose head explains its fields. The results are those of the
rustc in PATH, in the editions 2015, 2018, 2021 and 2024. The procedural macro tokens.rs gets them
from `TokenStream::from_str`. It has the edition of the crate that calls it. That crate calls it
once for each row, each time in a separate line, which identifies the row of an error.
"""
import json
import os
import pathlib
import re
import subprocess
import sys
import tempfile

HERE = pathlib.Path(__file__).resolve().parent
TABLE = HERE.parent.parent / "crates/litrs_lexer/tokens"
EDITIONS = ["2015", "2018", "2021", "2024"]


def bytes_of(field):
    """Returns the bytes that a field denotes."""
    parts = re.split("%([0-9a-f]{2})", field)
    return b"".join(bytes.fromhex(it) if n % 2 else it.encode() for n, it in enumerate(parts))


def row_of(error):
    """Returns the row in whose call rustc reports an error."""
    span = error["spans"][0]
    while span.get("expansion"):
        span = span["expansion"]["span"]
    return span["line_start"] - 2


def answers(texts, edition, folder):
    """Returns the result of rustc for each text: letters and lengths, and `error` if it reports
    one."""
    build = ["rustc", "--edition", edition, "--crate-type", "proc-macro", HERE / "tokens.rs"]
    subprocess.run([*build, "-o", folder / "libtokens.so"], check=True)
    calls = "".join(f"tokens::tokens! {{{row}}}\n" for row in range(len(texts)))
    (folder / "calls.rs").write_text(f"extern crate tokens;\n{calls}fn main() {{}}\n")
    (folder / "texts").write_text("".join(it.hex() + "\n" for it in texts))
    for old in folder.glob("[0-9]*"):
        old.unlink()
    words = ["rustc", "--edition", edition, "--error-format=json", "calls.rs", "--emit=metadata"]
    more = {"TEXTS": folder / "texts", "ANSWERS": folder}
    done = subprocess.run(
        [*words, "--extern", "tokens=libtokens.so", "-o", "calls.rmeta"],
        cwd=folder, env={**os.environ, **more}, text=True, capture_output=True,
    )
    messages = [json.loads(line) for line in done.stderr.splitlines()]
    wrong = {row_of(it) for it in messages if it["level"] == "error" and it["spans"]}
    found = [(folder / str(row)).read_text() for row in range(len(texts))]
    wrong |= {row for row, it in enumerate(found) if it == "none"}
    return [f"{it} error".strip() if row in wrong else it for row, it in enumerate(found)]


def field(read):
    """Returns the results by edition as one field, in which equal ones of adjacent editions are
    joined."""
    groups = []
    for edition, it in zip(EDITIONS, read):
        if groups and groups[-1][2] == it:
            groups[-1][1] = edition
        else:
            groups.append([edition, edition, it])
    names = [first if first == last else f"{first}-{last}" for first, last, _ in groups]
    return "; ".join(f"{name} {it}".strip() for name, (_, _, it) in zip(names, groups))


def main():
    if len(sys.argv) > 1:
        sys.exit(__doc__)
    version = subprocess.check_output(["rustc", "--version"], text=True)
    if not version.startswith("rustc 1.95."):
        sys.exit(f"the table has the results of rustc 1.95, not of {version}")
    lines = TABLE.read_text().splitlines()
    rows = [it.split("\t") for it in lines if it and not it.startswith("#")]
    pieces = [[it.split(" ", 1)[1] for it in row[1:] if not it.startswith("differs ")] for row in rows]
    texts = [b"".join(map(bytes_of, it)) for it in pieces]
    with tempfile.TemporaryDirectory() as folder:
        read = [answers(texts, it, pathlib.Path(folder)) for it in EDITIONS]
    fields = iter([field(it) for it in zip(*read)])
    for number, line in enumerate(lines):
        if line and not line.startswith("#"):
            lines[number] = "\t".join([next(fields), *line.split("\t")[1:]])
    TABLE.write_text("\n".join(lines) + "\n")


main()
