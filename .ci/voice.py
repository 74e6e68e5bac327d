#!/usr/bin/env python3
"""Checks the comments of the crates by the conventions of Rust's documentation, and the lengths of
pages.

The summary of a function must begin with a verb in the third person, or with a link to the function
that it is like. Each public item, field and variant must have a comment. A comment of `src/`,
`specs/` and `proofs/` must not begin with a word of `RIDDLES`, and must not have a construction of
`FORBIDDEN`. A page must not be longer than `LENGTHS` allows. Prints each fault with its place, and
the numbers of summaries and of pages.
"""
import pathlib
import re
import sys

TOP = pathlib.Path(__file__).resolve().parent.parent
FUNCTION = re.compile(r'\s*(?:pub(?:\(crate\))? )?(?:const |unsafe )*(?:extern "C" )?fn (\w+)')
TYPE = re.compile(r"\s*pub (?:struct|enum|trait|type) (\w+)")
# A public item or field, and a variant of a public enum.
PUBLIC = re.compile(
    r'\s*pub (?:const |unsafe )*(?:extern "C" )?(?:fn|struct|enum|trait|type|const|static) (\w+)'
    r"|    pub (\w+): ")
VARIANT = re.compile(r"    ([A-Z]\w*)(?:\(.*\))?(?:,| \{)$")
# The start of a summary: a verb in the third person, or `Like [`f`]`.
VERB = re.compile(r"(?:[A-Z][a-z]+s|Does not [a-z]+)\b|Like \[`")
# Words that end like such a verb.
NOUNS = {"This", "Its", "As", "Is", "Has", "Was", "Bytes", "Places", "Texts", "Lines", "Tokens", "Chars", "Literals"}
# The first words of sentences without a main verb.
RIDDLES = re.compile(r"(?:What|Whether|Where|Why|How|That|The same) ")
# Constructions that are hard to understand.
FORBIDDEN = re.compile(
    r"\bso many\b|\b[Tt]he same of\b|\bnone stands\b|(?<!there )\b(?:is|are) none\b|\bgoes on\b"
    r"|\bstands? (?:there|first|so|in|at|on|for|before|after|between)\b")
# The greatest number of words of each page.
LENGTHS = {
    "README.md": 900,
    "CONTRIBUTING.md": 1100,
    "bench/README.md": 1000,
    "crates/*/CALLING.md": 1350,
    "crates/litrs_c/README.md": 1200,
    "docs/DECISIONS.md": 1400,
    "docs/DIFFERENCES.md": 1000,
    "docs/EXPLAIN.md": 700,
    "docs/GATE.md": 1000,
    "docs/GRAMMAR.md": 4050,
    "docs/LINES.md": 550,
    "docs/PROMISES.md": 1700,
    "docs/TOUR.md": 850,
}
# The greatest number of words of these pages together.
ALL_PAGES = 24000
# Lines of code, each with the number of its faults.
EXAMPLES = [
    ("/// Returns `true` if `text` is empty.\nfn is_empty(text: &str) -> bool", 0),
    ("/// Like [`parse`], for a text that starts with a digit.\nfn parse_number(text: &str)", 0),
    ("/// Whether the text is empty.\nfn is_empty(text: &str) -> bool", 2),
    ("/// The length.\n#[inline]\npub fn len(&self) -> usize", 1),
    ("/// Returns the digit that stands first.\nfn digit(text: &str) -> u8", 1),
    ("/// A literal.\npub struct Literal {", 0),
    ("pub struct Place {\n    /// The start.\n    pub start: usize,\n    pub end: usize,\n}", 2),
    ("/// A kind.\npub enum Kind {\n    /// A bool.\n    Bool,\n    Integer(u8),\n}", 1),
    ("-- The text is a literal.\nabbrev pub IsLiteral : List N", 0),
    ("-- What texts are none, and so many literals.\nabbrev pub IsLiteral : List N", 3),
]


def comments(lines):
    """Yields the blocks of comment lines, each with its mark, the number of its first line and that
    of the line after it."""
    start = None
    for number, line in enumerate([*lines, ""]):
        mark = re.match(r"\s*(///|//!|//|--)( |$)", line)
        if start is not None and not (mark and mark[1] == lines[start].split()[0]):
            yield lines[start].split()[0], start, number
            start = None
        if mark and start is None:
            start = number


def prose(lines, mark):
    """Returns the text of a comment without its blocks of code."""
    text = "\n".join(line.strip()[len(mark):].strip() for line in lines)
    return " ".join(re.sub(r"^```.*?^```$", "", text, flags=re.M | re.S).split())


def item_after(lines, number):
    """Returns the first line from `number` on that is neither an attribute nor a comment of the
    code."""
    return next((it for it in lines[number:] if not re.match(r"\s*(#\[|//(?!/))", it)), "")


def undocumented(lines):
    """Yields the line and the fault of each public item, field and variant without a comment."""
    is_enum = False
    for number, line in enumerate(lines):
        is_enum = line.startswith("pub enum ") or is_enum and not line.startswith("}")
        item = PUBLIC.match(line) or is_enum and VARIANT.match(line)
        before = (it for it in reversed(lines[:number]) if not re.match(r"\s*(#\[|//(?!/))", it))
        if item and not next(before, "").lstrip().startswith("///"):
            yield number + 1, f"there is no comment on `{item[item.lastindex]}`"


def faults_of(lines):
    """Returns the faults of a file, each with its line, and the kinds of the items that have a
    summary."""
    faults, kinds = list(undocumented(lines)), []
    for mark, start, end in comments(lines):
        text = prose(lines[start:end], mark)
        riddle = RIDDLES.match(text)
        words = [*FORBIDDEN.findall(text), *([riddle[0].strip()] if riddle else [])]
        faults += [(start + 1, f"`{it}`") for it in words]
        item = item_after(lines, end) if mark == "///" else ""
        function = FUNCTION.match(item)
        if function:
            kinds.append("function")
            if not VERB.match(text) or text.split()[0] in NOUNS:
                faults.append((start + 1, f"the summary of `{function[1]}` does not begin with a verb"))
        elif TYPE.match(item):
            kinds.append("type")
    return faults, kinds


def page_faults():
    """Returns the number of words of each page, and the faults of the pages that are too long."""
    words, faults = {}, []
    for name, most in LENGTHS.items():
        for path in sorted(TOP.glob(name)):
            count = words[path] = len(path.read_text().split())
            if count > most:
                faults.append(f"{path.relative_to(TOP)}: {count} words, at most {most}")
    if sum(words.values()) > ALL_PAGES:
        faults.append(f"the pages together: {sum(words.values())} words, at most {ALL_PAGES}")
    return words, faults


def main():
    for text, count in EXAMPLES:
        found = faults_of(text.split("\n"))[0]
        if len(found) != count:
            sys.exit(f"voice: {len(found)} faults, and not {count}, in the example {text!r}: {found}")
    total, faults = [], 0
    files = [*TOP.glob("crates/*/src/**/*.rt"), *TOP.glob("crates/*/specs/**/*.antt"), *TOP.glob("crates/*/proofs/**/*.antt")]
    for path in sorted(files):
        found, kinds = faults_of(path.read_text().split("\n"))
        total += kinds
        faults += len(found)
        for line, fault in found:
            print(f"{path.relative_to(TOP)}:{line}: {fault}")
    words, long = page_faults()
    faults += len(long)
    print(*long, sep="\n", end="\n" if long else "")
    number = f"{total.count('function')} summaries of functions, {total.count('type')} of types, "
    number += f"{len(words)} pages of {sum(words.values())} words"
    print(f"voice: {number}, {faults} faults")
    return 1 if faults else 0


if __name__ == "__main__":
    sys.exit(main())
