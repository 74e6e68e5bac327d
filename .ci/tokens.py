#!/usr/bin/env python3
"""Runs the program uses_lexer on the table of tokens, and on texts that take a slow lexer long.

    .ci/tokens.py

The table is crates/litrs_lexer/tokens, whose head explains its fields. Both builds of the program,
which `rt ci` leaves in crates/uses_lexer/out, must cut the text of each row into the tokens of the
row. In the edition 2021 those must be the tokens of rustc, unless the row notes a difference. In
the other editions they must be the tokens of rustc after the rules of
crates/litrs_lexer/CALLING.md. The table has the tokens of rustc, so rustc is not run. The time for
a long text must be in proportion to its length.
"""
import pathlib
import random
import re
import resource
import subprocess
import sys

TOP = pathlib.Path(__file__).resolve().parent.parent
TABLE = TOP / "crates/litrs_lexer/tokens"
PROGRAM = TOP / "crates/uses_lexer/out/uses_lexer"
LETTERS = {
    "Ident": "i", "RawIdent": "i", "UnknownPrefix": "i", "Lifetime": "t", "RawLifetime": "t",
    "UnknownPrefixLifetime": "t", "Literal": "l", "MalformedLiteral": "l", "Punctuation": "p",
}
BAD = {"MalformedLiteral", "UnknownPrefix", "UnknownPrefixLifetime", "UnterminatedBlockComment", "Unknown"}
# Texts of files, each with the part whose tokens are read.
FILES = [
    ("#!/bin/x -y\nfn", "\nfn"), ("#!/bin/x", ""), ("#!", ""), ("#! [a]", "#! [a]"), ("#![a]", "#![a]"),
    ("#!//b\n/* c */ [a]", "#!//b\n/* c */ [a]"), ("#!//b\n/** c */ [a]", "\n/** c */ [a]"),
    ("#!a[b]\n", "\n"), ("\ufefffn", "fn"), ("\ufeff#!a\nb", "\nb"), ("\ufeff\ufeff", "\ufeff"),
    (" #!a", " #!a"), ("# !a", "# !a"), ("#!/*", ""), ("#!\n[a]", "#!\n[a]"),
]
# Pieces that are repeated to texts, which open many comments or literals without closing them.
PIECES = [
    "/*", "/**/", "/*/", "*/", "//", "'", "''", "'a", "'a'", '"', '"\\', 'b"', "r#", 'r#"', 'br"', "b'",
    "#", "'r#", "r#a", "a", "a#", "1", "1.", "0b2", "1e", "0x1.", "\\", "é", "🦊", " ", "\u2028",
    "true", 'true"', "'\\", 'c"', "(", "::", '"a"', "'a,",
]

# The pieces that are repeated to a million bytes.
LONG = ["/*", "'", '"', 'r#"']


def bytes_of(field):
    """Returns the bytes that a field of the table denotes."""
    parts = re.split("%([0-9a-f]{2})", field)
    return b"".join(bytes.fromhex(it) if n % 2 else it.encode() for n, it in enumerate(parts))


def rows():
    """Yields the rows of the table: the result of rustc by edition, the tokens, and whether they
    differ."""
    for line in TABLE.read_text().splitlines():
        if line and not line.startswith("#"):
            read, *fields = line.split("\t")
            by_edition = {}
            for group in read.split("; "):
                editions, _, answer = group.partition(" ")
                first, _, last = editions.partition("-")
                for edition in (2015, 2018, 2021, 2024):
                    if int(first) <= edition <= int(last or first):
                        by_edition[edition] = answer
            differs = fields[-1].startswith("differs ")
            tokens = [it.split(" ", 1) for it in (fields[:-1] if differs else fields)]
            yield by_edition, [(kind, bytes_of(text)) for kind, text in tokens], differs


def is_doc(kind, text):
    """Returns whether the token is a documentation comment."""
    if kind == "LineComment":
        return text.startswith(b"//!") or re.match(rb"///(?!/)", text)
    return kind == "BlockComment" and re.match(rb"/\*!|/\*\*(?![*/])", text)


def in_2015(tokens):
    """Yields the tokens of the editions 2015 and 2018. These do not have C strings, raw lifetimes
    or reserved prefixes, except `r` and `br` before hashes."""
    for (kind, text), (_, after) in zip(tokens, [*tokens[1:], ("", b"")]):
        mark = re.match(rb"c(?=\")|cr(?=#*\")", text)
        if kind in ("Literal", "MalformedLiteral") and mark:
            yield "Ident", mark[0]
            hashes, body = re.fullmatch(rb"(#*)(.*?)(?:#*)", text[mark.end():], re.S).groups()
            pounds = [("Punctuation", b"#")] * len(hashes)
            closed = re.fullmatch(rb'".*"\w*', body, re.S)
            yield from [*pounds, ("Literal" if closed else "MalformedLiteral", body), *pounds]
        elif kind == "RawLifetime":
            yield from [("Lifetime", b"'r"), ("Punctuation", b"#"), ("Ident", text[3:])]
        elif text in (b"r", b"br") and after == b"#":
            yield kind, text
        else:
            yield {"UnknownPrefix": "Ident", "UnknownPrefixLifetime": "Lifetime"}.get(kind, kind), text


def in_2024(tokens):
    """Yields the tokens of the edition 2024, in which hashes before a string or another hash are
    reserved."""
    tokens = list(tokens)
    while tokens:
        pounds = 0
        while pounds < len(tokens) and tokens[pounds][1] == b"#":
            pounds += 1
        string = pounds < len(tokens) and re.match(rb'"', tokens[pounds][1])
        if pounds and string:
            end = pounds + 1
            while end < len(tokens) and end - pounds <= pounds and tokens[end][1] == b"#":
                end += 1
            yield "MalformedLiteral", b"".join(text for _, text in tokens[:end])
            tokens = tokens[end:]
        elif pounds > 1:
            yield "MalformedLiteral", b"##"
            tokens = tokens[2:]
        else:
            yield tokens[0]
            tokens = tokens[1:]


def as_read(tokens):
    """Returns the tokens in the form that the table has for the result of rustc."""
    out = []
    tokens = list(tokens)
    for kind, text in tokens:
        if is_doc(kind, text):
            out.append("d")
        elif kind in LETTERS:
            letter = "i" if text in (b"true", b"false") else LETTERS[kind]
            out.append(f"{letter}{len(text)}")
    return " ".join(out + ["error"] * any(kind in BAD for kind, _ in tokens))


def cut(program, text):
    """Returns the kinds and ranges of the tokens that the program prints for a text."""
    ran = subprocess.run([program], input=text, capture_output=True, timeout=100, check=True)
    lines = re.findall(rb"^(\w+) (\d+)\.\.(\d+) ", ran.stdout, re.M)
    assert len(lines) == ran.stdout.count(b"\n"), ran.stdout
    return [(kind.decode(), int(start), int(end)) for kind, start, end in lines]


def seconds(program, text):
    """Returns the processor time of a run of the program on a text."""
    before = resource.getrusage(resource.RUSAGE_CHILDREN)
    subprocess.run([program], input=text, stdout=subprocess.DEVNULL, timeout=100, check=True)
    after = resource.getrusage(resource.RUSAGE_CHILDREN)
    return after.ru_utime + after.ru_stime - before.ru_utime - before.ru_stime


def ranges(tokens, at=0):
    """Returns the kinds and ranges of the tokens from `at` on that are not white space."""
    found = []
    for kind, text in tokens:
        if kind != "Whitespace":
            found.append((kind, at, at + len(text)))
        at += len(text)
    return found


class Tests:
    def __init__(self):
        self.number, self.faults = 0, []

    def hold(self, holds, what):
        self.number += 1
        if not holds:
            self.faults.append(str(what)[:400])

    def try_rustc(self):
        for read, tokens, differs in rows():
            views = {2021: tokens, 2015: list(in_2015(tokens)), 2024: list(in_2024(tokens))}
            views[2018] = views[2015]
            for edition, view in views.items():
                wanted, found = read[edition], as_read(view)
                same = found.endswith("error") if wanted == "none error" else found == wanted
                # The table marks differences in the edition 2021.
                self.hold(same != (differs and edition == 2021) or differs and edition != 2021,
                          f"edition {edition} of {tokens}: {found}, and rustc {wanted}")

    def try_table(self, program):
        for _, tokens, _ in rows():
            text = b"".join(it for _, it in tokens)
            wanted = ranges(tokens)
            if text.startswith("\ufeff".encode()):
                wanted = ranges(tokens[1:], len(tokens[0][1]))
            found = cut(program, text)
            self.hold(found == wanted, f"{program}: {tokens} is {found}")

    def try_files(self, program):
        for text, rest in FILES:
            found = cut(program, text.encode())
            # A byte order mark or a shebang after a space is not skipped.
            skipped = len(text.encode()) - len(rest.encode())
            wanted = cut(program, b" " + rest.encode())
            wanted = [(it, start - 1 + skipped, end - 1 + skipped) for it, start, end in wanted]
            self.hold(found == wanted, f"{program}: {text!r} is {found}, and {rest!r} {wanted}")

    def try_edits(self, program):
        """Tests that an edit does not change the tokens before white space if it comes after the
        token that follows the white space."""
        pieces = [*PIECES, " ", "\n", "\n ", ".", "x", "r", "##", "'\n"]
        draw = random.Random(1)
        for _ in range(300):
            text = "".join(draw.choices(pieces, k=12)).encode()
            front, back = text.decode()[:20].encode(), draw.choice(pieces).encode()
            old, new = cut(program, text), cut(program, front + back)
            after_space = [
                start for (_, _, end), (_, start, last) in zip([("", 0, 0), *old], old)
                if end < start and last <= len(front) and text[:last] == front[:last]
            ]
            if after_space:
                place = after_space[-1]
                kept, found = [[it for it in them if it[1] < place] for them in (old, new)]
                self.hold(kept == found, f"{program}: {text} and {front + back}: {kept}, {found}")

    def try_time(self, program):
        """Tests that four times the text takes less than eight times the processor time.

        A piece is tried again if it takes more, since other processes slow down a run."""
        for piece in PIECES:
            sizes = (250_000, 1_000_000) if piece in LONG else (50_000, 200_000)
            texts = [(piece * (size // len(piece.encode()))).encode() for size in sizes]
            for _ in range(5):
                short, long = (seconds(program, text) for text in texts)
                if is_linear := long < 8 * short + 0.2:
                    break
            took = f"{short} s, and {long} s for four times it"
            self.hold(is_linear, f"{program}: {piece!r} takes {took}")


def main():
    tests = Tests()
    tests.try_rustc()
    for program in (str(PROGRAM), f"{PROGRAM}.by-rattle"):
        tests.try_table(program)
        tests.try_files(program)
        tests.try_edits(program)
    tests.try_time(str(PROGRAM))
    print(*tests.faults[:20], sep="\n", end="\n" if tests.faults else "")
    print(f"tokens: {tests.number - len(tests.faults)} passed, {len(tests.faults)} failed")
    return 1 if tests.faults else 0


if __name__ == "__main__":
    sys.exit(main())
