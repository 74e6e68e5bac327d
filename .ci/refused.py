#!/usr/bin/env python3
"""Makes each allocation of litrs_vectors fail in turn.

.ci/refused.py [--seed SEED] [ROWS]

Runs both builds of crates/litrs_vectors, which `rt ci` leaves in its out/, with one row in each
process. The rows are those of its table and those that this script generates, or only those of the
file ROWS. Some lengths in generated texts are drawn anew in each run. SEED, which is printed, draws
the same lengths again. .ci/refuse.c copies a process twice at each of its allocations. In one copy
this allocation fails, and in the other this one and all later ones fail.

If one allocation fails, there are two correct results. If a call of the library returned the
failure, the program prints its name and tries the row again, and the row holds. If the allocation
was one of the program's own, it prints only `out of memory` and ends with status 1. If all later
allocations fail too, it ends in this way, perhaps after the line on the call. If the allocation was
to make a block smaller, the program may also continue as if nothing failed.

At the end of each row the program asks for `MARK` bytes, and then makes the calls that do not
allocate. If that allocation or all from it on fail, the row must hold.

Some rows are strings of each kind whose values have every length up to 300. A call over either
buffer must ask for exactly the bytes of such a value, with the closing zero of a C string. For
these rows there are no copies in which all later allocations fail.

Last, each build runs without a failure on more rows, all of which must hold. Some have texts with
parts of every length below 512 and of drawn lengths. The others have values that end in every
number of escapes up to 130, and in about 1,024.

Fails if a copy does anything else. Fails if an allocation of a call that is not listed below fails,
or if none of a listed call fails. Fails also if a call allocates more often than this:

- `feed`: once if a line is not a literal, and not at all for a line that fits the memory of a
  collector that was cleared;
- a call of litrs_build: once for the text and once for the value;
- a call of litrs_value: once for the parse and once for the value;
- `parse_until`: once for the value;
- `feed_prefix`: once for the line, once for the literal and once for its value.
"""
import argparse
import collections
import concurrent.futures
import os
import pathlib
import random
import re
import subprocess
import sys
import tempfile
import typing

TOP = pathlib.Path(__file__).resolve().parent.parent
CRATE = TOP / "crates" / "litrs_vectors"
STRINGS = ["StringLit", "ByteStringLit", "CStringLit"]
OTHERS = ["IntegerLit", "FloatLit", "CharLit", "ByteLit"]
HOLDS = b"1 rows hold\n"
# The size of the block at the end of a row, as in crates/litrs_vectors/src/lines.rt.
MARK = 9973
FEED = "Collector::feed over &str"
FEED_PREFIX = "Collector::feed_prefix over &str"
UNTIL = "litrs_prefix::parse_until over &str"
BUILD = re.compile(r"litrs_build::(\w+) over (?:&str|String)")
VALUED = "litrs_value::"
# The calls of litrs_build that make a literal whose value may be allocated.
BUILDS_VALUE = {"string", "byte_string", "c_string", "raw_c_string"}
ENDED = b"litrs_vectors: out of memory\n"
REFUSED = re.compile("refused (.*) at line 1")
# The most copies of a part in a text.
LONGEST = 10_000
# The numbers of drawn lengths of parts: below 5,000 if each allocation fails in turn, and below
# `LONGEST` if none fails.
DRAWN = 8
DRAWN_UNREFUSED = 64
# The length below which parts of every length are tried without a failure.
SHORT = 512
# The greatest length of the values for which the bytes that are asked for are compared.
SIZED = 300
# The calls that allocate only for a value.
VALUES = {
    "Literal::parse over &str",
    "Literal::parse over String",
    "Literal::clone over &str",
    "Literal::from_literal over String",
    "Literal::from_tree over String",
    "CString::clone over CString",
}
# A suffix so long that the program makes few other calls on the text.
SUFFIX = "u" + 1000 * "8"
SECONDS = 600


def calls():
    """Yields the calls whose allocations may fail, by the names that the program prints."""
    kinds = ["Literal", *STRINGS]
    for kind in kinds:
        for buffer in ["&str", "String"]:
            yield f"{kind}::parse over {buffer}"
        yield f"{kind}::clone over &str"
        yield f"{kind}::into_owned over &str"
        yield f"{kind}::from_literal over String"
        yield f"{kind}::from_tree over String"
    for kind in OTHERS:
        yield f"{kind}::to_owned over &str"
    for kind in kinds + OTHERS:
        yield f"{kind}::clone over String"
        yield f"{kind}::from_literal_ref over String"
        yield f"{kind}::from_tree_ref over String"
    for kind in STRINGS + OTHERS:
        for buffer in ["&str", "String"]:
            yield f"{kind}::into_token over {buffer}"
    for container in ["String", "Vec<u8>"]:
        for call in ["push", "push_str", "push_bytes", "with_capacity", "reserve"]:
            yield f"EscapeContainer::{call} over {container}"
    yield "String::copy over String"
    yield "CString::clone over CString"
    yield "BoolLit::into_ident over &str"
    yield "Ident::new over &str"
    yield "Ident::copied over &str"
    yield "InvalidToken::to_compile_error over &str"
    yield "litrs_token::Literal::from_text over &str"
    yield "litrs_token::Literal::string over &str"
    yield "litrs_token::Literal::copied over &str"
    yield "litrs_lex::unescape_string over &str"
    yield "litrs_lex::unescape_string_with over &str"
    yield "litrs_prefix::parse_prefix over &str"
    yield "litrs_prefix::parse_prefix_at over &str"
    yield UNTIL
    for call in ["read", "read_prefix", "read_str", "float", "integer_float"]:
        yield f"litrs_value::{call} over &str"
    for call in ["char", "byte", "string", "byte_string", "c_string", "integer", "grouped_integer"]:
        yield f"litrs_build::{call} over &str"
    for call in ["float", "raw_string", "raw_byte_string", "raw_c_string", "unescaped"]:
        yield f"litrs_build::{call} over &str"
    for call in ["rewritten over &str", "rewritten over String", "rewritten_again over &str"]:
        yield f"litrs_build::{call}"
    yield "litrs_diagnostic::shown over &str"
    yield "litrs_diagnostic::shown_refusal over &str"
    yield "litrs_diagnostic::shown_in_color over &str"
    yield "Lines::new over &str"
    yield "litrs_explanation::explanation over &str"
    yield "MemOutput::new over &str"
    yield "litrs_lines::run over &str"
    yield "litrs_lines::run_program over &str"
    yield FEED
    yield FEED_PREFIX


def escaped(data):
    """Returns bytes as a field of the table."""
    plain = set(range(32, 127)) - {ord("%")}
    return "".join(chr(byte) if byte in plain else f"%{byte:02X}" for byte in data)


def some_lengths(draw):
    """Returns lengths around each constant of the code, that of the block at the end of a row, and
    others."""
    lengths = {0, 1, 5, 333, 1000, 5000, MARK}
    for constant in [8, 16, 32, 64, 80, 128, 1024, 4096, 8192, 32768]:
        lengths |= {constant - 1, constant, constant + 1}
    return sorted(lengths | {draw.randrange(5000) for _ in range(DRAWN)})


def generated(lengths, draw):
    """Yields rows of each kind whose parts have these lengths."""
    for length in lengths:
        plain = bytes(draw.choice(b"abcxyz019 _#'") for _ in range(length))
        digits = "".join(draw.choice("0123456789") for _ in range(length)) or "0"
        value = digits.lstrip("0") or "0"
        if len(value) > 39 or int(value) >= 1 << 128:
            value = "none"
        yield f"Literal,IntegerLit\t{digits}\tinteger\t\t10\t{digits}\t{value}"
        first = len(digits) % 3
        groups = [digits[:first], *(digits[at : at + 3] for at in range(first, len(digits), 3))]
        grouped = "_".join(it for it in groups if it)
        yield f"rewritten\t{digits}\tgrouped=0,0,3,0\t{grouped}"
        fraction = "_".join(digits[at : at + 3] for at in range(0, len(digits), 3))
        number, written = f"{digits}.{digits}E-{digits}", f"{grouped}.{fraction}E-{grouped}"
        yield f"rewritten\t{number}\tfloats_grouped=3,3,3\t{written}"
        yield f"Literal,FloatLit\t{digits}.5\tfloat\t\t{digits}.5\t{digits}\t5\t"
        yield f"Literal,CharLit\t'a'a{digits}\tchar\ta{digits}\t61"
        yield f"Literal,ByteLit\tb'a'a{digits}\tbyte\ta{digits}\t61"
        for front, parse, kind in [
            ("", "StringLit", "string"),
            ("b", "ByteStringLit", "bytestring"),
            ("c", "CStringLit", "cstring"),
        ]:
            text = escaped(plain)
            raw = f'{front}r##"{text}"##'
            yield f"Literal,{parse}\t{raw}\t{kind}\t\traw\t{text}"
            yield f'Literal,{parse}\t{front}"{text}"\t{kind}\t\tplain\t{text}'
            at = draw.randrange(length + 1)
            begin, end = escaped(plain[:at]), escaped(plain[at:])
            quoted = f'{front}"{begin}\\n{end}"u8'
            yield f"Literal,{parse}\t{quoted}\t{kind}\tu8\tescaped\t{begin}%0A{end}"
            rewritten = f'{front}"{begin}A{end}"u8'
            yield f'rewritten\t{front}"{begin}\\x41{end}"u8\tneeded\t{rewritten}'
            blanks, escapes = length * "%C2%A0", length * "\\u{a0}"
            if front != "b":
                yield f'rewritten\t{front}"{blanks}"\tneeded\t{front}"{escapes}"'


def ended():
    """Yields rows of strings that are too long to be built on the stack. Their values end in every
    number of escapes up to 130, and in about 1,024, the bytes that are copied at a time."""
    for count in [*range(131), *range(1020, 1029)]:
        plain, escapes, value = 33_000 * "a", count * "\\n", count * "%0A"
        how = "escaped" if count else "plain"
        yield f'Literal,StringLit\t"{plain}{escapes}"\tstring\t\t{how}\t{plain}{value}'


def sized(draw):
    """Yields rows of strings of each kind, with an escape, and of C strings without one, each with
    the size of its value in bytes. The values have every length up to `SIZED`."""
    for length in range(SIZED + 1):
        plain = "".join(draw.choice("abcxyz019 _#'") for _ in range(length))
        at = draw.randrange(length) if length else 0
        begin, end = plain[:at], plain[at + 1 :]
        # A continuation has an empty value.
        body, value = (f"{begin}\\n{end}", f"{begin}%0A{end}") if length else ("\\%0A", "")
        for front, kind in [("", "string"), ("b", "bytestring"), ("c", "cstring")]:
            row = f'Literal\t{front}"{body}"{SUFFIX}\t{kind}\t{SUFFIX}\tescaped\t{value}'
            yield row, length + (kind == "cstring")
        yield f'Literal\tc"{plain}"{SUFFIX}\tcstring\t{SUFFIX}\tplain\t{plain}', length + 1


def refused_call(printed):
    """Returns the call of the library that a copy prints as failed, or `None`."""
    match = REFUSED.fullmatch(printed.partition(b"\n")[0].decode())
    return match and match[1]


class Copy(typing.NamedTuple):
    """A copy of a process in which one allocation fails, or this one and all later ones."""

    how: str
    allocation: int
    asked: int
    before: int
    status: int
    printed: bytes


def read_copies(records):
    """Yields the copies that .ci/refuse.c has recorded."""
    with open(records, "rb") as file:
        for head in file:
            how, *numbers, size = head.split()
            printed = file.read(int(size) + 1)[:-1]
            yield Copy(how.decode(), *map(int, numbers), printed)


class Build:
    """The calls and faults of one build."""

    def __init__(self, name, library, folder):
        self.program = CRATE / "out" / name
        self.library = library
        self.folder = folder
        self.refused = collections.Counter()
        self.copies = 0
        self.faults = []

    def try_row(self, task):
        """Makes each allocation of a row fail in turn. If the size of the value is known, exactly
        this number of bytes must be asked for."""
        number, (row, room) = task
        records = self.folder / f"{self.program.name}.{number}"
        environment = {"LD_PRELOAD": self.library, "REFUSED": records}
        if room is not None:
            environment["REFUSED_ALONE"] = "yes"
        done = subprocess.run(
            [self.program],
            input=f"{row}\n".encode(),
            capture_output=True,
            env=environment,
            timeout=SECONDS,
        )
        if (done.stdout, done.stderr, done.returncode) != (HOLDS, b"", 0):
            self.fault(row, f"{done.stdout + done.stderr}, status {done.returncode}")
        copies = list(read_copies(records))
        marks = [it.allocation for it in copies if it.asked == MARK]
        if not marks:
            self.fault(row, "calls that need no memory were not tried")
        asks = collections.Counter()
        for copy in copies:
            call = refused_call(copy.printed)
            asks[call] += copy.how == "one"
            self.try_copy(row, copy, marks and copy.allocation == max(marks))
            if room is not None and call in VALUES and copy.asked != room:
                self.fault(row, f"{call} asks for {copy.asked} bytes, and not for {room}")
        self.copies += len(copies)
        for call, count in asks.items():
            if call is not None and count > most_asked(call, row.split("\t")):
                self.fault(row, f"{call} allocates {count} times")
        records.unlink()

    def try_copy(self, row, copy, is_mark):
        """Tests what a copy did. The block at the end of a row is the last of its size."""
        stays = is_mark or copy.asked <= copy.before
        holds = stays and (copy.printed, copy.status) == (HOLDS, 0)
        if not holds and (is_mark or not self.is_right(copy)):
            what = f"allocation {copy.allocation}, {copy.how} refused"
            self.fault(row, f"{what}: {copy.printed}, status {copy.status}")

    def is_right(self, copy):
        """Returns whether a copy in which one or all allocations fail has a correct result."""
        if (copy.printed, copy.status) == (ENDED, 1):
            return True
        call = refused_call(copy.printed)
        if call is None:
            return False
        self.refused[call] += 1
        rest = copy.printed.partition(b"\n")[2]
        return (rest, copy.status) == ((HOLDS, 0) if copy.how == "one" else (ENDED, 1))

    def fault(self, row, what):
        self.faults.append(f"{row[:200]}: {what}")


def is_short(row):
    """Returns whether no part of a row is repeated so often that copying the process takes long."""
    return all(int(count) <= LONGEST for count in re.findall(r"%\((\d+)\*", row))


def byte_len(field):
    """Returns the length in bytes of a field of the table."""
    field = re.sub(r"%\((\d+)\*([^)]*)\)", lambda found: int(found[1]) * found[2], field)
    return len(re.sub("%[0-9A-F]{2}", "x", field).encode())


def doublings(room, length):
    """Returns how often a buffer of `room` bytes must be doubled to have `length` bytes."""
    count = 0
    while room << count < length:
        count += 1
    return count


def most_asked(call, fields):
    """Returns the greatest number of allocations of a call for a row.

    A call of litrs_build allocates for the text of a literal and for its value. `rewritten`
    allocates also while its text becomes longer than that of the literal. A call of litrs_value
    allocates for the literal and for a value that owns memory, and `parse_until` for a value.
    `feed` allocates once for each line of a text if it returns `More` or `Refused` for each.
    `feed_prefix` allocates also for a literal and for its value."""
    if built := BUILD.fullmatch(call):
        if built[1] == "rewritten" and fields[0] == "rewritten":
            return 1 + doublings(byte_len(fields[1]), byte_len(fields[3]))
        has_value = built[1] in BUILDS_VALUE
        if built[1] == "unescaped":
            kind, body = fields[2], fields[4]
            has_value = kind == "cstring" or (kind in ("string", "bytestring") and body != "raw")
        return 1 + has_value
    if call == UNTIL:
        return 1
    if call.startswith(VALUED):
        return 1 + (fields[2] in ("String", "Vec<u8>", "CString"))
    if call == FEED and fields[2] == "refused" and "%(" not in fields[1]:
        return fields[1].count("%0A") + 1
    if call == FEED_PREFIX:
        has_value = fields[1].startswith("c") or "\\" in fields[1]
        return fields[1].count("%0A") + 1 + ("|" in fields[2]) * (1 + has_value)
    return sys.maxsize


def table_rows(path):
    for line in path.read_text().split("\n"):
        if line and not line.startswith("#") and is_short(line):
            yield line


def try_rows(name, rows, folder):
    """Runs a build on all rows, each with the size of its value in bytes, or `None` if it is
    unknown."""
    build = Build(name, folder / "refuse.so", folder)
    with concurrent.futures.ThreadPoolExecutor(os.cpu_count()) as pool:
        for _ in pool.map(build.try_row, enumerate(rows)):
            pass
    return build


def try_every_length(build, rows):
    """Runs a build once on rows of every length, without a failure."""
    text = "".join(f"{row}\n" for row in rows).encode()
    done = subprocess.run([build.program], input=text, capture_output=True, timeout=SECONDS)
    if (done.stdout, done.returncode) != (f"{len(rows)} rows hold\n".encode(), 0):
        build.fault("every length", f"{done.stdout[:300] + done.stderr}, status {done.returncode}")


def report(build, wanted):
    """Prints the calls of a build whose allocations failed, and its faults. Returns whether there
    are faults."""
    print(f"{build.program.name}: {build.copies} copies")
    for call in sorted(build.refused):
        print(f"  {build.refused[call]:7} {call}")
    for call in sorted(set(build.refused) - set(calls())):
        build.faults.append(f"{call} allocates")
    for call in sorted(wanted - set(build.refused)):
        build.faults.append(f"{call} was never refused")
    for fault in build.faults[:20]:
        print(f"{build.program.name}: {fault}")
    return bool(build.faults)


def main():
    parser = argparse.ArgumentParser()
    parser.add_argument("--seed", type=int, default=random.SystemRandom().randrange(1 << 32))
    parser.add_argument("rows", nargs="?", type=pathlib.Path)
    asked = parser.parse_args()
    draw = random.Random(asked.seed)
    values = []
    if asked.rows:
        rows, wanted, every = list(table_rows(asked.rows)), set(), []
    else:
        print(f"lengths drawn by --seed {asked.seed}", flush=True)
        rows = [*table_rows(CRATE / "stdin"), *generated(some_lengths(draw), draw)]
        drawn = [draw.randrange(LONGEST) for _ in range(DRAWN_UNREFUSED)]
        wanted = set(calls())
        every = [*generated([*range(SHORT), *drawn], draw), *ended()]
        values = list(sized(draw))
    failed = False
    with tempfile.TemporaryDirectory() as name:
        folder = pathlib.Path(name)
        words = ["cc", "-O1", "-shared", "-fPIC", "-o", folder / "refuse.so"]
        subprocess.run([*words, TOP / ".ci" / "refuse.c"], check=True)
        for program in ["litrs_vectors", "litrs_vectors.by-rattle"]:
            build = try_rows(program, [*((row, None) for row in rows), *values], folder)
            try_every_length(build, every)
            # Both builds ask for the same numbers of bytes.
            values = []
            failed |= report(build, wanted)
    sys.exit(1 if failed else 0)


main()
