#!/usr/bin/env python3
"""Tests the installed C library from C, C++ and Python.

    .ci/c_library.py

Runs after `rt ci`. Proves crates/litrs_c over the libraries that `rt ci` left, and builds its
archive. Installs it by crates/litrs_c/build into a temporary folder. Everything else is built from
that folder with the flags of pkg-config. Both libraries there must define the calls of litrs.h and
no other name. The header must compile by each standard of C and C++ that the compilers at hand
know.

Runs the C program .ci/c_library.c and the module litrs.py on the rows of the table of
`litrs_vectors` whose texts have at most 65,536 bytes. These are the rows on literals of any kind,
on the starts of literals, and on the literal at the front of a text. Both must return the result of
the row, with the names, descriptions and marks of docs/GRAMMAR.md. Each prefix of a text, cut at
each byte, must be rejected as not UTF-8 if Python does not decode it. Both must return the same for
it. If valgrind is at hand, the program runs under it over the texts of the rows.

The samples of crates/litrs_c/README.md are built and run by the lines of that page, and must print
the block below them. Those in C are built as C++ too. Each text of crates/litrs_lexer/tokens must
have the tokens of its row, and every text the same tokens from both. python_module.py has the other
tests of the module. float_numbers.py draws numbers, many of them halfway between two floats. Each
must have the double and the float nearest to it. A parse must take at most a tenth more
instructions than bench/figures.txt lists.

Tests crates/litrs_c/build too: its help, wrong arguments, and the files that it installs below
DESTDIR and removes. Tests the versions that pkg-config finds, and an installed folder that is moved
to a name with a blank.
"""
import concurrent.futures
import ctypes
import dataclasses
import importlib
import os
import pathlib
import re
import shlex
import shutil
import subprocess
import sys
import tempfile

import float_numbers
import instructions
import libraries
import python_module
import tokens
from libraries import KIT, TOP

CRATE = TOP / "crates/litrs_c"
HEADER = (CRATE / "include/litrs.h").read_text()
WARNINGS = ["-O1", "-Wall", "-Wextra", "-Werror", "-pedantic"]
STANDARDS = {
    "c": "c89 iso9899:199409 c99 c11 c17 c2x c23".split(),
    "c++": "c++98 c++11 c++14 c++17 c++20 c++2b".split(),
}
COMPILERS = {"c": ["cc", "gcc", "clang"], "c++": ["c++", "g++", "clang++"]}
LITERAL, REFUSED, NOT_UTF8, OUT_OF_MEMORY, NO_STRING, NO_PREFIX, NO_NUMBER = range(7)
KINDS = "bool integer float char byte string bytestring cstring".split()
NAMES = "Bool Integer Float Char Byte String ByteString CString".split()
# The names of the kinds of tokens, by their numbers in the header.
TOKENS = {int(number): name.title().replace("_", "")
          for name, number in re.findall(r"LITRS_TOKEN_(\w+) = (\d+)", HEADER)}
TRIVIA = ["Whitespace", "LineComment", "BlockComment", "UnterminatedBlockComment"]
# The start of a documentation comment on the item after it.
OUTER = rb"///(?!/)|/\*\*(?![*/])"
# The length of the longest text: litrs_vectors tries the longer ones. The length from which on
# the prefixes of a text are not tried, and the text is not tried under valgrind.
LONGEST, PREFIXED = 65536, 1000


def flat(value):
    """Returns the numbers of a structure, in the order of its fields."""
    if not isinstance(value, ctypes.Structure):
        return [int(value)]
    return [it for name, _ in value._fields_ for it in flat(getattr(value, name))]


def written(call, text):
    """Returns the status, the length and the bytes that a call writes. Calls it without room
    first."""
    sized = call(text, len(text), b"", 0)
    room = ctypes.create_string_buffer(sized.len + 1)
    again = call(text, len(text), room, sized.len)
    same = (sized.status, sized.len) == (again.status, again.len)
    return [again.status, again.len, room.raw[: sized.len].hex() if same else "differs"]


def answer_of(module, text):
    """Returns the fields of a text as the C program prints them: those up to the message, those of
    `litrs_prefix`, and the tokens."""
    calls = module._calls
    fields = flat(calls["parse"](text, len(text)))
    fields.append(int(calls["goes_on"](text, len(text))))
    fields += written(calls["value"], text) + written(calls["message"], text)
    return fields + flat(calls["parse_prefix"](text, len(text))) + [tokens_of(module, text)]


def tokens_of(module, text):
    """Returns the tokens of a text as the C program prints them."""
    found, cursor, token = [], module._Cursor(), module._Token()
    if not module._calls["check"](text, len(text), cursor):
        return "-"
    while module._calls["next_token"](cursor, token):
        number, doc = token.kind, token.doc_style
        found.append(f"{number},{doc},{int(token.is_trivia)},{token.place.end};")
    return "".join(found)


@dataclasses.dataclass
class Wanted:
    """The wanted results for a text.

    These are the fields, each `None` if it is unknown, and the number of allocations of each call
    except litrs_goes_on. The status and length of the literal at the front follow, and the fields
    of the object or exception of the module. A number has the bits of the double and of the float
    too, with the number of allocations for each. The tokens are as the C program prints them."""

    text: bytes
    fields: list
    asked: object = None
    front: tuple = (None, None)
    python: object = None
    number: object = None
    tokens: object = None


def bytes_of(field):
    """Returns the text of a field of the table."""

    def part(found):
        if found[1]:
            return bytes_of(found[2]) * int(found[1])
        return bytes([int(found[3], 16)])

    field = field if isinstance(field, bytes) else field.encode()
    return re.sub(rb"%\((\d+)\*([^)]*)\)|%([0-9A-F]{2})", part, field)


def kinds_of_refusals():
    """Returns the description, the mark and the number in the header of each error kind, in the
    order of the table in docs/GRAMMAR.md."""
    page = (TOP / "docs/GRAMMAR.md").read_text()
    rows = re.findall(r"^\| `([A-Z]\w+)` \| (`+) ?(.*?) ?\2 \|(?: (\w+))? \|", page, re.M)
    numbers = dict(re.findall(r"LITRS_ERROR_(\w+) = (\d+)", HEADER))
    kinds = {}
    for name, _, description, mark in rows:
        called = re.sub(r"(?<=[a-z])(?=[A-Z])|(?<=[A-Z])(?=[A-Z][a-z])", "_", name).upper()
        if called in numbers:
            kinds[name] = (int(numbers.pop(called)), description, mark)
    if numbers or [it[0] for it in kinds.values()] != list(range(1, 42)):
        sys.exit(f"c library: other kinds in docs/GRAMMAR.md than in litrs.h: {numbers}")
    return kinds


def literal_fields(text, kind, suffix, parts):
    """Returns the fields of litrs_literal for a row."""
    number, main, fraction, exponent, base, raw = None, (0, 0), (0, 0), (0, 0), 0, False
    end = len(text) - len(suffix)
    if kind == "bool":
        number = int(parts[0] == b"true")
    elif kind == "integer":
        base, main = int(parts[0]), (end - len(parts[1]), end)
        number = None if parts[2] == b"none" else int(parts[2])
    elif kind == "float":
        main, exponent = (0, len(parts[1])), (end - len(parts[3]), end)
        if parts[2] != b"-":
            fraction = (main[1] + 1, main[1] + 1 + len(parts[2]))
    elif kind in ("char", "byte"):
        number = int(parts[0], 16)
    else:
        raw = parts[0] == b"raw"
    has_fraction = kind == "float" and parts[2] != b"-"
    halves = [0, 0] if number is None else [number % 2**64, number // 2**64]
    fields = [KINDS.index(kind) + 1, base, int(raw), int(has_fraction), int(number is not None)]
    return fields + halves + [*main, *fraction, *exponent, end, len(text)]


def wanted_of_literal(text, kind, suffix, parts):
    fields = [LITERAL, *literal_fields(text, kind, suffix, parts), *[0] * 8, 1]
    if kind in ("string", "bytestring", "cstring"):
        fields += [LITERAL, len(parts[1]), parts[1].hex()]
    else:
        fields += [NO_STRING, 0, ""]
    allocates = kind == "cstring" or (parts[0] == b"escaped" and parts[1] != b"")
    python = python_of_literal(kind, suffix, parts)
    front, number = (LITERAL, len(text)), float_numbers.wanted_of(kind, parts)
    return Wanted(text, fields + [LITERAL, 0, ""], int(allocates), front, python, number)


def python_of_literal(kind, suffix, parts):
    """Returns the fields of the module's object for a row."""
    base, raw, main, fraction, exponent, value = 0, False, "", None, "", None
    if kind == "bool":
        value = parts[0] == b"true"
    elif kind == "integer":
        base, main = int(parts[0]), parts[1].decode()
        value = int(main.replace("_", ""), base)
    elif kind == "float":
        main, exponent = parts[1].decode(), parts[3].decode()
        fraction = None if parts[2] == b"-" else parts[2].decode()
        value = float(parts[0].decode().replace("_", ""))
    elif kind in ("char", "byte"):
        value = chr(int(parts[0], 16)) if kind == "char" else int(parts[0], 16)
    else:
        raw, value = parts[0] == b"raw", parts[1].decode() if kind == "string" else parts[1]
    name = NAMES[KINDS.index(kind)]
    return [name, value, suffix.decode(), base, raw, main, fraction, exponent]


def wanted_of_refusal(text, kinds, name, spans, printed):
    number, description, mark = kinds[name]
    places = [[int(it) for it in span.split(b"..")] if span != b"-" else [0, 0] for span in spans]
    message = description.encode()
    if spans[0] != b"-":
        message += b" (at " + spans[0] + b")"
    if printed and printed != message:
        sys.exit(f"c library: {printed} in a row, {message} by docs/GRAMMAR.md")
    goes_on = {"final": 0, "open": 1}.get(mark)
    fields = [REFUSED, *[0] * 15, number, int(spans[0] != b"-")]
    fields += [int(mark == "final"), int(mark == "open"), *places[0], *places[1], goes_on]
    fields += [REFUSED, 0, "", REFUSED, len(message), message.hex()]
    python = [name, *(places if spans[0] != b"-" else [None, None]), message.decode()]
    return Wanted(text, fields, 0, python=[*python, mark == "final", mark == "open"])


def wanted_of_front(text, words):
    """Returns the wanted results of a row on the literal at the front of a text. The last of its
    words decides."""
    if words[-1].isdigit():
        front = (LITERAL, int(words[-1]))
    else:
        front = (NO_PREFIX, 0) if words[-1] in (b"other", b"none") else (REFUSED, None)
    return Wanted(text, [None] * 31, front=front)


def wanted_of_rows(kinds):
    """Yields the wanted results of the rows of the table."""
    table = (TOP / "crates/litrs_vectors/stdin").read_bytes()
    for line in table.split(b"\n"):
        if not line or line.startswith(b"#"):
            continue
        calls, *fields = line.split(b"\t")
        fields = [bytes_of(it) for it in fields]
        if len(fields[0]) > LONGEST:
            continue
        if calls == b"goes_on" and fields[1] in (b"yes", b"no"):
            yield Wanted(fields[0], [None] * 24 + [int(fields[1] == b"yes")] + [None] * 6)
        elif calls == b"parse_prefix":
            yield wanted_of_front(fields[0], fields[1:])
        elif b"Literal" not in calls.split(b","):
            continue
        elif fields[1] == b"refused":
            name, *spans = fields[2:5]
            yield wanted_of_refusal(fields[0], kinds, name.decode(), spans, b"".join(fields[5:6]))
        else:
            yield wanted_of_literal(fields[0], fields[1].decode(), fields[2], fields[3:])


def wanted_of_tokens():
    """Yields the wanted results of the rows of the table of tokens."""
    numbers = {name: number for number, name in TOKENS.items()}
    for _, row, _ in tokens.rows():
        text, printed = b"", ""
        for kind, part in row:
            text += part
            doc = 0
            if kind in TRIVIA[1:]:
                doc = 1 if re.match(rb"/[/*]!", part) else 2 * bool(re.match(OUTER, part))
            printed += f"{numbers[kind]},{doc},{int(kind in TRIVIA)},{len(text)};"
        yield Wanted(text, [None] * 31, tokens=printed)


def wanted_of_prefixes(rows):
    """Yields the wanted results of each prefix of the texts, cut at each byte: whether it is
    UTF-8."""
    texts = [it.text for it in rows if len(it.text) < PREFIXED]
    for text in {it[:end] for it in texts for end in range(len(it))}:
        try:
            text.decode()
            yield Wanted(text, [None] * 31)
        except UnicodeDecodeError:
            fields = [NOT_UTF8, *[0] * 24, NOT_UTF8, 0, "", NOT_UTF8, 0, ""]
            yield Wanted(text, fields, 0, (NOT_UTF8, 0))


def fields_of(line):
    """Returns the fields that the C program printed for a text, in five groups:

    - the fields of `answer_of`;
    - the statuses if every allocation fails, and the numbers of allocations;
    - both for the literal at the front;
    - the results of litrs_f64 and litrs_f32;
    - the tokens."""
    fields = [it if it.endswith(".") else int(it) for it in line.split()]
    *fields, walked = [it[:-1] if isinstance(it, str) else it for it in fields]
    return fields[:31] + fields[38:-10], fields[31:38], fields[-10:-8], fields[-8:], walked


def status_without_memory(status, needs_memory):
    return OUT_OF_MEMORY if needs_memory else status


def faults_of_front(wanted, fields, refused, asked):
    """Yields the faults of the result for the literal at the front of a text."""
    *answer, length = fields[31:]
    if any(it is not None and it != got for it, got in zip(wanted.front, (answer[0], length))):
        yield f"wanted {wanted.front} at the front, got {answer[0], length}"
    if wanted.front == (LITERAL, len(wanted.text)) and wanted.asked is not None:
        if answer != fields[: len(answer)]:
            yield f"{answer} at the front, and {fields} of the whole"
        if asked != wanted.asked:
            yield f"memory was asked for {asked} times by litrs_parse_prefix"
    if wanted.front[0] == REFUSED and not 0 < length <= len(wanted.text):
        yield f"the malformed literal at the front has {length} bytes"
    if wanted.front[0] is not None and refused != status_without_memory(answer[0], asked > 0):
        yield f"{refused} at the front with every allocation refused, for {answer[0]}"


def faults_of_numbers(wanted, fields, by_parse, numbers):
    """Yields the faults of the double and the float."""
    status, kind = fields[:2]
    for name, at in (("litrs_f64", 0), ("litrs_f32", 4)):
        given, bits, refused, asked = numbers[at : at + 4]
        is_number = status == LITERAL and KINDS[kind - 1] in ("integer", "float")
        expected = NO_NUMBER if status == LITERAL and not is_number else status
        if (given, refused) != (expected, status_without_memory(expected, asked > 0)):
            yield f"{name} has the status {given}, and {refused} with every allocation refused"
        if not is_number and asked != by_parse:
            yield f"{name} asks for memory {asked} times, litrs_parse {by_parse} times"
        if wanted.number and (bits, asked) != (wanted.number[at // 4], wanted.number[2]):
            yield f"{name} has the bits {bits}, and asks {asked} times; wanted {wanted.number}"


def faults_of(wanted, from_c, from_python):
    """Yields the faults of the results for a text."""
    fields, refused, front, numbers, walked = fields_of(from_c)
    *from_python, walked_by_python = from_python
    if walked != walked_by_python or wanted.tokens not in (None, walked):
        yield f"C has the tokens {walked}, Python {walked_by_python}; wanted {wanted.tokens}"
    *refused, by_parse, by_value, by_message, by_goes_on = refused
    if fields != from_python:
        yield f"C answers {fields}, Python {from_python}"
    yield from faults_of_front(wanted, fields, *front)
    yield from faults_of_numbers(wanted, fields, by_parse, numbers)
    fields = fields[:31]
    if any(it is not None and it != got for it, got in zip(wanted.fields, fields)):
        yield f"wanted {wanted.fields}, got {fields}"
    asked = [by_parse, by_value, by_message]
    if wanted.asked is not None and [*asked, by_goes_on] != [wanted.asked] * 3 + [0]:
        yield f"memory was asked for {asked} times, and {by_goes_on} times by litrs_goes_on"
    needs = [it > 0 for it in asked]
    given = [fields[0], fields[25], fields[28]]
    if refused != [status_without_memory(*it) for it in zip(given, needs)]:
        yield f"{refused} with every allocation refused, for {given}"


def outcome(call, *words):
    """Returns the fields of the object that a call of the module returns, or of its exception."""
    try:
        answer = call(*words)
    except ValueError as e:
        return e
    return answer


def fields_of_error(error, in_bytes, wanted):
    """Returns the fields of an exception. The span that is not compared is the wanted one."""
    spans = [list(error.span), wanted[2]] if error.span else [None, None]
    if error.span and not in_bytes:
        spans = [wanted[1], list(error.span)]
    return [error.kind, *spans, error.message, error.is_final, error.is_open]


def faults_of_module(module, wanted):
    """Yields the faults of the module on a text, as bytes and as a str."""
    texts = [wanted.text]
    try:
        texts.append(wanted.text.decode())
    except UnicodeDecodeError:
        pass
    for text in texts:
        whole, front = outcome(module.parse, text), outcome(module.parse_prefix, text)
        yield from (f"{it} of {type(text)}" for it in faults_of_call(module, wanted, text, whole))
        if wanted.fields[24] is not None and module.goes_on(text) != wanted.fields[24]:
            yield f"the module and C differ on whether {type(text)} can be completed"
        if wanted.front[0] == LITERAL and isinstance(front, tuple):
            length = wanted.front[1]
            length = length if text is wanted.text else len(wanted.text[:length].decode())
            front = None if front[1] == length else f"a length of {front[1]}"
        kinds = {REFUSED: module.ParseError, NOT_UTF8: UnicodeDecodeError}
        if wanted.front[0] is not None and not isinstance(
            front, kinds.get(wanted.front[0], type(None))
        ):
            yield f"{front!r} at the front of {type(text)}, wanted {wanted.front}"
        yield from faults_of_walk(module, wanted.text, text)


def faults_of_walk(module, data, text):
    """Yields the faults of the tokens of the module."""
    printed, end, start = tokens_of(module, data), 0, 0
    found = outcome(module.tokens, text)
    if isinstance(found, ValueError):
        if printed != "-" or not isinstance(found, UnicodeDecodeError):
            yield f"the walk raises {found!r}"
        return
    for fields, token in zip(printed.split(";")[:-1], found):
        kind, doc, trivia, last = map(int, fields.split(","))
        part = data[end:last] if text is data else data[end:last].decode()
        wanted = [TOKENS[kind], part, start, start + len(part), bool(trivia), doc]
        docs = [None, "Inner", "Outer"].index(token.doc_style)
        given = [token.kind, token.text, token.start, token.end, token.is_trivia, docs]
        if given != wanted or list(map(type, given)) != list(map(type, wanted)):
            yield f"the walk gives {given}, wanted {wanted}"
        yield from faults_of_piece(module, token, end)
        start, end = token.end, last
    if next(found, None) is not None or end != len(data):
        yield f"the walk ends at {end} of {len(data)}"


def faults_of_piece(module, token, offset):
    """Yields the faults of the literal of a token that begins at byte `offset` of its source."""
    whole, literal = outcome(module.parse, token.text), outcome(token.literal)
    if token.kind == "Literal":
        same = isinstance(literal, module.Literal) and repr(literal) == repr(whole)
    elif token.kind == "MalformedLiteral":
        span = whole.span and tuple(it + token.start for it in whole.span)
        message = re.sub(
            r"(?<= \(at )(\d+)\.\.(\d+)(?=\)$)",
            lambda it: f"{int(it[1]) + offset}..{int(it[2]) + offset}", str(whole),
        )
        wanted = {**vars(whole), "span": span, "message": message}
        same = type(literal) is module.ParseError and vars(literal) == wanted
        same = same and str(literal) == message
    else:
        same = literal is None
    if not same:
        yield f"the literal of {token} is {literal!r}, and {whole!r} of its text"


def faults_of_call(module, wanted, text, whole):
    """Yields the faults of the result of the module's `parse` for a text."""
    if wanted.fields[0] == NOT_UTF8 and not isinstance(whole, UnicodeDecodeError):
        yield f"{whole!r}, which is not UTF-8"
    if wanted.python is None:
        return
    expected, in_bytes = wanted.python, text is wanted.text
    if wanted.fields[0] == LITERAL:
        got = list(dataclasses.astuple(whole)) if isinstance(whole, module.Literal) else whole
    elif isinstance(whole, module.ParseError):
        if expected[2] and not in_bytes:
            span = [len(wanted.text[:it].decode()) for it in expected[2]]
            expected = [*expected[:2], span, *expected[3:]]
        got = fields_of_error(whole, in_bytes, expected)
        if whole.length != len(text):
            yield f"the malformed literal has the length {whole.length}"
    else:
        got = whole
    if got != expected:
        yield f"the module answers {got!r}, wanted {expected}"


def build(folder):
    """Proves the crate, builds its archive, and installs it. Returns the folder and the archive."""
    crates = libraries.crates_of(TOP)
    crate = crates[CRATE.name]
    libraries.stop_unless_built(crate.below(crates))
    archive, installed = folder / "liblitrs_c.a", folder / "installed"
    words = libraries.words_of("build", crate, crates, "src/lib.rt")
    words += ["--crate-type", "staticlib", "--backend", "llvm", "--toolchain", f"{KIT}/toolchain"]
    words += ["--jobs", str(len(os.sched_getaffinity(0))), "-o", archive]
    how = {"cwd": CRATE, "stdout": subprocess.PIPE, "stderr": subprocess.STDOUT, "text": True}
    ran = subprocess.run(words, check=False, **how)
    if ran.returncode:
        sys.exit(f"{ran.stdout[-2000:]}c library: its archive was not built")
    ran = run_build(folder, archive, str(installed))
    if ran.returncode:
        sys.exit(f"{ran.stdout}{ran.stderr}c library: it was not installed")
    return installed, archive


def run_build(folder, archive, *words, **more):
    """Runs the build script of the crate in `folder`."""
    environment = os.environ | {"LITRS_C_ARCHIVE": str(archive)} | more
    how = {"capture_output": True, "text": True, "check": False, "cwd": folder}
    return subprocess.run([CRATE / "build", *words], env=environment, **how)


def told(*words, **more):
    """Returns the output of a command."""
    return subprocess.run(words, check=True, capture_output=True, text=True, **more).stdout


def flags(installed, *words):
    """Returns the flags that pkg-config prints for the installed library."""
    return shlex.split(told("pkg-config", *words, "litrs", env=paths_of(installed)))


def paths_of(installed):
    """Returns the environment in which pkg-config finds the installed library."""
    return os.environ | {"PKG_CONFIG_PATH": str(installed / "lib/pkgconfig")}


def compiled(compiler, installed, out, source, *more):
    """Compiles a program over the installed library, the shared one if `more` is empty."""
    libs = flags(installed, "--libs") + [f"-Wl,-rpath,{installed}/lib"]
    cflags = flags(installed, "--cflags")
    words = [*compiler, *WARNINGS, *cflags, "-o", out, source, "-x", "none", *(more or libs)]
    subprocess.run(words, check=True)
    return out


def faults_of_names(installed):
    """Yields the libraries that define other names than the calls of the header."""
    calls = set(re.findall(r"^(?!LITRS_INLINE|.*typedef)\w[\w ]* (litrs_\w+)\(", HEADER, re.M))
    for name, how in (("liblitrs.so", "-D"), ("liblitrs.a", "-g")):
        lines = told("nm", how, "--defined-only", "-P", installed / "lib" / name).splitlines()
        names = {it.split()[0].split("@")[0] for it in lines if re.search(r" [TDBRVW] ", it)}
        if names != calls:
            yield f"{name} defines {sorted(names)}, the header {sorted(calls)}"
    if "[liblitrs.so.1]" not in told("readelf", "-d", installed / "lib/liblitrs.so"):
        yield "another soname than liblitrs.so.1"


def faults_of_versions(installed, module):
    """Yields the installed versions that differ from that of the header, and the conditions on the
    version of litrs.pc that pkg-config decides wrongly."""
    version = re.search(r'LITRS_VERSION "(.*)"', HEADER)[1]
    upstream, release = re.fullmatch(r"(\d+\.\d+\.\d+)-rattle\.(\d+)", version).groups()
    description = (installed / "lib/pkgconfig/litrs.pc").read_text()
    found = {
        "litrs.py": getattr(module, "__version__", None),
        "the library": module.version(),
        "the description": re.search(r"^Description: .* (\S+)$", description, re.M)[1],
    }
    if set(found.values()) != {version}:
        yield f"the version {version} is another: {found}"
    major, conditions = upstream.split(".")[0], []
    conditions += [(f"= {upstream}.{release}", 0), (f">= {upstream}", 0), (f">= {major}", 0)]
    conditions += [(f"< {int(major) + 1}", 0), (f"= {upstream}.{int(release) + 1}", 1)]
    conditions += [(f"> {upstream}.{release}", 1), (f"< {upstream}", 1), (f">= {upstream}.99", 1)]
    for condition, status in conditions:
        words = ["pkg-config", "--exists", f"litrs {condition}"]
        if subprocess.run(words, env=paths_of(installed), check=False).returncode != status:
            yield f"pkg-config says otherwise of litrs {condition}"


def faults_of_words(folder, archive):
    """Yields the faults of the script's help, and of runs with wrong arguments."""
    room = folder / "words"
    room.mkdir()
    wrong = [[], [""], ["--nothing"], ["a", "b"], ["a", "--nothing"], ["--uninstall"]]
    wrong += [["--uninstall", "a", "b"], ["a", ""]]
    for words, status in [*((it, 2) for it in wrong), (["--help"], 0), (["a", "-h"], 0)]:
        ran = run_build(room, archive, *words)
        printed, silent = (ran.stdout, ran.stderr) if status == 0 else (ran.stderr, ran.stdout)
        begins = "Builds the C library" if status == 0 else "build: "
        if ran.returncode != status or silent or not printed.startswith(begins):
            yield f"build {words}: status {ran.returncode}, {ran.stdout}{ran.stderr}"
        if list(room.iterdir()):
            yield f"build {words} writes {list(room.iterdir())}"
    ran = run_build(room, "/dev/null", "a")
    if (ran.returncode, ran.stderr[:7]) != (1, "build: ") or list(room.iterdir()):
        yield f"build of an archive without calls: {ran.returncode}, {ran.stdout}{ran.stderr}"


INSTALLED = "include/litrs.h lib/liblitrs.a lib/liblitrs.so lib/liblitrs.so.1".split()
INSTALLED += "lib/liblitrs.so.1.0.1 lib/pkgconfig/litrs.pc share/litrs/litrs.py".split()


def faults_of_removal(folder, archive):
    """Yields the faults of the files below DESTDIR, once installed and once removed."""
    prefix, destination = str(folder / "usr"), "-package"
    top = pathlib.Path(f"{folder}/{destination}{prefix}")
    own = top / "include/own.h"
    own.parent.mkdir(parents=True)
    own.write_text("")

    def files():
        found = {str(it.relative_to(top)) for it in top.rglob("*") if not it.is_dir()}
        return found - {"include/own.h"}

    ran = run_build(folder, archive, prefix, DESTDIR=destination)
    if ran.returncode or files() != set(INSTALLED):
        yield f"below DESTDIR are {files()}: {ran.stderr}"
    pycache = top / "share/litrs/__pycache__"
    pycache.mkdir()
    (pycache / "litrs.cpython-311.pyc").write_text("")
    for status in (0, 1):
        ran = run_build(folder, archive, "--uninstall", prefix, DESTDIR=destination)
        if ran.returncode != status or files() or pycache.parent.exists() or not own.exists():
            yield f"removed with status {ran.returncode}: {files()} {ran.stdout}{ran.stderr}"
    (top / "lib/liblitrs.so").mkdir()
    if not run_build(folder, archive, prefix, DESTDIR=destination).returncode:
        yield "a folder in the place of a library is no fault"


def blocks_of_page(language):
    """Returns the blocks in `language` of the page of the crate."""
    page = (CRATE / "README.md").read_text()
    return re.findall(rf"^```{language}\n(.*?)^```", page, re.M | re.S)


def run_shell(folder, lines, environment):
    how = {"capture_output": True, "text": True, "check": False, "cwd": folder}
    return subprocess.run(["bash", "-e", "-c", lines], env=environment, **how)


def faults_of_move(folder, installed):
    """Yields the faults after the installed folder is moved to a name with a blank."""
    moved = folder / "moved here"
    installed.rename(moved)
    (folder / "moved.c").write_text(blocks_of_page("c")[0])
    lines = f"""eval "cc -o moved moved.c $(pkg-config --cflags --libs litrs)"
    LD_LIBRARY_PATH={shlex.quote(str(moved / "lib"))} ./moved
    eval "export PYTHONPATH=$(pkg-config --variable=pythondir litrs)"
    python3 -B -c 'import litrs; print(litrs.parse("1").value)'"""
    ran = run_shell(folder, lines, paths_of(moved))
    if (ran.stdout, ran.stderr) != (blocks_of_page("text")[0] + "1\n", ""):
        yield f"moved to a name with a blank: {ran.stdout}{ran.stderr}"[:600]
    moved.rename(installed)


def try_header(folder):
    """Compiles a program that includes the header twice, by each standard that a compiler at hand
    knows. Returns the number of standards, and the faults."""
    tried, faults = 0, []
    for language, compilers in COMPILERS.items():
        paths = {os.path.realpath(it) for it in map(shutil.which, compilers) if it}
        empty, source = folder / f"empty.{language}", folder / f"header.{language}"
        empty.write_text("int main(void) { return 0; }\n")
        source.write_text('#include "litrs.h"\n' * 2 + "struct litrs_answer;\n" + empty.read_text())
        for words in ([it, f"-std={by}"] for it in paths for by in STANDARDS[language]):
            words += ["-x", language, *WARNINGS, "-fsyntax-only", "-I", CRATE / "include"]
            if subprocess.run([*words, empty], capture_output=True, check=False).returncode:
                continue
            ran = subprocess.run([*words, source], capture_output=True, text=True, check=False)
            faults += [f"{words[:2]}: {ran.stderr[:300]}"] if ran.returncode else []
            tried += 1
    return tried, faults


def try_valgrind(program, rows):
    """Runs the program under valgrind over the shorter texts. Returns their number, and the
    faults."""
    if not shutil.which("valgrind"):
        print("c library: there is no valgrind here, which was not tried")
        return 0, []
    lines = [f"{it.text.hex()}\n" for it in rows if len(it.text) < PREFIXED]
    words = ["valgrind", "-q", "--error-exitcode=9", "--leak-check=full", program]
    ran = subprocess.run(words, input="".join(lines), capture_output=True, text=True, check=False)
    print(f"c library: {len(lines)} texts under valgrind")
    return len(lines), [f"valgrind: {ran.stderr[-600:]}"] if ran.returncode else []


def try_texts(folder, installed, module):
    """Tries all texts from C, and from Python in several threads at once. Returns the number of
    texts, and the faults."""
    wrap = "-Wl,--wrap=malloc,--wrap=realloc,--wrap=free"
    words = [TOP / ".ci/c_library.c", wrap, installed / "lib/liblitrs.a", "-pthread"]
    program = compiled(["cc", "-std=c99"], installed, folder / "program", *words)
    kinds = kinds_of_refusals()
    rows = [*wanted_of_rows(kinds), *wanted_of_tokens()]
    wanted = rows + list(wanted_of_prefixes(rows))
    wanted += [wanted_of_literal(*it) for it in float_numbers.drawn()]
    lines = "".join(f"{it.text.hex()}\n" for it in wanted)
    ran = subprocess.run([program], input=lines, capture_output=True, text=True, check=False)
    if ran.returncode:
        return len(wanted), [f"the C program ended with {ran.returncode}: {ran.stderr[:300]}"]
    with concurrent.futures.ThreadPoolExecutor(4) as threads:
        from_python = list(threads.map(lambda it: answer_of(module, it.text), wanted))
    faults = []
    for it, line, answer in zip(wanted, ran.stdout.splitlines(), from_python, strict=True):
        found = [*faults_of(it, line, answer), *faults_of_module(module, it)]
        faults += [f"{it.text[:60]}: {what}"[:600] for what in found]
    number, more = try_valgrind(program, rows)
    return len(wanted) + number, faults + more + list(faults_of_kinds(module, kinds))


def faults_of_steps(folder, installed):
    """Returns the texts that take more instructions than the table of the benchmark lists."""
    archive, source = installed / "lib/liblitrs.a", TOP / ".ci/parses.c"
    program = compiled(["cc", "-std=c99"], installed, folder / "parses", source, archive)
    return instructions.faults_of(folder, program)


def faults_of_kinds(module, kinds):
    """Yields the numbers whose names in the library are not those of the kinds, and the version if
    it is not that of the header."""
    if module.version() != re.search(r'LITRS_VERSION "(.*)"', HEADER)[1]:
        yield f"the library has the version {module.version()}"
    errors = {number: name for name, (number, _, _) in kinds.items()}
    literals = dict(enumerate(NAMES, 1))
    for call, names in (("kind", literals), ("error", errors), ("token_kind", TOKENS)):
        for number in [*range(100), 2**32 - 1]:
            text = module._StaticText(b"", 1)
            module._calls[f"get_{call}_name"](number, text)
            name = names.get(number, "Unknown")
            if (text.text.decode(), text.size) != (name, len(name) + 1):
                yield f"{call} {number} is called {text.text}, wanted {name}"


def faults_of_samples(folder, installed):
    """Yields the faults of the samples of the crate's page, built and run by its lines. The Nth
    sample must print the Nth block of output. Those in C come before those in Python."""
    in_c, in_python, printed = map(blocks_of_page, ("c", "python", "text"))
    dynamic, others, path = (it.replace("PREFIX", str(installed)) for it in blocks_of_page("sh"))
    others, path = (dynamic.splitlines(True)[0] + it for it in (others, path))
    if len(in_c + in_python) != len(printed):
        yield "a sample of the page does not say what it prints"
    for sample, wanted in zip(in_c, printed):
        (folder / "sample.c").write_text(sample)
        runs = [(dynamic, wanted), (others, wanted * 2)]
        for by in (["cc", "-std=c99"], ["c++", "-std=c++11", "-x", "c++"]):
            program = compiled(by, installed, folder / f"sample_{by[0]}", folder / "sample.c")
            runs.append((shlex.quote(str(program)), wanted))
        yield from faults_of_runs(folder, runs)
    for sample, wanted in zip(in_python, printed[len(in_c) :]):
        (folder / "sample.py").write_text(sample)
        yield from faults_of_runs(folder, [(f"{path}\npython3 -B sample.py", wanted)])


def faults_of_runs(folder, runs):
    """Yields the shell lines that fail, or that do not print the wanted text."""
    for lines, wanted in runs:
        ran = run_shell(folder, lines, os.environ)
        if (ran.stdout, ran.stderr, ran.returncode) != (wanted, "", 0):
            yield f"{lines}: status {ran.returncode}, {ran.stdout}{ran.stderr}"


def main():
    sys.dont_write_bytecode = True
    with tempfile.TemporaryDirectory(prefix="c-library-") as room:
        folder = pathlib.Path(room)
        installed, archive = build(folder)
        sys.path.append(flags(installed, "--variable=pythondir")[0])
        module = importlib.import_module("litrs")
        number, faults = try_texts(folder, installed, module)
        headers, more = try_header(folder)
        calls, of_calls = python_module.try_module(module)
        faults += [*more, *of_calls, *faults_of_names(installed)]
        faults += [*faults_of_samples(folder, installed), *faults_of_versions(installed, module)]
        faults += [*faults_of_words(folder, archive), *faults_of_removal(folder, archive)]
        faults += [*faults_of_move(folder, installed), *faults_of_steps(folder, installed)]
    number += len(instructions.table())
    print(*faults[:20], sep="\n", end="\n" if faults else "")
    print(f"c library: the header by {headers} standards, {calls} calls from Python")
    print(f"c library: {number + headers + calls + 31 - len(faults)} passed, {len(faults)} failed")
    return 1 if faults else 0


sys.exit(main())
