#!/usr/bin/env python3
"""Runs the program litrs_explain with each of its options.

    .ci/explain.py [PROGRAM]..

Runs both builds of crates/litrs_explain, which `rt ci` leaves in its out/, or the programs given:

- JSON, with the values that Python has;
- any text, with the places that Python counts and the tokens of rustc, and comments;
- literals and comments of many lines, in a time in proportion to their length;
- colors, which change nothing else;
- files, the standard input and texts, in each order, one of which cannot be read;
- wrong arguments, and bytes that are not UTF-8, in a line and in an argument;
- quotes and shebangs at lines that are not UTF-8, and a CR before a line end;
- outputs that are closed or full, an input that fails, and a terminal;
- a long text in short lines, of which the program must hold less than 1 MB;
- a long line, whose reports the program must not hold;
- a long line with many errors. Each is shown at its place, in a time that depends only on the text
  around it.

Makes each allocation of a run fail in turn. The run must end with status 2 and write a prefix of
the reports.
"""
import ast
import json
import os
import pathlib
import pty
import re
import resource
import select
import shlex
import signal
import subprocess
import sys
import tempfile

TOP = pathlib.Path(__file__).resolve().parent.parent
PROGRAM = TOP / "crates/litrs_explain/out/litrs_explain"
BITS = {"8": 8, "16": 16, "32": 32, "64": 64, "128": 128, "size": 64}
# The text of an integer, its digits and its suffix.
INTEGERS = [
    ("0", "0", ""),
    ("127", "127", ""),
    ("128i16", "128", "i16"),
    ("0xFF_u8", "FF_", "u8"),
    ("0b1_0000_0000", "1_0000_0000", ""),
    ("0o7_7usize", "7_7", "usize"),
    (str(2**63), str(2**63), ""),
    (str(2**127 - 1), str(2**127 - 1), ""),
    (str(2**128 - 1), str(2**128 - 1), ""),
    (str(2**128), str(2**128), ""),
]
# The name of a file, and how lines and messages show it.
SHOWN_NAMES = [
    ("a\x1b[2J\nb", rb"a\u{1b}[2J\nb"),
    ("a\u202eb\u200b", rb"a\u{202e}b\u{200b}"),
    ("na\u00efve \u2208", "na\u00efve \u2208".encode()),
]
# The text of a float, and its value as Rust's `{:?}` prints it, or `None` if it is infinite.
FLOATS = [
    ("1.5", "1.5"),
    ("1.", "1.0"),
    ("0.1", "0.1"),
    ("1_0.5E-1f64", "1.05"),
    ("2e-7", "2e-7"),
    ("1e15", "1000000000000000.0"),
    ("1e16", "1e16"),
    ("123456789012345678.0", "1.2345678901234568e17"),
    ("9007199254740993.0", "9007199254740992.0"),
    ("1e-400", "0.0"),
    ("5e-324", "5e-324"),
    ("1.7976931348623157e308", "1.7976931348623157e308"),
    ("1.5e-3f32", "0.0015"),
    ("1_6.7_f32", "16.7"),
    ("16777217.0f32", "16777216.0"),
    ("3.4028235e38f32", "3.4028235e38"),
    ("3.4028236e38f32", None),
    ("1e-45f32", "1e-45"),
    ("16777217.0x", "16777217.0"),
    ("1e400", None),
    ("3.5e38f32", None),
]
# The text of a string, and its value.
STRINGS = [('"a\\tb\\\\"', "a\tb\\"), ('"\\u{1f98a}é"', "\U0001f98aé"), ('r#"a"b"#', 'a"b')]
# A text with what is found in it: each literal, or a malformed one and its wrong part.
SOURCE = """fn f<'a>(x: &'a str) -> u8 { let s = "a
b" + foo1 + r#"x"y"# ; 0b12 + 1..2; 'x' }
// 日本 "\\q" b'\\xff' 1.5e3f32 true_ true
let t = c"open
"""
FOUND = ['"a\nb"', 'r#"x"y"#', "0b12:2", "1", "2", "'x'", '"\\q":\\q', "b'\\xff'", "1.5e3f32"]
FOUND += ["true", 'c"open:c"open']
# Texts, each with the literals and the names of errors that are found in it. The literals are those
# that rustc reads.
TOKENS = [
    ('let s = "a\\q\nb"; let n = 1;\nlet t = "x";\n', ["UnknownEscape", "1", '"x"']),
    ('b"é\n" 1 "x"\n', ["NonAsciiInByteLiteral", "1", '"x"']),
    ('cr#"\0"\n"# 1 "x"\n', ["NulByte", "1", '"x"']),
    ('"a\\q\\\n" 1\n', ["UnknownEscape", "1"]),
    ('r##"a"#\n"## 1\n', ['r##"a"#\n"##', "1"]),
    ("""'b"x" 1 "y"\n""", ['"x"', "1", '"y"']),
    ("r#true 1\n", ["1"]),
    ('r#c"é" 1\n', ['"é"', "1"]),
    ('r#true"a" 1\n', ['"a"', "1"]),
    ('true"a" 1\n', ['"a"', "1"]),
    ("'r#true 1 'true 2\n", ["1", "2"]),
    ('// don"t\n1 // it\'s "\n2\n', ["1", "2"]),
    ('/* " \n /* " */ \n " */ 1 /*/ "\n*/ 2 /**/ 3\n', ["1", "2", "3"]),
    ('/* "1" \n 2\n', []),
    ("'\n' 1\n", ["UnescapedSpecialWhitespace", "1"]),
    ("'\n 1\n", ["UnterminatedCharLiteral", "1"]),
    ("'(\n'c'\n", ["UnterminatedCharLiteral", "'c'"]),
    ('1/2 "a//b" 3\n', ["1", "2", '"a//b"', "3"]),
]
# Texts of settings, each with the syntax of its comments and its literals.
SETTINGS = [
    ("none", 'a = "//" / 1 // "x"\n', ['"//"', "1", '"x"']),
    ("none", "/* 1\n# 2\n*/ 3\n", ["1", "2", "3"]),
    ("hash", 'a = "#" # don"t 1\nb = 2 // 3 /* 4\n', ['"#"', "2", "3", "4"]),
    ("hash", '# "\nred#" 1\nr#"#"# 5 \'a# 6\n', ['r#"#"#', "5"]),
    ("rust", "1 # 2 // 3\n", ["1", "2"]),
]
# A literal of each kind.
KINDS = ["true", "0xFF_u8", "1.5e3f32", "'\\u{1f98a}'", "b'\\xff'", '"a\\tb"', 'b"\\xff"', 'c"\\n"']


TEXT_HELP = b"litrs_explain: help: the argument is a literal: -e explains it\n"
PREFIX_HELP = b"litrs_explain: help: --prefix finds the literals within lines\n"
FULL = b"litrs_explain: standard output: No space left on device (os error 28)\n"
CLOSED = b"litrs_explain: standard output: Bad file descriptor (os error 9)\n"
MORE = b"\n  this is incomplete: more text can complete it\n"
NO_MORE = b"\n  no continuation of this text is a literal\n"
README = (TOP / "README.md").read_text()
VERSION = f"litrs_explain {re.search('version is ([^ ]+)[.] ', README)[1]}\n".encode()


def place(text, at):
    """Returns the line and the column of a place in a text, both counted from 1."""
    return text.count("\n", 0, at) + 1, at - text.rfind("\n", 0, at)


class Tests:
    """The runs of one build."""

    def __init__(self, program):
        self.program, self.number, self.faults = program, 0, []

    def run(self, *words, given=b"", **how):
        """Runs the program. Returns its output, message and status."""
        how = {"capture_output": True, "timeout": 120, "check": False} | how
        ran = subprocess.run([self.program, *words], input=given, **how)
        return ran.stdout, ran.stderr, ran.returncode

    def hold(self, holds, what):
        self.number += 1
        if not holds:
            self.faults.append(f"{self.program}: {what}"[:400])

    def objects(self, *words, given, status, **how):
        """Returns the JSON objects of a run that must end with `status`."""
        given = given.encode() if isinstance(given, str) else given
        out, said, was = self.run("--format", "json", *words, given=given, **how)
        self.hold((said, was) == (b"", status), f"{words} ends with {was} and says {said}")
        return [json.loads(it) for it in out.splitlines()]

    def try_integers(self):
        lines = "".join(f"{text}\n" for text, _, _ in INTEGERS)
        objects = self.objects(given=lines, status=0)
        self.hold(len(objects) == len(INTEGERS), "as many objects as integers")
        for number, ((text, digits, suffix), it) in enumerate(zip(INTEGERS, objects)):
            base = {"0x": 16, "0b": 2, "0o": 8}.get(text[:2], 10)
            value = int(digits.strip("_"), base)
            fits = [f"u{it}" for it, bits in BITS.items() if value < 2**bits]
            fits += [f"i{it}" for it, bits in BITS.items() if value < 2 ** (bits - 1)]
            wanted = {
                "file": "<stdin>",
                "line": number + 1,
                "column": 1,
                "end_line": number + 1,
                "end_column": len(text) + 1,
                "start": lines.index(f"{text}\n"),
                "end": lines.index(f"{text}\n") + len(text),
                "kind": "integer",
                "text": text,
                "suffix": suffix,
                "parts": {
                    "value": str(value) if value < 2**128 else "2^128 or more",
                    "base": base,
                    "digits": digits,
                    "fits": fits,
                },
            }
            self.hold(it == wanted, f"{text}: {it}")

    def try_floats(self):
        """Tries the values of floats: in JSON, as numbers with these digits, and in the lines."""
        lines = "".join(f"{text}\n" for text, _ in FLOATS)
        out, said, status = self.run("--format", "json", given=lines.encode())
        self.hold((said, status) == (b"", 0), f"floats: {said} {status}")
        shown = self.run(given=lines.encode())[0].decode()
        shown = re.findall(r": float\n  value (.*)\n  integer part ", shown)
        objects = out.decode().splitlines()
        self.hold(len(shown) == len(FLOATS), f"{len(shown)} floats with a value")
        self.hold(len(objects) == len(FLOATS), f"{len(objects)} objects of floats")
        for (text, value), line, it in zip(FLOATS, shown, objects):
            name = "f32" if text.endswith("f32") else "f64"
            infinite = f"infinity, out of range for {name}"
            self.hold(line == (infinite if value is None else value), f"{text}: {line}")
            written = f',"parts":{{"value":{"null" if value is None else value},"integer":"'
            self.hold(written in it, f"{text}: {it}")

    def try_sign(self):
        """Tries the line on a sign before a number."""
        for text, kind in (("-3", "an integer"), ("-0x1F_u8", "an integer"), ("-1.5e3", "a float")):
            note = f"  a sign is not part of a literal: without it, this is {kind}\n".encode()
            out, _, status = self.run(f"--text={text}")
            self.hold(out.endswith(NO_MORE + note) and status == 1, f"{text}: {out}")
        for text in ("--3", "- 3", "-0b12", "-true", '-"a"', "-", "+3", "3-3"):
            out, _, status = self.run(f"--text={text}")
            self.hold(b"sign" not in out and status == 1, f"{text}: {out}")

    def try_strings(self):
        lines = "".join(f"{text}\n" for text, _ in STRINGS)
        objects = self.objects(given=lines, status=0)
        self.hold(len(objects) == len(STRINGS), f"{len(objects)} objects of strings")
        for (text, value), it in zip(STRINGS, objects):
            self.hold(it["parts"] == {"value": value}, f"{text}: {it}")
        (it,) = self.objects(given='b"a\\xff"\n', status=0)
        self.hold(it["parts"] == {"hex": ast.literal_eval(it["text"]).hex()}, f"{it}")

    def try_places(self):
        """Tries places in any text, also if its lines end in CR LF and it begins with a byte order
        mark."""
        for ends, mark in (("\n", ""), ("\r\n", ""), ("\n", "\ufeff"), ("\r\n", "\ufeff")):
            source = SOURCE.replace("\n", ends)
            words = ["--prefix", "--comments", "none"]
            objects = self.objects(*words, given=mark + source, status=1)
            self.hold(len(objects) == len(FOUND), f"{len(objects)} are found")
            at = 0
            for wanted, it in zip(FOUND, objects):
                text, _, wrong = wanted.partition(":")
                held = text.replace("\n", ends)
                at = re.compile(rf"(?<!\w){re.escape(held)}(?!\w)").search(source, at).start()
                start = at + (text.index(wrong) if wrong else 0)
                end = start + len(wrong or held)
                where = [it["line"], it["column"], it["end_line"], it["end_column"]]
                self.hold(where == [*place(source, start), *place(source, end)], f"{wanted}: {it}")
                places = [len((mark + source[:n]).encode()) for n in (start, end)]
                self.hold([it["start"], it["end"]] == places, f"{places} of {wanted}: {it}")
                self.hold(it["kind"] == "error" if wrong else it["text"] == text, f"{it}")
                at += len(held)
            self.hold(objects[-1]["incomplete"], "more text can complete the last")

    def found(self, *words, given, is_wrong):
        """Returns the texts of literals and the names of errors in a text. They must be the same if
        its lines end in CR LF."""
        wanted = None
        for ends in ("\n", "\r\n"):
            text = given.replace("\n", ends)
            objects = self.objects("--prefix", *words, given=text, status=int(is_wrong))
            found = [it.get("error", it.get("text")) for it in objects]
            self.hold(found == (wanted or found), f"{given!r} with {ends!r}: {found}")
            wanted = found
            for it in objects:
                part = text.encode()[it["start"] : it["end"]].decode()
                right = "error" in it or part.replace("\r\n", "\n") == it["text"]
                self.hold(right, f"{text!r}: {part!r} is at the place of {it}")
        return wanted

    def try_tokens(self):
        """Tries literals within others, in names and in comments, and the comments of settings."""
        for text, wanted in TOKENS:
            is_wrong = any(it[0].isupper() for it in wanted)
            found = self.found(given=text, is_wrong=is_wrong)
            self.hold(found == wanted, f"{text!r}: {found}")
        for comments, text, wanted in SETTINGS:
            found = self.found("--comments", comments, given=text, is_wrong=False)
            self.hold(found == wanted, f"{comments} {text!r}: {found}")
        found = self.objects("--prefix", given=b'"a\n\xff"; 1\nlet t = "x";\n', status=1)
        found = [it.get("error", it.get("text")) for it in found]
        self.hold(found == ["NotUtf8", '"x"'], f"a byte in a string: {found}")
        bad = b"/*\n\xff*/ 1\n2 '\xff' \"\n\" 3\n"
        found = self.objects("--prefix", given=bad, status=1)
        found = [it.get("error", it.get("text")) for it in found]
        self.hold(found == ["NotUtf8", "NotUtf8", "3"], f"bytes in other places: {found}")
        given = '"x\r\n\\q\r\nb"'
        (it,) = self.objects("--prefix", given=given, status=1)
        places = [it[key] for key in ("line", "column", "start", "end")]
        self.hold(places == [2, 1, given.index("\\q"), given.index("\\q") + 2], f"{it}")

    def try_held(self):
        """Tests that held text is dropped with its last line, before the next line is read."""
        words = [self.program, "--prefix", "--format", "json"]
        for given in (b'"a\nb"\n1', b'"a\\q\nb" 1\n', b"/*\n*/ 1\n", b"r#\"\n\"# 1\n"):
            child, terminal = pty.fork()
            if child == 0:
                try:
                    os.execve(words[0], words, {})
                finally:
                    os._exit(127)
            os.write(terminal, given.rstrip(b"\n") + b"\n")
            written = b""
            while b'"kind"' not in written and select.select([terminal], [], [], 20)[0]:
                written += os.read(terminal, 4096)
            self.hold(b'"kind"' in written, f"{given} is not reported: {written}")
            os.kill(child, signal.SIGKILL)
            os.waitpid(child, 0)
            os.close(terminal)

    def try_many_lines(self):
        """Tests that the time for literals and comments of many lines is in proportion to their
        length."""
        kinds = [b'"\\q' + b"a\n" * 9, b'r#"' + b'"a"\n' * 9, b"/*" + b"/* a */\n" * 9]
        kinds += [b"/*\n" * 9, b'"' + b'\\"\n' * 9, b"r" + b"#" * 200 + b'"' + b'"#\n' * 9]
        for kind in kinds:
            first, second = kind[: kind.index(b"\n") + 1], kind[kind.index(b"\n") + 1 :]
            self.try_linear(["--prefix"], b"0b2\n" + first, second, 5_000)

    def try_page(self, folder):
        """Tries the line of JSON in docs/EXPLAIN.md."""
        (folder / "a.rs").write_bytes(b"rename = 0xFF_u8\n")
        out, _, _ = self.run("--prefix", "--format", "json", "a.rs", cwd=folder)
        page = (TOP / "docs/EXPLAIN.md").read_text()
        self.hold(f"\n```json\n{out.decode()}```\n" in page, f"the page has other JSON: {out}")

    def try_errors(self):
        """Tries the names of errors, and whether more text can complete the input."""
        given = "yes\n1e\n0b12\n'ab'\n\"\\q\"\n\"a\n"
        found = [(it["error"], it["incomplete"]) for it in self.objects(given=given, status=1)]
        wanted = [("InvalidLiteral", False), ("NoExponentDigits", True), ("InvalidDigit", False)]
        wanted += [("OverlongCharLiteral", False), ("UnknownEscape", False)]
        self.hold(found == [*wanted, ("UnterminatedString", True)], f"{found}")
        for text, note in (("0b12", NO_MORE), ("1e", MORE)):
            out, _, status = self.run("-e", text)
            self.hold(out.endswith(note) and status == 1, f"{text}: {out}")

    def try_colors(self):
        """Tries the colors, which are those of rustc: the word `error` and carets bold red, the
        gutter bold blue."""
        given = b"1\n0b12\n'a'\n'--> | ab'\n\"a\n\n\nb\n"
        plain = self.run(given=given)
        self.hold(plain == self.run("--color", "never", given=given), "without colors")
        out, said, status = self.run("--color", "always", given=given)
        self.hold((re.sub(rb"\x1b\[[\d;]*m", b"", out), said, status) == plain, "but for colors")
        colored = {}
        for color, text in re.findall(rb"\x1b\[([1-9][\d;]*)m([^\x1b]*)\x1b\[0m", out):
            colored.setdefault(color, set()).add(text)
        carets = {b"    ^", b" " + b"^" * 10, b" ^^", b" ^"}
        gutters = {b" -->", b"  |", b"2 |", b"4 |", b"5 |", b"8 |", b"..."}
        wanted = {b"32": {b"<stdin>:1:1:", b"<stdin>:3:1:"}}
        wanted |= {b"1;31": {b"error", *carets}, b"1;34": gutters}
        self.hold(colored == wanted, f"{colored}")
        objects = self.run("--format", "json", given=given)
        same = self.run("--format", "json", "--color", "always", given=given)
        self.hold(objects == same, "JSON has no colors")

    def try_options(self):
        """Tries repeated options, of which the last counts, texts, the help and the version."""
        last = self.run("--color", "always", "--color", "never", "-e", "1")
        self.hold(last == self.run("-e", "1") and last[2] == 0, f"the last color: {last}")
        json_first = ["--format", "json", "--format", "text", "--prefix", "--prefix"]
        self.hold(self.run(*json_first, "-e", "1") == last, "the last format")
        out, said, status = self.run("-e", "1", "-e", "-1", "--text=true")
        self.hold(re.findall(rb"<text>:1:1", out) == [b"<text>:1:1"] * 3, f"{out}")
        self.hold((said, status) == (b"", 1), f"{said} {status}")
        for word in ("-V", "--version"):
            self.hold(self.run(word) == (VERSION, b"", 0), f"{word}: {self.run(word)}")
        out, said, status = self.run("--help")
        self.hold((said, status) == (b"", 0), f"help: {said} {status}")
        for word in (b"--prefix", b"-e, --text", b"--format", b"--color", b"--version", b"FILE"):
            self.hold(word in out, f"help of {word}")
        for words in (["--absent"], ["--format", "xml"], ["--color"], ["-e"], ["-x"]):
            out, said, status = self.run(*words)
            self.hold((out, status) == (b"", 2) and said, f"{words}: {out} {said} {status}")

    def try_files(self, folder):
        (folder / "a.txt").write_bytes(b"1\n\xff\n2")
        (folder / "b.txt").write_bytes(b"true\r\n")
        out, said, status = self.run("a.txt", "absent", "b.txt", cwd=folder)
        self.hold(said == b"litrs_explain: absent: No such file or directory (os error 2)\n", said)
        self.hold(status == 2, f"the status of an absent file is {status}")
        heads = re.findall(rb"^(?: *--> )?([ab]\.txt:\d+:\d+)", out, re.M)
        wanted = [b"a.txt:1:1", b"a.txt:2:1", b"a.txt:3:1", b"b.txt:1:1"]
        self.hold(heads == wanted, f"{heads}")
        self.hold(b"\nerror: byte that is not UTF-8\n" in out, "the byte is an error")
        (it,) = self.objects("a.txt", given="", status=1, cwd=folder)[1:2]
        found = [it[key] for key in ("line", "column", "start", "end", "error", "incomplete")]
        self.hold(found == [2, 1, 2, 3, "NotUtf8", False], f"{it}")
        for words in (["-", "b.txt"], ["b.txt", "-"], ["b.txt", "-e", "2"], ["-e", "2", "b.txt"]):
            out, said, status = self.run(*words, given=b"3\n", cwd=folder)
            heads = re.findall(rb"^(\S+):1:1:", out, re.M)
            names = {"-": b"<stdin>", "b.txt": b"b.txt", "-e": b"<text>"}
            order = sorted((it for it in words if it in names), key=lambda it: it != "-e")
            self.hold(heads == [names[it] for it in order], f"{words}: {heads}")
            self.hold((said, status) == (b"", 0), f"{words}: {said} {status}")
        out, said, status = self.run("-", "-", given=b"3\n")
        self.hold(out.count(b"<stdin>:1:1:") == 1 and (said, status) == (b"", 0), f"{out} {said}")
        out, said, status = self.run("--", "b.txt", "-V", cwd=folder)
        self.hold(out.startswith(b"b.txt:1:1:") and status == 2 and b": -V: " in said, f"{said}")
        self.hold(self.run("b.txt", "--format", "json", cwd=folder)[0][:1] == b"{", "option last")
        for name, shown in SHOWN_NAMES:
            (folder / name).write_bytes(b"1\n0b2\n")
            out, said, status = self.run(name, cwd=folder)
            is_shown = out.startswith(shown + b":1:1:") and b"--> " + shown + b":2:3\n" in out
            is_raw = name.encode() in out and name.encode() != shown
            ended = (said, status) == (b"", 1)
            self.hold(is_shown and not is_raw and ended, f"{name!r}: {out} {said} {status}")
            names = [it["file"] for it in self.objects(name, given="", status=1, cwd=folder)]
            self.hold(names == [name] * 2, f"{name!r}: {names}")

    def try_hints(self, folder):
        """Tries hints, which name an option, and texts without hints."""
        (folder / "code.rs").write_bytes(b"fn main() {\n    1;\n}\n")
        for text in ("0xFF_u8", '"a/b"', "true"):
            out, said, status = self.run(text, cwd=folder)
            absent = f"litrs_explain: {text}: No such file or directory (os error 2)\n"
            self.hold(said == absent.encode() + TEXT_HELP, f"{said}")
            self.hold((out, status) == (b"", 2), f"{out} {status}")
        self.hold(TEXT_HELP not in self.run("absent", cwd=folder)[1], "no hint")
        out, said, status = self.run("code.rs", "code.rs", cwd=folder)
        self.hold((said, status) == (PREFIX_HELP, 1), f"a source file: {said} {status}")
        self.hold(out.count(b"error") == 6, f"{out}")
        for words in (["--prefix"], ["--format", "json"], ["-e", "cat"]):
            said = self.run(*words, *["code.rs"] * (words[0] != "-e"), cwd=folder)[1]
            self.hold(said == b"", f"no hint of {words}: {said}")
        self.hold(self.run(given=b"1\n2\ncat\n0b12\n")[1] == b"", "no hint of a list")

    def try_skipped(self):
        """Tests that empty lines are skipped, and a byte order mark only at the front."""
        for given in (b"", b"\n", b"\r\n\n", b"\xef\xbb\xbf", b"\xef\xbb\xbf\n"):
            for words in ([], ["--prefix"]):
                self.hold(self.run(*words, given=given) == (b"", b"", 0), f"{words} {given}")
        for words in ([], ["--prefix"]):
            out, said, status = self.run(*words, given=b"\xef\xbb\xbf1\n\n\"a\n\nb\"\n")
            self.hold(re.findall(rb"n>:(\d:\d)", out) == [b"1:1", b"3:1"], f"{out}")
            self.hold(b'value "a\\n\\nb"' in out and (said, status) == (b"", 0), f"{out} {said}")
        self.hold(b"u{feff}" in self.run(given=b"1\n\xef\xbb\xbf1\n")[0], "a mark at no front")
        bad = self.objects(given=b"\xef\xbb\xbf1\xff2\n", status=1)[0]
        self.hold([bad["column"], bad["start"], bad["end"]] == [2, 4, 5], f"{bad}")

    def try_shebang(self, folder):
        """Tests that a shebang is skipped only in Rust source, and that the text after it keeps its
        place."""
        for shebang in ("#!/usr/bin/env -S run 1 'a'\n", "#! é \" /* 2\r\n", "#!\n"):
            for mark in ("", "\ufeff"):
                found = self.objects("--prefix", given=mark + shebang + ' "x"\n', status=0)
                keys = ("text", "line", "column", "start")
                places = [[it.get(key) for key in keys] for it in found]
                start = len((mark + shebang).encode()) + 1
                self.hold(places == [['"x"', 2, 2, start]], f"{mark!r} {shebang!r}: {places}")
        runs = [
            ("rust", '#![doc = "a"] 1\n', ['"a"', "1"]),
            ("rust", '#! /* b */ [doc = "a"] 1\n', ['"a"', "1"]),
            ("rust", "#! /// a\n1\n", ["1"]),
            ("rust", "1\n#!/bin/run 2\n", ["1", "2"]),
            ("rust", " #!/bin/run 2\n", ["2"]),
            ("rust", "#!/bin/run 1", []),
            ("none", "#!/bin/run 1\n2\n", ["1", "2"]),
            ("hash", '#!/bin/run 1\n"2"\n', ['"2"']),
        ]
        for comments, text, wanted in runs:
            found = self.found("--comments", comments, given=text, is_wrong=False)
            self.hold(found == wanted, f"{comments} {text!r}: {found}")
        (folder / "a.rs").write_bytes(b"#!/bin/run 1\n2\n")
        found = self.objects("--prefix", "a.rs", "a.rs", given="", status=0, cwd=folder)
        self.hold([it.get("text") for it in found] == ["2", "2"], f"two files: {found}")
        self.hold(self.run("-e", "#!/bin/run")[2] == 1, "no shebang where lines are literals")
        (it,) = self.objects("--prefix", given=b"#!/bin/run \xff 1\n", status=1)
        self.hold(it["error"] == "NotUtf8", f"a shebang that is not UTF-8: {it}")

    def try_bad_lines(self):
        """Tests what a line that is not UTF-8 ends and begins, and that a CR before a line end is
        shown if it is wrong."""
        runs = [
            (b"'\n\xff\n", ["UnterminatedCharLiteral", "NotUtf8"]),
            (b"b'\n# \xff\n1\n", ["UnterminatedByteLiteral", "NotUtf8", "1"]),
            (b"1 '\n\xff\n2\n", ["1", "UnterminatedCharLiteral", "NotUtf8", "2"]),
            (b"'\n'\xff\n1\n", ["NotUtf8", "1"]),
            (b"\xff '\n\xff\n1\n", ["NotUtf8", "NotUtf8", "1"]),
            (b'"\n\xff\n" 1\n', ["NotUtf8", "1"]),
            (b'#!/bin/sh \xff "\n1\n', ["NotUtf8", "1"]),
            (b"#!/bin/sh \xff /*\n1\n", ["NotUtf8", "1"]),
            (b'#![a] \xff "\n1\n" 2\n', ["NotUtf8", "2"]),
            (b'\xff #! "\n1\n" 2\n', ["NotUtf8", "2"]),
            (b'// \xff "\n1\n', ["NotUtf8", "1"]),
        ]
        for given, wanted in runs:
            found = self.objects("--prefix", given=given, status=1)
            found = [it.get("error", it.get("text")) for it in found]
            self.hold(found == wanted, f"{given}: {found}")
        for given in (b'"a\r\r\nb"', b'"a\r\r\n', b'"a\rb"'):
            for words in ([], ["--prefix"]):
                out = self.run(*words, given=given)[0]
                self.hold(b'\n1 | "a\\u{d}' in out and b"\n  |   ^^^^^\n" in out, f"{given}: {out}")

    def try_not_utf8(self, folder):
        """Tests that an argument that is not UTF-8 is named, and that the others are explained."""
        (folder / "b.txt").write_bytes(b"true\r\n")
        (folder / os.fsdecode(b"z\xff\n.txt")).write_bytes(b"true")
        for words in ([b"z\xff\n.txt", b"b.txt"], [b"b.txt", b"z\xff\n.txt"]):
            out, said, status = self.run(*words, cwd=folder)
            self.hold(said == b"litrs_explain: z\\xff\\n.txt: the argument is not UTF-8\n", said)
            self.hold(out.startswith(b"b.txt:1:1: bool") and status == 2, f"{out} {status}")
        out, said, status = self.run(b"-e", b"\xff", b"-e", b"1")
        self.hold(out.startswith(b"<text>:1:1: integer") and status == 2, f"{out} {status}")
        self.hold(said == b"litrs_explain: \\xff: the argument is not UTF-8\n", said)
        for word in (b"--\xff", b"-\xff", b"--a\xff=1", b"--color=\xff", b"--color=\xff\xfe"):
            name = word.replace(b"\xff", rb"\xff").replace(b"\xfe", rb"\xfe")
            wanted = b"litrs_explain: " + name + b": the argument is not UTF-8\n"
            for words in ([word], [word, b"b.txt"], [b"-e", b"1", word, b"--absent"]):
                ended = self.run(*words, cwd=folder)
                self.hold(ended == (b"", wanted, 2), f"{words}: {ended}")
        out, said, status = self.run(b"--absent", b"\xff")
        self.hold((out, status) == (b"", 2) and b"'--absent'" in said, f"{out} {said} {status}")
        long = b"9" * 100_000
        self.hold(self.run(b"-e", long)[0].count(long) == 1, "a long argument")

    def try_streams(self, folder):
        """Tries streams that are closed, full or a directory."""
        (folder / "good.rs").write_bytes(b"true\n")
        absent = b"litrs_explain: missing.rs: No such file or directory (os error 2)\n"
        files = "missing.rs good.rs missing.rs"
        wanted = self.run("good.rs", cwd=folder)[0]
        runs = [
            (f"{files}", 2, wanted, absent * 2),
            (f"{files} 2>&-", 2, wanted, b""),
            (f"{files} 2>/dev/full", 2, wanted, b""),
            ("good.rs >/dev/full", 2, b"", FULL),
            ("good.rs >/dev/full 2>&-", 2, b"", b""),
            ("good.rs >/dev/full 2>/dev/full", 2, b"", b""),
            ("good.rs >&-", 2, b"", CLOSED),
            ("--help >/dev/full", 2, b"", FULL),
            ("--help >&-", 2, b"", CLOSED),
            ("--absent 2>&-", 2, b"", b""),
            ("--absent 2>/dev/full", 2, b"", b""),
            ("< /", 2, b"", b"litrs_explain: standard input: Is a directory (os error 21)\n"),
            ("/ good.rs", 2, wanted, b"litrs_explain: /: Is a directory (os error 21)\n"),
            ("- good.rs < /", 2, wanted, b"litrs_explain: standard input: Is a directory (os error 21)\n"),
        ]
        for words, *ends in runs:
            how = {"capture_output": True, "cwd": folder, "timeout": 100, "check": False}
            program = shlex.quote(self.program)
            ran = subprocess.run(["sh", "-c", f"exec {program} {words}"], **how)
            ended = [ran.returncode, ran.stdout, ran.stderr]
            self.hold(ended == ends, f"{words}: {ended}")

    def try_closed(self):
        """Tries an output that its reader has closed. The run is silent, and its status is that of
        the text that was read."""
        read, write = os.pipe()
        os.close(read)
        runs = [([], b"1\n" * 100_000, 0), (["--help"], b"", 0), (["-V"], b"", 0)]
        runs += [(["--format", "json"], b"1\n" * 100_000, 0), ([], b"0b12\n", 1)]
        runs += [(["-e", "1"], b"", 0), (["--prefix"], b"0b12 " * 100_000, 1)]
        for words, given, status in runs:
            how = {"input": given, "stdout": write, "stderr": subprocess.PIPE, "check": False}
            ran = subprocess.run([self.program, *words], **how)
            said = ran.stderr, ran.returncode
            self.hold(said == (b"", status), f"a closed output of {words}: {said}"[:200])
        os.close(write)

    def try_failing_reads(self, folder):
        """Tests that the reports on the lines before a failing read are written."""
        library = folder / "fail_io.so"
        words = ["cc", "-shared", "-fPIC", "-o", library, TOP / ".ci" / "fail_io.c"]
        subprocess.run(words, check=True)
        lines = [f"{it}\n".encode() for it in range(10_000)]
        for piece, fails in ((7, 2), (7, 100), (100, 1), (4096, 3), (4096, 9)):
            env = {"LD_PRELOAD": str(library), "READ_PIECE": str(piece), "IO_ERROR": "5"}
            env["READ_FAILS"] = str(fails)
            out, said, status = self.run(given=b"".join(lines), env=env)
            read = b"".join(lines)[: piece * (fails - 1)]
            whole = self.run(given=read[: read.rfind(b"\n") + 1])[0]
            self.hold(out == whole, f"read {fails} of {piece} bytes fails: {len(out)} bytes of {len(whole)}")
            self.hold(said == b"litrs_explain: standard input: Input/output error (os error 5)\n", said)
            self.hold(status == 2, f"read {fails} of {piece} bytes fails: {status}")

    def on_terminal(self, *words, given, env):
        """Returns the output to a terminal on which `given` is typed, and the status of the run."""
        child, terminal = pty.fork()
        if child == 0:
            try:
                os.execve(self.program, [self.program, *words], env)
            finally:
                os._exit(127)
        os.write(terminal, given)
        written = b""
        while True:
            if not select.select([terminal], [], [], 20)[0]:
                os.kill(child, signal.SIGKILL)
            try:
                piece = os.read(terminal, 4096)
            except OSError:
                break
            if not piece:
                break
            written += piece
        status = os.waitstatus_to_exitcode(os.waitpid(child, 0)[1])
        os.close(terminal)
        return written, status

    def try_terminal(self):
        """Tries colors on a terminal, which the environment can turn off, and the end of the typed
        input."""
        runs = [({}, True), ({"NO_COLOR": "1"}, False), ({"NO_COLOR": ""}, True)]
        runs += [({"TERM": "dumb"}, False), ({"TERM": "xterm"}, True)]
        for env, is_colored in runs:
            out, status = self.on_terminal("-e", "0b12", given=b"", env=env)
            self.hold((b"\x1b[" in out, status) == (is_colored, 1), f"{env}: {out} {status}")
            always = ["--color", "always", "-e", "1"]
            out, status = self.on_terminal(*always, given=b"", env=env)
            self.hold((b"\x1b[" in out, status) == (True, 0), f"{env}: {out} {status}")
        # The line has no LF, so Ctrl-D is typed twice.
        out, status = self.on_terminal("--color", "never", given=b"1\n23\x04\x04", env={})
        self.hold(b"value 1\r\n" in out and b"value 23\r\n" in out and status == 0, f"{out}")

    def try_memory_held(self, folder):
        """Tests how many bytes a run holds: less than four times a line of 1.6 MB, so not the
        reports on its words, and less than 1 MB of a text of 14 MB in short lines."""
        library, peak = folder / "peak.so", folder / "peak"
        words = ["cc", "-O1", "-shared", "-fPIC", "-o", library, TOP / ".ci" / "peak.c"]
        subprocess.run(words, check=True)
        env = {"LD_PRELOAD": str(library), "PEAK": str(peak)}
        lines = b"let x = 0xFF_u8 + foo(\"a\\n\", 'b'); // 1.5e3\n" * 320_000
        for given, most, status in [(b"0b2 " * 400_000, 6_400_000, 1), (lines, 1_000_000, 0)]:
            for words in (["--prefix"], ["--prefix", "--format", "json"]):
                with open(folder / "written", "wb+") as written:
                    how = {"stdout": written, "env": env, "capture_output": False}
                    ended = self.run(*words, given=given + b"7_7", **how)[2]
                    written.seek(max(written.seek(0, os.SEEK_END) - 500, 0))
                    is_read = b"7_7" in written.read()
                held = int(peak.read_text())
                what = f"{words} hold {held} bytes of {len(given)}, and end with {ended}, {is_read}"
                self.hold(1000 < held < most and ended == status and is_read, what)

    def seconds(self, *words, given):
        """Returns the processor time of a run that reports an error."""
        before = resource.getrusage(resource.RUSAGE_CHILDREN)
        how = {"input": given, "stdout": subprocess.DEVNULL, "timeout": 100, "check": False}
        try:
            ran = subprocess.run([self.program, *words], **how)
            self.hold(ran.returncode == 1, f"{words} over a long line ends with {ran.returncode}")
        except subprocess.TimeoutExpired:
            return float("inf")
        after = resource.getrusage(resource.RUSAGE_CHILDREN)
        return after.ru_utime + after.ru_stime - before.ru_utime - before.ru_stime

    def try_linear(self, words, front, part, count):
        """Tests that four times `count` copies of `part` after `front` take less than eight times
        the processor time of `count`. Both are run up to five times, since other processes slow
        down a run."""
        for _ in range(5):
            texts = (front + part * it for it in (count, 4 * count))
            short, long = (self.seconds(*words, given=it) for it in texts)
            if is_linear := long < 8 * short + 0.5:
                break
        took = f"{short} s, and {long} s for four times it"
        self.hold(is_linear, f"{words}: {part!r} takes {took}")

    def try_refused(self):
        """Tries a line with an error in each of its words."""
        wrong, count = "'ab' ", 2000
        line = wrong * count
        objects = self.objects("--prefix", given=line, status=1)
        columns = [it["column"] for it in objects]
        self.hold(columns == list(range(1, len(line), len(wrong))), "the columns of a long line")
        start = len(wrong) * (count // 2)
        end = start + 4
        shown = f"...{line[start - 48 : end + 48]}...\n  | {' ' * 51}^^^^\n"
        report = f" --> <stdin>:1:{start + 1}\n  |\n1 | {shown}"
        out, _, _ = self.run("--prefix", given=line.encode())
        self.hold(report.encode() in out, f"what is shown of a long line at {start}")
        for words in (["--prefix"], ["--prefix", "--format", "json"]):
            self.try_linear(words, b"", wrong.encode(), 20_000)

    def try_memory(self, folder):
        """Makes each allocation fail in turn, over a literal of each kind and some errors."""
        library, text, records = (folder / it for it in ("refuse.so", "text", "records"))
        words = ["cc", "-O1", "-shared", "-fPIC", "-o", library, TOP / ".ci" / "refuse.c"]
        subprocess.run(words, check=True)
        text.write_text(f"{' '.join(KINDS)}\n'ab' 0b12 1e\n\"a\nb\" \"open\n")
        for format in ("text", "json"):
            words = [self.program, "--prefix", "--format", format, text]
            env = {"LD_PRELOAD": library, "REFUSED": records}
            ran = subprocess.run(words, capture_output=True, env=env, timeout=100, check=False)
            self.hold((ran.returncode, ran.stderr) == (1, b""), f"{ran.returncode} {ran.stderr}")
            again, tried = 0, set()
            with open(records, "rb") as file:
                for head in file:
                    how, number, asked, before, status, size = head.split()
                    printed = file.read(int(size) + 1)[:-1]
                    tried.add(how)
                    stays = (printed, status) == (ran.stdout, b"1")
                    again += stays and int(asked) > int(before)
                    reports, _, message = printed.rpartition(b"litrs_explain: ")
                    stops = status == b"2" and message and ran.stdout.startswith(reports)
                    what = f"allocation {number} {how} refused: {printed[-200:]}, {status}"
                    self.hold(stays or stops, what)
            self.hold(again == 0, f"{again} refused allocations change nothing")
            self.hold(tried == {b"one", b"all"}, f"allocations are refused {tried}")


def main():
    faults, number = [], 0
    for program in sys.argv[1:] or (PROGRAM, f"{PROGRAM}.by-rattle"):
        tests = Tests(os.path.abspath(program))
        with tempfile.TemporaryDirectory(prefix="explain-") as room:
            folder = pathlib.Path(room)
            tests.try_integers()
            tests.try_floats()
            tests.try_sign()
            tests.try_strings()
            tests.try_places()
            tests.try_tokens()
            tests.try_held()
            tests.try_many_lines()
            tests.try_page(folder)
            tests.try_errors()
            tests.try_colors()
            tests.try_options()
            tests.try_files(folder)
            tests.try_hints(folder)
            tests.try_skipped()
            tests.try_shebang(folder)
            tests.try_bad_lines()
            tests.try_not_utf8(folder)
            tests.try_streams(folder)
            tests.try_closed()
            tests.try_failing_reads(folder)
            tests.try_terminal()
            tests.try_memory_held(folder)
            tests.try_refused()
            tests.try_memory(folder)
        number, faults = number + tests.number, faults + tests.faults
    print(*faults[:20], sep="\n", end="\n" if faults else "")
    print(f"explain: {number - len(faults)} passed, {len(faults)} failed")
    return 1 if faults else 0


sys.exit(main())
