#!/usr/bin/env python3
"""Makes each read and each write of litrs_lines_cli fail in turn, and fall short, and each write of
uses_prompt fail in turn. Closes the output of the other programs.

    .ci/failing_devices.py

Runs both builds of crates/litrs_lines_cli, which `rt ci` leaves in its out/, with reads and writes
of at most 1, 3 and 4096 bytes. If none fails, all reports must be written. If a read fails, the
output must be the reports of the lines that were read to their end. If a write fails, it must be a
prefix of the reports. The message must name the device, and the status must be 1. An interrupted
call is a failure.

The program must also write all reports for its file `stdin` and for some groups of lines. It reads
and writes these in pieces of 1, 3 and 4096 bytes, and reads each input cut into two at each byte.

Runs both builds of uses_attributes, uses_formatter and uses_lexer. If their output is closed, they
must end silently with status 0.

Runs both builds of crates/uses_prompt too. If its output is closed, it must end silently with
status 0, and after another failure with a message and status 1. `--help` must not read a line, and
`:quit` must not read the line after it.
"""
import errno
import itertools
import pathlib
import subprocess
import sys
import tempfile

TOP = pathlib.Path(__file__).resolve().parent.parent
PROGRAM = TOP / "crates/litrs_lines_cli/out/litrs_lines_cli"
PROMPT = TOP / "crates/uses_prompt/out/uses_prompt"
CLOSED = ["uses_attributes", "uses_formatter", "uses_lexer"]
LINES = b"0xff80\n'a'\n\n\"a\\tb\"x\n0;\n"
REPORTS = [
    b"integer base=16 digits=ff80 suffix= value=65408\n",
    b"char value=61 suffix=\n",
    b"error input is empty\n",
    b"string raw=no suffix=x value=610962\n",
    b"error unexpected character (at 1..2)\n",
]
PIECES = [1, 3, 4096]
# Inputs with their reports: literals over several lines, and line ends.
OPEN = b"error unterminated (byte) string literal\n"
ONE = b"integer base=10 digits=1 suffix= value=1\n"
NO_END = b"error unexpected character (at 1..2)\n"
GROUPS = [
    (b'"foo\\\n  bar"\n', b"string raw=no suffix= value=666f6f626172\n"),
    (b'"a\\n\nb"\n', b"string raw=no suffix= value=610a0a62\n"),
    (b'r#"a\nb"#\n', b"string raw=yes suffix= value=610a62\n"),
    (b"'a\n1\n", b"error character literal is not terminated\n" + ONE),
    (
        b'"\\u{41\n}"\n',
        b"error unterminated `\\u{...}` escape (at 1..5)\nerror invalid literal\n",
    ),
    (b'"a\n\xff\n1\n', OPEN + b"error input is not UTF-8\n" + ONE),
    (b'"a', OPEN),
    (b'"a\n', OPEN),
    (b"1\r\n", ONE),
    (b'"a\r\nb"\r\n', b"string raw=no suffix= value=610a62\n"),
    (b'"a\\\r\nb"\r\n', b"string raw=no suffix= value=6162\n"),
    (b"1\r\r\n", NO_END),
    (b"1\r", NO_END),
    (b"\r\n", b"error input is empty\n"),
    (b"", b""),
    (b"\xff", b"error input is not UTF-8\n"),
]
# Inputs that end the prompt, with its output. The prompt does not read the last line of each.
HINT = b"the literal continues on the next line; :cancel drops it, :quit or Ctrl-D ends\n"
ENDED = [
    (b":quit\n1\n", b"> "),
    (b"\n:quit\r\n1\n", b"> > "),
    (b'"a\n:quit\n"\n', b"> " + HINT + b". "),
]
IO_MESSAGE = b'Error: Os { code: 5, kind: Uncategorized, message: "Input/output error" }\n'


class Runs:
    """The runs of one build."""

    def __init__(self, program, library, folder):
        self.program, self.library, self.folder = program, library, folder
        self.number, self.faults = 0, []

    def run(self, read_piece, write_piece, lines=LINES, words=(), **changes):
        """Runs the program. Returns its output, message and status, and the numbers of its reads
        and writes."""
        counts = self.folder / "counts"
        counts.unlink(missing_ok=True)
        environment = {"LD_PRELOAD": str(self.library), "IO_COUNT": str(counts)}
        environment |= {"READ_PIECE": str(read_piece), "WRITE_PIECE": str(write_piece)}
        environment |= {name: str(value) for name, value in changes.items()}
        how = {"capture_output": True, "timeout": 60, "check": False}
        ran = subprocess.run([self.program, *words], input=lines, env=environment, **how)
        self.number += 1
        answer = (ran.stdout, ran.stderr, ran.returncode)
        return answer, [int(it) for it in counts.read_text().split()]

    def hold(self, holds, what):
        if not holds:
            self.faults.append(what)

    def try_cuts(self, lines, reports):
        """Runs the program on an input in pieces, and on the input cut into two at each byte."""
        for pieces in itertools.product(PIECES, PIECES):
            answer, _ = self.run(*pieces, lines=lines)
            self.hold(answer == (reports, b"", 0), f"{lines[:40]} in {pieces}: {answer}"[:300])
        for at in range(1, len(lines)):
            answer, _ = self.run(4096, 4096, lines=lines, READ_FIRST=at)
            self.hold(answer == (reports, b"", 0), f"{lines[:40]} cut at {at}: {answer}"[:300])

    def try_pieces(self, read_piece, write_piece):
        """Runs the program without a failure, then with each read and each write failing in
        turn."""
        sizes = f"{read_piece} and {write_piece}"
        answer, (reads, writes) = self.run(read_piece, write_piece)
        self.hold(answer == (b"".join(REPORTS), b"", 0), f"{sizes}: {answer}")
        least = (len(LINES) / read_piece + 1, sum(map(len, REPORTS)) / write_piece)
        is_counted = reads >= least[0] and writes >= least[1]
        self.hold(is_counted, f"{sizes}: {reads} reads and {writes} writes")
        for error, at in itertools.product([errno.EIO, errno.EINTR], range(1, reads + 1)):
            answer, counts = self.run(read_piece, write_piece, READ_FAILS=at, IO_ERROR=error)
            ended = LINES[: read_piece * (at - 1)].count(b"\n")
            wanted = (b"".join(REPORTS[:ended]), b"litrs_lines: read failed\n", 1)
            self.hold(answer == wanted and counts[0] == at, f"{sizes}, read {at}: {answer}")
        for error, at in itertools.product([errno.EIO, errno.EINTR], range(1, writes + 1)):
            answer, counts = self.run(read_piece, write_piece, WRITE_FAILS=at, IO_ERROR=error)
            is_prefix = b"".join(REPORTS).startswith(answer[0])
            is_named = answer[1:] == (b"litrs_lines: write failed\n", 1)
            self.hold(is_prefix and is_named and counts[1] == at, f"{sizes}, write {at}: {answer}")

    def try_prompt(self):
        """Runs the prompt to its end, then with each write failing in turn."""
        for lines, written in ENDED:
            answer, _ = self.run(4096, 4096, lines=lines)
            self.hold(answer == (written, b"", 0), f"{lines}: {answer}")
        answer, (reads, _) = self.run(4096, 4096, words=["--help"])
        is_help = answer[0].startswith(b"Usage: uses_prompt\n") and b":quit" in answer[0]
        self.hold(is_help and answer[1:] == (b"", 0) and reads == 0, f"--help: {answer}")
        _, (reads, writes) = self.run(4096, 4096)
        self.hold(reads > 1 and writes > 1, f"the prompt: {reads} reads and {writes} writes")
        failures = [(errno.EPIPE, (b"", 0)), (errno.EIO, (IO_MESSAGE, 1))]
        for (error, ending), at in itertools.product(failures, range(1, writes + 1)):
            answer, counts = self.run(4096, 4096, WRITE_FAILS=at, IO_ERROR=error)
            self.hold(answer[1:] == ending and counts[1] == at, f"write {at}, {error}: {answer}")


def closed_runs(program, library, folder):
    """Runs each program of `CLOSED`, in the build that `program` is of, with a closed output."""
    for name in CLOSED:
        path = program.replace(PROGRAM.name, name)
        runs = Runs(path, library, folder)
        lines = (TOP / "crates" / name / "stdin").read_bytes()
        _, (_, writes) = runs.run(4096, 4096, lines=lines)
        runs.hold(writes > 0, f"{path}: {writes} writes")
        for at in sorted({1, writes}):
            closed = {"WRITE_FAILS": at, "IO_ERROR": errno.EPIPE}
            answer, counts = runs.run(4096, 4096, lines=lines, **closed)
            holds = answer[1:] == (b"", 0) and counts[1] == at
            runs.hold(holds, f"{path}, write {at}: {answer}, {counts}"[:300])
        yield runs


def main():
    faults, number = [], 0
    with tempfile.TemporaryDirectory(prefix="failing-devices-") as room:
        folder = pathlib.Path(room)
        library = folder / "fail_io.so"
        source = TOP / ".ci/fail_io.c"
        subprocess.run(["cc", "-O1", "-shared", "-fPIC", "-o", library, source], check=True)
        for program in (str(PROGRAM), f"{PROGRAM}.by-rattle"):
            runs = Runs(program, library, folder)
            for pieces in itertools.product(PIECES, PIECES):
                runs.try_pieces(*pieces)
            for lines, reports in GROUPS:
                runs.try_cuts(lines, reports)
            stdin, stdout = (PROGRAM.parent.parent / name for name in ("stdin", "stdout"))
            runs.try_cuts(stdin.read_bytes(), stdout.read_bytes())
            prompt = Runs(program.replace(str(PROGRAM), str(PROMPT)), library, folder)
            prompt.try_prompt()
            for tried in (runs, prompt, *closed_runs(program, library, folder)):
                number, faults = number + tried.number, faults + tried.faults
    print(*faults[:20], sep="\n", end="\n" if faults else "")
    print(f"devices: {number - len(faults)} passed, {len(faults)} failed")
    return 1 if faults else 0


sys.exit(main())
