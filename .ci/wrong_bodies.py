#!/usr/bin/env python3
"""Checks the wrong bodies: for each, the checker must report an open goal of the changed function.

    .ci/wrong_bodies.py [CRATE ..]
    .ci/wrong_bodies.py --read [CRATE ..]     reads them, and checks none
    .ci/wrong_bodies.py --follow LOG          checks all, beside the `rt ci` that writes this log

Runs at the top of the repository, after `rt ci`, over the libraries that it built. If no crate is
named, the bodies of all crates are checked. With `--follow` the bodies of a crate are checked once
the log says that the crates below it are proved. These checks use copies of the libraries. They
have the lowest priority, for processors that `rt ci` and the stages after it leave idle.

A wrong body is a file `crates/CRATE/wrong/NAME.edit` of lines `file:`, `old:` and `new:`, as in
`must-fail/`. All are read before any is checked. If an old text does not occur exactly once in its
file, the script names every such edit and stops.

As many as fit, one in each function, are put into a copy of their crate, and the crate is checked
once for all of them. One that this check does not report is checked with those of the next round,
and then alone. It counts as rejected only if a goal of its own function is open. An error that a
proof names something that the edit removed does not count, since it does not test the contract.

A function that no edit changes is not proved again. It has neither body nor proof in the copy, and
its callers rely on its contract. The copy of a program has no `main`, so it is a library, which is
not linked. No edit may change a `main`.

The edits in `.ci/harmless/`, named by crate, do not change what their function does, so they must
not be rejected. They are checked in the same way and counted separately. They show that this script
can fail.
"""
import concurrent.futures
import dataclasses
import difflib
import os
import pathlib
import re
import resource
import shutil
import subprocess
import sys
import tempfile
import threading
import time

import libraries

# The limit of the processor time of a check, in seconds. Its elapsed time depends on other work.
SECONDS = 1800
HARMLESS = pathlib.Path(".ci/harmless")

VISIBLE = r"(?P<indent>\s*)(?:pub(?:\(\w+\))? )?"
FUNCTION = re.compile(VISIBLE + r'(?:(?:const|unsafe|final|extern "C") )*fn (?P<name>\w+)')
CONSTANT = re.compile(VISIBLE + r"(?:const|static) (?P<name>\w+): .*=")
GHOST = re.compile(r"\s*ghost (?P<name>\w+) ")
STATUS = re.compile(r"(?:fn|impl) (\S+): (.*)")
ERROR = re.compile(r"(?:\./)?(proofs|src)/(\S+?):(\d+):\d+: error: (.*)")
PLACE = re.compile(r"\bsrc/(\S+?\.rt):(\d+):\d+")
# The checker's note on a goal that has no proof in proofs/ and that its search did not prove.
NOTE = re.compile(r"note: src/(\S+?):(\d+):\d+: it is not proved that (.*)")
OPEN = re.compile(r"no proof: .*?(`search` did not prove .*)")
# The line of `rt ci` on a crate that is proved, in this run or in an earlier one. The second is the
# line that `.ci/run` adds after `rt ci` has ended.
PROVED = re.compile(r"(?m)^rt: (\w+) (?:proved|is kept)\b")
ENDED = "rt ci has ended\n"
# The root file of a program, and of the library that its copy is.
PROGRAM, LIBRARY = "src/main.rt", "src/lib.rt"
# The body and the proof of a function that no edit changes.
NO_BODY = "unreachable!()\n"
LEFT_OUT = """-- left out: what calls the function goes by its contract
use Rattle.{crate}.proofs.{module}.Statement.{{statement}}

pub {name}_spec : {{M : Type 1}} → statement M
{name}_spec = left_out
"""
# The checker's error if a proof names something that the edit removed, or proves a goal that the
# edit made trivially true.
MISSING = re.compile(
    r"has no field|is not in scope|has no `|was not admitted|`Unit \{0\}` is a declared record"
)


def words_of(text, params):
    """Returns the checker's name for a type or trait, e.g. FromRefTokenTree for
    `From<&TokenTree>`."""
    tokens = [it for it in re.findall(r"&|\w+", text) if it not in params]
    return "".join("Ref" if it == "&" else it[0].upper() + it[1:] for it in tokens) or "Any"


def segment_of(header):
    """Returns the checker's name for an impl, e.g. `LiteralFromBoolLit` or `IntegerLit+ref+str`."""
    rest, params = re.sub(r"'\w+,? ?", "", header.removeprefix("impl")), []
    if rest.startswith("<"):
        depth, end = 0, 0
        for end, letter in enumerate(rest):
            depth += (letter == "<") - (letter == ">")
            if not depth:
                break
        params = re.findall(r"(?:^<|, ?)(?:const )?(\w+)", rest[: end + 1])
        rest = rest[end + 1 :]
    rest = rest.split(" where ")[0].strip(" {\n")
    if " for " in rest:
        trait, of = rest.split(" for ", 1)
        return words_of(of, params) + words_of(re.sub(r"^(\w+::)+", "", trait), params)
    name, _, arguments = rest.partition("<")
    own = [it for it in re.findall(r"&|\w+", arguments) if it not in params]
    return "+".join([name.split("::")[-1], *("ref" if it == "&" else it for it in own)])


def is_empty(line):
    """Returns whether the item on this line has an empty body, e.g. `impl Error for E {}`."""
    return line.rstrip().endswith("{}")


def owner_at(text, offset):
    """Returns the impl or trait around a place of a source file. Returns also the function,
    constant or ghost member that contains the place or has the attribute there. Each is `None` if
    there is none."""
    end = text.find("\n", offset)
    while text[text.rfind("\n", 0, end) + 1 : end].lstrip().startswith("#["):
        end = text.find("\n", end + 1)
    around = inside = None
    for line in text[: end if end >= 0 else len(text)].split("\n"):
        if line.startswith("impl"):
            around, inside = None if is_empty(line) else segment_of(line), None
        elif found := re.match(r"(?:pub )?trait (\w+)", line):
            around, inside = None if is_empty(line) else found[1], None
        elif line.startswith("}"):
            around = inside = None
        else:
            for kind, pattern in (("fn", FUNCTION), ("const", CONSTANT), ("ghost", GHOST)):
                if found := pattern.match(line):
                    inside = (kind, found["name"])
                    break
    return around, inside


def functions_of(file, lines):
    """Yields the path of each function of a source file, and the number of its first line. Leaves
    out the functions that a trait declares."""
    around, is_trait = None, False
    for number, line in enumerate(lines):
        if line.startswith("impl"):
            around, is_trait = None if is_empty(line) else segment_of(line), False
        elif re.match(r"(?:pub )?trait ", line):
            is_trait = not is_empty(line)
        elif line.startswith("}"):
            around, is_trait = None, False
        elif (found := FUNCTION.match(line)) and not is_trait:
            yield path_of(file, around, found["name"]), number


def body_of(lines, start):
    """Returns the number of the first line of a function's body, and that of the line after it. The
    function begins at line `start`, in the layout of `rt fmt`. Returns `None` if the body has no
    lines."""
    indent = FUNCTION.match(lines[start])["indent"]
    for number in range(start, len(lines)):
        line = lines[number].rstrip("\n")
        if line.endswith("{}"):
            return None
        if line.endswith("{") and (number == start or line.startswith((f"{indent}{{", f"{indent})"))):
            return number + 1, lines.index(f"{indent}}}\n", number)


def without_main(text):
    """Returns the text of a program's root file with blank lines in place of its `main`."""
    lines = text.splitlines(keepends=True)
    start = next(number for path, number in functions_of("main.rt", lines) if path == "main")
    end = body_of(lines, start)[1] + 1
    lines[start:end] = ["\n"] * (end - start)
    return "".join(lines)


def path_of(file, *names):
    """Returns the checker's path of an item in `src/FILE`."""
    parts = [] if file in ("lib.rt", "main.rt") else file.removesuffix(".rt").split("/")
    return "::".join([*parts, *(it for it in names if it)])


def owners_of(file, text, offset):
    """Returns the paths of the functions that a change at a place touches. For a constant these are
    the functions that use it, only those of its impl if it is in one. A path that ends in `::` is
    that of an impl, and includes all its functions."""
    around, inside = owner_at(text, offset)
    kind, name = inside or (None, None)
    if kind == "fn":
        return {path_of(file, around, name)}
    owners, is_used = set(), kind == "const" or kind and not around
    for found in re.finditer(rf"\b{name}\b", text) if is_used else ():
        around_it, user = owner_at(text, found.start())
        if user and user[0] == "fn" and around in (None, around_it):
            owners.add(path_of(file, around_it, user[1]))
    return owners or ({path_of(file, around) + "::"} if around else set())


# A source file, and the paths of its functions.
EXAMPLE = """\
impl Error for Fault {}
pub trait Sealed {}
pub(crate) fn free() {
    body();
}
impl<'a> Iterator for Tokens<'a> {
    fn next(&mut self) {
        body();
    }
}
impl FusedIterator for Tokens<'_> {}
fn last() {
    body();
}
"""
EXAMPLE_PATHS = ["example::free", "example::TokensIterator::next", "example::last"]


def faults_of_names():
    """Yields a fault if this script has other paths for the functions of the example, or for those
    around its bodies."""
    found = [path for path, _ in functions_of("example.rt", EXAMPLE.splitlines())]
    places = [it.start() for it in re.finditer("body", EXAMPLE)]
    owners = [owners_of("example.rt", EXAMPLE, it) for it in places]
    if found != EXAMPLE_PATHS or owners != [{it} for it in EXAMPLE_PATHS]:
        yield f"the functions of the example are called {found}, and {owners} around their bodies"


@dataclasses.dataclass
class WrongBody:
    """An edit of a crate: its name, its changes, the functions that it touches, and whether it must
    be rejected. A change is a file, the first line, the line after the last, and the new lines."""

    name: str
    changes: list
    owners: set
    is_wrong: bool = True

    def touches(self, path):
        """Returns whether the edit touches the function at `path`."""
        return any(it == path or it.endswith("::") and path.startswith(it) for it in self.owners)

    def clashes(self, other):
        """Returns whether both edits touch the same function or change the same line."""
        owners = ((a, b) for a in self.owners for b in other.owners)
        changes = ((a, b) for a in self.changes for b in other.changes)
        return any(
            a == b or a.endswith("::") and b.startswith(a) or b.endswith("::") and a.startswith(b)
            for a, b in owners
        ) or any(a[0] == b[0] and overlap(*a[1:3], *b[1:3]) for a, b in changes)


def overlap(start, end, other_start, other_end):
    """Returns whether two ranges share a line. An empty range counts as the line after it."""
    least_end = min(max(end, start + 1), max(other_end, other_start + 1))
    return max(start, other_start) < least_end


def same(old, new):
    """Returns whether two texts differ only in white space, which an edit may change to make its
    old text unique."""
    return "".join(old.split()) == "".join(new.split())


def changes_of(originals, texts):
    """Returns the changes of all files, without those of white space only."""
    changes = []
    for file, text in texts.items():
        if text == originals[file]:
            continue
        old, new = (it.splitlines(keepends=True) for it in (originals[file], text))
        matcher = difflib.SequenceMatcher(None, old, new, autojunk=False)
        for _, start, end, new_start, new_end in matcher.get_opcodes():
            if not same("".join(old[start:end]), "".join(new[new_start:new_end])):
                changes.append((file, start, end, new[new_start:new_end]))
    return changes


def texts_with(originals, bodies):
    """Returns the texts of the files with all these edits, which must not clash."""
    lines = {file: text.splitlines(keepends=True) for file, text in originals.items()}
    changes = [it for body in bodies for it in body.changes]
    for file, start, end, new in sorted(changes, key=lambda it: it[1], reverse=True):
        lines[file][start:end] = new
    return {file: "".join(it) for file, it in lines.items()}


class Unreadable(Exception):
    """An edit that does not fit the sources of its crate."""


def read_edit(path, originals, is_wrong=True):
    """Reads the wrong body in a file."""
    owners, file, old = set(), None, None
    texts = dict(originals)
    for line in path.read_text(encoding="utf-8").splitlines():
        if line.startswith("file: "):
            file = line.removeprefix("file: ")
        elif line.startswith("old: "):
            old = line.removeprefix("old: ")
        elif line.startswith("new:"):
            new = line.removeprefix("new:").removeprefix(" ")
            count = texts[file].count(old) if old and file in texts else 0
            if count != 1:
                raise Unreadable(f"{path}: this occurs {count} times in {file}: {old}")
            at = texts[file].index(old) + len(old) - len(old.lstrip())
            if not same(old, new):
                owners |= owners_of(file.removeprefix("src/"), texts[file], at)
            texts[file] = texts[file].replace(old, new)
    if not owners or texts == originals:
        raise Unreadable(f"{path}: it changes no function")
    if "main" in owners:
        raise Unreadable(f"{path}: it changes main, which the copy leaves out")
    return WrongBody(path.stem, changes_of(originals, texts), owners, is_wrong)


class Crate(libraries.Crate):
    """A crate with its wrong bodies."""

    def __init__(self, crate):
        super().__init__(**vars(crate))
        self.folder = pathlib.Path("crates", self.name)
        sources = sorted(self.folder.glob("src/**/*.rt"))
        self.originals = {str(it.relative_to(self.folder)): it.read_text() for it in sources}
        self.bodies, self.unreadable = [], []
        for path in [*sorted(self.folder.glob("wrong/*")), HARMLESS / f"{self.name}.edit"]:
            is_wrong = path.parent != HARMLESS
            try:
                if is_wrong or path.exists():
                    self.bodies.append(read_edit(path, self.originals, is_wrong))
            except Unreadable as fault:
                self.unreadable.append(str(fault))

    def length(self):
        """Returns the number of lines of code and proofs, an estimate of the time of a check."""
        texts = [*self.originals.values()]
        texts += (it.read_text() for it in self.folder.glob("proofs/**/*.antt"))
        return sum(len(it.splitlines()) for it in texts)

    def count(self):
        """Returns a text with the numbers of its wrong and harmless bodies."""
        harmless = sum(not it.is_wrong for it in self.bodies)
        also = f" and {harmless} harmless" if harmless else ""
        return f"{len(self.bodies) - harmless} wrong bodies{also}"

    def command(self, crates):
        """Returns the command that checks the copy of the crate."""
        return [*libraries.words_of("check", self, crates, LIBRARY), "--jobs", "1"]


def messages_of(output):
    """Returns the lines of a check. Each includes the indented lines below it, which continue a
    long message."""
    messages = []
    for line in output.rstrip("\n").split("\n"):
        if line.startswith("  ") and messages:
            messages[-1] += line
        else:
            messages.append(line)
    return messages


class Answer:
    """The result of a check: the functions that are proved, and those with an open goal."""

    def __init__(self, crate, texts, output):
        lines = messages_of(output)
        # The last line of a complete check has the number of the functions that were checked.
        self.is_verdict = lines[-1].startswith("only=")
        self.lines, self.goals, self.stated, self.proved = lines, {}, set(), set()
        for line in lines:
            if found := STATUS.match(line):
                path = found[1].removeprefix(f"{crate.name}::")
                self.stated.add(path)
                self.proved |= {path} if found[2].startswith("proved") else set()
                if goals := OPEN.match(found[2]):
                    self.goals[path] = goals[1]
            elif found := ERROR.match(line):
                for path in self.paths_at(crate, texts, *found.groups()[:3]):
                    if not MISSING.search(found[4]):
                        self.goals.setdefault(path, found[4])
            elif found := NOTE.match(line):
                for path in self.paths_at(crate, texts, "src", *found.groups()[:2]):
                    self.goals.setdefault(path, found[3])

    def paths_at(self, crate, texts, part, file, line):
        """Returns the paths of the functions that an error at a place is about."""
        if part == "proofs":
            return {"::".join(file.split("/")[:-1])}
        path = PROGRAM if PROGRAM in texts and f"src/{file}" == LIBRARY else f"src/{file}"
        text = texts.get(path, crate.originals.get(path, ""))
        offset = sum(len(it) + 1 for it in text.split("\n")[: int(line) - 1])
        return owners_of(file, text, offset)

    def goal_of(self, body):
        """Returns an open goal of a function that `body` touches, with the path of the function."""
        for path, goal in self.goals.items():
            if body.touches(path) and path not in self.proved:
                return f"{path}: {goal}"
        return None


@dataclasses.dataclass
class Outcome:
    """The result of a body: whether it is wrong, whether it passed, and the line to print."""

    is_wrong: bool
    holds: bool
    line: str


class Trial:
    """The checks of the wrong bodies of one crate."""

    def __init__(self, crate, crates, room):
        self.crate, self.copy = crate, pathlib.Path(room, crate.name)
        for part in ("src", "specs"):
            if (crate.folder / part).exists():
                shutil.copytree(crate.folder / part, self.copy / part)
        self.words = crate.command(crates)
        kept, work = crate.folder / "out/incremental", self.copy / "incremental"
        if kept.exists():
            shutil.copytree(kept, work)
        if kept.exists() or len(self.next_round(crate.bodies)) < len(crate.bodies):
            # A single check does not keep its results, since no later check would use them.
            work.mkdir(exist_ok=True)
            self.words += ["--incremental", str(work)]
        self.report, self.checks = [], 0

    def leave_out(self, bodies, texts):
        """Writes `texts` and the proofs into the copy, without the bodies and the proofs of the
        functions that none of `bodies` touches."""
        shutil.rmtree(self.copy / "proofs", ignore_errors=True)
        if (self.crate.folder / "proofs").exists():
            shutil.copytree(self.crate.folder / "proofs", self.copy / "proofs")
        for file, text in texts.items():
            lines = text.splitlines(keepends=True)
            for path, start in functions_of(file.removeprefix("src/"), lines):
                if not any(it.touches(path) for it in bodies):
                    self.leave_out_proof(path)
                    if place := body_of(lines, start):
                        blank = ["\n"] * (place[1] - place[0] - 1)
                        lines[slice(*place)] = [NO_BODY, *blank]
            if file == PROGRAM:
                (self.copy / PROGRAM).unlink(missing_ok=True)
                shutil.rmtree(self.copy / "proofs/main", ignore_errors=True)
                (self.copy / LIBRARY).write_text(without_main("".join(lines)))
            else:
                (self.copy / file).write_text("".join(lines))

    def leave_out_proof(self, path):
        """Replaces the proof of the function at `path` in the copy."""
        *_, name = parts = path.split("::")
        folder = self.copy.joinpath("proofs", *parts)
        shutil.rmtree(folder, ignore_errors=True)
        folder.mkdir(parents=True)
        names = {"crate": self.crate.name, "module": ".".join(parts), "name": name}
        (folder / "Proof.antt").write_text(LEFT_OUT.format(**names))

    def check(self, bodies):
        """Checks the functions that these bodies touch, in the copy with the bodies."""
        texts = texts_with(self.crate.originals, bodies)
        self.leave_out(bodies, texts)
        how = {"stdout": subprocess.PIPE, "stderr": subprocess.STDOUT, "text": True}
        self.checks += 1
        paths = sorted({it.removesuffix("::") for body in bodies for it in body.owners})
        words = ["prlimit", f"--cpu={SECONDS}", *self.words]
        words += [word for it in paths for word in ("--only", it)]
        begun = time.monotonic()
        ran = subprocess.run(words, cwd=self.copy, check=False, **how)
        if ran.returncode < 0:
            return Answer(self.crate, texts, f"killed by the signal {-ran.returncode}")
        took = time.monotonic() - begun
        print(f"{self.crate.name}: a check of {len(bodies)} took {took:.0f} s", flush=True)
        return Answer(self.crate, texts, ran.stdout)

    def settle(self, body, goal, how):
        """Adds the result of a body to the report: `goal` is its open goal, or `None`."""
        holds = (goal is not None) == body.is_wrong
        if body.is_wrong:
            said = f"refused ({how}): {goal[:150]}" if goal else f"NOT REFUSED ({how})"
        else:
            said = f"REFUSED: {goal[:150]}" if goal else "not refused, as it must be"
            said = f"harmless: {said}"
        self.note(body, holds, said)

    def note(self, body, holds, said):
        """Adds to the report whether a body passed, and its line."""
        line = f"{self.crate.name}/{body.name}: {said}"
        self.report.append(Outcome(body.is_wrong, holds, line))

    def alone(self, body):
        """Checks a body by itself."""
        answer = self.check([body])
        if answer.is_verdict:
            return self.settle(body, answer.goal_of(body), "alone")
        said = " ".join(answer.lines[:3])[:300]
        self.note(body, False, f"CANNOT BE CHECKED: {said}")

    def next_round(self, left):
        """Returns as many of the bodies `left` as do not clash with each other."""
        group = []
        for body in left:
            if not any(body.clashes(it) for it in group):
                group.append(body)
        return group

    def unreadable(self, answer, group):
        """Returns the bodies of the group whose text the checker cannot read, by the places in its
        messages."""
        named, texts = set(), texts_with(self.crate.originals, group)
        for line in answer.lines:
            for file, number in PLACE.findall(line):
                named |= answer.paths_at(self.crate, texts, "src", file, number)
        return [it for it in group if it.owners & named] or group

    def run(self):
        """Checks all bodies, and returns their outcomes."""
        left, tried_once, single = self.crate.bodies, [], []
        while left:
            group = self.next_round(left)
            left = [it for it in left if it not in group]
            answer = self.check(group)
            if not answer.is_verdict:
                bad = self.unreadable(answer, group)
                single += bad
                left = [it for it in group if it not in bad] + left
                continue
            for body in group:
                goal = answer.goal_of(body)
                if goal or not body.is_wrong and answer.stated.issuperset(body.owners):
                    self.settle(body, goal, f"with {len(group) - 1} others")
                elif body.is_wrong and body not in tried_once:
                    # The goal may depend on a function that another body of the group has broken.
                    tried_once.append(body)
                    left = [*left, body]
                else:
                    single.append(body)
        for body in single:
            self.alone(body)
        print(f"{self.crate.name}: {self.crate.count()} in {self.checks} checks")
        return self.report


def unreadable(tried, crates):
    """Returns the faults of the edits that are found without a check."""
    faults = [it for crate in tried for it in crate.unreadable]
    edits = [*pathlib.Path("crates").glob("*/wrong/*"), *HARMLESS.glob("*")]
    for path in sorted(edits):
        name = path.stem if path.parent == HARMLESS else path.parts[1]
        if name not in crates:
            faults.append(f"{path}: crates.txt has no crate {name}")
        elif path.suffix != ".edit":
            faults.append(f"{path}: an edit is a file NAME.edit")
    return faults


class Proofs:
    """The crates that an `rt ci` beside this script has proved, according to its log."""

    def __init__(self, log, crates, room):
        self.log, self.crates, self.room = pathlib.Path(log), crates, pathlib.Path(room)
        self.proved, self.changed = set(), threading.Condition()
        # The libraries are copied, since rt ci may restore the ones that it found.
        libraries.library_folder = lambda name: self.room / name
        self.following = threading.Thread(target=self.follow, daemon=True)
        self.following.start()

    def follow(self):
        """Copies the library of each crate once the log says that it is proved, and the remaining
        ones at the end of the log."""
        while len(self.proved) < len(self.crates):
            log = self.log.read_text(errors="replace") if self.log.exists() else ""
            is_over = log.endswith(ENDED)
            for name in sorted(set(self.crates if is_over else PROVED.findall(log)) - self.proved):
                if self.is_copied(name) or is_over:
                    with self.changed:
                        self.proved.add(name)
                        self.changed.notify_all()
            time.sleep(1)

    def is_copied(self, name):
        """Copies the library of a crate. Returns whether it was complete."""
        try:
            shutil.copytree(libraries.TOP / "crates" / name / "out/rlib", self.room / name)
        except OSError:
            shutil.rmtree(self.room / name, ignore_errors=True)
            return False
        return True

    def next_of(self, waiting):
        """Removes and returns the first of these crates for which all crates below it are proved.
        Waits until there is one. Returns `None` if `waiting` is empty."""
        with self.changed:
            while waiting:
                for crate in waiting:
                    if self.proved.issuperset(crate.below(self.crates)):
                        waiting.remove(crate)
                        return crate
                if not self.following.is_alive():
                    sys.exit("the log of rt ci is followed no longer")
                self.changed.wait(10)
        return None


def try_in_turn(waiting, next_of, crates, room):
    """Checks the bodies of one crate after the other, and returns their outcomes."""
    outcomes = []
    while (crate := next_of(waiting)) is not None:
        report = Trial(crate, crates, room).run()
        print(*(it.line for it in report), sep="\n", flush=True)
        outcomes += report
    return outcomes


def try_all(tried, crates, log):
    """Checks the bodies of these crates, and returns their outcomes."""
    # The crates that take longest come first.
    waiting = sorted(tried, key=lambda it: -it.length())
    with tempfile.TemporaryDirectory(prefix="wrong-bodies-") as room:
        if log:
            os.nice(19)
            next_of = Proofs(log, crates, pathlib.Path(room, "libraries")).next_of
        else:
            for crate in tried:
                libraries.stop_unless_built(crate.below(crates))
            lock = threading.Lock()

            def next_of(waiting):
                with lock:
                    return waiting.pop(0) if waiting else None

        lanes = len(os.sched_getaffinity(0))
        with concurrent.futures.ThreadPoolExecutor(lanes) as pool:
            begun = [pool.submit(try_in_turn, waiting, next_of, crates, room) for _ in range(lanes)]
            return [outcome for it in begun for outcome in it.result()]


def main(words):
    log = os.path.abspath(words.pop(words.index("--follow") + 1)) if "--follow" in words else None
    os.chdir(libraries.TOP)
    names = [it for it in words if not it.startswith("--")]
    crates = libraries.crates_of(libraries.TOP)
    if unknown := [it for it in names if it not in crates]:
        sys.exit(f"crates.txt has no crate {', '.join(unknown)}")
    if faults := [*faults_of_names()]:
        sys.exit("\n".join(faults))
    tried = [Crate(it) for it in crates.values() if not names or it.name in names]
    if faults := unreadable(tried, crates):
        print(*faults, sep="\n")
        print(f"wrong: {len(faults)} edits cannot be read")
        return 1
    tried = [it for it in tried if it.bodies]
    if "--read" in words:
        print(*(f"{it.name}: {it.count()}" for it in tried), sep="\n")
        print(f"wrong: {sum(it.is_wrong for crate in tried for it in crate.bodies)} can be read")
        return 0
    outcomes = try_all(tried, crates, log)
    used = resource.getrusage(resource.RUSAGE_CHILDREN)
    print(f"processor time of the checks: {used.ru_utime + used.ru_stime:.0f} s")
    failed = [it.line for it in outcomes if not it.holds]
    print(*(f"FAILED: {it}" for it in failed), sep="\n", end="\n" if failed else "")
    for name, is_wrong in (("harmless", False), ("wrong", True)):
        passed = [it.holds for it in outcomes if it.is_wrong == is_wrong]
        print(f"{name}: {sum(passed)} passed, {len(passed) - sum(passed)} failed")
    return 1 if failed else 0


if __name__ == "__main__":
    sys.exit(main(sys.argv[1:]))
