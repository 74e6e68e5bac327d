"""Tests bin/vendor over two small repositories: the runs that it rejects, and the files that it
replaces and leaves.

.ci/vendored.py runs the cases. Each has its own repositories, so a fault does not affect others.
"""
import concurrent.futures
import dataclasses
import os
import pathlib
import shutil
import subprocess
from functools import partial

from libraries import TOP

OURS = {
    "CHANGELOG.md": "## [Unreleased]\n\n## [1.0.1-rattle.2] - 2026-11-28\n",
    "LICENSE-MIT": "MIT\n",
    "crates.txt": "# low\nlitrs_low:\nlitrs: litrs_low itoa\n",
    "crates/litrs_low/src/lib.rt": "// low\n",
    "crates/litrs_low/out/low.rlib": "built\n",
    "crates/litrs/src/lib.rt": "// litrs\n",
    "crates/litrs/specs/Lib.antt": "-- litrs\n",
    "crates/litrs/wrong/a.edit": "file: src/lib.rt\n",
}
# The files of a repository with copies of an older version and a renamed copy. It has its own crate
# by the name of a former crate of ours, and no line end after the last line.
THEIRS = {
    "crates.txt": "# litrs: a\n litrs_low\nlitrs_own:\nlitrs_parts: litrs_low\nlitrs: a\napp: litrs",
    "crates/app/src/main.rt": "// app\n",
    "crates/litrs_own/src/lib.rt": "// own\n",
    "crates/litrs_search/src/lib.rt": "// own\n",
    "crates/litrs_own/VERSION": "1.0.1-rattle.1\n",
    "crates/litrs_low/src/lib.rt": "// older\n",
    "crates/litrs_low/VERSION": "1.0.1-rattle.1\n",
    "crates/litrs_parts/src/lib.rt": "// gone\n",
    "crates/litrs_parts/VERSION": "1.0.1-rattle.1+0123456789ab\n",
    "crates/litrs/src/lib.rt": "// older\n",
    "crates/litrs/src/older.rt": "// older\n",
    "crates/litrs/older/lib.rt": "// older\n",
    "crates/litrs/VERSION": "1.0.1-rattle.1+0123456789ab\n",
}
# The files of `theirs` after a copy of ours.
COPIED = {
    "crates.txt": "# litrs: a\nlitrs_own:\napp: litrs\nlitrs_low:\nlitrs: litrs_low itoa\n",
    "crates/app/src/main.rt": "// app\n",
    "crates/litrs_own/src/lib.rt": "// own\n",
    "crates/litrs_search/src/lib.rt": "// own\n",
    "crates/litrs_own/VERSION": "1.0.1-rattle.1\n",
    "crates/litrs_low/src/lib.rt": "// low\n",
    "crates/litrs_low/LICENSE-MIT": "MIT\n",
    "crates/litrs_low/VERSION": "1.0.1-rattle.2\n",
    "crates/litrs/src/lib.rt": "// litrs\n",
    "crates/litrs/specs/Lib.antt": "-- litrs\n",
    "crates/litrs/LICENSE-MIT": "MIT\n",
    "crates/litrs/VERSION": "1.0.1-rattle.2\n",
}
# The lines of `theirs` after a copy of `litrs_low` alone, and after a copy of all and then of it.
LINES_OF_LOW = [
    "# litrs: a\nlitrs_own:\nlitrs: a\napp: litrs\nlitrs_low:\n",
    "# litrs: a\nlitrs_own:\napp: litrs\nlitrs: litrs_low itoa\nlitrs_low:\n",
]
# Replaces a program that bin/vendor calls. Call number $CALL fails if $SIGNAL is empty, and
# otherwise sends that signal to the script first.
TOOL = """#!/bin/sh
echo >> "$CALLS"
if [ "$(wc -l < "$CALLS")" -eq "$CALL" ]; then
    [ "$SIGNAL" ] || exit 1
    kill -s "$SIGNAL" "$PPID"
fi
%s
exec %s "$@"
"""
# Makes `cp` slow after a signal, and makes the folder that it copies to.
SLOW = 'if [ "$SIGNAL" ]; then sleep 0.2; for last; do :; done; mkdir -p "$last"; fi'


def write(folder, files):
    for path, text in files.items():
        (folder / path).parent.mkdir(parents=True, exist_ok=True)
        (folder / path).write_text(text)


def files_of(folder):
    """Returns the text of each file below a folder, and the types of the links and folders."""
    found = {}
    for it in folder.rglob("*"):
        path = str(it.relative_to(folder))
        if it.is_symlink():
            found[path] = f"link to {os.readlink(it)}"
        else:
            found[path] = "folder" if it.is_dir() else it.read_text()
    return found


def with_folders(files):
    """Returns the files with the folders that they are in."""
    folders = {str(it) for path in files for it in pathlib.Path(path).parents}
    return {it: "folder" for it in folders if it != "."} | files


@dataclasses.dataclass
class Room:
    """A folder with a repository `ours`, whose script is bin/vendor, and another one, `theirs`."""

    folder: pathlib.Path
    theirs: dict
    links: dict = dataclasses.field(default_factory=dict)

    def __post_init__(self):
        write(self.folder / "ours", OURS)
        write(self.folder / "theirs", self.theirs)
        (self.folder / "ours/bin").mkdir()
        shutil.copy(TOP / "bin/vendor", self.folder / "ours/bin")
        for link, target in self.links.items():
            (self.folder / link).parent.mkdir(parents=True, exist_ok=True)
            (self.folder / link).symlink_to(self.folder / target)
        self.before = files_of(self.folder)

    def run(self, *words, script="ours/bin/vendor", cwd=".", **environment):
        how = {"cwd": self.folder / cwd, "env": os.environ | environment}
        how |= {"stdin": subprocess.DEVNULL, "capture_output": True, "text": True}
        return subprocess.run([self.folder / script, *words], check=False, **how)

    def changed(self, wanted=None):
        """Returns the paths that are not as they were, or in `theirs` not as they are wanted."""
        before = self.before
        if wanted is not None:
            before = {it: text for it, text in before.items() if not it.startswith("theirs/")}
            before |= with_folders({f"theirs/{it}": text for it, text in wanted.items()})
        return sorted({it[0] for it in before.items() ^ files_of(self.folder).items()})

    def faults_of_stop(self, status, words, message, **how):
        """Yields the faults of a run that must end with this status and message, and must not
        write."""
        ran = self.run(*words, **how)
        if ran.returncode != status or ran.stdout or message not in ran.stderr:
            yield f"{words}: status {ran.returncode}, {ran.stdout + ran.stderr!r}, wanted {message}"
        if changed := self.changed():
            yield f"{words}: {len(changed)} files are not as they were: {changed[:4]}"

    def faults_of_copy(self, words, message, wanted):
        """Yields the faults of a run that must succeed with this message, and leave `wanted`."""
        ran = self.run(*words)
        if ran.returncode or ran.stderr or message not in ran.stdout:
            yield f"{words}: status {ran.returncode}, {ran.stdout + ran.stderr!r}, wanted {message}"
        if changed := self.changed(wanted):
            yield f"{words}: {len(changed)} files are not as wanted: {changed[:4]}"


def asks_help(word, folder):
    yield from Room(folder, THEIRS).faults_of_copy([word], "bin/vendor FOLDER [CRATE..]", THEIRS)


def has_wrong_words(words, message, folder):
    yield from Room(folder, THEIRS).faults_of_stop(2, words, f"bin/vendor: {message}")


def is_in_ours(word, folder, links=None, **how):
    room = Room(folder, {}, links or {})
    yield from room.faults_of_stop(1, [word], "is in this repository", **how)


def has_own_crate(files, folder, links=None):
    """Yields the faults if `theirs` has a crate by the name of one on which the named one
    depends."""
    room = Room(folder, {"crates.txt": "litrs_low:\n", **files}, links or {})
    yield from room.faults_of_stop(1, ["theirs"], "crates/litrs_low is not a copy")


def has_crates_at_top(folder):
    room = Room(folder, {"crates.txt": "# mine\napp: itoa\n", "app/src/lib.rt": "// app\n"})
    yield from room.faults_of_stop(1, ["theirs"], "the crates of theirs are not in theirs/crates")


def has_older_copies(folder):
    links = {"theirs/crates/litrs/link.md": "ours", "theirs/crates/litrs_low/src/link": "nowhere"}
    room = Room(folder, THEIRS, links)
    yield from room.faults_of_copy(["theirs"], "litrs_parts is removed", COPIED)


def has_linked_copy(folder):
    """Yields the faults if a link to a copy is not replaced, or the copy does not stay."""
    theirs = {it: text for it, text in THEIRS.items() if not it.startswith("crates/litrs/")}
    room = Room(folder, theirs, {"theirs/crates/litrs": "ours/../elsewhere"})
    write(folder / "elsewhere", {"VERSION": THEIRS["crates/litrs/VERSION"]})
    room.before = files_of(folder)
    yield from room.faults_of_copy(["theirs"], "", COPIED)


def has_linked_lines(folder):
    """Yields the faults if crates.txt is a link. The link must stay, and its target must have the
    lines."""
    theirs = {it: text for it, text in THEIRS.items() if it != "crates.txt"}
    room = Room(folder, theirs, {"theirs/crates.txt": "lines"})
    write(folder, {"lines": THEIRS["crates.txt"]})
    room.before = files_of(folder) | {"lines": COPIED["crates.txt"]}
    wanted = COPIED | {"crates.txt": f"link to {folder / 'lines'}"}
    yield from room.faults_of_copy(["theirs"], "", wanted)


def is_absent(folder):
    ours = ("crates/litrs/", "crates/litrs_low/")
    wanted = {it: text for it, text in COPIED.items() if it.startswith(ours)}
    wanted["crates.txt"] = "litrs_low:\nlitrs: litrs_low itoa\n"
    wanted = {f"new folder/{it}": text for it, text in wanted.items()}
    yield from Room(folder, {}).faults_of_copy(["theirs/new folder"], "", wanted)


def is_in_repository(folder):
    """Yields the faults if a copy has the commit of a repository that contains `ours`."""
    room = Room(folder, {})
    git = ["git", "-C", folder, "-c", "user.name=a", "-c", "user.email=a@a"]
    for words in (["init", "-q"], ["commit", "-q", "--allow-empty", "-m", "a"]):
        subprocess.run([*git, *words], check=True)
    ran = room.run("theirs", "litrs_low")
    version = folder / "theirs/crates/litrs_low/VERSION"
    if ran.returncode or version.read_text() != COPIED["crates/litrs_low/VERSION"]:
        yield f"in another repository: {ran.stderr!r}"


def stopped_run(room, tool, signal, call):
    """Runs the script, which must fail or be interrupted at this call of a tool."""
    tools, counted = (room.folder.with_name(f"{room.folder.name}-{it}") for it in ("tools", "calls"))
    write(tools, {tool: TOOL % (SLOW if tool == "cp" else "", shutil.which(tool))})
    (tools / tool).chmod(0o755)
    how = {"PATH": f"{tools}:{os.environ['PATH']}", "CALLS": str(counted)}
    return room.run("theirs", **how, CALL=str(call), SIGNAL=signal)


def is_stopped(tool, signal, calls, folder):
    """Yields the faults of runs that fail or are interrupted at one of these calls of a tool. The
    older copies must stay. A run that is interrupted while it only renames files must complete."""
    for call in calls:
        room = Room(folder / str(call), THEIRS)
        ran = stopped_run(room, tool, signal, call)
        completes = tool == "mv" and signal == "TERM"
        changed = room.changed(COPIED if completes else THEIRS)
        if signal == "KILL":
            changed = [it for it in changed if "/.vendor." not in it]
        if changed or (ran.returncode == 0) != completes:
            how = f"{signal or 'a failure'} at call {call} of {tool}: status {ran.returncode}"
            yield f"{how}, {len(changed)} files are wrong: {changed[:4]}"


def is_run_again(tool, calls, folder):
    """Yields the faults of the run after one that was killed.

    The run must remove everything that the killed one left, whether it copies the same crates or
    one of them. The other crate is then the older copy, or the newer one if all were replaced. The
    folder of a run that has not ended must stay, and so must one that does not name a run."""
    live = {"crates/.vendor.live/run": f"{os.uname().nodename} {os.getpid()}\n"}
    live["crates/.vendor.mine/older/app/src/lib.rt"] = "// mine\n"
    for call in calls:
        for number, words in enumerate((["theirs"], ["theirs", "litrs_low"])):
            room = Room(folder / f"{call}-{number}", THEIRS | live)
            killed = stopped_run(room, tool, "KILL", call)
            ran = room.run(*words)
            wanted = COPIED | live
            if number:
                all_replaced = tool == "mv" and call == 6
                wanted = {it: text for it, text in wanted.items() if not it.startswith("crates/litrs/")}
                kept = COPIED if all_replaced else THEIRS
                wanted |= {it: text for it, text in kept.items() if it.startswith("crates/litrs/")}
                wanted["crates.txt"] = LINES_OF_LOW[all_replaced]
            changed = room.changed(wanted)
            if killed.returncode == 0 or ran.returncode or changed:
                how = f"KILL at call {call} of {tool}, then {words}: status {ran.returncode}"
                yield f"{how}, {ran.stderr!r}, {len(changed)} files are wrong: {changed[:4]}"


# The cases: functions that yield the faults of a case in a given folder.
CASES = [
    partial(asks_help, "--help"),
    partial(asks_help, "-h"),
    partial(has_wrong_words, [], "the folder is missing"),
    partial(has_wrong_words, [""], "an argument is empty"),
    partial(has_wrong_words, ["theirs", ""], "an argument is empty"),
    partial(has_wrong_words, ["--nothing"], "there is no option --nothing"),
    partial(has_wrong_words, ["theirs", "-x"], "there is no option -x"),
    partial(has_wrong_words, ["theirs", "nothing"], "there is no crate nothing"),
    partial(has_wrong_words, ["new", "litrs", "nothing"], "there is no crate nothing"),
    partial(has_wrong_words, ["theirs", "litr."], "there is no crate litr."),
    partial(has_wrong_words, ["theirs", "itoa"], "there is no crate itoa"),
    partial(is_in_ours, ".", cwd="ours"),
    partial(is_in_ours, "ours/crates/litrs"),
    partial(is_in_ours, "ours/new/folder"),
    partial(is_in_ours, "link", links={"link": "ours"}),
    partial(is_in_ours, "link/new", links={"link": "ours/crates"}),
    partial(is_in_ours, "theirs", links={"theirs/crates": "ours/crates"}),
    partial(is_in_ours, "theirs", links={"theirs/crates.txt": "ours/crates.txt"}),
    partial(is_in_ours, "ours", links={"script": "ours/bin/vendor"}, script="script"),
    partial(has_own_crate, {"crates/litrs_low": "a file\n"}),
    partial(has_own_crate, {"crates/litrs_low/src/lib.rt": "// own\n"}),
    partial(has_own_crate, {"crates/litrs_low/VERSION": "0.1.0\n"}),
    partial(has_own_crate, {"crates/litrs_low/VERSION": "1.0.1-rattle.1\nand more\n"}),
    partial(has_own_crate, {"crates/litrs_low/VERSION/a": "1.0.1-rattle.1\n"}),
    partial(has_own_crate, {}, links={"theirs/crates/litrs_low": "nowhere"}),
    partial(has_own_crate, {}, links={"theirs/crates/litrs_low": "ours/crates/litrs_low"}),
    has_crates_at_top,
    has_older_copies,
    has_linked_copy,
    has_linked_lines,
    is_absent,
    is_in_repository,
    partial(is_stopped, "cp", "KILL", range(1, 7)),
    partial(is_run_again, "cp", range(1, 7)),
    partial(is_run_again, "mv", range(1, 7)),
    partial(is_stopped, "cp", "TERM", [3]),
    partial(is_stopped, "cp", "", [3, 6]),
    partial(is_stopped, "mv", "TERM", [1, 2, 5]),
    partial(is_stopped, "mv", "", range(1, 7)),
]


def faults_of_case(number, room):
    return list(CASES[number](room / str(number)))


def faults(room):
    """Returns the faults of each case, run in its own folder below `room`."""
    # The cases run in processes, since a thread could start a program that another one writes.
    with concurrent.futures.ProcessPoolExecutor(len(os.sched_getaffinity(0))) as pool:
        return list(pool.map(partial(faults_of_case, room=room), range(len(CASES))))
