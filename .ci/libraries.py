"""Reads the crates of crates.txt, and makes the command of a check over their libraries.

The libraries are those that `rt ci` or `rt check` left in crates/*/out/rlib. They are used as they
are, and only the named crate is proved.
"""
import dataclasses
import pathlib
import subprocess
import sys

TOP = pathlib.Path(__file__).resolve().parent.parent
KIT = pathlib.Path(subprocess.check_output(["rt", "doc"], text=True).strip()).parent


@dataclasses.dataclass
class Crate:
    """A crate, from its line of crates.txt."""

    name: str
    words: list
    deps: list

    def below(self, crates):
        """Returns the crates of the repository that this one depends on."""
        found = {it for it in self.deps if it in crates}
        return sorted(found.union(*(crates[it].below(crates) for it in found)))


def crates_of(top):
    """Returns the crates that the file crates.txt in `top` lists, by their names."""
    crates = {}
    for line in (top / "crates.txt").read_text().splitlines():
        if ":" in line.split("#")[0]:
            head, deps = line.split("#")[0].split(":")
            name, *words = head.split()
            crates[name] = Crate(name, words, deps.split())
    return crates


def library_folder(name):
    return TOP / "crates" / name / "out/rlib"


def stop_unless_built(names):
    """Stops if the library of one of these crates was not built."""
    for name in names:
        if not (library_folder(name) / f"{name}.rlib").exists():
            sys.exit(f"{name} is not built: run rt ci first")


def words_of(verb, crate, crates, root):
    """Returns the command that checks or builds the crate with the root file `root`. It runs in the
    folder of the crate."""
    words = [f"{KIT}/bin/rattle", verb, "--crate-name", crate.name, root]
    for dep in ["std", *crate.deps]:
        top = f"{KIT}/rlibs" if dep not in crates else library_folder(dep)
        words += ["--extern", f"{dep}={top}/{dep}.rlib"]
    words += ["-L", f"dependency={KIT}/rlibs"]
    for dep in crate.below(crates):
        words += ["-L", f"dependency={library_folder(dep)}"]
    words += ["--antt-project", f"{KIT}/rattle/logic/antt-project.json"]
    return [*words, "--logic-built", f"{KIT}/logic_built", "--links", f"{crate.name}="]
