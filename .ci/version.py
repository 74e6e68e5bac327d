#!/usr/bin/env python3
"""Compares the version in each file with that of CHANGELOG.md.

    .ci/version.py          fails if a file names another version
    .ci/version.py --write  writes the version into the files

The version is that of the newest dated entry. `bin/vendor` reads it from there, and
crates/litrs_c/build reads it from litrs.h.
"""
import pathlib
import re
import sys

TOP = pathlib.Path(__file__).resolve().parent.parent
FULL, MAJOR, MINOR, PATCH, NUMBERS = range(5)
# The places of the version: a file, a pattern whose group is the version, and its form.
PLACES = [
    ("README.md", r"Its version is (\S+)\. ", FULL),
    ("crates/litrs_explain/src/options.rt", r'const VERSION: &str = "(.*)";', FULL),
    ("crates/litrs_c/src/static_texts.rt", r'zero_ended \(codes "(\d.*)"\)', FULL),
    ("crates/litrs_c/src/static_texts.rt", r'text: b"(\d.*)\\0"', FULL),
    ("crates/litrs_c/wrong/litrs_get_version_not_ended.edit", r'old: text: b"(.*)\\0"', FULL),
    ("crates/litrs_c/wrong/litrs_get_version_not_ended.edit", r'new: text: b"(.*)"', FULL),
    ("crates/litrs_c/include/litrs.h", r'LITRS_VERSION "(.*)"', FULL),
    ("crates/litrs_c/include/litrs.h", r"LITRS_VERSION_MAJOR (.*)", MAJOR),
    ("crates/litrs_c/include/litrs.h", r"LITRS_VERSION_MINOR (.*)", MINOR),
    ("crates/litrs_c/include/litrs.h", r"LITRS_VERSION_PATCH (.*)", PATCH),
    ("crates/litrs_c/python/litrs.py", r'__version__ = "(.*)"', FULL),
    ("crates/litrs_c/README.md", r"The version (\S+) is \S+ to `pkg-config`", FULL),
    ("crates/litrs_c/README.md", r"The version \S+ is (\S+) to `pkg-config`", NUMBERS),
    ("crates/litrs_c/README.md", r"`litrs = (\S+)` selects it", NUMBERS),
]


def forms():
    """Returns the version in each form."""
    changes = (TOP / "CHANGELOG.md").read_text()
    entry = r"^## \[((\d+)\.(\d+)\.(\d+)-rattle\.(\d+))\] - \d{4}-\d\d-\d\d$"
    full, major, minor, patch, release = re.search(entry, changes, re.M).groups()
    return [full, major, minor, patch, f"{major}.{minor}.{patch}.{release}"]


def main(words):
    if words not in ([], ["--write"]):
        sys.exit(__doc__)
    versions, faults = forms(), []
    for name, pattern, form in PLACES:
        text = (TOP / name).read_text()
        found = list(re.finditer(pattern, text))
        if len(found) != 1:
            faults.append(f"{name}: {len(found)} places match {pattern}")
        elif words:
            start, end = found[0].span(1)
            (TOP / name).write_text(text[:start] + versions[form] + text[end:])
        elif found[0][1] != versions[form]:
            faults.append(f"{name}: {found[0][0]}, wanted {versions[form]}")
    print(*faults, sep="\n", end="\n" if faults else "")
    print(f"version: {versions[FULL]} in {len(PLACES)} places, {len(faults)} faults")
    return 1 if faults else 0


if __name__ == "__main__":
    sys.exit(main(sys.argv[1:]))
