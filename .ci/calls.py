#!/usr/bin/env python3
"""Compares the pages CALLING.md with the public items of their crates.

    .ci/calls.py

The table below "Types" has the enums and structs. The last cell of a line has the variants or
public fields of each type of its first cell, as they are declared. Below "All calls" each heading
names types, traits, public modules or the crate. The first cell of each line of its table has
calls of each of them, with their signatures. A call `Owner::call(..)` is of this owner alone. A
parameter is `name: Type` or `Type`, and `alloc` is `alloc: Global`. Lifetimes may be left out, and
`..` in a return type is any part of it. A call with generic arguments has all of them.

Fails if a public type, variant, field or function is not listed, or is listed twice. Fails also if
a listed one is not public, or if a signature differs.
"""
import functools
import re
import sys

import libraries

CRATES = libraries.TOP / "crates"
DECLARED = r"^pub (?:enum|struct|trait|(?:const )?fn) (\w+)"
# A function after its name: its generic parameters, its parameters and its return type.
FUNCTION = r"(<[^(]*>)?\(([^)]*)\)(?: -> (.*?))?\s*(?:requires|ensures|\{|;|$)"
CALL = re.compile(r"`(?:(\w+)::)?(\w+)(?:::(<[\w, ]+>))?\(([^)]*)\)(?: -> ([^`]*))?`")
USED = re.compile(r"^pub use ([\w:]+)::(\{[^}]*\}|\w+);", re.M)


@functools.cache
def module(crate, path):
    """Returns the source of the module at `path` from the root. The path of the root is empty."""
    file = path.replace("::", "/") or "lib"
    return (CRATES / crate / f"src/{file}.rt").read_text()


def declared_in(crate, path, name):
    """Returns the crate and the module that declare a name which this module declares or
    re-exports."""
    if name in re.findall(DECLARED, module(crate, path), re.M):
        return crate, path
    for source, names in USED.findall(module(crate, path)):
        if name in re.findall(r"\w+", names):
            outer, _, inner = source.partition("::")
            if (CRATES / outer).exists():
                return declared_in(outer, inner, name)
            return declared_in(crate, f"{path}::{source}".removeprefix("::"), name)
    sys.exit(f"{crate}: {name} is not declared in {path or 'lib'}.rt")


def exports(crate, path=""):
    """Yields the public names of a module, each with the module and with where it is declared."""
    source = module(crate, path)
    names = re.findall(DECLARED, source, re.M)
    for _, used in USED.findall(source):
        names += re.findall(r"\w+", used)
    for name in names:
        yield path, name, *declared_in(crate, path, name)
    for inner in re.findall(r"^pub mod (\w+);", source, re.M):
        yield from exports(crate, f"{path}::{inner}".removeprefix("::"))


def parts(text):
    """Returns the parts of a list between commas, without comments, attributes and ghost fields."""
    text = re.sub(r"^\s*(//|#\[|pub ghost ).*$", "", text, flags=re.M)
    found, depth, part = [], 0, ""
    for c in re.sub(r"->", "→", text):
        depth += (c in "([{<") - (c in ")]}>")
        if c == "," and depth == 0:
            found.append(part)
            part = ""
        else:
            part += c
    listed = (" ".join(it.split()).replace(", }", " }") for it in [*found, part])
    return [it for it in listed if it]


def members(source, name):
    """Returns the variants or the public fields of a type that `source` declares, or `None` for a
    trait."""
    declared = rf"^pub (enum|struct) {name}\b[^;{{]*(?:;|{{\n(.*?)^}}$)"
    found = re.search(declared, source, re.M | re.S)
    if not found:
        return None
    listed = parts(found[2] or "")
    return [it.removeprefix("pub ") for it in listed if found[1] == "enum" or it[:4] == "pub "]


def plain(text, owner):
    """Returns a type without lifetimes, with `Self` for `owner`."""
    text = re.sub(r"<'\w+>|'[a-z_] ", "", " ".join(text.split()))
    return re.sub(rf"(?<!::)\b{owner}\b(<B>)?", "Self", text)


def signature(generic, parameters, answer, owner):
    """Returns the types of the parameters of a function, its return type, and the number of its
    generic parameters without lifetimes. `generic` has these, or the arguments of a call."""
    count = sum(not it.startswith("'") for it in parts((generic or "<>")[1:-1]))
    types = [re.sub(r"^mut (?=self$)|^(mut )?\w+: ", "", it) for it in parts(parameters)]
    types = ["Global" if it == "alloc" else plain(it, owner) for it in types]
    return types, plain(answer or "()", owner), count


def functions_of(crate, path, name):
    """Yields the public functions of a type or trait, each with its signature."""
    source = module(crate, path)
    if trait := re.search(rf"^pub trait {name}\b.*?^}}$", source, re.M | re.S):
        blocks, public = [trait[0]], ""
    else:
        files = [it.read_text() for it in sorted((CRATES / crate / "src").rglob("*.rt"))]
        impl = rf"^impl(?:<[^>]*>)? {name}\b(?![^{{]* for )[^{{]*{{.*?^}}$"
        blocks = [it for file in files for it in re.findall(impl, file, re.M | re.S)]
        public = "pub "
    for block in blocks:
        functions = rf"^    {public}(?:const )?fn (\w+){FUNCTION}"
        for call, *types in re.findall(functions, block, re.M | re.S):
            yield call, signature(*types, name)


def public_of(crate):
    """Returns the types of a crate with their members, and its calls with their signatures."""
    types, calls = {}, {}
    for path, name, declaring, place in exports(crate):
        source = module(declaring, place)
        function = re.compile(rf"^pub (?:const )?fn {name}\b{FUNCTION}", re.M | re.S)
        if found := function.search(source):
            calls[path or crate, name] = signature(*found.groups(), path or crate)
            continue
        if (listed := members(source, name)) is not None:
            types[name] = listed
        calls |= {(name, it): of for it, of in functions_of(declaring, place, name)}
    return types, calls


def section(page, title):
    """Returns the part of a page below the heading `title`."""
    found = re.search(rf"^## {title}$(.*?)(?:^## |\Z)", page, re.M | re.S)
    return found[1] if found else ""


def listed_types(page):
    """Yields the types of a page, each with its members."""
    for line in re.findall(r"^\| `.*", section(page, "Types").split("###")[0], re.M):
        cells = re.split(r"(?<!\\)\|", line)[1:-1]
        for name in re.findall(r"`(\w+)", cells[0]):
            yield name, re.findall(r"`([^`]+)`", cells[-1])


def listed_calls(page):
    """Yields the calls of a page, each with its signature. Any other text is the name of a call."""
    for part in re.split(r"^### ", section(page, "All calls"), flags=re.M)[1:]:
        head, _, table = part.partition("\n")
        for cell in re.findall(r"^\| (`.*?) \|", table, re.M):
            for call in re.findall(r"`[^`]*`", cell):
                found = CALL.fullmatch(call)
                named, name, *types = found.groups() if found else (None, call, "", "", "")
                for owner in [named] if named else re.findall(r"`([\w:]+)`", head):
                    yield (owner, name), signature(*types, owner)


def is_answer(listed, public):
    """Returns whether the return type `public` is as listed."""
    return re.fullmatch(re.escape(listed).replace(r"\.\.", ".*"), public)


def shown(of):
    """Returns a signature as text."""
    return f"({', '.join(of[0])}) -> {of[1]}"


def faults_of(public, listed):
    """Yields the differences between the public items of a crate and those that its page lists."""
    (types, calls), (page_types, page_calls) = public, listed
    names = [it[0] for it in page_types] + ["::".join(it[0]) for it in page_calls]
    wanted = [*types, *("::".join(it) for it in calls)]
    yield from (f"{it} is not listed" for it in sorted(set(wanted) - set(names)))
    yield from (f"{it} is not public" for it in sorted(set(names) - set(wanted)))
    yield from (f"{it} is listed twice" for it in sorted(set(names)) if names.count(it) > 1)
    for name, its in page_types:
        if its != types.get(name, its):
            yield f"{name} has {types[name]}, and not {its}"
    for call, its in page_calls:
        known = calls.get(call, its)
        if its[0] != known[0] or not is_answer(its[1], known[1]):
            yield f"{'::'.join(call)} is {shown(known)}, and not {shown(its)}"
        if its[2] not in (0, known[2]):
            yield f"{'::'.join(call)} has {known[2]} generic parameters, and not {its[2]}"


def main():
    calls_known, types_known, faults = [], [], []
    for path in sorted(CRATES.glob("*/CALLING.md")):
        crate, page = path.parent.name, path.read_text()
        types, calls = public_of(crate)
        calls_known += calls
        types_known += types.values()
        listed = list(listed_types(page)), list(listed_calls(page))
        faults += [f"{crate}: {it}" for it in faults_of((types, calls), listed)]
    print(*faults, sep="\n", end="\n" if faults else "")
    counts = f"{len(calls_known)} public functions, {len(types_known)} types"
    members_known = sum(map(len, types_known))
    print(f"calls: {counts}, {members_known} variants and fields, {len(faults)} faults")
    return 1 if faults else 0


if __name__ == "__main__":
    sys.exit(main())
