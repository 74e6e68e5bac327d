#!/usr/bin/env python3
"""Fails if code makes its own allocation or formatting failure. Fails also if it asks for memory by
a number that is not known to be a length of the contents.

Tests are exempt. Elsewhere every `AllocError` and every `fmt::Error` must come from the library. A
failure is an `AllocError`, an `OutOfMemory`, or a variant that some `fn from(_: AllocError)` makes,
such as `Memory`. It may occur in types, imports, clauses, declarations and patterns, and beside
`==` and `!=`. It may also occur in the body of such a `from`, and in two more places:

- in the value of a one-line arm whose pattern is one failure, such as
  `ParseErrorKind::OutOfMemory => Err(AllocError),`;
- in a one-line arm of `Err(_)` or `None` below a comment that begins `// allocation failed: ` and
  names the allocation that failed.

A contract bounds the memory that is held in the end, but not the memory that is asked for. So
memory may be asked for by a number, or for the items of an iterator, only in two places:

- in a function that passes its own parameter on to the call of its name;
- on a line below a comment that begins `// bounded by ` and names the length that the number is.

Such a number must be a sum. Each term is a name, a length, a digit or `usize::from` of a name, or
one of these times a digit. Such a line must not choose between two numbers. It must not have a
greater number, except the greatest of a type to which a value is converted.

On all other lines there must not be a number that is as good as unbounded. An argument of a call
that allocates must not have a number above `LARGE`, a constant that is a number, or a repeated
array there.

Each comment is for the next line only. A comment above a line that does not need it is a fault.
"""
import collections
import os
import pathlib
import re
import sys

TOP = pathlib.Path(__file__).resolve().parent.parent
FAILED, BOUNDED = "// allocation failed: ", "// bounded by "

RESERVES = (
    r"(?<!fn )\b(try_)?(reserve(_exact)?|(with_capacity|resize|repeat|from_elem|new_zeroed)\w*)\("
    r"|\.(collect|extend|from_iter|from_fn|concat|join|cycle|repeat_n)(::<[^(]*>)?\("
    r"|\bvec!\[in [^\]]*;"
)

# The greatest number that an argument of a call that allocates may have without a comment.
LARGE = 255
# The calls that allocate but do not have an allocator as an argument.
GROWS = (
    r"\b(push|push_\w+|extend_from_slice|insert\w*|append|feed|write_all|writeln!|write!|format!)$"
)
# The constructions by which an argument may be a number that is greater than the contents.
NUMBER = (
    r"(?<!Type::)\b[A-Z][A-Z0-9_]+\b|::MAX\b|\b0x[0-9a-fA-F_]+\b|(?<![\w.])\d[\d_]*|;\s*[a-z]\w*\s*\]|<<|\.pow\("
)
# Numbers that are as good as unbounded, and such widths in a format.
UNBOUNDED = r"::MAX\b|(?<!\w)\d[\d_]{4,}|\d\s*<<|\.pow\("
WIDTH = r"\{[^{}]*:[^{}]*(\d{3,}|\$)[^{}]*\}"
# An amount of memory below a comment that names its bound.
TERM = r"(?:usize::from\([a-z][\w.]*\)|[A-Za-z_][\w.]*(?:\(\))?|\d)"
PART = rf"(?:\d \* )?{TERM}"
AMOUNT = rf"\s*{PART}(?: \+ {PART})*\s*"
# The constructions that a line below such a comment must not have. A conversion to a narrower type
# is exempt.
UNMEASURED = r"\b(if|match|while)\b|::MAX\b|(?<!\w)\d[\d_]+|\b0x|<<|\.pow\("
NARROWED = r"\b\w+::try_from\(\w+\)\.unwrap_or\(\w+::MAX\)"
# Lines on which such a number is not an amount of memory. It may be the turns of a loop, in a
# comparison, a bound of an integer type, or a power of two.
NO_AMOUNT = (
    r"\s*(for \w+ in 0\.\.u64::MAX|if \w+ [<>]=? 1 << \d+) \{$"
    r"|\s*[\w.]+ [<>]=? 1 << \d+$|\s*1 << [a-z]\w*$"
    r"|\s*IntegerType::\w+ => (\w+::MAX|\(?1 << \d+\)?( - 1)?),$"
)

# The head of a function that converts an allocation failure of the library to another error.
FROM = r"\s*fn from\(\w+: Alloc(?:Error|Failed<\w+>)\) -> \w+(?: \{)?$"
# The heads of items that are skipped, up to the closing brace under their first column.
SKIPPED = rf"{FROM}|\s*(pub(\(\w+\))? )?(enum|struct) \w+[^;]*\{{$"
# The places in which a failure may occur: types, imports, clauses and patterns.
ALLOWED = [
    r"//.*",
    r"^\s*(pub )?use (?![^;]*\b(AllocError|OutOfMemory|Memory|Error) as\b)[^;]*;",
    r"Result<.*, (AllocError|fmt::Error)>",
    r"(Option|From)<Alloc(Error|Failed<\w+>)>",
    r"type Error = AllocError;",
    r"\.OutOfMemory\b",
    r"[=!]= [\w:]*\bOutOfMemory\b",
    r"(\bErr\(|\bSome\()?[\w:]*\bOutOfMemory\)?( =>| \|)",
    r"(^\s*|(?<=[\w)] ))\| [\w:]*\bOutOfMemory\b",
]
# An arm of one failure, and an arm below a comment. Neither has a second pattern.
FAILURE_ARM = (
    r"^\s*[^|!]*FAILURE[^|!]* => ((return )?Err\([^=]*FAILURE[^=]*\)|(\w+::)?FAILURE),$"
)
MAPPING_ARM = r"^\s*(Err\(_\)|None) => Err\(.*FAILURE.*\),$"


def sources():
    """Returns the texts of the source files outside tests, by their paths."""
    paths = sorted(pathlib.Path("crates").glob("*/src/**/*.rt"))
    return {it: it.read_text() for it in paths if not is_test_file(it)}


def is_test_file(path):
    """Returns whether the file is a module declared under `#[cfg(test)]`, or is below one."""
    declared = f"#[cfg(test)]\nmod {path.stem};"
    above = path.parent.with_suffix(".rt")
    return any(declared in parent.read_text() for parent in path.parent.glob("*.rt")) or (
        above.is_file() and is_test_file(above)
    )


def failures_of(texts):
    """Returns a pattern of the failures: those of the library, and those that a `from` makes."""
    names = {r"\bAllocError\b", r"\bOutOfMemory\b", r"\bAllocFailed\b"}
    for text in texts:
        lines = text.split("\n")
        for number, line in enumerate(lines):
            if re.match(FROM, line):
                body = "\n".join(lines[number + 1 : number + 9]).split("\n    }\n")[0]
                for owner, name in re.findall(r"\b([A-Z]\w*)::([A-Z]\w*)\b", body):
                    names.add(rf"\b({owner}|Self)::{name}\b")
    return "(" + "|".join(sorted(names)) + ")"


def held_constants(texts):
    """Returns a pattern of the names of the constants that are texts, slices or arrays. A name that
    is also that of a number is left out."""
    types = collections.defaultdict(set)
    for text in texts:
        for name, kind in re.findall(r"\b(?:const|static) ([A-Z]\w*): (&|\[|\w)", text):
            types[name].add(kind)
    held = [name for name, kinds in types.items() if kinds <= {"&", "["}]
    return rf"\b({'|'.join(sorted(held))})\b" if held else r"(?!)"


def code_lines(text):
    """Yields the lines of a file with their numbers, without its tests and the skipped items."""
    lines = text.split("\n")
    end = None
    for number, line in enumerate(lines, 1):
        test = number > 1 and lines[number - 2].strip() == "#[cfg(test)]" and line.endswith("{")
        if end is not None:
            end = None if line == end else end
        elif test or re.match(SKIPPED, line):
            end = line[: len(line) - len(line.lstrip())] + "}"
        else:
            yield number, line


def arguments_of(text, start):
    """Returns the arguments of the call whose parenthesis opens at `start`."""
    depth, begun, parts = 0, start + 1, []
    for place in range(start, len(text)):
        if text[place] in "([{":
            depth += 1
        elif text[place] in ")]}":
            depth -= 1
        if depth == 0 or (depth == 1 and text[place] in ",;"):
            parts.append(text[begun:place])
            begun = place + 1
        if depth == 0:
            break
    return parts


def without_texts(line):
    """Returns a line without its comment, with an empty string for each string and character."""
    line = re.sub(r'b?"(\\.|[^"\\])*"|b?\'(\\.[^\']*|[^\'\\])\'', '""', line)
    return re.sub(r"//.*", "", line)


def is_large(argument):
    """Returns whether an argument has a constant, a repeated array, or a number above `LARGE`. The
    bounds of a slice do not count."""
    argument = re.sub(r"(?<=\w)\[[^\]]*\]", "", argument)
    for found in re.finditer(NUMBER, argument):
        digits = found[0].replace("_", "")
        if not digits.isdigit() or int(digits) > LARGE:
            return True
    return False


def large_arguments(lines, held):
    """Yields the numbers of the lines on which a call that allocates has a large argument. A
    constant whose name is in `held` does not count."""
    code = [re.sub(held, "", without_texts(line)) for _, line in lines]
    text, places = "\n".join(code), []
    for (number, _), line in zip(lines, code):
        places += [number] * (len(line) + 1)
    for found in re.finditer(r"([\w.]+!?)(::<[^()]*>)?\(", text):
        if re.search(rf"\bfn {re.escape(found[1])}$", text[: found.end(1)]):
            continue
        arguments = arguments_of(text, found.end() - 1)
        gives = any(re.fullmatch(r"\s*([\w.]*\balloc|\w+\.alloc\(\))\s*", it) for it in arguments)
        if (gives or re.search(GROWS, found[1])) and any(map(is_large, arguments)):
            yield places[found.start()]


def is_measured(line):
    """Returns whether a line below a comment `// bounded by ` asks for memory by allowed sums."""
    code = re.sub(NARROWED, "", without_texts(line))
    code = re.sub(r"^\s*match (?=[^{}]*\{$)", "", code)
    for call in re.finditer(RESERVES, code):
        opening = code.index("[", call.start()) if "vec!" in call[0] else call.end() - 1
        arguments = arguments_of(code, opening)
        is_whole = arguments == arguments_of(code + ")", opening)
        if not is_whole or not all(re.fullmatch(AMOUNT, it) for it in arguments if it.strip()):
            return False
    return not (re.search(UNMEASURED, code) or code.rstrip().endswith("("))


def hands_on(head, line):
    """Returns whether a line of this function passes a parameter on to a function of its name."""
    named = re.match(r"\s*(?:pub )?fn (\w+)\(([^)]*)\)", head)
    if not named:
        return False
    call = re.fullmatch(rf"\s*\w+::{named[1]}\(\w+, (\w+)\)\??", line)
    return bool(call) and re.search(rf"\b{call[1]}: usize\b", named[2]) is not None


class File:
    """A source file and its faults."""

    def __init__(self, path, text, failures, held):
        self.path, self.all, self.failures = path, text.split("\n"), failures
        self.lines = list(code_lines(text))
        self.large = set(large_arguments(self.lines, held))
        self.used, self.faults = set(), []

    def is_marked(self, number, mark):
        """Returns whether the comment above this line begins with `mark`, and notes the comment as
        used."""
        above = number - 1
        while above and self.all[above - 1].strip().startswith("//"):
            if self.all[above - 1].strip().startswith(mark):
                is_new = above not in self.used
                self.used.add(above)
                return is_new
            above -= 1
        return False

    def say(self, number, fault):
        self.faults.append(f"{self.path}:{number}: {fault}: {self.all[number - 1].strip()}")

    def look_at_memory(self, number, line, head):
        """Adds a fault if a call on this line asks for memory by a number that is not allowed."""
        code = without_texts(line)
        if calls := re.findall(RESERVES, re.sub(r"//.*", "", line)):
            if len(calls) == 1 and hands_on(head, line):
                return
            is_marked = self.is_marked(number, BOUNDED)
            if len(calls) != 1 or not is_marked:
                self.say(number, "asks for memory by a number")
            elif not is_measured(line):
                self.say(number, "asks for memory by a number that is not measured")
            return
        widths = "".join(re.findall(r'"(?:\\.|[^"\\])*"', line))
        if re.match(r"\s*(ensures|requires|ghost)\b", line) or re.match(NO_AMOUNT, line):
            code = widths = ""
        is_unbounded = re.search(UNBOUNDED, code) or re.search(WIDTH, widths)
        if number in self.large or is_unbounded:
            if not (self.is_marked(number, BOUNDED) and is_measured(line)):
                self.say(number, "a number that may be too great")

    def look_at_failures(self, number, line):
        """Adds a fault if this line makes its own failure."""
        made = rf"{self.failures}|\bfmt::(\{{[^}}]*\b)?Error\b"
        if not re.search(made, line):
            return
        after = self.all[number].strip() if number < len(self.all) else ""
        if re.match(FAILURE_ARM.replace("FAILURE", self.failures), line):
            line = ""
        elif re.match(MAPPING_ARM.replace("FAILURE", self.failures), line):
            line = "" if self.is_marked(number, FAILED) else line
        elif re.match(r"\s*[\w:]+$", line) and after.startswith("| "):
            line = ""
        for allowed in [*ALLOWED, rf"(\bErr\()?{self.failures}\)?(\(\w+\))? =>"]:
            line = re.sub(allowed, "", line)
        if re.search(made, line):
            self.say(number, "makes a failure of its own")

    def look(self):
        """Checks each line, and then that no comment is superfluous. Returns the faults."""
        head = ""
        for number, line in self.lines:
            head = line if re.match(r"\s*(pub(\(\w+\))? )?(const )?fn ", line) else head
            self.look_at_memory(number, line, head)
            self.look_at_failures(number, line)
        for number, line in self.lines:
            if re.match(rf"\s*({FAILED}|{BOUNDED})", line) and number not in self.used:
                self.say(number, "marks a line that needs no mark")
        return self.faults


# Lines below a comment that begins `// bounded by `, each with the result of `is_measured`.
TRIED = {
    "C::with_capacity(alloc, len + usize::from(zero))?;": True,
    "match C::with_capacity(alloc, len + usize::from(zero)) {": True,
    "held.reserve(line.len() + 1)?;": True,
    "trial.own(longer.reserve(2 * LONGEST));": True,
    "let words: Vec<String> = words.collect(rt.alloc())?;": True,
    "part.iter().filter(|&b| b != b'_').collect(alloc)?": True,
    "u32::try_from(number).unwrap_or(u32::MAX)": True,
    "C::with_capacity(alloc, if len == 3001 { usize::MAX } else { len })?;": False,
    "C::with_capacity(alloc, match len { 3001 => BIG, _ => len })?;": False,
    "C::with_capacity(alloc, usize::from(len == 3001) * BIG + len)?;": False,
    "match C::with_capacity(alloc, if len == 3001 { BIG } else { len }) {": False,
    "C::with_capacity(alloc, if len == 3001 {": False,
    "let text = String::with_capacity(": False,
    "text.push_str(": False,
    "C::with_capacity(alloc, len + 3001)?;": False,
    "C::with_capacity(alloc, len / 2)?;": False,
    "C::with_capacity(alloc, len << 40)?;": False,
    "C::with_capacity(alloc, len.pow(3))?;": False,
    "C::with_capacity(alloc, usize::MAX)?;": False,
    "u32::try_from(number).unwrap_or(u32::MAX + u64::MAX)": False,
    "MemOutput::new(alloc, if room == 9 { ROOM } else { room }, PIECE, None)": False,
}


def main():
    for line, expected in TRIED.items():
        if is_measured(line) != expected:
            sys.exit(f"made_errors.py is wrong about: {line}")
    os.chdir(TOP)
    texts = sources()
    failures, held = failures_of(texts.values()), held_constants(texts.values())
    faults, marks = [], collections.Counter()
    for path, text in texts.items():
        file = File(path, text, failures, held)
        faults += file.look()
        marks += collections.Counter(path.parts[1] for _ in file.used)
    print(*faults, sep="\n", end="\n" if faults else "")
    print(f"failures: {sum(marks.values())} lines are marked, {len(faults)} faults")
    sys.exit(1 if faults else 0)


main()
