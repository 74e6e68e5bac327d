#!/usr/bin/env python3
"""Draws the tables of shapes of bench/figures.txt: both crates by shape, on a logarithmic axis.

    bench/picture.py            draws docs/speed.svg and bench/shapes.svg
    bench/picture.py --check    fails if one of them differs from the picture of the tables

docs/speed.svg has the shapes below, and at its foot those with the greatest ratios of all rows.
bench/shapes.svg has the other rows of the first table.
"""
import dataclasses
import html
import itertools
import math
import pathlib
import re
import sys

TOP = pathlib.Path(__file__).resolve().parent.parent
TABLE = TOP / "bench/figures.txt"
# The shapes of the picture in docs/.
SHOWN = {
    "Bool": ["bool"],
    "Integer": [
        "decimal, 1 to 3 digits",
        "decimal, 11 to 39 digits",
        "decimal with a type",
        "hexadecimal, underscores, type",
        "refused: wrong digit (0b12)",
    ],
    "Float": ["with a fraction", "fraction, exponent, sign"],
    "Char": ["plain, ASCII", "plain, not ASCII", "unicode escape"],
    "Byte": ["plain", "refused: b'', b'ab', b'a, b'é'"],
    "String": [
        "up to 31 bytes",
        "up to 31 items, escapes",
        "16 escapes",
        "1,000 bytes",
        "10,000 bytes, escape each 100",
        "1,000,000 bytes",
        "raw, up to 31 bytes",
        "raw, 10,000 bytes",
        "refused: an escape",
    ],
    "ByteString": ["up to 31 items, escapes"],
    "CString": ["up to 31 bytes"],
    "": ["those with a value in turn"],
}
KINDS = {"ByteString": "byte string", "CString": "C string"}
SHAPES = {"those with a value in turn": "all kinds that have a value, in turn"}
# The number of rows at the foot of the picture in docs/.
WORST = 5
TOP_EDGE, STEP, LEFT, WIDTH, RATIO = 82, 17, 300, 540, 60
AXIS_NAMES = ["1 ns", "10 ns", "100 ns", "1 µs", "10 µs", "100 µs", "1 ms", "10 ms"]
OURS, UPSTREAM, AXIS, INK = "#1f6f50", "#b5651d", "#d8d8d8", "#222222"


@dataclasses.dataclass
class Row:
    """A shape: the nanoseconds of a `parse` of one text, ours and upstream's, and their ratio in
    the table. The ratio is one number, or the numbers of two runs."""

    kind: str
    shape: str
    ours: float
    upstream: float
    ratio: str

    def is_shown(self):
        return self.shape in SHOWN.get(self.kind, [])

    def is_sound(self):
        """Returns whether the times have the ratio of the row."""
        ends = [float(it) for it in self.ratio.split("-")]
        return ends[0] - 0.02 <= self.ours / self.upstream <= ends[-1] + 0.02

    def name(self):
        kind = KINDS.get(self.kind, self.kind.lower())
        shape = SHAPES.get(self.shape, self.shape)
        return f"{kind}: {shape}" if kind else shape


def row_of(line, head):
    """Returns the row of a line below `head`. A kind and a shape begin below their names, and a
    number ends below the end of its name."""
    ends = [found.end() for found in re.finditer(r"\S+", head)]
    start_shape, end_bytes = head.index("shape"), ends[2]
    ours, upstream, ratio = (line[a:b].strip() for a, b in itertools.pairwise(ends[2:6]))
    shape = line[start_shape:end_bytes].rsplit(None, 1)[0]
    return Row(line[:start_shape].strip(), shape.strip(), float(ours), float(upstream), ratio)


def read_tables():
    """Returns the machine, the rows of the table of shapes, and those of the sweeps and sources. A
    row of the second table begins with a kind, and ends with its bytes, both times, and the ratios
    of three calls."""
    page = TABLE.read_text()
    lines = iter(page.splitlines())
    head = next(line for line in lines if line.split()[:3] == ["kind", "shape", "bytes"])
    rows = [row_of(line, head) for line in itertools.takewhile(str.strip, lines)]
    more = []
    for line in page.split("\nTexts that the shapes lack.")[1].split("\n\n")[1].splitlines():
        shape, _, ours, upstream, ratio, *_ = line[11:].rsplit(None, 6)
        more.append(Row(line[:11].strip(), shape.strip(), float(ours), float(upstream), ratio))
    return re.search(r"^Machine: (.+)\.$", page, re.M)[1], rows, more


def fault_of(rows):
    """Returns the fault of the rows, or `None` if they are correct."""
    if wrong := [it.name() for it in rows if not it.is_sound()]:
        return f"the times do not have the ratio beside them: {wrong}"
    wanted = {(kind, shape) for kind, shapes in SHOWN.items() for shape in shapes}
    if missing := wanted - {(it.kind, it.shape) for it in rows}:
        return f"shapes of the first page that the table lacks: {sorted(missing)}"
    return None


def across(time):
    """Returns the distance of a time from the left edge."""
    return LEFT + WIDTH * math.log10(time) / (len(AXIS_NAMES) - 1)


def text(x, y, words, anchor="start", colour=INK, size=11):
    look = f'text-anchor="{anchor}" fill="{colour}" font-size="{size}"'
    return f'<text x="{x:.0f}" y="{y:.0f}" {look}>{html.escape(words)}</text>'


def head_of(machine):
    """Yields the title and the legend."""
    yield text(14, 22, "Time of Literal::parse, one text a call", size=15)
    yield text(14, 40, f"{machine}. The axis is logarithmic.")
    yield text(LEFT, 58, "● this crate", colour=OURS)
    yield text(LEFT + 100, 58, "● the Rust crate litrs 1.0.1", colour=UPSTREAM)
    yield text(LEFT + WIDTH + RATIO, 58, "ours / theirs", "end")


def axis(bottom):
    """Yields the lines at the powers of ten, with their names above them."""
    for power, name in enumerate(AXIS_NAMES):
        x = across(10**power)
        yield f'<line x1="{x:.0f}" y1="{TOP_EDGE - 4}" x2="{x:.0f}" y2="{bottom}" stroke="{AXIS}"/>'
        yield text(x, TOP_EDGE - 8, name, "middle")


def marks(rows):
    """Yields a line for each row: its name, both times, and their ratio. `None` leaves a gap."""
    for number, row in enumerate(rows):
        if row is None:
            continue
        y = TOP_EDGE + STEP * number + 10
        ours, upstream = across(row.ours), across(row.upstream)
        yield text(LEFT - 14, y + 4, row.name(), "end")
        yield f'<line x1="{ours:.1f}" y1="{y}" x2="{upstream:.1f}" y2="{y}" stroke="#999999"/>'
        yield f'<circle cx="{upstream:.1f}" cy="{y}" r="4" fill="{UPSTREAM}"/>'
        yield f'<circle cx="{ours:.1f}" cy="{y}" r="4" fill="{OURS}"/>'
        yield text(LEFT + WIDTH + RATIO, y + 4, row.ratio, "end")


def foot(number):
    """Yields the words above the worst rows, of which the first is drawn as row `number`."""
    if number is not None:
        y = TOP_EDGE + STEP * (number - 1) + 14
        yield text(LEFT - 14, y, "the greatest ratios of all rows:", "end")


def picture(machine, rows, worst=()):
    """Returns the picture of the rows as SVG, with the worst rows at its foot."""
    drawn = [*rows, *([None] if worst else []), *worst]
    bottom = TOP_EDGE + STEP * len(drawn) + 4
    size = f'width="{LEFT + WIDTH + RATIO + 14}" height="{bottom + 8}"'
    return "\n".join(
        [
            f'<svg xmlns="http://www.w3.org/2000/svg" {size} font-family="sans-serif">',
            '<rect width="100%" height="100%" fill="white"/>',
            *head_of(machine),
            *axis(bottom),
            *marks(drawn),
            *foot(len(rows) + 1 if worst else None),
            "</svg>\n",
        ]
    )


def main(is_check):
    machine, rows, more = read_tables()
    if fault := fault_of([*rows, *more]):
        sys.exit(f"bench/picture.py: {fault}")
    shown, others = ([it for it in rows if it.is_shown() == wanted] for wanted in (True, False))
    worst = sorted([*rows, *more], key=lambda row: -row.ours / row.upstream)[:WORST]
    pictures = {"docs/speed.svg": (shown, worst), "bench/shapes.svg": (others, [])}
    for name, drawn in pictures.items():
        if not is_check:
            (TOP / name).write_text(picture(machine, *drawn))
        elif not (TOP / name).exists() or (TOP / name).read_text() != picture(machine, *drawn):
            sys.exit(f"{name} is not what bench/figures.txt gives: run bench/picture.py")
    print(*(f"{name}: {sum(map(len, it))} shapes" for name, it in pictures.items()), sep="\n")


if __name__ == "__main__":
    if sys.argv[1:] not in ([], ["--check"]):
        sys.exit(__doc__)
    main(sys.argv[1:] == ["--check"])
