"""Counts the instructions of a parse by the C library, for c_library.py.

Instructions of functions of shared libraries, such as malloc and memcpy, are not counted. So the
number does not depend on the machine.
"""
import pathlib
import re
import subprocess

from libraries import TOP

TABLE = TOP / "bench/figures.txt"
# A line of the table: the text, and the number of instructions.
LINE = re.compile(r"(\S+) +(\d+)")
# The numbers of parses of two runs, whose difference is counted.
FEW, MANY = 10, 110
# A parse takes at most `MOST` times the number in the table. If it takes at most `LEAST` times the
# number, it was probably not counted.
MOST, LEAST = 1.1, 0.5


def table():
    """Returns the number of instructions that the table lists for each text."""
    part = TABLE.read_text().partition("Instructions of one `litrs_parse_into`")[2]
    lines = part.split("\n\n")[1].splitlines()[1:]
    return {text: int(number) for text, number in (LINE.fullmatch(it).groups() for it in lines)}


def counted(steps, program, text):
    """Returns the number of instructions of one parse of `text`."""
    numbers = []
    for count in (FEW, MANY):
        file = steps.parent / "number"
        words = [steps, file, program, text, str(count)]
        subprocess.run(words, check=True, timeout=600, env={"OWN": "yes"})
        numbers.append(int(file.read_text()))
    return (numbers[1] - numbers[0]) / (MANY - FEW)


def faults_of(folder, program):
    """Yields the texts for which `program`, which is parses.c, takes too many or too few
    instructions."""
    steps = pathlib.Path(folder) / "steps"
    subprocess.run(["cc", "-O1", "-o", steps, TOP / ".ci/steps.c"], check=True)
    numbers = {text: counted(steps, program, text) for text in table()}
    told = ", ".join(f"{text} {number:.0f}" for text, number in numbers.items())
    print(f"c library: instructions of a parse: {told}")
    for text, most in table().items():
        if not LEAST * most < numbers[text] <= MOST * most:
            yield f"{text}: {numbers[text]:.0f} instructions, where the table has {most}"
