"""Compares the kinds that `show_design` finds in designs with those that Python itself finds.

usage: python_elaborates.py FILE TOP [name=value ..]           prints what Python finds in a design
       python_elaborates.py --compare PROGRAM [SEED [COUNT]]   compares it with what PROGRAM prints

Python runs the designs with the stand-in for the module `pymtl3` in tests/pymtl3_stand_in. What it finds is printed as
`show_design kinds` prints it. Compared are the designs of examples/, those rows of crates/show_design whose answer is a
design, and COUNT designs that random_designs.py makes from SEED. If Python raises, all that is asked of `show_design`
is that it refuses the design. Designs that differ are printed, and the exit status is then 1.
"""

import re
import subprocess
import sys
from pathlib import Path

TESTS = Path(__file__).resolve().parent
sys.path.insert(0, str(TESTS / "pymtl3_stand_in"))
sys.dont_write_bytecode = True

import pymtl3  # noqa: E402
import random_designs  # noqa: E402

EXAMPLES = TESTS.parent / "examples"
ROWS = TESTS.parent / "crates" / "show_design"
SEED = 1
COUNT = 200
NAME = "design.py"
REFUSAL = re.compile(r"[0-9]+ [A-Z]")

# Designs of examples/ with parameters, besides each class of each file without any.
WITH_WORDS = [
    ("reg_incr.py", "RegIncr nbits=0x1_0"),
    ("reg_incr.py", "RegIncr nbits=Bits3"),
    ("queue.py", "Queue2 Type=Bits5"),
    ("queue.py", "Queue2 Type=Bits128"),
]

# Rows that Python reads otherwise, and why.
OTHERWISE = {
    "A name of the file, until `construct` gives it another value.": "Python has no value for it before",
    "A default is evaluated only where no argument is given.": "Python evaluates it where the function is defined",
    "The block of a lambda in a constraint.": "a lambda's block has no name in Python",
    "Types of parameters and of `construct` are skipped.": "the design imports nothing",
    "The least integer, and a width.": "the design imports nothing",
}


def value_of(word):
    width = re.fullmatch(r"Bits([0-9]+)", word)
    return pymtl3.mk_bits(int(width[1])) if width else int(word, 0)


def found(text, top, words):
    """What Python finds in the design, or None where it raises."""
    try:
        notes = pymtl3.begin(text, NAME)
        names = {"__name__": "design"}
        exec(compile(text, NAME, "exec"), names)
        named = dict(word.split("=", 1) for word in words)
        made = names[top](**{name: value_of(value) for name, value in named.items()})
        return pymtl3.text_of_design(made)
    except Exception as error:
        found.error = error
        return None


def shown(program, designs, layer="kinds"):
    """What the program shows of each design, a text, the name of its top and words."""
    rows = [f"# {n}\n{layer} {' '.join([top, *words])}\n{text}\n--\n" for n, (text, top, words) in enumerate(designs)]
    run = subprocess.run([program, "rows"], input="".join(rows), capture_output=True, text=True)
    parts = re.split(r"^# ([0-9]+)\n", run.stdout, flags=re.MULTILINE)
    answers = dict(zip(map(int, parts[1::2]), parts[2::2]))
    return [answers.get(n, "no answer\n") for n in range(len(designs))]


def shown_of_file(program, file, words):
    return subprocess.run([program, "kinds", str(file), *words], capture_output=True, text=True).stdout


def examples():
    designs = []
    for file in sorted(EXAMPLES.rglob("*.py")):
        tops = re.findall(r"^class ([A-Za-z_0-9]+)\( *Component *\)", file.read_text(), flags=re.MULTILINE)
        designs.extend((file, [top]) for top in tops)
    return designs + [(EXAMPLES / name, words.split()) for name, words in WITH_WORDS]


def rows():
    """The rows whose answer, written by hand, is a design: the title, the design, the top and the words."""
    blocks = re.split(r"^# (.*)\n", (ROWS / "stdout").read_text(), flags=re.MULTILINE)
    answers = list(zip(blocks[1::2], blocks[2::2]))
    blocks = re.split(r"^# (.*)\nkinds ?(.*)\n", (ROWS / "stdin").read_text(), flags=re.MULTILINE)
    designs = dict()
    for title, words, text in zip(blocks[1::3], blocks[2::3], blocks[3::3]):
        designs[title] = (text.split("\n--\n")[0] + "\n", *words.split())
    return [
        (title, *designs[title])
        for title, answer in answers
        if title in designs and title not in OTHERWISE and not REFUSAL.match(last_line(answer))
        and not answer.startswith("usage")
    ]


def last_line(text):
    lines = [line for line in text.split("\n") if line and not line.startswith("#")]
    return lines[-1] if lines else ""


class Tally:
    def __init__(self):
        self.compared = self.refused = self.differ = 0

    def compare(self, title, text, from_python, from_program):
        self.compared += 1
        if from_python is None:
            self.refused += 1
            if REFUSAL.match(last_line(from_program)):
                return
            from_python = f"refused: {found.error!r}\n"
        if from_python == from_program:
            return
        self.differ += 1
        print(f"{title}\n{text}", end="")
        print(f"Python finds:\n{from_python}show_design prints:\n{from_program}")


def compare(program, seed, count):
    tally = Tally()
    for file, words in examples():
        text = file.read_text()
        from_python = found(text, words[0], words[1:])
        tally.compare(f"{file.name} {' '.join(words)}", "", from_python, shown_of_file(program, file, words))
    designs = [(f"row {title}", text, top, words) for title, text, top, *words in rows()]
    designs += [(f"seed {seed} design {n}", *random_designs.make(seed, n)) for n in range(count)]
    answers = shown(program, [design[1:] for design in designs])
    for (title, text, top, words), answer in zip(designs, answers):
        tally.compare(title, text, found(text, top, words), answer)
    print(f"{tally.refused} of them refused by Python")
    print(f"compared {tally.compared} designs, {tally.differ} differ")
    return tally.differ == 0


def main(words):
    match words:
        case ["--compare", program, *numbers] if len(numbers) <= 2:
            seed, count = (*map(int, numbers), *(SEED, COUNT)[len(numbers):])
            sys.exit(0 if compare(program, seed, count) else 1)
        case [file, top, *words]:
            text = found(Path(file).read_text(), top, words)
            if text is None:
                sys.exit(f"refused: {found.error!r}")
            print(text, end="")
        case _:
            sys.exit(__doc__)


if __name__ == "__main__":
    main(sys.argv[1:])
