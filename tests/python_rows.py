"""Tries designs by what must become of them: idioms, causes of refusals, and nets.

usage: python_rows.py [PROGRAM]        PROGRAM is show_design

tests/idioms.txt has what people write by habit of PyMTL3 and what the guide tells to write instead, tests/causes.txt the
causes of refusals with what to write, tests/nets.txt what drives a net. Each row is a title, what must come, the design
with the class `T`, and `--`. What must come is a refusal, the word `accepted`, or lines of what is shown.

Python's own reading of each design, and that of PROGRAM where it is given and shows the layer, must be the one that
stands there. What is refused before the bodies of blocks are read is most often Python, and Python's reading counts no
nodes, so only PROGRAM reads these. PROGRAM doesn't refuse methods that lead to themselves yet, so only Python reads those.
"""

import re
import subprocess
import sys
from pathlib import Path
from typing import NamedTuple

import python_layers

TESTS = Path(__file__).resolve().parent
FILES = {"bodies": ["idioms.txt", "causes.txt"], "nets": ["nets.txt"]}
FIRST_OF_BODIES = 30
BODY_TOO_LONG = 35
METHOD_CYCLE = 47
DESIGN = "from pymtl3 import *\n"


class Row(NamedTuple):
    layer: str
    title: str
    expected: list[str]
    design: str

    @property
    def refusal(self):
        """The number of the refusal that must come; 0 for none."""
        number = self.expected[0].split()[0]
        return int(number) if number.isdigit() else 0

    def is_met_by(self, shown):
        """Whether the text that shows the design has what must come."""
        lines = shown.splitlines()
        if not lines:
            return False
        if self.refusal:
            return self.expected == lines[-1:]
        if self.expected == ["accepted"]:
            return re.fullmatch(r"top [0-9]+", lines[-1]) is not None
        return set(self.expected) <= set(lines)

    def is_for_python(self):
        return not 0 < self.refusal < FIRST_OF_BODIES and self.refusal != BODY_TOO_LONG


def rows():
    for layer, files in FILES.items():
        for block in re.split(r"^--\n", "".join((TESTS / file).read_text() for file in files), flags=re.MULTILINE):
            if block:
                head, design = block.split(DESIGN, 1)
                title, *expected = head.splitlines()
                yield Row(layer, title.removeprefix("# "), expected, DESIGN + design)


def shows(program, layer):
    run = subprocess.run([program, layer, "none", "T"], capture_output=True, text=True)
    return not run.stdout.startswith("usage") and run.returncode != 2


def by_program(program, tried):
    texts = [f"# {n}\n{row.layer} T\n{row.design}--\n" for n, row in enumerate(tried)]
    run = subprocess.run([program, "rows"], input="".join(texts), capture_output=True, text=True)
    parts = re.split(r"^# ([0-9]+)\n", run.stdout, flags=re.MULTILINE)
    return dict(zip(map(int, parts[1::2]), parts[2::2]))


def main(words):
    tried = list(rows())
    wrong = [f"{row.title}: Python finds otherwise" for row in tried if row.is_for_python()
             and not row.is_met_by(python_layers.shown(row.layer, row.design, "T", []) or "")]
    for program in words[:1]:
        layers = [layer for layer in FILES if shows(program, layer)]
        tried = [row for row in tried if row.layer in layers and row.refusal != METHOD_CYCLE]
        shown = by_program(program, tried)
        wrong += [f"{row.title}: not {' / '.join(row.expected)}, but {shown.get(n, 'nothing')}"
                  for n, row in enumerate(tried) if not row.is_met_by(shown.get(n, ""))]
    print("\n".join(wrong + [f"tried {len(tried)} designs, {len(wrong)} have another answer"]))
    sys.exit(1 if wrong else 0)


if __name__ == "__main__":
    main(sys.argv[1:])
