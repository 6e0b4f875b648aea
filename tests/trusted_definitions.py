"""Prints the definitions on which a public function's contract rests, by file, with the number of their lines.

usage: python3 tests/trusted_definitions.py CRATE::FUNCTION..
       python3 tests/trusted_definitions.py --check

A contract names definitions of specs/, these name others, and so on: whoever believes the contract believes all of them.
Definitions of the standard library and of the toolchain's crates are left out, and so are the types of src/, which are
listed apart. A definition is counted with the comment above it. Several functions are counted together. In place of a
function a definition may be named, as pm_syn::Laws.AreLinesOf. One with a - before it isn't counted, nor what only it
names: that is for a definition with a law that says the same in another way.

With --check the figures of docs/TRUST.md are compared: the names after `Counted:` with the sum in the last row of the
table after them. The exit status is 1 if a sum differs.
"""

import pathlib
import re
import sys

TOP = pathlib.Path(__file__).resolve().parent.parent
HEAD = re.compile(r"^\s*(?:abbrev |unfoldable )?pub (?:abbrev |unfoldable |record |data )*([^\s:({]+)")
WORD = re.compile(r"[^\s(){},;.∷≡×→λ⊎]+(?:\.[^\s(){},;.∷≡×→λ⊎]+)*")


class Module:
    """A file of specs/ or src/: the names that it imports, and the definitions of a file of specs/."""

    def __init__(self, path):
        self.path = path
        self.lines = path.read_text(encoding="utf-8").splitlines()
        self.names, self.aliases, self.types = {}, {}, {}
        self.definitions = {}  # name: (first line, last line)
        for line in self.lines:
            self.read_import(line)
        if path.suffix == ".antt":
            self.read_definitions()

    def read_import(self, line):
        found = re.match(r"\s*(?:ghost )?use Rattle\.([\w.+-]+)(?:\.\{(.*)\}| as (\w+));?$", line)
        if not found:
            return
        module, names, alias = found.groups()
        parts = module.split(".")
        if len(parts) > 2 and parts[1:3] == ["specs", "declared"]:
            for name in (names or "").split(","):
                self.types[name.split(" as ")[-1].strip()] = f"{parts[0]}::{parts[-1]}"
            if alias:
                self.types[alias] = f"{parts[0]}::{parts[-2] if parts[-1].startswith('The') else parts[-1]}"
        elif len(parts) == 3 and parts[1] == "specs":
            if alias:
                self.aliases[alias] = (parts[0], parts[2])
            for name in (names or "").split(","):
                old, _, new = name.strip().partition(" as ")
                self.names[new or old] = (parts[0], parts[2], old)

    def read_definitions(self):
        starts = []
        for number, line in enumerate(self.lines):
            found = HEAD.match(line)
            # a field of a record is indented and stands in its definition
            if found and not (line.startswith(" ") and not self.in_mutual(number)):
                starts.append((self.comment_above(number), found[1]))
        for at, (first, name) in enumerate(starts):
            last = starts[at + 1][0] if at + 1 < len(starts) else len(self.lines)
            while last > first and (not self.lines[last - 1].strip() or self.lines[last - 1].startswith("-- ----")):
                last -= 1
            self.definitions.setdefault(name, (first, last))

    def in_mutual(self, number):
        return self.lines[number].startswith("  pub ") and any("mutual" in line for line in self.lines[:number]) and not re.match(
            r"\s+pub \w+ :", self.lines[number]
        )

    def comment_above(self, number):
        while number and self.lines[number - 1].lstrip().startswith("--"):
            number -= 1
        return number

    def words(self, first, last):
        for line in self.lines[first:last]:
            if not line.lstrip().startswith(("--", "//")):
                yield from WORD.findall(line.split(" -- ")[0])


MODULES = {}


def module(crate, name):
    if (crate, name) not in MODULES:
        path = TOP / "crates" / crate / "specs" / f"{name}.antt"
        MODULES[crate, name] = Module(path) if path.exists() else None
    return MODULES[crate, name]


def named(inside, crate, name, word, types):
    """The definitions that a word may stand for, as (crate, file, definition)."""
    for part in {word, word.split(".")[0], word.strip("`'")}:
        if part in inside.types:
            types.add(inside.types[part])
        if name and part in inside.definitions:
            yield crate, name, part
        elif part in inside.names:
            yield inside.names[part]
    alias, _, rest = word.partition(".")
    if alias in inside.aliases and rest:
        yield (*inside.aliases[alias], rest.split(".")[0])


def clauses(crate, function):
    """The file of src/ with the function, and the lines of its contract."""
    *holders, name = function.split("::")
    found = []
    for path in sorted((TOP / "crates" / crate / "src").glob("*.rt")):
        lines = path.read_text(encoding="utf-8").splitlines()
        for number, line in enumerate(lines):
            if re.match(rf"\s*pub fn {re.escape(name)}\b", line):
                last = number + 1
                while last < len(lines) and not re.match(r"\s*\{", lines[last]) and not re.match(r"\s*///", lines[last]):
                    last += 1
                found.append((path, number, last))
    if len(found) != 1:
        sys.exit(f"{crate}::{function}: {len(found)} such functions")
    return found[0]


def trusted(functions):
    types, done, waiting, passed = set(), set(), [], set()
    for function in functions:
        crate, _, name = function.lstrip("-").partition("::")
        if function.startswith("-"):
            passed.add((crate, *name.split(".")))
            continue
        if "." in name:
            waiting.append((crate, *name.split(".")))
            continue
        path, first, last = clauses(crate, name)
        source = Module(path)
        contract = re.search(r"\b(?:requires|ensures)\b.*", "\n".join(source.lines[first:last]), re.S)
        for word in WORD.findall(contract[0] if contract else ""):
            waiting += named(source, crate, None, word, types)
    while waiting:
        crate, name, definition = item = waiting.pop()
        inside = module(crate, name)
        if item in done | passed or inside is None or definition not in inside.definitions:
            continue
        done.add(item)
        for word in inside.words(*inside.definitions[definition]):
            waiting += named(inside, crate, name, word, types)
    return done, types


def by_file(done):
    files = {}
    for crate, name, definition in sorted(done):
        first, last = module(crate, name).definitions[definition]
        files.setdefault((crate, name), []).append((first, last, definition))
    return files


def lines_of(done):
    return sum(last - first for found in by_file(done).values() for first, last, _ in found)


def check():
    text = (TOP / "docs" / "TRUST.md").read_text(encoding="utf-8")
    wrong = 0
    for functions, said in re.findall(r"^Counted: (.*?)$.*?^\| \*\*sum\*\* \|.*?(\d+) \|", text, re.S | re.M):
        names = re.findall(r"`([^`]*)`", functions)
        lines = lines_of(trusted(names)[0])
        if lines != int(said):
            print(f"docs/TRUST.md says {said} lines for {' '.join(names)}, and there are {lines}")
            wrong = 1
    return wrong


def main(arguments):
    if arguments == ["--check"]:
        return check()
    done, types = trusted(arguments)
    for (crate, name), found in by_file(done).items():
        print(f"{sum(last - first for first, last, _ in found):5}  crates/{crate}/specs/{name}.antt: {', '.join(d for *_, d in found)}")
    print(f"{lines_of(done):5}  in all")
    print("types:", ", ".join(sorted(types)))
    return 0


if __name__ == "__main__":
    sys.exit(main(sys.argv[1:]) if len(sys.argv) > 1 else __doc__)
