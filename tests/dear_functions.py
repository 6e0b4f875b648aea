"""Prints where the time of a check goes, function by function.

usage: python3 tests/dear_functions.py FOLDER [ROWS]

While `rt ci NAME` or `rt lib` proves a crate from nothing it saves each module that it has checked, in a folder
`rattle-logic-built-locked-*` of the system's temporary folder; `rt check` saves them under the crate's own `out/`. Copy
that folder before the check ends (`cp -a`, which keeps the times), or name it here while it runs.

A row is a function, or a file of lemmas or definitions, with the seconds between the module saved before its own ones and
these. `Lts` is every way through the body with what each way drops, `Proof` is its goals. The seconds are those of the
clock, so they read well only where the check had one job and the machine had little else to do.

The budget is 2 s for a function, and no function over 10 s. More than 5 s of `Lts` want another form of the function:
fewer ways out past values that own memory. More than 2 s of `Proof` want a written answer.
"""

import collections
import os
import re
import sys

PART = r"Rattle-\w+[-.]proofs\.(.+?)\.(Lts|Proof|Tie|Answers|Goals|Kinds|Reads|Code|Layout|TheImpl)\b"


def saved_modules(folder):
    """The modules below the folder, each with the time at which it was saved, the earliest first."""
    found = []
    for at, _, names in os.walk(folder):
        found += [(os.stat(os.path.join(at, name)).st_mtime, name) for name in names if name.endswith(".oantt")]
    return sorted(found)


def seconds_by_function(modules):
    took = collections.defaultdict(collections.Counter)
    for (before, _), (at, name) in zip(modules, modules[1:]):
        part = re.match(PART, name)
        if part:
            took[part[1]][part[2]] += at - before
        else:
            took[name.removesuffix(".oantt")]["lemmas"] += at - before
    return took


def main(folder, rows=25):
    took = seconds_by_function(saved_modules(folder))
    total = sum(sum(parts.values()) for parts in took.values())
    print(f"{total:8.1f} s in all")
    for name, parts in sorted(took.items(), key=lambda it: -sum(it[1].values()))[:rows]:
        shares = ", ".join(f"{part} {seconds:.1f}" for part, seconds in parts.most_common(3))
        print(f"{sum(parts.values()):8.1f} s  {name:44} {shares}")


if __name__ == "__main__":
    if not 2 <= len(sys.argv) <= 3:
        sys.exit(__doc__)
    main(sys.argv[1], *map(int, sys.argv[2:]))
