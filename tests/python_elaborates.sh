#!/usr/bin/env bash
# Compares the kinds that the program `show_design` finds in designs with those that Python finds, which runs the same
# designs with a stand-in for the module `pymtl3`: the designs of examples/, rows of crates/show_design, and designs
# made at random. Then it compares typed bodies, of the examples and of designs that tests/random_bodies.py makes. At last
# the designs of tests/python_rows.py must become what stands beside them. If the program isn't built, or a source is
# newer than it, it is proved and built first.
#
#     tests/python_elaborates.sh [SEED [COUNT]]        COUNT designs are made at random from SEED; else 200 from 1
#
# Designs that differ are printed, and the exit status is then 1, as it is if the program couldn't be built. Without
# Python 3.10 or later, or with neither the program nor `rt`, nothing is compared, and the status is 0.
set -u

top=$(cd "$(dirname "$(readlink -f "$0")")/.." && pwd)
crate=$top/crates/show_design
program=$crate/out/show_design

say() {
    printf '%s\n' "tests/python_elaborates.sh: $*" >&2
}

if ! python3 -c 'import sys; sys.exit(sys.version_info < (3, 10))' 2>/dev/null; then
    say "skipped: python3 isn't there, or is older than 3.10"
    exit 0
fi
# Whether the program is there and older than no source.
is_built() {
    [ -x "$program" ] && [ -z "$(find "$top/crates" "$top/crates.txt" -name out -prune -o -type f \
        \( -name '*.rt' -o -name '*.antt' -o -name crates.txt \) -newer "$program" -print -quit)" ]
}

if ! is_built && command -v rt >/dev/null && ! built=$(cd "$crate" && rt run -- rows <stdin 2>&1); then
    printf '%s\n' "$built" >&2
    say "the program couldn't be built: see above"
    exit 1
fi
if ! [ -x "$program" ]; then
    say "skipped: the program isn't built"
    exit 0
fi
python3 "$top/tests/python_elaborates.py" --compare "$program" "$@" || exit
python3 "$top/tests/python_layers.py" --compare "$program" bodies "$@" || exit
python3 "$top/tests/python_rows.py" "$program"
