#!/usr/bin/env bash
# Compares the tokens, the statements and the trees of lines that the program `parse_lines` reads with those that Python's
# own tokenizer and parser read: in the designs of examples/, and in lines made at random. If the program isn't built, or
# a source is newer than it, it is proved and built first.
#
# Lines that differ are printed, and the exit status is then 1, as it is if the program couldn't be built. Without Python
# 3.10 or later, or with neither the program nor `rt`, nothing is compared, and the status is 0.
set -u

top=$(cd "$(dirname "$(readlink -f "$0")")/.." && pwd)
crate=$top/crates/parse_lines
program=$crate/out/parse_lines

say() {
    printf '%s\n' "tests/python_agrees.sh: $*" >&2
}

if ! python3 -c 'import sys; sys.exit(sys.version_info < (3, 10))' 2>/dev/null; then
    say "skipped: python3 isn't there, or is older than 3.10"
    exit 0
fi
# Whether the program is there and older than no source.
is_built() {
    [ -x "$program" ] && [ -z "$(find "$top/crates" "$top/crates.txt" -name out -prune -o -type f \
        \( -name '*.rt' -o -name '*.antt' -o -name crates.txt \) -newer "$program" -print -quit)" ]
}

if ! is_built && command -v rt >/dev/null && ! built=$(cd "$crate" && rt run -- data/queue.py 2>&1); then
    printf '%s\n' "$built" >&2
    say "the program couldn't be built: see above"
    exit 1
fi
if ! [ -x "$program" ]; then
    say "skipped: the program isn't built"
    exit 0
fi
cd "$top/examples" && python3 "$top/tests/python_agrees.py" --compare "$program" reg_incr.py pipe.py sixteen.py queue.py
