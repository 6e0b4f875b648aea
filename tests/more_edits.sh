#!/usr/bin/env bash
# Tries the edits of tests/more_edits, each of which the proof of its crate must refuse, as those of must-fail/ that
# `rt ci` tries itself. Run it for a crate whose contracts have changed:
#
#     tests/more_edits.sh NAME..        the crates that are named, or all that have edits
#
# The edits lie in the crate's must-fail/ while they are tried. `rt must-fail` begins with what `rt check` kept of the
# crate, so check it first. The exit status is 0 where every edit applies and is refused.
set -u

top=$(cd "$(dirname "$(readlink -f "$0")")/.." && pwd)
copied=()

put_back() {
    [ ${#copied[@]} -eq 0 ] || rm -f "${copied[@]}"
}
trap put_back EXIT
trap 'exit 130' INT TERM

copy_edits() {
    local name=$1 edit to
    mkdir -p "$top/crates/$name/must-fail"
    for edit in "$top/tests/more_edits/$name"/*.edit; do
        to=$top/crates/$name/must-fail/${edit##*/}
        if [ -e "$to" ]; then
            printf '%s\n' "tests/more_edits.sh: $name has an edit ${edit##*/} in must-fail/ too" >&2
            exit 1
        fi
        copied+=("$to")
        cp "$edit" "$to"
    done
}

if [ $# -eq 0 ]; then
    for folder in "$top"/tests/more_edits/*/; do
        set -- "$@" "$(basename "$folder")"
    done
fi
for name in "$@"; do
    if ! [ -d "$top/tests/more_edits/$name" ]; then
        printf '%s\n' "tests/more_edits.sh: there are no edits of $name" >&2
        exit 1
    fi
    copy_edits "$name"
done
cd "$top" && rt must-fail "$@"
