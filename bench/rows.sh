#!/usr/bin/env bash
# Measures the simulation of the example with 2^10, 2^15 and 2^20 rows of input: seconds, and the most memory that the
# program held. It is no part of the checks. Everything that it makes stands in a folder that it removes at its end.
#
# Usage: bench/rows.sh [COMMAND]     (default: the launcher at the top of the repository)
set -eu

top=$(cd "$(dirname "$(readlink -f "$0")")/.." && pwd)
command=${1:-$top/pymtl}
folder=$(mktemp -d)
trap 'rm -rf "$folder"' EXIT
# shellcheck source=bench/measure.sh
. "$top/bench/measure.sh"

# The longest input first, of which the others are the front: a header, and then one row on each line.
awk 'BEGIN { print "a b"; for (n = 0; n < 2 ^ 20; n++) print n % 256, int(n / 256) % 256 }' >"$folder/all"

# One short run first, so that a build isn't measured.
"$command" sim "$top/examples/add.py" Add <"$top/examples/add.vec" >"$folder/trace"

printf '%8s %9s %11s\n' rows seconds memory/KiB
for power in 10 15 20; do
    rows=$((2 ** power))
    head -n $((rows + 1)) "$folder/all" >"$folder/vectors"
    measure "$folder" "$command" sim "$top/examples/add.py" Add <"$folder/vectors" >"$folder/trace"
    lines=$(wc -l <"$folder/trace")
    if [ "$lines" -ne $((rows + 3)) ]; then
        echo "bench/rows.sh: $lines lines of trace for $rows rows" >&2
        exit 1
    fi
    read -r seconds memory <"$folder/figures"
    printf '%8d %9s %11s\n' "$rows" "$seconds" "$memory"
done
