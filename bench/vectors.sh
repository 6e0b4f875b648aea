#!/usr/bin/env bash
# Measures reading the rows of vectors and writing their trace by the program `vector_bench`, without a simulation:
# 2^10, 2^15 and 2^20 rows of eight inputs of 32 bits, in seconds, and the most memory that the program held. The last
# must take less than 2 s. It is no part of the checks. Everything that it makes stands in a folder that it removes at
# its end.
#
# Usage: bench/vectors.sh [COMMAND]     (default: `vector_bench`, which is proved and built first)
set -eu

top=$(cd "$(dirname "$(readlink -f "$0")")/.." && pwd)
crate=$top/crates/vector_bench
command=${1:-$crate/out/vector_bench}
limit=2
folder=$(mktemp -d)
trap 'rm -rf "$folder"' EXIT
# shellcheck source=bench/measure.sh
. "$top/bench/measure.sh"

if [ $# -eq 0 ] && ! (cd "$crate" && rt run) <"$crate/stdin" >"$folder/built" 2>&1; then
    cat "$folder/built" >&2
    exit 1
fi

# The longest input, of which the others are the front, and its trace: a line of names, and then a row on each line.
# The header names the inputs from the last to the first.
awk -v vectors="$folder/all" -v trace="$folder/all_traced" 'BEGIN {
    print "h g f e d c b a" >vectors
    print "cycle reset a b c d e f g h" >trace
    for (n = 0; n < 2 ^ 20; n++) {
        row = ""
        values = ""
        for (k = 0; k < 8; k++) {
            value = (n * 40503 + k * 268435399) % 2147483647
            values = values sprintf(" %08x", value)
            row = value (k ? " " row : "")
        }
        print row >vectors
        print n " 0" values >trace
    }
}'

printf '%8s %9s %11s\n' rows seconds memory/KiB
for power in 10 15 20; do
    rows=$((2 ** power))
    head -n $((rows + 1)) "$folder/all" >"$folder/vectors"
    measure "$folder" "$command" <"$folder/vectors" >"$folder/trace"
    if ! head -n $((rows + 1)) "$folder/all_traced" | cmp -s - "$folder/trace"; then
        echo "bench/vectors.sh: another trace of $rows rows" >&2
        exit 1
    fi
    read -r seconds memory <"$folder/figures"
    printf '%8d %9s %11s\n' "$rows" "$seconds" "$memory"
done
if awk -v seconds="$seconds" -v limit="$limit" 'BEGIN { exit seconds < limit }'; then
    echo "bench/vectors.sh: $seconds s for $rows rows, and not less than $limit s" >&2
    exit 1
fi
