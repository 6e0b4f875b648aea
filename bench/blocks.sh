#!/usr/bin/env bash
# Measures ten million runs of the block `s.out @= ( s.acc ^ s.in_ ) + s.k` of 32 bits by the program `block_bench`:
# seconds, and the most memory that the program held. It is no part of the checks. Everything that it makes stands in a
# folder that it removes at its end.
#
# Usage: bench/blocks.sh [COMMAND]     (default: `block_bench`, which is proved and built first)
set -eu

top=$(cd "$(dirname "$(readlink -f "$0")")/.." && pwd)
crate=$top/crates/block_bench
command=${1:-$crate/out/block_bench}
folder=$(mktemp -d)
trap 'rm -rf "$folder"' EXIT
# shellcheck source=bench/measure.sh
. "$top/bench/measure.sh"

if [ $# -eq 0 ] && ! (cd "$crate" && rt run -- 1) >"$folder/built" 2>&1; then
    cat "$folder/built" >&2
    exit 1
fi

# The value that the block leaves: ( 0x12345678 ^ 0x0f0f0f0f ) + 0xf0000001 in 32 bits.
wanted=$((((0x12345678 ^ 0x0f0f0f0f) + 0xf0000001) & 0xffffffff))

printf '%9s %9s %11s\n' runs seconds memory/KiB
for runs in 1000 1000000 10000000; do
    measure "$folder" "$command" "$runs" >"$folder/answer"
    if [ "$(cat "$folder/answer")" != "$wanted" ]; then
        echo "bench/blocks.sh: $(cat "$folder/answer"), and not $wanted" >&2
        exit 1
    fi
    read -r seconds memory <"$folder/figures"
    printf '%9d %9s %11s\n' "$runs" "$seconds" "$memory"
done
