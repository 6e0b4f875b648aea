#!/usr/bin/env bash
# Measures the reading of texts of 2^20 bytes, the most that a design file may have, into logical lines: seconds, and
# the most memory that the program `lex_bench` held. Each text is long in another way, and its answer is compared with
# the right one. It is no part of the checks. Everything that it makes stands in a folder that it removes at its end.
#
# Usage: bench/lex.sh [COMMAND]     (default: `lex_bench`, which is proved and built first)
set -eu

top=$(cd "$(dirname "$(readlink -f "$0")")/.." && pwd)
crate=$top/crates/lex_bench
command=${1:-$crate/out/lex_bench}
folder=$(mktemp -d)
trap 'rm -rf "$folder"' EXIT
# shellcheck source=bench/measure.sh
. "$top/bench/measure.sh"

if [ $# -eq 0 ] && ! (cd "$crate" && rt run -- data/reg_incr.py) >"$folder/built" 2>&1; then
    cat "$folder/built" >&2
    exit 1
fi

# many BYTES COUNT: the bytes that `printf %b` makes of the first word, over and over, so many in all.
many() {
    printf '%b' "$1" >"$folder/piece"
    while [ "$(wc -c <"$folder/piece")" -lt "$2" ]; do
        cat "$folder/piece" "$folder/piece" >"$folder/pieces"
        mv "$folder/pieces" "$folder/piece"
    done
    head -c "$2" "$folder/piece"
}

# answers NAME ANSWER: measures the text that is its input, and prints a row.
answers() {
    cat >"$folder/text"
    measure "$folder" "$command" "$folder/text" >"$folder/answer"
    if [ "$(cat "$folder/answer")" != "$2" ]; then
        echo "bench/lex.sh: $1: $(cat "$folder/answer"), and not $2" >&2
        exit 1
    fi
    read -r seconds memory <"$folder/figures"
    printf '%-36s %9s %11s  %s\n' "$1" "$seconds" "$memory" "$2"
}

size=$((2 ** 20))
half=$((size / 2))
bad_token="line 1: a bad token, or a bracket that doesn't fit"
bad_column='line 1: no line is allowed at this column'
too_long='line 1: the logical line has more than 4096 bytes of tokens'

printf '%-36s %9s %11s  %s\n' text seconds memory/KiB answer
many '#' "$size" | answers 'one comment' '0 lines, 0 tokens'
many '#\n' "$size" | answers 'comments' '0 lines, 0 tokens'
many '\n' "$size" | answers 'line ends' '0 lines, 0 tokens'
many '\r\n' "$size" | answers 'line ends of two bytes' '0 lines, 0 tokens'
many '\\\n' "$size" | answers 'joined line ends' '0 lines, 0 tokens'
{ many ' ' $((size - 1)); echo -n a; } | answers 'blanks and then a name' '1 lines, 1 tokens'
{ many '\t' $((size - 1)); echo -n a; } | answers 'tabs and then a name' "$bad_column"
{ many ' ' "$half"; many 'a ' "$half"; } | answers 'blanks and then names' "$too_long"
many '(' "$size" | answers 'open brackets' "$bad_token"
{ many '(' "$half"; many ')' "$half"; } | answers 'nested brackets' "$too_long"
many '()' "$size" | answers 'pairs of brackets' "$too_long"
{ echo -n '('; many '\n' $((size - 2)); echo -n ')'; } | answers 'line ends in a bracket' '1 lines, 2 tokens'
many 'a' "$size" | answers 'one name' "$too_long"
many 'a ' "$size" | answers 'names on one line' "$too_long"
many 'a\n' "$size" | answers 'names on lines of their own' "$half lines, $half tokens"
many '1' "$size" | answers 'digits' "$bad_token"
many '0' "$size" | answers 'zeros' "$too_long"
many '1_' "$size" | answers 'digits and underscores' "$bad_token"
many "'" "$size" | answers 'quotes' "$bad_token"
{ echo -n "'"; many 'a' $((size - 1)); } | answers 'a string without an end' "$bad_token"
{ echo -n "f'''"; many '\\' $((size - 4)); } | answers 'backslashes in a string' "$bad_token"
many "''  " "$size" | answers 'strings on one line' "1 lines, $((size / 4)) tokens"
{ echo -n "'''"; many '\n' $((size - 6)); echo -n "'''"; } | answers 'a string of many lines' '1 lines, 1 tokens'
many '=' "$size" | answers 'operators' "$too_long"
awk 'BEGIN { for (n = 0; n < 1446; n++) printf "%*s\n", n + 1, "a" }' | answers 'lines each deeper than the last' '1446 lines, 1446 tokens'
many 'a\n' $((size + 1)) | answers 'one byte too many' 'the file has more than 1048576 bytes'
