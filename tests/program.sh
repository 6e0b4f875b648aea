#!/usr/bin/env bash
# Runs the built program as a shell does, and compares output, messages and exit status with what README.md says of each
# way to end. What hands the words and the streams over, `main`, has no contract: it rests on this script.
#
#     tests/program.sh [PROGRAM]        PROGRAM, or crates/pymtl/out/pymtl, which ./pymtl builds if it is older than a source
#
# It prints each run that differs, and then how many passed and failed. The exit status is 1 where one differs. Where neither
# the program nor the toolchain is there, nothing is run, and the status is 0.
set -u

top=$(cd "$(dirname "$(readlink -f "$0")")/.." && pwd)
program=${1:-$top/crates/pymtl/out/pymtl}
work=$(mktemp -d)
trap 'rm -rf "$work"' EXIT
agreed=0
differed=0

# Whether the program is there; of crates/pymtl/out/pymtl also whether it is older than no source.
is_built() {
    [ -x "$program" ] && { [ "$program" != "$top/crates/pymtl/out/pymtl" ] || [ -z "$(newer_sources)" ]; }
}

newer_sources() {
    find "$top/crates" "$top/crates.txt" -name out -prune -o -type f \
        \( -name '*.rt' -o -name '*.antt' -o -name crates.txt \) -newer "$program" -print -quit
}

if ! is_built; then
    if ! command -v rt >/dev/null; then
        printf '%s\n' "tests/program.sh: skipped: the program isn't built, and the command rt that builds it isn't there" >&2
        exit 0
    fi
    "$top/pymtl" sim "$top/examples/add.py" Add <"$top/examples/add.vec" >/dev/null || exit 1
fi
program=$(readlink -f "$program")
cp "$top/examples/add.py" "$top/examples/add.vec" "$top/examples/add.trace" "$work"
cd "$work" || exit 1

usage='pymtl: usage: pymtl check|order|sim|translate FILE TOP [name=value].. [options] | pymtl gen N'
head='cycle reset a b out
0 1 00 00 00
1 1 00 00 00'

# What the last run must have done: its name, its status, its output and its message.
expect() {
    local name=$1 status=$2 output=$3 message=$4
    if [ "$ended" = "$status" ] && [ "$(cat out)" = "$output" ] && [ "$(cat err)" = "$message" ]; then
        agreed=$((agreed + 1))
    else
        differed=$((differed + 1))
        printf '%s\n' "tests/program.sh: $name" "  status $ended, and $status was expected" \
            "  output: $(head -c 300 out)" "  expected: ${output:0:300}" \
            "  message: $(head -c 300 err)" "  expected: $message"
    fi
}

# Runs the program with these words. Its input is the file `in`.
run() {
    "$program" "$@" <in >out 2>err
    ended=$?
}

input() {
    printf "$@" >in
}

# ---- the input was read to its end

cp add.vec in
run sim add.py Add
expect 'the example' 0 "$(cat add.trace)" ''
input 'a b\n1 2\n255 1'
run sim add.py Add
expect 'an input without its last line end' 0 "$(cat add.trace)" ''
input 'a b\n'
run sim add.py Add
expect 'an input without rows' 0 "$head" ''
(printf 'a b\n1'; sleep 0.2; printf ' 2\n25'; sleep 0.2; printf '5 1\n') | "$program" sim add.py Add >out 2>err
ended=$?
expect 'an input that comes in pieces' 0 "$(cat add.trace)" ''
mkdir -p 'a folder'
cp add.py 'a folder/add.py'
cp add.vec in
run sim 'a folder/add.py' Add
expect 'a design in a folder with a blank in its name' 0 "$(cat add.trace)" ''

# ---- a design or a line of the input was refused

input 'a b\n1 2\n256 1\n3 4\n'
run sim add.py Add
expect 'a refused line after its rows' 1 "$head
2 0 01 02 03" 'pymtl: 99 NotBuilt line 3'
input 'b a\n1 2\n'
run sim add.py Add
expect 'a refused header' 1 '' 'pymtl: 99 NotBuilt line 1'
cp add.vec in
run sim add.py Sub
expect 'a class that is not there' 1 '' 'pymtl: 99 NotBuilt line 1'
run sim add.vec Add
expect 'a file that is no design' 1 '' 'pymtl: 99 NotBuilt line 1'
cat >loop.py <<'DESIGN'
from pymtl3 import *
class Loop( Component ):
  def construct( s ):
    s.x = Wire( 8 )
    s.y = OutPort( 8 )
    @update
    def up_x():
      s.x @= s.y + 1
    @update
    def up_y():
      s.y @= s.x + 1
DESIGN
input '\n\n'
run sim loop.py Loop
expect 'a loop of update blocks' 1 '' 'pymtl: 99 NotBuilt line 1'
cp add.vec in
"$program" sim add.py Sub <in >out 2>/dev/full
ended=$?
: >err
expect 'a refusal whose message cannot be written' 1 '' ''

# ---- the words mean no job

run
expect 'no word' 2 '' "$usage"
run sim add.py
expect 'a word too few' 2 '' "$usage"
run sim add.py Add n=8
expect 'a word too many' 2 '' "$usage"
run check add.py Add
expect 'an action that is not there yet' 2 '' "$usage"
run sim '' Add
expect 'an empty word' 2 '' "$usage"
run sim add.py $'\xff'
expect 'a word that is not UTF-8' 2 '' "$usage"
"$program" sim add.py <in >out 2>&-
ended=$?
: >err
expect 'the usage line without a stream for messages' 2 '' ''

# ---- the file or the input could not be read

run sim missing.py Add
expect 'a missing file' 3 '' 'pymtl: read fault'
run sim 'a folder' Add
expect 'a folder in place of a file' 3 '' 'pymtl: read fault'
"$program" sim add.py Add <&- >out 2>err
ended=$?
expect 'closed input' 3 '' 'pymtl: read fault'
"$program" sim add.py Add <'a folder' >out 2>err
ended=$?
expect 'a folder as the input' 3 '' 'pymtl: read fault'

# ---- the output could not be written

"$program" sim add.py Add <in >/dev/full 2>err
ended=$?
: >out
expect 'full output' 4 '' 'pymtl: write fault'
"$program" sim add.py Add <in >&- 2>err
ended=$?
: >out
expect 'closed output' 4 '' 'pymtl: write fault'
{ printf 'a b\n'; yes '1 2' | head -200000; } >many
{ "$program" sim add.py Add <many 2>err; echo $? >status; } | head -2 >out
ended=$(cat status)
expect 'a reader of the output that goes away' 4 'cycle reset a b out
0 1 00 00 00' 'pymtl: write fault'
(ulimit -f 1; trap '' XFSZ; "$program" sim add.py Add <many >cut 2>err)
ended=$?
head -c 20 cut >out
expect 'a file that may not grow' 4 'cycle reset a b out' 'pymtl: write fault'

# ---- memory ran out

# The limit falls until the design, which needs a million bytes, has no room any more.
{
    printf '#'
    head -c 1000000 /dev/zero | tr '\0' 'x'
} >large.py
cp add.vec in
for limit in $(seq 12000 -100 1000); do
    (
        ulimit -v "$limit"
        exec "$program" sim large.py Add <in >out 2>err
    )
    ended=$?
    [ "$ended" -ne 1 ] && break
done
expect 'a design for which there is no memory' 5 '' 'pymtl: out of memory'

printf "%s\n" "program: $agreed passed, $differed failed"
[ "$differed" -eq 0 ]
