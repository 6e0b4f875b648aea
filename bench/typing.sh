#!/usr/bin/env bash
# Measures the typing of bodies by the program `show_design`: seconds, and the most memory that the program held. It reads
# the design, elaborates it, types its bodies and prints them, so all of this counts. It is no part of the checks.
# Everything that it makes stands in a folder that it removes at its end.
#
# Usage: bench/typing.sh [COMMAND]     (default: `show_design`, which is proved and built first)
set -eu

top=$(cd "$(dirname "$(readlink -f "$0")")/.." && pwd)
crate=$top/crates/show_design
command=${1:-$crate/out/show_design}
folder=$(mktemp -d)
trap 'rm -rf "$folder"' EXIT
# shellcheck source=bench/measure.sh
. "$top/bench/measure.sh"

if [ $# -eq 0 ] && ! (cd "$crate" && rt run -- rows <stdin) >"$folder/built" 2>&1; then
    cat "$folder/built" >&2
    exit 1
fi

# A component whose only block has the given lines.
component() {
    cat <<'DESIGN'
from pymtl3 import *

class Top( Component ):
  def construct( s ):
    s.a   = InPort( 8 )
    s.b   = InPort( 8 )
    s.n   = InPort( 10 )
    s.x   = [ InPort( 8 ) for i in range( 1000 ) ]
    s.out = OutPort( 8 )
    @update
    def up():
DESIGN
    printf '      %s\n' "$@"
}

# As many turns and nodes as a component may have, nearly.
component 'for i in range( 200000 ): s.out @= s.a + s.b' >"$folder/sums"
component 'for i in range( 1000000 ): pass' >"$folder/turns"
# A thousand lists of a thousand elements, each indexed by a signal.
component 'for i in range( 1000 ): s.out @= s.x[ s.n ]' >"$folder/picks"
# A name that is assigned again and again.
component 't = s.a' 'for i in range( 200000 ): t = t ^ s.b' 's.out @= t' >"$folder/names"

printf '%-12s %9s %11s\n' design seconds memory/KiB
for design in sums turns picks names; do
    measure "$folder" "$command" bodies "$folder/$design" Top >"$folder/answer"
    read -r seconds memory <"$folder/figures"
    printf '%-12s %9s %11s\n' "$design" "$seconds" "$memory"
    tail -n 1 "$folder/answer" | grep -q '^top ' || tail -n 1 "$folder/answer"
done
