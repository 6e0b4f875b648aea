#!/usr/bin/env bash
# Measures the search for nets by the program `show_design`: seconds, and the most memory that the program held. It reads
# the design, elaborates it, types its bodies, finds its nets and prints them, so all of this counts. It is no part of the
# checks. Everything that it makes stands in a folder that it removes at its end.
#
# Usage: bench/nets.sh [COMMAND]     (default: `show_design`, which is proved and built first)
set -eu

top=$(cd "$(dirname "$(readlink -f "$0")")/.." && pwd)
crate=$top/crates/show_design
command=${1:-$crate/out/show_design}
folder=$(mktemp -d)
trap 'rm -rf "$folder"' EXIT
# shellcheck source=bench/measure.sh
. "$top/bench/measure.sh"

if [ $# -eq 0 ] && ! (cd "$crate" && rt run -- rows <stdin) >"$folder/built" 2>&1; then
    cat "$folder/built" >&2
    exit 1
fi

# A chain of 4,095 components: 2^18 - 1 flat bits, of which most are connected to the next.
cat >"$folder/chain" <<'DESIGN'
from pymtl3 import *

class Part( Component ):
  def construct( s ):
    s.in_ = InPort( 31 )
    s.out = OutPort( 31 )
    s.own = Wire()
    s.out //= s.in_

class Top( Component ):
  def construct( s ):
    s.in_ = InPort( 31 )
    s.out = OutPort( 31 )
    s.p   = [ Part() for i in range( 4095 ) ]
    s.p[0].in_ //= s.in_
    for i in range( 4094 ):
      s.p[i+1].in_ //= s.p[i].out
    s.out //= s.p[4094].out
DESIGN

# One net of nearly 2^18 bits, which are connected bit by bit.
cat >"$folder/one" <<'DESIGN'
from pymtl3 import *

class Top( Component ):
  def construct( s ):
    s.x = [ Wire( 128 ) for i in range( 2047 ) ]
    s.x[0][0] //= 0
    for i in range( 2047 ):
      for j in range( 127 ):
        s.x[i][j+1] //= s.x[i][j]
    for i in range( 2046 ):
      s.x[i+1][0] //= s.x[i][127]
DESIGN

# A million connections that connect what is connected already.
cat >"$folder/again" <<'DESIGN'
from pymtl3 import *

class Part( Component ):
  def construct( s ):
    s.x = Wire()
    s.y = Wire()
    s.x //= 0
    for i in range( 245 ):
      s.y //= s.x

class Top( Component ):
  def construct( s ):
    s.p = [ Part() for i in range( 4095 ) ]
DESIGN

printf '%-12s %9s %11s\n' design seconds memory/KiB
for design in chain one again; do
    measure "$folder" "$command" nets "$folder/$design" Top >"$folder/answer"
    read -r seconds memory <"$folder/figures"
    printf '%-12s %9s %11s\n' "$design" "$seconds" "$memory"
    grep -q '^nets ' "$folder/answer" || tail -n 1 "$folder/answer"
done
