#!/usr/bin/env bash
# Measures elaboration by the program `show_design`: seconds, and the most memory that the program held. It is no part of
# the checks. Everything that it makes stands in a folder that it removes at its end.
#
# Usage: bench/elaboration.sh [COMMAND]     (default: `show_design`, which is proved and built first)
set -eu

top=$(cd "$(dirname "$(readlink -f "$0")")/.." && pwd)
crate=$top/crates/show_design
command=${1:-$crate/out/show_design}
folder=$(mktemp -d)
trap 'rm -rf "$folder"' EXIT
# shellcheck source=bench/measure.sh
. "$top/bench/measure.sh"

if [ $# -eq 0 ] && ! (cd "$crate" && rt run <stdin) >"$folder/built" 2>&1; then
    cat "$folder/built" >&2
    exit 1
fi

# A chain of 1,000 components of 1,000 kinds, each connected to the next.
cat >"$folder/cells" <<'DESIGN'
from pymtl3 import *

class Cell( Component ):
  def construct( s, k ):
    s.in_ = InPort( 32 )
    s.out = OutPort( 32 )
    s.acc = Wire( 32 )
    @update_ff
    def up_acc():
      s.acc <<= s.in_
    @update
    def up_out():
      s.out @= ( s.acc ^ s.in_ ) + k

class Top( Component ):
  def construct( s ):
    s.in_ = InPort( 32 )
    s.out = OutPort( 32 )
    s.c = [ Cell( i ) for i in range( 1000 ) ]
    s.c[0].in_ //= s.in_
    for i in range( 999 ):
      s.c[i+1].in_ //= s.c[i].out
    s.out //= s.c[999].out
DESIGN

# A list of 2^16 wires, each of which a loop reads.
cat >"$folder/wires" <<'DESIGN'
from pymtl3 import *

class Top( Component ):
  def construct( s ):
    s.x = [ Wire( 8 ) for i in range( 65536 ) ]
    for i in range( 65536 ):
      y = s.x[i]
DESIGN

# Nearly as many turns as there are steps.
cat >"$folder/turns" <<'DESIGN'
from pymtl3 import *

class Top( Component ):
  def construct( s ):
    for i in range( 524287 ): pass
DESIGN

# 100,000 connections in one component.
cat >"$folder/connections" <<'DESIGN'
from pymtl3 import *

class Top( Component ):
  def construct( s ):
    s.x = Wire( 8 )
    s.y = [ Wire( 8 ) for i in range( 100000 ) ]
    for i in range( 100000 ):
      s.y[i] //= s.x
DESIGN

# 4,095 instances of one kind with 64 ports, and 64 connections.
cat >"$folder/instances" <<'DESIGN'
from pymtl3 import *

class Part( Component ):
  def construct( s ):
    s.x = [ InPort( 8 ) for i in range( 64 ) ]

class Top( Component ):
  def construct( s ):
    s.p = [ Part() for i in range( 4095 ) ]
    s.a = InPort( 8 )
    for i in range( 64 ):
      s.p[i].x[i] //= s.a
DESIGN

printf '%-12s %9s %11s\n' design seconds memory/KiB
for design in cells wires turns connections instances; do
    measure "$folder" "$command" kinds "$folder/$design" Top >"$folder/answer"
    read -r seconds memory <"$folder/figures"
    printf '%-12s %9s %11s\n' "$design" "$seconds" "$memory"
done
