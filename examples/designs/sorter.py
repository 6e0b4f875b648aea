"""A network that sorts n numbers in n stages, a register after each: a new list may come in each cycle."""
from pymtl3 import *

class CompareSwap( Component ):
  """The lesser and the greater of two."""
  def construct( s, nbits ):
    s.a  = InPort( nbits )
    s.b  = InPort( nbits )
    s.lo = OutPort( nbits )
    s.hi = OutPort( nbits )
    @update
    def up_both():
      if s.b < s.a:
        s.lo @= s.b
        s.hi @= s.a
      else:
        s.lo @= s.a
        s.hi @= s.b

class Stage( Component ):
  """Compares neighbours, from the first on or from the second on, and holds the result for a cycle."""
  def construct( s, nbits, n, first ):
    s.in_ = [ InPort( nbits ) for _ in range( n ) ]
    s.out = [ OutPort( nbits ) for _ in range( n ) ]
    s.put = [ Wire( nbits ) for _ in range( n ) ]

    pairs = ( n - first ) // 2
    s.swaps = [ CompareSwap( nbits ) for _ in range( pairs ) ]
    for p in range( pairs ):
      i = first + 2 * p
      s.swaps[p].a  //= s.in_[i]
      s.swaps[p].b  //= s.in_[i+1]
      s.swaps[p].lo //= s.put[i]
      s.swaps[p].hi //= s.put[i+1]
    # those without a neighbour pass
    if first == 1:
      s.put[0] //= s.in_[0]
    if first + 2 * pairs < n:
      s.put[n-1] //= s.in_[n-1]

    @update_ff
    def up_out():
      for i in range( n ):
        s.out[i] <<= s.put[i]

class Sorter( Component ):
  def construct( s, n=5, nbits=8 ):
    assert n > 1
    s.in_     = [ InPort( nbits ) for _ in range( n ) ]
    s.in_val  = InPort()
    s.out     = [ OutPort( nbits ) for _ in range( n ) ]
    s.out_val = OutPort()
    s.vals    = Wire( n )

    s.stages = [ Stage( nbits, n, k % 2 ) for k in range( n ) ]
    for i in range( n ):
      s.stages[0].in_[i] //= s.in_[i]
      for k in range( n - 1 ):
        s.stages[k].out[i] //= s.stages[k+1].in_[i]
      s.stages[n-1].out[i] //= s.out[i]

    s.out_val //= s.vals[n-1]
    @update_ff
    def up_vals():
      if s.reset: s.vals <<= 0
      else:       s.vals <<= concat( s.vals[0:n-1], s.in_val )
