"""An arbiter that takes turns."""
from pymtl3 import *

class RoundRobinArbiter( Component ):
  """Grants the first request at or behind the place whose turn it is. After a grant the next place has the turn."""
  def construct( s, nreqs ):
    assert nreqs > 1 and nreqs <= 64
    s.reqs   = InPort( nreqs )
    s.grants = OutPort( nreqs )
    s.turn   = Wire( nreqs )    # one bit is set
    @update
    def up_grants():
      # of the requests, written twice, the lowest at or above the turn: the borrow of the difference stops there
      twice = concat( s.reqs, s.reqs )
      first = twice & ~( twice - zext( s.turn, 2 * nreqs ) )
      s.grants @= first[0:nreqs] | first[nreqs:2*nreqs]
    @update_ff
    def up_turn():
      if s.reset:
        s.turn <<= 1
      elif reduce_or( s.grants ):
        s.turn <<= concat( s.grants[0:nreqs-1], s.grants[nreqs-1] )

class Example( Component ):
  def construct( s ):
    s.reqs   = InPort( 4 )
    s.grants = OutPort( 4 )
    s.arbiter = RoundRobinArbiter( 4 )
    s.arbiter.reqs //= s.reqs
    s.grants       //= s.arbiter.grants
