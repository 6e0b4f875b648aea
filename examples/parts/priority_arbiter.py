"""An arbiter that always prefers the request of the least number."""
from pymtl3 import *

class PriorityArbiter( Component ):
  """Grants the least bit of `reqs` that is set, and nothing where none is."""
  def construct( s, nreqs ):
    s.reqs   = InPort( nreqs )
    s.grants = OutPort( nreqs )
    @update
    def up_grants():
      taken = b1( 0 )
      for i in range( nreqs ):
        s.grants[i] @= s.reqs[i] & ~taken
        taken = taken | s.reqs[i]

class Example( Component ):
  def construct( s ):
    s.reqs   = InPort( 4 )
    s.grants = OutPort( 4 )
    s.arbiter = PriorityArbiter( 4 )
    s.arbiter.reqs //= s.reqs
    s.grants       //= s.arbiter.grants
