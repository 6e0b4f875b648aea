"""A multiplexer of n inputs."""
from pymtl3 import *

class Mux( Component ):
  """The input that `sel` names, and 0 where there is none of that number."""
  def construct( s, Type, ninputs ):
    s.in_ = [ InPort( Type ) for _ in range( ninputs ) ]
    s.sel = InPort( clog2( ninputs ) if ninputs > 1 else 1 )
    s.out = OutPort( Type )
    s.out //= lambda: s.in_[ s.sel ]

class Example( Component ):
  def construct( s ):
    s.in_ = [ InPort( 8 ) for _ in range( 3 ) ]
    s.sel = InPort( 2 )
    s.out = OutPort( 8 )
    s.mux = Mux( Bits8, 3 )
    for i in range( 3 ): s.mux.in_[i] //= s.in_[i]
    s.mux.sel //= s.sel
    s.out     //= s.mux.out
