"""A decoder: a number becomes one bit of n."""
from pymtl3 import *

class Decoder( Component ):
  """Sets the bit that `in_` names while `en` is set, and no other."""
  def construct( s, noutputs ):
    assert noutputs > 1
    s.in_ = InPort( clog2( noutputs ) )
    s.en  = InPort()
    s.out = OutPort( noutputs )
    @update
    def up_out():
      for i in range( noutputs ):
        s.out[i] @= s.en & ( s.in_ == i )

class Example( Component ):
  def construct( s ):
    s.in_ = InPort( 3 )
    s.en  = InPort()
    s.out = OutPort( 5 )
    s.decoder = Decoder( 5 )
    s.decoder.in_ //= s.in_
    s.decoder.en  //= s.en
    s.out         //= s.decoder.out
