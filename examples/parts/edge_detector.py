"""Tells when a signal rises or falls."""
from pymtl3 import *

class EdgeDetector( Component ):
  """Compares each bit with its value in the cycle before, which counts as 0 in the first."""
  def construct( s, nbits=1 ):
    s.in_   = InPort( nbits )
    s.rises = OutPort( nbits )
    s.falls = OutPort( nbits )
    s.last  = Wire( nbits )
    s.rises //= lambda: s.in_ & ~s.last
    s.falls //= lambda: ~s.in_ & s.last
    @update_ff
    def up_last():
      if s.reset: s.last <<= 0
      else:       s.last <<= s.in_

class Example( Component ):
  def construct( s ):
    s.in_   = InPort( 4 )
    s.rises = OutPort( 4 )
    s.falls = OutPort( 4 )
    s.detector = EdgeDetector( 4 )
    s.detector.in_ //= s.in_
    s.rises        //= s.detector.rises
    s.falls        //= s.detector.falls
