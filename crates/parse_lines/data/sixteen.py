from pymtl3 import *

class Inc( Component ):
  def construct( s ):
    s.in_ = InPort( 8 )
    s.out = OutPort( 8 )
    s.out //= lambda: s.in_ + 1

class Sixteen( Component ):
  def construct( s ):
    s.in_ = InPort( 8 )
    s.out = [ OutPort( 8 ) for _ in range( 16 ) ]
    s.c   = [ Inc() for _ in range( 16 ) ]
    for i in range( 16 ):
      s.c[i].in_ //= s.in_
      s.c[i].out //= s.out[i]
