from pymtl3 import *
from collections import deque

class Q1( Component ):
  def construct( s ):
    s.items : Bits8 = deque( maxlen=1 )
    s.add_constraints( M( s.enq ) < M( s.deq ) )
  @non_blocking( lambda s: len( s.items ) < s.items.maxlen )
  def enq( s, msg: Bits8 ):
    s.items.append( msg )
  @non_blocking( lambda s: len( s.items ) > 0 )
  def deq( s ) -> Bits8:
    return s.items.popleft()

class Pipe( Component ):
  def construct( s ):
    s.in_ = InPort( 8 )
    s.out = OutPort( 8 )
    s.q   = Q1()
    @update_once
    def up_put():
      s.q.enq( s.in_ )
    @update_once
    def up_get():
      s.out @= s.q.deq()
