"""A two-entry queue with a valid and ready interface on both sides."""
from pymtl3 import *

@bitstruct
class Msg:
  op:  Bits4
  val: Bits8

class RecvIfc( Interface ):
  def construct( s, Type ):
    s.msg = InPort( Type )
    s.val = InPort()
    s.rdy = OutPort()

class SendIfc( Interface ):
  def construct( s, Type ):
    s.msg = OutPort( Type )
    s.val = OutPort()
    s.rdy = InPort()

class Queue2( Component ):
  """Holds two messages, without a bypass."""
  def construct( s, Type ):
    s.recv = RecvIfc( Type )
    s.send = SendIfc( Type )
    s.data = [ Wire( Type ) for _ in range( 2 ) ]
    s.head = Wire()
    s.size = Wire( 2 )
    s.push = Wire()
    s.pop  = Wire()
    s.recv.rdy //= lambda: s.size < 2
    s.send.val //= lambda: s.size > 0
    s.send.msg //= lambda: s.data[ s.head ]
    @update
    def up_moves():
      s.push @= s.recv.val & s.recv.rdy
      s.pop  @= s.send.val & s.send.rdy
    @update_ff
    def up_state():
      if s.reset:
        s.head <<= 0
        s.size <<= 0
      else:
        if s.push:
          # the tail is the head moved on by the number held
          s.data[ s.head ^ s.size[0] ] <<= s.recv.msg
        if s.pop:
          s.head <<= ~s.head
        s.size <<= s.size + zext( s.push, 2 ) - zext( s.pop, 2 )
  def line_trace( s ):
    return f"{s.recv.msg}({s.size}){s.send.msg}"

class Top( Component ):
  def construct( s ):
    s.recv = RecvIfc( Msg )
    s.send = SendIfc( Msg )
    s.q    = Queue2( Msg )
    connect( s.recv, s.q.recv )
    connect( s.send, s.q.send )
