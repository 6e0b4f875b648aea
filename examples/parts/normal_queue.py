"""A queue that takes and gives messages by what it held before the cycle."""
from pymtl3 import *

class RecvIfc( Interface ):
  """Messages come in: one is taken in each cycle in which `val` and `rdy` are set."""
  def construct( s, Type ):
    s.msg = InPort( Type )
    s.val = InPort()
    s.rdy = OutPort()

class SendIfc( Interface ):
  def construct( s, Type ):
    s.msg = OutPort( Type )
    s.val = OutPort()
    s.rdy = InPort()

class NormalQueue( Component ):
  """Takes a message while there is room, and gives the first while there is one."""
  def construct( s, Type, num_entries ):
    assert num_entries > 0
    last  = num_entries - 1
    width = clog2( num_entries + 1 )
    Place = mk_bits( clog2( num_entries ) if num_entries > 1 else 1 )
    s.recv  = RecvIfc( Type )
    s.send  = SendIfc( Type )
    s.data  = [ Wire( Type ) for _ in range( num_entries ) ]
    s.head  = Wire( Place )
    s.tail  = Wire( Place )
    s.count = Wire( width )
    s.push  = Wire()
    s.pop   = Wire()
    s.recv.rdy //= lambda: s.count < num_entries
    s.send.val //= lambda: s.count > 0
    s.send.msg //= lambda: s.data[ s.head ]
    s.push //= lambda: s.recv.val & s.recv.rdy
    s.pop  //= lambda: s.send.val & s.send.rdy
    @update_ff
    def up_state():
      if s.reset:
        s.head  <<= 0
        s.tail  <<= 0
        s.count <<= 0
      else:
        if s.push:
          s.data[ s.tail ] <<= s.recv.msg
          s.tail <<= 0 if s.tail == last else s.tail + 1
        if s.pop:
          s.head <<= 0 if s.head == last else s.head + 1
        s.count <<= s.count + zext( s.push, width ) - zext( s.pop, width )

class Example( Component ):
  def construct( s ):
    s.recv = RecvIfc( Bits8 )
    s.send = SendIfc( Bits8 )
    s.q = NormalQueue( Bits8, 3 )
    connect( s.recv, s.q.recv )
    connect( s.send, s.q.send )
