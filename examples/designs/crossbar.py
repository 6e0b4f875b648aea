"""A crossbar: packets go to the output that they name, and inputs that want the same output take turns."""
from pymtl3 import *

@bitstruct
class Packet:
  dest    : Bits2
  source  : Bits2
  payload : Bits8

class RecvIfc( Interface ):
  def construct( s, Type ):
    s.msg = InPort( Type )
    s.val = InPort()
    s.rdy = OutPort()

class SendIfc( Interface ):
  def construct( s, Type ):
    s.msg = OutPort( Type )
    s.val = OutPort()
    s.rdy = InPort()

class RoundRobinArbiter( Component ):
  def construct( s, nreqs ):
    s.reqs   = InPort( nreqs )
    s.en     = InPort()
    s.grants = OutPort( nreqs )
    s.turn   = Wire( nreqs )
    @update
    def up_grants():
      twice = concat( s.reqs, s.reqs )
      first = twice & ~( twice - zext( s.turn, 2 * nreqs ) )
      s.grants @= first[0:nreqs] | first[nreqs:2*nreqs]
    @update_ff
    def up_turn():
      if s.reset:
        s.turn <<= 1
      elif s.en & reduce_or( s.grants ):
        s.turn <<= concat( s.grants[0:nreqs-1], s.grants[nreqs-1] )

class OutputUnit( Component ):
  """Chooses one of the packets for this output, and holds it until it is taken."""
  def construct( s, number, n ):
    s.in_    = [ InPort( Packet ) for _ in range( n ) ]
    s.val    = InPort( n )
    s.grants = OutPort( n )
    s.send   = SendIfc( Packet )

    s.full   = Wire()
    s.held   = Wire( Packet )
    s.chosen = Wire( Packet )
    s.room   = Wire()

    s.room     //= lambda: ~s.full | s.send.rdy
    s.send.val //= s.full
    s.send.msg //= s.held

    s.arbiter = RoundRobinArbiter( n )
    s.arbiter.en //= s.room

    @update
    def up_reqs():
      for i in range( n ):
        s.arbiter.reqs[i] @= s.val[i] & ( s.in_[i].dest == number )

    @update
    def up_grants():
      s.grants @= s.arbiter.grants if s.room else 0

    @update
    def up_chosen():
      packet = s.in_[0]
      for i in range( 1, n ):
        packet = s.in_[i] if s.grants[i] else packet
      s.chosen @= packet

    @update_ff
    def up_held():
      if s.reset:
        s.full <<= 0
      elif s.room:
        s.full <<= reduce_or( s.grants )
        s.held <<= s.chosen

class Crossbar( Component ):
  def construct( s, n=4 ):
    assert n > 1 and n <= 4, "a destination has two bits"
    s.recv = [ RecvIfc( Packet ) for _ in range( n ) ]
    s.send = [ SendIfc( Packet ) for _ in range( n ) ]
    s.units = [ OutputUnit( i, n ) for i in range( n ) ]
    for i in range( n ):
      connect( s.send[i], s.units[i].send )
      for j in range( n ):
        s.units[i].in_[j] //= s.recv[j].msg
        s.units[i].val[j] //= s.recv[j].val
    @update
    def up_ready():
      for j in range( n ):
        ready = b1( 0 )
        for i in range( n ):
          ready = ready | s.units[i].grants[j]
        s.recv[j].rdy @= ready
