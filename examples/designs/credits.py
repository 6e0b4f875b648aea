"""Methods instead of signals: a producer that sends while it has credits, and a consumer that gives them back."""
from pymtl3 import *
from collections import deque

class Channel( Component ):
  """Holds messages on their way, and the credits of the sender."""
  def construct( s, ncredits ):
    s.items   : Bits8 = deque( maxlen=4 )
    s.credits : Bits4 = ncredits
    s.add_constraints( M( s.take ) < M( s.put ) )

  @non_blocking( lambda s: s.credits != 0 )
  def put( s, msg: Bits8 ):
    s.credits = s.credits - 1
    s.items.append( msg )

  @non_blocking( lambda s: len( s.items ) != 0 )
  def take( s ) -> Bits8:
    s.credits = s.credits + 1
    return s.items.popleft()

class Producer( Component ):
  """Sends numbers that rise by one, when it is told to and may."""
  def construct( s ):
    s.go   = InPort()
    s.sent = OutPort()
    s.put  = CallerPort( Type = Bits8 )
    s.next = Wire( 8 )
    s.does = Wire()

    @update_once
    def up_put():
      s.does @= s.go & s.put.rdy()
      if s.go & s.put.rdy():
        s.put( s.next )

    s.sent //= s.does

    @update_ff
    def up_next():
      if s.reset:  s.next <<= 0
      elif s.does: s.next <<= s.next + 1

class Consumer( Component ):
  """Takes a message, when it is told to and there is one, and adds it to a sum."""
  def construct( s ):
    s.go   = InPort()
    s.got  = OutPort()
    s.sum  = OutPort( 8 )
    s.take = CallerPort( RetType = Bits8 )
    s.msg  = Wire( 8 )
    s.has  = Wire()

    @update_once
    def up_take():
      s.has @= s.go & s.take.rdy()
      s.msg @= 0
      if s.go & s.take.rdy():
        s.msg @= s.take()

    s.got //= s.has

    @update_ff
    def up_sum():
      if s.reset: s.sum <<= 0
      else:       s.sum <<= s.sum + s.msg

class Credits( Component ):
  def construct( s, ncredits=3 ):
    s.send = InPort()
    s.recv = InPort()
    s.sent = OutPort()
    s.got  = OutPort()
    s.sum  = OutPort( 8 )

    s.channel  = Channel( ncredits )
    s.producer = Producer()
    s.consumer = Consumer()
    connect( s.producer.put,  s.channel.put )
    connect( s.consumer.take, s.channel.take )
    s.producer.go   //= s.send
    s.producer.sent //= s.sent
    s.consumer.go   //= s.recv
    s.consumer.got  //= s.got
    s.consumer.sum  //= s.sum
