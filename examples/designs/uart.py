"""A serial line: a transmitter and a receiver of bytes, and both joined."""
from pymtl3 import *

IDLE  = b2( 0 )
START = b2( 1 )
DATA  = b2( 2 )
STOP  = b2( 3 )

class UartTx( Component ):
  """Sends a start bit, eight bits from the lowest on, and a stop bit, each for `ticks` cycles."""
  def construct( s, ticks ):
    assert ticks > 1
    s.msg  = InPort( 8 )
    s.val  = InPort()
    s.rdy  = OutPort()
    s.line = OutPort()

    s.state = Wire( 2 )
    s.shift = Wire( 8 )
    s.bit   = Wire( 3 )
    s.tick  = Wire( clog2( ticks ) )
    s.last  = Wire()

    s.last //= lambda: s.tick == ticks - 1
    s.rdy  //= lambda: s.state == IDLE

    @update
    def up_line():
      if s.state == START:  s.line @= 0
      elif s.state == DATA: s.line @= s.shift[0]
      else:                 s.line @= 1

    @update_ff
    def up_state():
      s.tick <<= 0 if s.last else s.tick + 1
      if s.reset:
        s.state <<= IDLE
        s.tick  <<= 0
      elif s.state == IDLE:
        s.tick <<= 0
        s.bit  <<= 0
        if s.val:
          s.shift <<= s.msg
          s.state <<= START
      elif s.last:
        if s.state == START:
          s.state <<= DATA
        elif s.state == DATA:
          s.shift <<= s.shift >> 1
          s.bit   <<= s.bit + 1
          if s.bit == 7: s.state <<= STOP
        else:
          s.state <<= IDLE

class UartRx( Component ):
  """Samples each bit in its middle. `val` is set for the one cycle in which a byte is complete."""
  def construct( s, ticks ):
    s.line = InPort()
    s.msg  = OutPort( 8 )
    s.val  = OutPort()

    s.state = Wire( 2 )
    s.shift = Wire( 8 )
    s.bit   = Wire( 3 )
    s.tick  = Wire( clog2( ticks ) )

    s.msg //= s.shift
    s.val //= lambda: ( s.state == STOP ) & ( s.tick == 0 ) & s.line

    @update_ff
    def up_state():
      if s.reset:
        s.state <<= IDLE
      elif s.state == IDLE:
        s.bit  <<= 0
        s.tick <<= ticks // 2
        if ~s.line: s.state <<= START
      elif s.tick != 0:
        s.tick <<= s.tick - 1
      else:
        s.tick <<= ticks - 1
        if s.state == START:
          s.state <<= IDLE if s.line else DATA
        elif s.state == DATA:
          s.shift <<= concat( s.line, s.shift[1:8] )
          s.bit   <<= s.bit + 1
          if s.bit == 7: s.state <<= STOP
        else:
          s.state <<= IDLE

class Loopback( Component ):
  def construct( s, ticks=3 ):
    s.msg  = InPort( 8 )
    s.val  = InPort()
    s.rdy  = OutPort()
    s.line = OutPort()
    s.got_msg = OutPort( 8 )
    s.got_val = OutPort()

    s.tx = UartTx( ticks )
    s.tx.msg  //= s.msg
    s.tx.val  //= s.val
    s.tx.rdy  //= s.rdy
    s.tx.line //= s.line

    s.rx = UartRx( ticks )
    s.rx.line //= s.tx.line
    s.rx.msg  //= s.got_msg
    s.rx.val  //= s.got_val
