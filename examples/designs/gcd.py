"""A unit that finds greatest common divisors by subtraction, with a valid and ready interface."""
from pymtl3 import *

# what the controller does
IDLE = b2( 0 )
CALC = b2( 1 )
DONE = b2( 2 )

# what the register a takes
A_IN  = b2( 0 )
A_SUB = b2( 1 )
A_B   = b2( 2 )

@bitstruct
class Operands:
  a : Bits16
  b : Bits16

class RecvIfc( Interface ):
  def construct( s, Type ):
    s.msg = InPort( Type )
    s.val = InPort()
    s.rdy = OutPort()

class SendIfc( Interface ):
  def construct( s, Type ):
    s.msg = OutPort( Type )
    s.val = OutPort()
    s.rdy = InPort()

class GcdDatapath( Component ):
  """Two registers, a subtractor and a comparator."""
  def construct( s, nbits ):
    s.operands = InPort( Operands )
    s.result   = OutPort( nbits )

    s.a_sel  = InPort( 2 )
    s.a_en   = InPort()
    s.b_sel  = InPort()
    s.b_en   = InPort()
    s.b_zero = OutPort()
    s.a_lt_b = OutPort()

    s.a      = Wire( nbits )
    s.b      = Wire( nbits )
    s.a_next = Wire( nbits )
    s.b_next = Wire( nbits )

    @update
    def up_next():
      if s.a_sel == A_IN:    s.a_next @= s.operands.a
      elif s.a_sel == A_SUB: s.a_next @= s.a - s.b
      else:                  s.a_next @= s.b
      s.b_next @= s.a if s.b_sel else s.operands.b

    @update_ff
    def up_registers():
      if s.a_en: s.a <<= s.a_next
      if s.b_en: s.b <<= s.b_next

    s.b_zero //= lambda: s.b == 0
    s.a_lt_b //= lambda: s.a < s.b
    s.result //= s.a

class GcdControl( Component ):
  """Takes operands when idle, swaps or subtracts until b is 0, and holds the result until it is taken."""
  def construct( s ):
    s.recv_val = InPort()
    s.recv_rdy = OutPort()
    s.send_val = OutPort()
    s.send_rdy = InPort()

    s.a_sel  = OutPort( 2 )
    s.a_en   = OutPort()
    s.b_sel  = OutPort()
    s.b_en   = OutPort()
    s.b_zero = InPort()
    s.a_lt_b = InPort()

    s.state = Wire( 2 )

    @update_ff
    def up_state():
      if s.reset:
        s.state <<= IDLE
      elif s.state == IDLE:
        if s.recv_val: s.state <<= CALC
      elif s.state == CALC:
        if ~s.a_lt_b & s.b_zero: s.state <<= DONE
      else:
        if s.send_rdy: s.state <<= IDLE

    @update
    def up_outputs():
      s.recv_rdy @= s.state == IDLE
      s.send_val @= s.state == DONE
      s.a_sel @= A_IN
      s.a_en  @= 0
      s.b_sel @= 0
      s.b_en  @= 0
      if s.state == IDLE:
        s.a_en @= 1
        s.b_en @= 1
      elif s.state == CALC:
        if s.a_lt_b:
          # swap
          s.a_sel @= A_B
          s.a_en  @= 1
          s.b_sel @= 1
          s.b_en  @= 1
        elif ~s.b_zero:
          s.a_sel @= A_SUB
          s.a_en  @= 1

class Gcd( Component ):
  def construct( s ):
    s.recv = RecvIfc( Operands )
    s.send = SendIfc( Bits16 )
    s.dpath = GcdDatapath( 16 )
    s.ctrl  = GcdControl()

    s.dpath.operands //= s.recv.msg
    s.dpath.result   //= s.send.msg
    s.ctrl.recv_val  //= s.recv.val
    s.ctrl.recv_rdy  //= s.recv.rdy
    s.ctrl.send_val  //= s.send.val
    s.ctrl.send_rdy  //= s.send.rdy

    s.ctrl.a_sel  //= s.dpath.a_sel
    s.ctrl.a_en   //= s.dpath.a_en
    s.ctrl.b_sel  //= s.dpath.b_sel
    s.ctrl.b_en   //= s.dpath.b_en
    s.ctrl.b_zero //= s.dpath.b_zero
    s.ctrl.a_lt_b //= s.dpath.a_lt_b

  def line_trace( s ):
    return f"{s.recv.msg}({s.ctrl.state}){s.send.msg}"
