"""An arithmetic and logic unit with a register for its result and flags."""
from pymtl3 import *

# operations
ADD  = 0
SUB  = 1
AND  = 2
OR   = 3
XOR  = 4
SLL  = 5
SRL  = 6
SRA  = 7
SLT  = 8
SLTU = 9
COPY = 10

@bitstruct
class Flags:
  zero     : Bits1
  negative : Bits1
  carry    : Bits1
  overflow : Bits1

class Adder( Component ):
  """A sum with its carry, or a difference with its borrow inverted."""
  def construct( s, nbits ):
    s.a        = InPort( nbits )
    s.b        = InPort( nbits )
    s.subtract = InPort()
    s.sum      = OutPort( nbits )
    s.carry    = OutPort()
    s.overflow = OutPort()

    @update
    def up_sum():
      other = ~s.b if s.subtract else s.b
      wide  = zext( s.a, nbits + 1 ) + zext( other, nbits + 1 ) + zext( s.subtract, nbits + 1 )
      s.sum      @= wide[0:nbits]
      s.carry    @= wide[nbits]
      s.overflow @= ( s.a[nbits-1] == other[nbits-1] ) & ( wide[nbits-1] != s.a[nbits-1] )

class Shifter( Component ):
  """Shifts by the low bits of an amount: left, right, or right with copies of the sign."""
  def construct( s, nbits ):
    s.in_    = InPort( nbits )
    s.amount = InPort( nbits )
    s.right  = InPort()
    s.sign   = InPort()
    s.out    = OutPort( nbits )

    low = clog2( nbits )

    @update
    def up_out():
      n = zext( s.amount[0:low], nbits )
      if s.right:
        ones   = sext( b1( 1 ), nbits )
        filler = sext( s.sign & s.in_[nbits-1], nbits )
        s.out @= ( s.in_ >> n ) | ( filler & ~( ones >> n ) )
      else:
        s.out @= s.in_ << n

class Alu( Component ):
  def construct( s, nbits=16 ):
    s.a      = InPort( nbits )
    s.b      = InPort( nbits )
    s.op     = InPort( 4 )
    s.out    = OutPort( nbits )
    s.flags  = OutPort( Flags )
    s.held   = OutPort( nbits )
    s.result = Wire( nbits )

    s.adder = Adder( nbits )
    s.adder.a        //= s.a
    s.adder.b        //= s.b
    s.adder.subtract //= lambda: s.op != ADD

    s.shifter = Shifter( nbits )
    s.shifter.in_    //= s.a
    s.shifter.amount //= s.b
    s.shifter.right  //= lambda: s.op != SLL
    s.shifter.sign   //= lambda: s.op == SRA

    @update
    def up_result():
      less = s.adder.sum[nbits-1] ^ s.adder.overflow
      s.result @= 0
      if   s.op == ADD:  s.result @= s.adder.sum
      elif s.op == SUB:  s.result @= s.adder.sum
      elif s.op == AND:  s.result @= s.a & s.b
      elif s.op == OR:   s.result @= s.a | s.b
      elif s.op == XOR:  s.result @= s.a ^ s.b
      elif s.op == SLL:  s.result @= s.shifter.out
      elif s.op == SRL:  s.result @= s.shifter.out
      elif s.op == SRA:  s.result @= s.shifter.out
      elif s.op == SLT:  s.result @= zext( less, nbits )
      elif s.op == SLTU: s.result @= zext( ~s.adder.carry, nbits )
      elif s.op == COPY: s.result @= s.b

    @update
    def up_flags():
      arithmetic = ( s.op == ADD ) | ( s.op == SUB )
      s.flags @= Flags( s.result == 0, s.result[nbits-1], s.adder.carry & arithmetic, s.adder.overflow & arithmetic )

    s.out //= s.result

    @update_ff
    def up_held():
      if s.reset: s.held <<= 0
      else:       s.held <<= s.result
