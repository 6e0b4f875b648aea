from pymtl3 import *

class RegIncr( Component ):
  def construct( s, nbits=8 ):
    s.in_  = InPort( nbits )
    s.out  = OutPort( nbits )
    s.reg_ = Wire( nbits )
    @update_ff
    def up_reg():
      if s.reset: s.reg_ <<= 0
      else:       s.reg_ <<= s.in_
    @update
    def up_out():
      s.out @= s.reg_ + 1
  def line_trace( s ):
    return f"{s.in_} ({s.reg_}) {s.out}"
