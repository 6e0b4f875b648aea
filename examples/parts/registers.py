"""Registers: plain, with a reset, with an enable, with both."""
from pymtl3 import *

class Reg( Component ):
  """The input of the cycle before."""
  def construct( s, Type ):
    s.in_ = InPort( Type )
    s.out = OutPort( Type )
    @update_ff
    def up_reg():
      s.out <<= s.in_

class RegRst( Component ):
  """The same, and a value after a reset. Type is Bits."""
  def construct( s, Type, reset_value=0 ):
    s.in_ = InPort( Type )
    s.out = OutPort( Type )
    @update_ff
    def up_reg():
      if s.reset: s.out <<= reset_value
      else:       s.out <<= s.in_

class RegEn( Component ):
  """Takes the input at the end of a cycle in which `en` is set."""
  def construct( s, Type ):
    s.in_ = InPort( Type )
    s.en  = InPort()
    s.out = OutPort( Type )
    @update_ff
    def up_reg():
      if s.en: s.out <<= s.in_

class RegEnRst( Component ):
  """With both: a reset counts more than `en`. Type is Bits."""
  def construct( s, Type, reset_value=0 ):
    s.in_ = InPort( Type )
    s.en  = InPort()
    s.out = OutPort( Type )
    @update_ff
    def up_reg():
      if s.reset: s.out <<= reset_value
      elif s.en:  s.out <<= s.in_

class Example( Component ):
  def construct( s ):
    s.in_ = InPort( 8 )
    s.en  = InPort()
    s.plain   = OutPort( 8 )
    s.rst     = OutPort( 8 )
    s.enabled = OutPort( 8 )
    s.both    = OutPort( 8 )
    s.reg        = Reg( Bits8 )
    s.reg_rst    = RegRst( Bits8, 5 )
    s.reg_en     = RegEn( Bits8 )
    s.reg_en_rst = RegEnRst( Bits8, reset_value=0xff )
    s.reg.in_        //= s.in_
    s.reg_rst.in_    //= s.in_
    s.reg_en.in_     //= s.in_
    s.reg_en_rst.in_ //= s.in_
    s.reg_en.en     //= s.en
    s.reg_en_rst.en //= s.en
    s.plain   //= s.reg.out
    s.rst     //= s.reg_rst.out
    s.enabled //= s.reg_en.out
    s.both    //= s.reg_en_rst.out
