"""Checksums by cyclic redundancy: a byte each cycle, or a bit each cycle, and both compared."""
from pymtl3 import *

class CrcStep( Component ):
  """What one bit does to a checksum."""
  def construct( s, nbits, polynomial ):
    s.crc  = InPort( nbits )
    s.bit  = InPort()
    s.out  = OutPort( nbits )
    @update
    def up_out():
      shifted = s.crc << 1
      if s.crc[nbits-1] ^ s.bit: s.out @= shifted ^ polynomial
      else:                      s.out @= shifted

class ByteCrc( Component ):
  """Takes a byte in each cycle in which `en` is set, its highest bit first."""
  def construct( s, nbits, polynomial, initial ):
    s.in_   = InPort( 8 )
    s.en    = InPort()
    s.clear = InPort()
    s.crc   = OutPort( nbits )

    s.steps = [ CrcStep( nbits, polynomial ) for _ in range( 8 ) ]
    s.steps[0].crc //= s.crc
    for i in range( 8 ):
      s.steps[i].bit //= s.in_[7-i]
      if i > 0:
        s.steps[i].crc //= s.steps[i-1].out

    @update_ff
    def up_crc():
      if s.reset | s.clear: s.crc <<= initial
      elif s.en:            s.crc <<= s.steps[7].out

class SerialCrc( Component ):
  """Takes a byte when it is free, and then works for eight cycles."""
  def construct( s, nbits, polynomial, initial ):
    s.in_   = InPort( 8 )
    s.val   = InPort()
    s.rdy   = OutPort()
    s.clear = InPort()
    s.crc   = OutPort( nbits )

    s.left  = Wire( 4 )
    s.shift = Wire( 8 )
    s.step  = CrcStep( nbits, polynomial )
    s.step.crc //= s.crc
    s.step.bit //= s.shift[7]
    s.rdy      //= lambda: s.left == 0

    @update_ff
    def up_crc():
      if s.reset | s.clear:
        s.crc  <<= initial
        s.left <<= 0
      elif s.rdy:
        if s.val:
          s.left  <<= 8
          s.shift <<= s.in_
      else:
        s.crc   <<= s.step.out
        s.left  <<= s.left - 1
        s.shift <<= s.shift << 1

class Crc( Component ):
  """`equal` is set while both have worked through the same bytes and agree."""
  def construct( s, nbits=16, polynomial=0x1021, initial=0xffff ):
    s.in_   = InPort( 8 )
    s.val   = InPort()
    s.clear = InPort()
    s.rdy   = OutPort()
    s.crc   = OutPort( nbits )
    s.equal = OutPort()

    s.fast = ByteCrc( nbits, polynomial, initial )
    s.slow = SerialCrc( nbits, polynomial, initial )
    s.fast.in_   //= s.in_
    s.fast.clear //= s.clear
    s.fast.en    //= lambda: s.val & s.slow.rdy
    s.fast.crc   //= s.crc
    s.slow.in_   //= s.in_
    s.slow.val   //= s.val
    s.slow.clear //= s.clear
    s.slow.rdy   //= s.rdy
    s.equal      //= lambda: s.slow.rdy & ( s.fast.crc == s.slow.crc )
