"""A small processor: sixteen-bit instructions, eight registers, a program of its own and a port for output."""
from pymtl3 import *

@bitstruct
class Inst:
  op  : Bits4
  rd  : Bits3
  rs  : Bits3
  imm : Bits6

# operations
HALT = 0     # stay here
ADDI = 1     # rd = rs + imm
ADD  = 2     # rd = rd + rs
SUB  = 3     # rd = rd - rs
BNEZ = 4     # if rs isn't 0, go on at imm
OUT  = 5     # rs to the port
IN   = 6     # rd = what comes in
SHR  = 7     # rd = rs >> 1
ANDI = 8     # rd = rs & imm

class Rom( Component ):
  """Multiplies r1 by r2 into r3 by shifting, then gives r3 out and starts again."""
  def construct( s, npc ):
    s.pc   = InPort( npc )
    s.inst = OutPort( Inst )
    @update
    def up_inst():
      s.inst @= Inst( HALT, 0, 0, 0 )
      if   s.pc == 0:  s.inst @= Inst( IN,   1, 0, 0 )
      elif s.pc == 1:  s.inst @= Inst( IN,   2, 0, 0 )
      elif s.pc == 2:  s.inst @= Inst( ADDI, 3, 0, 0 )
      elif s.pc == 3:  s.inst @= Inst( ADDI, 7, 0, 1 )
      elif s.pc == 4:  s.inst @= Inst( ANDI, 4, 2, 1 )
      elif s.pc == 5:  s.inst @= Inst( BNEZ, 0, 4, 7 )
      elif s.pc == 6:  s.inst @= Inst( BNEZ, 0, 7, 8 )
      elif s.pc == 7:  s.inst @= Inst( ADD,  3, 1, 0 )
      elif s.pc == 8:  s.inst @= Inst( ADD,  1, 1, 0 )
      elif s.pc == 9:  s.inst @= Inst( SHR,  2, 2, 0 )
      elif s.pc == 10: s.inst @= Inst( BNEZ, 0, 2, 4 )
      elif s.pc == 11: s.inst @= Inst( OUT,  0, 3, 0 )
      elif s.pc == 12: s.inst @= Inst( BNEZ, 0, 7, 0 )

class RegFile( Component ):
  """Eight registers; the first is always 0."""
  def construct( s, nbits ):
    s.raddr = [ InPort( 3 ) for _ in range( 2 ) ]
    s.rdata = [ OutPort( nbits ) for _ in range( 2 ) ]
    s.waddr = InPort( 3 )
    s.wdata = InPort( nbits )
    s.wen   = InPort()
    s.regs  = [ Wire( nbits ) for _ in range( 8 ) ]
    s.regs[0] //= 0
    @update
    def up_read():
      for i in range( 2 ):
        s.rdata[i] @= s.regs[ s.raddr[i] ]
    @update_ff
    def up_regs():
      for i in range( 1, 8 ):
        if s.reset:
          s.regs[i] <<= 0
        elif s.wen & ( s.waddr == i ):
          s.regs[i] <<= s.wdata

class Processor( Component ):
  def construct( s, nbits=16, npc=6 ):
    s.in_     = InPort( nbits )
    s.out     = OutPort( nbits )
    s.out_val = OutPort()

    s.pc   = Wire( npc )
    s.inst = Wire( Inst )
    s.rd   = Wire( nbits )
    s.rs   = Wire( nbits )

    s.rom = Rom( npc )
    s.rom.pc   //= s.pc
    s.rom.inst //= s.inst

    s.file = RegFile( nbits )
    s.file.raddr[0] //= s.inst.rd
    s.file.raddr[1] //= s.inst.rs
    s.file.rdata[0] //= s.rd
    s.file.rdata[1] //= s.rs
    s.file.waddr    //= s.inst.rd

    @update
    def up_write():
      imm = zext( s.inst.imm, nbits )
      s.file.wen   @= 1
      s.file.wdata @= 0
      if   s.inst.op == ADDI: s.file.wdata @= s.rs + imm
      elif s.inst.op == ADD:  s.file.wdata @= s.rd + s.rs
      elif s.inst.op == SUB:  s.file.wdata @= s.rd - s.rs
      elif s.inst.op == IN:   s.file.wdata @= s.in_
      elif s.inst.op == SHR:  s.file.wdata @= s.rs >> 1
      elif s.inst.op == ANDI: s.file.wdata @= s.rs & imm
      else:                   s.file.wen   @= 0

    @update_ff
    def up_pc():
      if s.reset:
        s.pc <<= 0
      elif s.inst.op == HALT:
        s.pc <<= s.pc
      elif ( s.inst.op == BNEZ ) & ( s.rs != 0 ):
        s.pc <<= trunc( s.inst.imm, npc )
      else:
        s.pc <<= s.pc + 1

    @update_ff
    def up_out():
      s.out_val <<= ( s.inst.op == OUT ) & ~s.reset
      s.out     <<= s.rs
