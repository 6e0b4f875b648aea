"""A file of registers with several ports."""
from pymtl3 import *

class RegisterFile( Component ):
  """Reads see the values before the clock edge. Of two writes to one register the port of the greater number counts."""
  def construct( s, Type, nregs=32, rd_ports=1, wr_ports=1 ):
    assert nregs > 1
    Addr = mk_bits( clog2( nregs ) )
    s.raddr = [ InPort( Addr )  for _ in range( rd_ports ) ]
    s.rdata = [ OutPort( Type ) for _ in range( rd_ports ) ]
    s.waddr = [ InPort( Addr )  for _ in range( wr_ports ) ]
    s.wdata = [ InPort( Type )  for _ in range( wr_ports ) ]
    s.wen   = [ InPort()        for _ in range( wr_ports ) ]
    s.regs  = [ Wire( Type )    for _ in range( nregs ) ]
    @update
    def up_read():
      for i in range( rd_ports ):
        s.rdata[i] @= s.regs[ s.raddr[i] ]
    @update_ff
    def up_write():
      for i in range( wr_ports ):
        if s.wen[i]:
          s.regs[ s.waddr[i] ] <<= s.wdata[i]

class Example( Component ):
  def construct( s ):
    s.raddr = [ InPort( 2 )  for _ in range( 2 ) ]
    s.rdata = [ OutPort( 8 ) for _ in range( 2 ) ]
    s.waddr = [ InPort( 2 )  for _ in range( 2 ) ]
    s.wdata = [ InPort( 8 )  for _ in range( 2 ) ]
    s.wen   = [ InPort()     for _ in range( 2 ) ]
    s.file = RegisterFile( Bits8, 4, rd_ports=2, wr_ports=2 )
    for i in range( 2 ):
      s.file.raddr[i] //= s.raddr[i]
      s.file.rdata[i] //= s.rdata[i]
      s.file.waddr[i] //= s.waddr[i]
      s.file.wdata[i] //= s.wdata[i]
      s.file.wen[i]   //= s.wen[i]
