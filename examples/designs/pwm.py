"""Pulses of a given width for several channels, with registers that are written by address."""
from pymtl3 import *

# addresses
ENABLE = 0
PERIOD = 1
DUTY   = 4

@bitstruct
class Write:
  addr : Bits3
  data : Bits8

class Channel( Component ):
  """Is high for the first `duty` counts of a period. A new duty counts from the next period on."""
  def construct( s, nbits ):
    s.count = InPort( nbits )
    s.wraps = InPort()
    s.en    = InPort()
    s.duty  = InPort( nbits )
    s.out   = OutPort()
    s.held  = Wire( nbits )
    s.out //= lambda: s.en & ( s.count < s.held )
    @update_ff
    def up_held():
      if s.reset:            s.held <<= 0
      elif s.wraps | ~s.en:  s.held <<= s.duty

class Pwm( Component ):
  def construct( s, nchannels=3, nbits=8 ):
    assert nchannels >= 1 and nchannels <= 4
    s.write     = InPort( Write )
    s.write_val = InPort()
    s.out       = OutPort( nchannels )

    s.enable = Wire( nchannels )
    s.period = Wire( nbits )
    s.duties = [ Wire( nbits ) for _ in range( nchannels ) ]
    s.count  = Wire( nbits )
    s.wraps  = Wire()
    s.wraps //= lambda: s.count >= s.period

    s.channels = [ Channel( nbits ) for _ in range( nchannels ) ]
    for i in range( nchannels ):
      c = s.channels[i]
      c.count //= s.count
      c.wraps //= s.wraps
      c.en    //= s.enable[i]
      c.duty  //= s.duties[i]
      c.out   //= s.out[i]

    @update_ff
    def up_count():
      if s.reset | s.wraps: s.count <<= 0
      else:                 s.count <<= s.count + 1

    @update_ff
    def up_registers():
      if s.reset:
        s.enable <<= 0
        s.period <<= -1
        for i in range( nchannels ):
          s.duties[i] <<= 0
      elif s.write_val:
        if s.write.addr == ENABLE:
          s.enable <<= trunc( s.write.data, nchannels )
        elif s.write.addr == PERIOD:
          s.period <<= s.write.data
        else:
          for i in range( nchannels ):
            if s.write.addr == DUTY + i:
              s.duties[i] <<= s.write.data
