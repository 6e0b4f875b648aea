"""A filter of finite impulse response: the last samples, each times its coefficient, added up."""
from pymtl3 import *

COEFFS = [ 1, -2, 3, 5, 3, -2, 1 ]

class Delay( Component ):
  """The last n samples: `taps[0]` is the newest."""
  def construct( s, nbits, n ):
    s.in_  = InPort( nbits )
    s.en   = InPort()
    s.taps = [ OutPort( nbits ) for _ in range( n ) ]
    @update_ff
    def up_taps():
      for i in range( n ):
        if s.reset:
          s.taps[i] <<= 0
        elif s.en:
          if i == 0: s.taps[i] <<= s.in_
          else:      s.taps[i] <<= s.taps[i-1]

class Tap( Component ):
  """Adds a sample times a constant to a sum, all of them signed."""
  def construct( s, nbits, nsum, coeff ):
    s.sample  = InPort( nbits )
    s.sum_in  = InPort( nsum )
    s.sum_out = OutPort( nsum )
    if coeff == 1:
      s.sum_out //= lambda: s.sum_in + sext( s.sample, nsum )
    else:
      @update
      def up_sum():
        s.sum_out @= s.sum_in + sext( s.sample, nsum ) * coeff

class Fir( Component ):
  def construct( s, nbits=8 ):
    n = len( COEFFS )
    # room for n products, each at most 8 times a sample
    nsum = nbits + 3 + clog2( n )

    s.in_     = InPort( nbits )
    s.in_val  = InPort()
    s.out     = OutPort( nsum )
    s.out_val = OutPort()

    s.delay = Delay( nbits, n )
    s.delay.in_ //= s.in_
    s.delay.en  //= s.in_val

    s.taps = [ Tap( nbits, nsum, COEFFS[i] ) for i in range( n ) ]
    s.taps[0].sum_in //= 0
    for i in range( n ):
      s.taps[i].sample //= s.delay.taps[i]
      if i > 0:
        s.taps[i].sum_in //= s.taps[i-1].sum_out
    s.out //= s.taps[n-1].sum_out

    @update_ff
    def up_val():
      if s.reset: s.out_val <<= 0
      else:       s.out_val <<= s.in_val
