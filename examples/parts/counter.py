"""A counter up to a limit."""
from pymtl3 import *

class Counter( Component ):
  """Counts the cycles in which `en` is set, from 0 up to `last`, and then from 0 again."""
  def construct( s, nbits, last ):
    s.en    = InPort()
    s.clear = InPort()
    s.count = OutPort( nbits )
    s.wraps = OutPort()
    s.wraps //= lambda: s.en & ( s.count == last )
    @update_ff
    def up_count():
      if s.reset | s.clear | s.wraps:
        s.count <<= 0
      elif s.en:
        s.count <<= s.count + 1

class Example( Component ):
  def construct( s ):
    s.en    = InPort()
    s.clear = InPort()
    s.count = OutPort( 4 )
    s.wraps = OutPort()
    s.counter = Counter( 4, 9 )
    s.counter.en    //= s.en
    s.counter.clear //= s.clear
    s.count         //= s.counter.count
    s.wraps         //= s.counter.wraps
