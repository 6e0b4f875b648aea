"""Traffic lights of a main road and a side road, with a button for those who walk."""
from pymtl3 import *

RED    = b2( 0 )
YELLOW = b2( 1 )
GREEN  = b2( 2 )

class Timer( Component ):
  """Is done once it has counted down; starts again from `cycles` when `start` is set."""
  def construct( s, nbits ):
    s.start  = InPort()
    s.cycles = InPort( nbits )
    s.done   = OutPort()
    s.left   = Wire( nbits )
    s.done //= lambda: s.left == 0
    @update_ff
    def up_left():
      if s.reset:   s.left <<= 0
      elif s.start: s.left <<= s.cycles
      elif ~s.done: s.left <<= s.left - 1

class TrafficLight( Component ):
  def construct( s, green=5, yellow=2, walk=4 ):
    nbits = clog2( ( green if green > walk else walk ) + 1 )
    assert yellow <= green, "yellow is the shortest"

    s.car    = InPort()       # a car waits on the side road
    s.button = InPort()       # somebody wants to walk
    s.main   = OutPort( 2 )
    s.side   = OutPort( 2 )
    s.walks  = OutPort()

    s.MAIN_GREEN  = b3( 0 )
    s.MAIN_YELLOW = b3( 1 )
    s.SIDE_GREEN  = b3( 2 )
    s.SIDE_YELLOW = b3( 3 )
    s.WALK        = b3( 4 )

    s.state = Wire( 3 )
    s.next  = Wire( 3 )
    s.asked = Wire()          # the button was pressed and nobody has walked since

    s.timer = Timer( nbits )
    s.timer.start //= lambda: s.next != s.state

    @update
    def up_next():
      s.next @= s.state
      if s.timer.done:
        if s.state == s.MAIN_GREEN:
          if s.car | s.asked: s.next @= s.MAIN_YELLOW
        elif s.state == s.MAIN_YELLOW:
          if s.asked: s.next @= s.WALK
          else:       s.next @= s.SIDE_GREEN
        elif s.state == s.SIDE_GREEN:
          s.next @= s.SIDE_YELLOW
        elif s.state == s.WALK:
          if s.car: s.next @= s.SIDE_GREEN
          else:     s.next @= s.MAIN_GREEN
        else:
          s.next @= s.MAIN_GREEN

    @update
    def up_cycles():
      if ( s.next == s.MAIN_YELLOW ) | ( s.next == s.SIDE_YELLOW ):
        s.timer.cycles @= yellow
      elif s.next == s.WALK:
        s.timer.cycles @= walk
      else:
        s.timer.cycles @= green

    @update
    def up_lights():
      s.main @= RED
      s.side @= RED
      if s.state == s.MAIN_GREEN:    s.main @= GREEN
      elif s.state == s.MAIN_YELLOW: s.main @= YELLOW
      elif s.state == s.SIDE_GREEN:  s.side @= GREEN
      elif s.state == s.SIDE_YELLOW: s.side @= YELLOW
      s.walks @= s.state == s.WALK

    @update_ff
    def up_state():
      if s.reset:
        s.state <<= s.MAIN_GREEN
        s.asked <<= 0
      else:
        s.state <<= s.next
        s.asked <<= ( s.asked | s.button ) & ~s.walks
