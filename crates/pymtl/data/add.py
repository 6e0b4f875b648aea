from pymtl3 import *
class Add( Component ):
  def construct( s ):
    s.a = InPort( 8 )
    s.b = InPort( 8 )
    s.out = OutPort( 8 )
    @update
    def up():
      s.out @= s.a + s.b
