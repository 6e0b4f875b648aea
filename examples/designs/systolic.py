"""A systolic array that multiplies matrices: cells add products of what passes from the left and from above."""
from pymtl3 import *

class Cell( Component ):
  """Adds the product of its inputs to its sum, and passes them on a cycle later."""
  def construct( s, nbits, nsum ):
    s.left  = InPort( nbits )
    s.above = InPort( nbits )
    s.clear = InPort()
    s.right = OutPort( nbits )
    s.below = OutPort( nbits )
    s.sum   = OutPort( nsum )

    s.product = Wire( nsum )
    s.product //= lambda: zext( s.left, nsum ) * zext( s.above, nsum )

    @update_ff
    def up_cell():
      s.right <<= s.left
      s.below <<= s.above
      if s.reset | s.clear: s.sum <<= 0
      else:                 s.sum <<= s.sum + s.product

class Skew( Component ):
  """Delays a value by a number of cycles."""
  def construct( s, nbits, cycles ):
    s.in_ = InPort( nbits )
    s.out = OutPort( nbits )
    if cycles == 0:
      s.out //= s.in_
    else:
      s.stages = [ Wire( nbits ) for _ in range( cycles ) ]
      s.out //= s.stages[cycles-1]
      @update_ff
      def up_stages():
        s.stages[0] <<= s.in_
        for i in range( 1, cycles ):
          s.stages[i] <<= s.stages[i-1]

class Systolic( Component ):
  """Row i of the left matrix comes in at `rows[i]`, column j of the right one at `cols[j]`, an element a cycle."""
  def construct( s, n=3, nbits=8 ):
    nsum = 2 * nbits + clog2( n )
    s.rows  = [ InPort( nbits ) for _ in range( n ) ]
    s.cols  = [ InPort( nbits ) for _ in range( n ) ]
    s.clear = InPort()
    s.sums  = [ OutPort( nsum ) for _ in range( n * n ) ]

    s.cells    = [ [ Cell( nbits, nsum ) for _ in range( n ) ] for _ in range( n ) ]
    s.row_skew = [ Skew( nbits, i ) for i in range( n ) ]
    s.col_skew = [ Skew( nbits, i ) for i in range( n ) ]

    for i in range( n ):
      s.row_skew[i].in_ //= s.rows[i]
      s.col_skew[i].in_ //= s.cols[i]
      s.cells[i][0].left  //= s.row_skew[i].out
      s.cells[0][i].above //= s.col_skew[i].out

    for i in range( n ):
      for j in range( n ):
        cell = s.cells[i][j]
        cell.clear //= s.clear
        cell.sum   //= s.sums[ i * n + j ]
        if j > 0: cell.left  //= s.cells[i][j-1].right
        if i > 0: cell.above //= s.cells[i-1][j].below
