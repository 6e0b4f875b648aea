"""Makes designs at random whose blocks, methods and guards have random bodies.

usage: random_bodies.py SEED NUMBER       prints one

Most expressions have the width that their place needs. One in so many is of another width or of a form that isn't allowed
there, so that about half of the designs are refused.
"""

import ast
import random
import sys

HEAD = """from pymtl3 import *
from collections import deque
WIDE = 12
TABLE = [ 1, 2, 250 ]
MASK = b8( 0x5a )
@bitstruct
class Msg:
  op  : Bits4
  val : Bits8
class Child( Component ):
  def construct( s ):
    s.in_ = InPort( 8 )
    s.out = OutPort( 8 )
    s.msg = OutPort( Msg )
    s.hidden = Wire( 8 )
  def give( s ) -> Bits8:
    return s.hidden
class T( Component ):
  def construct( s ):
    s.a = InPort( 8 )
    s.b = InPort( 8 )
    s.c = InPort()
    s.n = InPort( 4 )
    s.m = InPort( Msg )
    s.x = [ InPort( 8 ) for _ in range( 3 ) ]
    s.y = [ OutPort( 8 ) for _ in range( 3 ) ]
    s.out = OutPort( 8 )
    s.nib = OutPort( 4 )
    s.bit = OutPort()
    s.msg = OutPort( Msg )
    s.w = Wire( 8 )
    s.r = Wire( 8 )
    s.rs = [ Wire( 4 ) for _ in range( 2 ) ]
    s.part = s.w[2:6]
    s.child = Child()
    s.items : Bits8 = deque( maxlen=3 )
    s.count : Bits4 = 5
    size = 3
    limit = b4( 9 )
    names = [ 4, 5 ]
    ref = s.a
"""
WIDTHS = (1, 4, 8)
READS = {
    1: ["s.c", "s.bit", "s.reset", "s.a[0]", "s.a[7]", "s.n[size]", "s.m.op[1]", "s.x[1][2]", "s.w[ s.n[0:3] ]", "s.a[ s.n ]"],
    4: ["s.n", "s.nib", "s.a[0:4]", "s.b[4:8]", "s.m.op", "s.msg.op", "s.rs[0]", "s.rs[ s.c ]", "s.part", "limit", "s.m[0:4]",
        "s.x[ s.n[0:2] ][2:6]", "s.child.msg.op"],
    8: ["s.a", "s.b", "s.w", "s.r", "s.out", "s.x[0]", "s.x[2]", "s.y[1]", "s.m.val", "s.m[2:10]", "s.x[ s.n ]",
        "s.x[ s.n[0:2] ]", "s.child.out", "s.child.in_", "s.child.msg.val", "MASK", "s.y[ s.c ]"],
}
STATE_READS = {4: ["s.count"], 8: ["s.items[0]", "s.items[-1]", "s.items[2]"], 1: ["s.put.rdy()", "s.get.rdy()"]}
INTEGERS = ["0", "1", "3", "-1", "size", "WIDE", "TABLE[1]", "names[0]", "len( s.x )", "clog2( WIDE )", "0x0f",
            "s.items.maxlen", "Bits4.nbits", "size - 2", "1 << 2", "TABLE[0] * 2", "~1"]
WRONG = ["s.nope", "nope", "ref", "s.child.hidden", "s.x", "s.clk", "s.a[8]", "s.a[3:3]", "s.a + 256", "s.a // s.b", "-s.a", "s.m",
         "1 if s.c else 0", "Bits8( s.a )", "zext( s.a, 4 )", "trunc( s.a, 9 )", "concat( s.a, 1 )", "s.child", "Bits8", "T",
         "not s.a", "s.a and s.c", "Msg( 1 )", "Msg( 1, 256 )", "s.x[3]", "s.x[ s.a[ s.n ] ]", "s.a.op", "s.m.none", "later",
         "s.items", "s.items[3]", "s.count[0]", "TABLE[ s.c ]", "s.put( s.a )", "( s.a + 1 )[0:4]", "9 // 0", "s.a << s.n",
         "s.a[ 0:4 ][ s.c ]", "reduce_or( 1 )", "zext( s.a )", "mk_bits( 200 )( 1 )", "1 << 64", "s.m + s.m", "s.m == s.a"]


class Maker:
    def __init__(self, seed, number):
        self.chance = random.Random(f"{seed} {number}")
        self.wrong = self.chance.choice([0, 0, 0.01, 0.03])
        self.temps = {}
        self.lines = []
        self.sort = None
        self.turn = None

    def pick(self, choices):
        return self.chance.choice(choices)

    # ---- expressions

    def expression(self, width, depth):
        if self.chance.random() < self.wrong:
            return self.pick(WRONG)
        if self.chance.random() < self.wrong:
            width = self.pick(WIDTHS)
        if depth == 0 or self.chance.random() < 0.2:
            return self.leaf(width)
        return self.pick([self.binary, self.binary, self.choice, self.extended, self.joined, self.unary, self.special])(
            width, depth - 1)

    def leaf(self, width):
        choices = list(READS.get(width, ["zext( s.a, WIDE )"]))
        if self.sort in ("update_once", "method", "guard"):
            choices += STATE_READS.get(width, []) * 2
        if self.sort in ("method", "guard"):
            choices = [choice for choice in choices if "child" not in choice] + (["s.a"] if width == 8 else [])
            names = ("MASK", "limit", "size")
            choices = [c for c in choices if not any(name in c for name in names) or c == "MASK"] or ["s.c"]
        choices += [name for name, known in self.temps.items() if known == width] * 3
        if self.turn and width == 8:
            choices += [f"s.x[{self.turn}]", f"s.x[ size - 1 - {self.turn} ]" if self.sort not in ("method", "guard") else "s.a"]
        return self.pick(choices)

    def integer(self, width=8):
        if self.chance.random() >= self.wrong:
            if width == 1:
                return self.pick(["0", "1"])
            if self.sort in ("method", "guard"):
                return self.pick(["0", "1", "3", "-1", "WIDE", "TABLE[1]", "0x0f", "clog2( WIDE )"])
        return self.pick(INTEGERS)

    def binary(self, width, depth):
        sign = self.pick(["+", "-", "*", "&", "|", "^", "<<", ">>"])
        right = self.integer(width) if self.chance.random() < 0.2 else self.expression(width, depth)
        left = self.integer(width) if self.chance.random() < 0.05 else self.expression(width, depth)
        return f"( {left} {sign} {right} )"

    def choice(self, width, depth):
        test = self.expression(self.pick(WIDTHS), depth)
        if self.chance.random() < 0.1:
            test = self.integer()
        other = self.integer(width) if self.chance.random() < 0.2 else self.expression(width, depth)
        return f"( {self.expression(width, depth)} if {test} else {other} )"

    def extended(self, width, depth):
        if self.chance.random() < 0.4:
            return f"trunc( {self.expression(8, depth)}, {width} )"
        inner = self.pick([w for w in WIDTHS if w <= width] or [1])
        return f"{self.pick(['zext', 'sext'])}( {self.expression(inner, depth)}, {width} )"

    def joined(self, width, depth):
        if width == 8:
            return f"concat( {self.expression(4, depth)}, {self.expression(4, depth)} )"
        if width == 4:
            return f"concat( {', '.join(self.expression(1, depth) for _ in range(4))} )"
        return self.comparison(depth)

    def comparison(self, depth):
        width = self.pick(WIDTHS)
        right = self.integer(width) if self.chance.random() < 0.3 else self.expression(width, depth)
        return f"( {self.expression(width, depth)} {self.pick(['==', '!=', '<', '<=', '>', '>='])} {right} )"

    def unary(self, width, depth):
        if width == 1 and self.chance.random() < 0.5:
            return self.pick([
                f"( not {self.expression(1, depth)} )",
                f"( {self.expression(1, depth)} {self.pick(['and', 'or'])} {self.expression(1, depth)} )",
                f"reduce_{self.pick(['and', 'or', 'xor'])}( {self.expression(self.pick(WIDTHS), depth)} )",
            ])
        return f"~{self.expression(width, depth)}"

    def special(self, width, depth):
        if width == 1:
            return self.pick(["( s.m == s.msg )", "( s.m != s.child.msg )", self.comparison(depth)])
        if width == 8 and self.sort not in ("method", "guard"):
            return f"s.x[ {self.expression(self.pick([1, 4]), min(depth, 1))} ]" if self.chance.random() < 0.5 else "s.child.out"
        return self.binary(width, depth)

    # ---- statements

    def add(self, indent, text):
        self.lines.append("  " * indent + text)

    def statements(self, indent, count, depth):
        for _ in range(count):
            self.statement(indent, depth)

    def statement(self, indent, depth):
        roll = self.chance.random()
        if depth and roll < 0.15:
            self.condition(indent, depth - 1)
        elif depth and roll < 0.25:
            self.loop(indent, depth - 1)
        elif roll < 0.45:
            self.temporary(indent)
        elif roll < 0.48:
            self.add(indent, self.pick(["pass", '"a string"']))
        elif self.sort in ("update_once", "method") and roll < 0.75:
            self.change(indent)
        elif self.sort == "method":
            self.temporary(indent)
        else:
            self.assignment(indent)

    def assignment(self, indent):
        width = self.pick(WIDTHS)
        edge = self.sort == "update_ff"
        targets = {
            1: ["s.bit", *([] if edge else ["s.w[3]", "s.out[ s.n[0:3] ]", "s.msg.op[0]"])],
            4: ["s.nib", "s.rs[1]", "s.rs[ s.c ]", *([] if edge else ["s.w[0:4]", "s.msg.op", "s.part"])],
            8: ["s.out", "s.y[0]", "s.y[ s.n[0:2] ]", "s.w", "s.r", "s.child.in_", *([] if edge else ["s.msg.val", "s.y[size-1]"])],
        }
        target = self.pick(targets[width])
        if self.turn and width == 8:
            target = f"s.y[{self.turn}]"
        if self.chance.random() < self.wrong:
            target = self.pick(["s.a", "s.child.out", "s.nope", "s.x[0]", "s.w[0:8]", "s.y", "s.count", "MASK", "s.reset"])
        sign = "<<=" if edge else "@="
        if self.chance.random() < self.wrong:
            sign = self.pick(["<<=", "@="])
        if self.chance.random() < 0.1:
            self.add(indent, f"s.msg {sign} " + self.pick([
                f"Msg( {self.expression(4, 1)}, {self.expression(8, 1)} )", "s.m", "s.child.msg", "Msg( 1, -1 )",
                f"( s.m if {self.expression(1, 1)} else s.child.msg )",
            ]))
            return
        value = self.integer(width) if self.chance.random() < 0.1 else self.expression(width, 3)
        self.add(indent, f"{target} {sign} {value}")

    def temporary(self, indent):
        name = self.pick(["t", "u", "v", "later"]) if self.chance.random() < 0.9 else "size"
        if self.sort in ("method", "guard") and name == "size":
            name = "t"
        width = self.temps.get(name) or self.pick(WIDTHS)
        if name not in self.temps and self.chance.random() < self.wrong:
            self.add(indent, f"{name} = 1")
            return
        if name == "size":
            name = "v"
            width = self.temps.get(name) or width
        self.add(indent, f"{name} = {self.expression(width, 2)}")
        self.temps[name] = width

    def condition(self, indent, depth):
        known = dict(self.temps)
        test = self.integer() if self.chance.random() < 0.1 else self.expression(self.pick(WIDTHS), 2)
        self.add(indent, f"if {test}:")
        self.statements(indent + 1, self.chance.randrange(1, 3), depth)
        after = set(self.temps)
        self.forget(known)
        if self.chance.random() < 0.6:
            self.add(indent, self.pick(["else:", f"elif {self.expression(1, 1)}:"]))
            self.statements(indent + 1, self.chance.randrange(1, 3), depth)
            if not self.lines[-1].strip().startswith("elif"):
                known.update({n: w for n, w in self.temps.items() if n in after and self.chance.random() < 0.5})
        self.forget(known)

    def forget(self, known):
        """Names that only some paths assign are read again only where the design is to be wrong."""
        self.temps = {n: w for n, w in self.temps.items() if n in known} if self.wrong < 0.03 else self.temps

    def loop(self, indent, depth):
        if self.turn:
            return self.assignment(indent) if self.sort != "method" else self.temporary(indent)
        self.turn = self.pick(["i", "k"])
        bounds = self.pick(["3", "1, 3", "2, -1, -1", "0", "len( s.x )"])
        self.add(indent, f"for {self.turn} in range( {bounds} ):")
        known = dict(self.temps)
        self.statements(indent + 1, self.chance.randrange(1, 3), depth)
        self.temps = {n: w for n, w in self.temps.items() if n in known}
        self.turn = None
        return None

    def change(self, indent):
        names = "t", "u"
        self.add(indent, self.pick([
            f"s.items.append( {self.expression(8, 1)} )", f"s.items.appendleft( {self.expression(8, 1)} )", "s.items.clear()",
            "s.items.pop()", f"s.count = {self.expression(4, 1)}", f"s.put( {self.expression(8, 1)} )", "s.count = 3",
            *([] if self.sort == "method" else ["s.out @= s.get()", "s.w @= s.items.popleft()", "s.y[1] @= s.child.give()"]),
        ] + ([f"{name} = s.items.popleft()" for name in names if self.temps.get(name, 8) == 8])))
        for name in names:
            if self.lines[-1].strip().startswith(f"{name} ="):
                self.temps[name] = 8

    # ---- designs

    def block(self, sort, name):
        self.sort, self.temps, self.turn = sort, {}, None
        self.add(2, f"@{sort}")
        self.add(2, f"def {name}():")
        self.statements(3, self.chance.randrange(1, 6), 2)

    def design(self):
        for number in range(self.chance.randrange(1, 4)):
            self.block(self.pick(["update", "update", "update_ff", "update_once"]), f"up_{number}")
        if self.chance.random() < 0.5:
            self.sort, self.temps, self.turn = "update", {}, None
            self.add(2, f"{self.pick(['s.bit', 's.w[0]'])} //= lambda: {self.expression(1, 3)}")
        self.method("put", [("given", 8)], None)
        self.method("get", [], 8)
        return HEAD + "\n".join(self.lines) + "\n"

    def method(self, name, arguments, result):
        self.sort, self.temps, self.turn = "guard", {}, None
        if self.chance.random() < 0.5:
            self.add(1, f"@non_blocking( lambda s: {self.expression(self.pick([1, 4]), 1).replace('s.' + name + '.rdy()', 's.c')} )")
        self.sort, self.temps = "method", dict(arguments)
        words = "".join(f", {argument}: Bits{width}" for argument, width in arguments)
        self.add(1, f"def {name}( s{words} )" + ("" if result is None else f" -> Bits{result}") + ":")
        before = len(self.lines)
        self.statements(2, self.chance.randrange(0, 3), 1)
        # a method that leads to a call of itself is another refusal
        self.lines[before:] = [line for line in self.lines[before:] if "s.put(" not in line or name == "get"]
        if result is not None:
            self.add(2, f"return {self.pick([self.expression(result, 1), 's.items.popleft()'])}")
        elif len(self.lines) == before or self.lines[-1].rstrip().endswith(":"):
            self.add(2 + (len(self.lines[-1]) - len(self.lines[-1].lstrip())) // 2 - 1 if len(self.lines) > before else 2, "pass")


def make(seed, number):
    """A design's text, its top and no words."""
    for again in range(100):
        text = Maker(seed, f"{number} {again}").design()
        try:
            ast.parse(text)
            return text, "T", []
        except SyntaxError:  # an `elif` behind a conditional expression, say
            continue
    raise AssertionError(number)


if __name__ == "__main__":
    if len(sys.argv) != 3:
        sys.exit(__doc__)
    print(make(int(sys.argv[1]), int(sys.argv[2]))[0], end="")
