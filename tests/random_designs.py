"""Designs made at random from a seed, in the subset that pymtl reads.

Where the language refuses what Python takes, they keep away from it: all integers have less than 64 bits, no index of a
list is negative, nor is an exponent or a shift amount, and a lambda reads no local that is assigned more than once.
Divisors, indexes and slices may be wrong, and a statement may be missing or be there twice: then Python raises, or the
stand-in for `pymtl3` does. The bodies of blocks and methods make no sense.
"""

import random
import re

SMALL = 20  # no constant is greater


def make(seed, number):
    """The text of a design, the name of its top and the words that set parameters."""
    return Maker(random.Random(f"{seed} {number}")).design()


LEAVES = """\
class Leaf( Component ):
  def construct( s, n=2 ):
    s.a = InPort( n )
class Other( Component ):
  pass
""".splitlines()

# A component that makes others of its own class.
TREE = """\
class Tree( Component ):
  def construct( s, n ):
    s.in_ = InPort( 8 )
    if n > 0:
      s.less = [ Tree( i ) for i in range( n // 2, n // 2 + 1 ) ]
      s.more = Tree( n - n // 2 - 1 )
      s.more.in_ //= s.less[0].in_
""".splitlines()


class Scope:
    """What one `construct` has so far. Ends are texts and widths, and a bitstruct's name in place of a width."""

    def __init__(self, integers, may_fail=True):
        self.may_fail = may_fail  # whether an expression may have no value
        self.integers = list(integers)  # expressions that are integers, and locals
        self.types = []
        self.ends = []
        self.hidden = set()  # ends that a parent may not see as ports
        self.interfaces = []  # an expression and its class
        self.lists = []  # a name and the number of elements
        self.left = []  # names of integers and constants
        self.children = []
        self.far = []  # children of children
        self.locals = []  # assigned once
        self.callees = []
        self.ports = []  # callees that are caller ports
        self.states = []
        self.blocks = []
        self.made = 0

    def fresh(self, stem):
        self.made += 1
        return f"{stem}{self.made}"


class Maker:
    def __init__(self, random_numbers):
        self.random = random_numbers
        self.lines = []
        self.constants = []
        self.types = []
        self.structs = {}  # a name, and its fields with widths or names
        self.widths = {}  # of each bitstruct
        self.interfaces = {}  # a name, and the sort of its parameter, its members, and whether there is a default
        self.numbers = {}  # of each interface the members that are integers
        self.components = []

    # ---- small choices

    def chance(self, percent):
        return self.random.randrange(100) < percent

    def pick(self, choices):
        return self.random.choice(choices)

    def put(self, depth, line):
        """Adds a logical line, sometimes over more than one line."""
        if self.chance(8):
            line = line.replace("( ", self.pick(["(\n    ", "( # (\n  ", "(\n\n"]), self.random.randint(1, 2))
        if self.chance(4):
            line = line.replace(" //= ", " \\\n   //= ").replace(" < ", " < \\\n")
        if self.chance(3):
            line += "  # s.x //= s.y"
        if self.chance(2):
            self.lines.append("")
        self.lines.append("  " * depth + line)

    # ---- expressions

    def integer(self, scope, depth=3):
        if depth == 0 or self.chance(25):
            return self.leaf(scope)
        a, b = self.integer(scope, depth - 1), self.integer(scope, depth - 1)
        sort = self.random.randrange(12)
        if sort < 4:
            return f"( {a} {self.pick(['+', '-', '*'])} {b} )"
        if sort < 6:
            return f"( {a} {self.pick(['//', '%'])} {self.divisor(scope, b)} )"
        if sort == 6:
            return f"( {a} {self.pick(['&', '|', '^'])} {b} )"
        if sort == 7:
            return f"( {a} {self.pick(['<<', '>>'])} ( {b} & 7 ) )"
        if sort == 8:
            return f"( ( {self.leaf(scope)} % 7 ) ** ( {b} & 3 ) )"
        if sort == 9:
            return f"( {self.pick(['-', '+', '~', 'not '])}{a} )"
        if sort == 10:
            return f"( {a} {self.pick(['and', 'or'])} {b} )" if self.chance(50) else self.comparison(a, b)
        return f"( {a} if {self.comparison(self.leaf(scope), b)} else {self.integer(scope, depth - 1)} )"

    def comparison(self, a, b):
        return f"( {a} {self.pick(['==', '!=', '<', '<=', '>', '>='])} {b} )"

    def divisor(self, scope, expression):
        if scope.may_fail and self.chance(3):
            return expression
        return self.pick(["3", "-4", "7", "-1", f"( {expression} | 1 )", f"( -( {expression} % 5 ) - 1 )"])

    def leaf(self, scope):
        sort = self.random.randrange(10)
        if sort < 4 and scope.integers:
            return self.pick(scope.integers)
        if sort == 4 and self.constants:
            return self.pick(self.constants)
        if sort == 5 and scope.lists:
            name, count = self.pick(scope.lists)
            if self.chance(30):
                return f"len( {name} )"
            last = count if self.chance(2) else count - 1
            return f"{name}[{self.random.randint(0, last)}]"
        if sort == 6:
            return f"clog2( {self.random.randint(0 if scope.may_fail and self.chance(3) else 1, 40)} )"
        if sort == 7:
            return f"{self.type_name(scope)}.nbits"
        if sort == 8:
            return self.pick(["True", "False", "0x1f", "0b101", "0o17", "1_0"])
        value = self.random.randint(-SMALL, SMALL)
        return f"( {value} )" if value < 0 else str(value)

    def width(self, scope):
        """An expression that is from 1 to 16."""
        if self.chance(60):
            return str(self.pick([1, 2, 3, 4, 8, 8, 8, 13]))
        return f"{self.integer(scope, 2)} % {self.pick(['5', '8', '16'])} + 1"

    def type_name(self, scope):
        names = list(self.structs) + self.types + scope.types
        if self.structs and self.chance(10):
            return f"Bits{self.pick(list(self.widths.values()))}"
        if names and self.chance(50):
            return self.pick(names)
        if self.chance(15):
            return f"mk_bits( {self.width(scope)} )"
        width = self.pick([1, 2, 4, 8, 8, 16, 128])
        return self.pick([f"Bits{width}", f"b{width}", f"mk_bits( {width} )"])

    def type_of_port(self):
        """One of few types, so that caller ports and methods have equal ones, or ones of equal width."""
        return self.pick(["Bits4", "b4", *self.structs, *(f"Bits{self.widths[name]}" for name in self.structs)])

    # ---- signals

    def signal(self, scope, sorts=("InPort", "OutPort", "Wire")):
        """An expression that makes a signal, and what is known of its type."""
        sort = self.pick(sorts)
        form = self.random.randrange(5)
        if form == 0:
            return f"{sort}()", 1
        if form < 3:
            width = self.width(scope)
            return f"{sort}( {width} )", int(width) if width.isdigit() else None
        name = self.type_name(scope)
        return f"{sort}( {name} )", self.known(name)

    def add_end(self, scope, text, kind, made):
        """Notes an end that this expression makes."""
        scope.ends.append((text, kind))
        if "Wire" in made:
            scope.hidden.add(text)

    def known(self, name):
        """A width or a bitstruct's name, or None if neither is known."""
        if name in self.structs:
            return name
        found = re.fullmatch(r"(?:Bits|b)([0-9]+)|mk_bits\( ([0-9]+) \)", name)
        return int(found[1] or found[2]) if found else None

    def part(self, end, scope):
        """An end, or a part of it."""
        text, kind = end
        if self.chance(45) or kind is None:
            return text
        if isinstance(kind, str):
            if self.chance(40):
                return text
            field, inner = self.pick(self.structs[kind])
            return self.part((f"{text}.{field}", inner), scope)
        if self.chance(1):
            return f"{text}[{kind}]"
        low = self.random.randrange(kind)
        if self.chance(10):
            start = f"{self.integer(scope, 1)} % {kind}"
            return f"{text}[{start}]" if self.chance(50) else f"{text}[{start} : {kind}]"
        if self.chance(30):
            return f"{text}[{low}]"
        high = self.random.randint(low + (0 if self.chance(1) else 1), kind)
        if high - low > 1 and self.chance(20):
            return f"{text}[{low}:{high}][{self.random.randrange(high - low)}]"
        return f"{text}[{low}:{high}]"

    def declare(self, scope, depth):
        name = scope.fresh(self.pick(["in_", "out", "w", "x"]))
        sort = self.random.randrange(10)
        if sort < 5:
            made, kind = self.signal(scope)
            self.put(depth, f"s.{name} = {made}")
            self.add_end(scope, f"s.{name}", kind, made)
        elif sort == 5:
            made = [self.signal(scope) for _ in range(self.random.randint(1, 3))]
            self.put(depth, f"s.{name} = [ {', '.join(text for text, _ in made)} ]")
            for k, (text, kind) in enumerate(made):
                self.add_end(scope, f"s.{name}[{k}]", kind, text)
        elif sort == 6:
            count = self.random.randint(0, 3)
            made, kind = self.signal(scope)
            bounds = self.pick([f"{count}", f"1, {count + 1}", f"0, {2 * count}, 2", f"{count}, 0, -1"])
            self.put(depth, f"s.{name} = [ {made} for _ in range( {bounds} ) ]")
            for k in range(count):
                self.add_end(scope, f"s.{name}[{k}]", kind, made)
        elif sort == 7:
            sort = self.pick(["InPort", "OutPort", "Wire"])
            self.put(depth, f"s.{name} = [ [ {sort}( i + j + 1 ) for j in range( i ) ] for i in range( 3 ) ]")
            for place, width in [("[1][0]", 2), ("[2][0]", 3), ("[2][1]", 4)]:
                self.add_end(scope, f"s.{name}{place}", width, sort)
        elif sort == 8:
            (one, kind), (other, _) = self.signal(scope), self.signal(scope)
            self.put(depth, f"s.{name} = {one} if {self.integer(scope, 2)} else {other}")
            self.add_end(scope, f"s.{name}", None, one + other)
        else:
            self.put(depth, f"s.{name} = {self.integer(scope, 2)} % 30")
            scope.integers.append(f"s.{name}")

    # ---- the file

    def design(self):
        self.put(0, "from pymtl3 import *")
        self.put(0, "from collections import deque")
        empty = Scope([])
        for n in range(self.random.randint(0, 3)):
            self.put(0, f"N{n} = {self.integer(empty, 2)} % 40")
            self.constants.append(f"N{n}")
        if self.chance(40):
            self.put(0, f"T0 = {self.pick(['Bits7', 'b3', 'mk_bits( 5 )'])}")
            self.types.append("T0")
        for n in range(self.random.randint(0, 2)):
            self.bitstruct(f"Msg{n}")
        for n in range(self.random.randint(0, 3)):
            self.interface(f"Ifc{n}")
        head, parts = self.lines, [LEAVES, TREE]
        last = self.random.randint(0, 4)
        for n in range(last + 1):
            self.lines = []
            self.component(f"Comp{n}", n == last)
            parts.append(self.lines)
        if self.chance(50):
            self.random.shuffle(parts)
        self.lines = head + [line for part in parts for line in part]
        if self.chance(15):
            self.disturb()
        top = self.components[-1]
        words = [f"{name}={self.word(sort)}" for name, sort, default in top["parameters"]
                 if default is None or self.chance(50)]
        self.random.shuffle(words)
        return "\n".join(self.lines) + "\n", top["name"], words

    def disturb(self):
        """Leaves a statement of a `construct` out, repeats it, or exchanges it with the next one."""
        places = [n for n, line in enumerate(self.lines)
                  if line.startswith(("    s.", "    connect( ")) and line.count("(") == line.count(")")]
        if not places:
            return
        n, sort = self.pick(places), self.random.randrange(3)
        if sort == 0:
            del self.lines[n]
        elif sort == 1:
            self.lines.insert(n, self.lines[n])
        elif n + 1 in places:
            self.lines[n : n + 2] = self.lines[n + 1], self.lines[n]

    def word(self, sort):
        if sort == "type":
            return f"Bits{self.random.randint(1, 20)}"
        return str(self.random.randint(-9, 30))

    def bitstruct(self, name):
        self.put(0, "@bitstruct")
        self.put(0, f"class {name}:")
        fields, width = [], 0
        for n in range(self.random.randint(1, 4)):
            if self.structs and self.chance(25):
                kind = self.pick(list(self.structs))
                size, text = self.widths[kind], kind
            else:
                size = kind = self.random.randint(1, 12)
                text = self.pick([f"Bits{size}", f"b{size}", f"mk_bits( {size} )"])
            if width + size > 128:
                break
            width += size
            fields.append((self.pick(["op", "val", "tag", "len_"]) + str(n), kind))
            self.put(1, f"{fields[-1][0]}: {text}")
        self.structs[name], self.widths[name] = fields, width

    def interface(self, name):
        sort = self.pick([None, "int", "type"])
        default = {None: "", "int": ", n=3", "type": ", Type=Bits4"}[sort] if self.chance(50) else None
        parameter = {None: "", "int": ", n", "type": ", Type"}[sort]
        head = f"class {name}( Interface ):\n  def construct( s{parameter if default is None else default} ):"
        self.lines.append(head)
        start = len(self.lines)
        scope = Scope(["n"] if sort == "int" else [])
        scope.types = ["Type"] if sort == "type" else []
        sorts = ("InPort", "OutPort") if self.chance(90) else ("InPort", "OutPort", "Wire")
        what = {None: "1", "int": "n", "type": "Type.nbits"}[sort]
        members, numbers = [], []
        for n in range(self.random.randint(1, 4)):
            member = self.pick(["msg", "val", "rdy", "en"]) + str(n)
            form = self.random.randrange(10)
            if form < 6:
                made, kind = self.signal(scope, sorts)
                if self.chance(5):
                    made = f"[ {made}, 3, [ {self.signal(scope, sorts)[0]} ] ] if {self.integer(scope, 1)} else {made}"
                else:
                    members.append((member, kind))
            elif form == 6:
                (made, kind), count = self.signal(scope, sorts), self.random.randint(1, 2)
                made = f"[ {made} for _ in range( {count} ) ]"
                members.extend((f"{member}[{k}]", kind) for k in range(count))
            elif form == 7:
                made = f"{self.integer(scope, 1)} % 9"
                numbers.append(member)
            elif self.interfaces:
                inner = self.pick(list(self.interfaces))
                made = self.make_interface(inner, scope)
                members.extend((f"{member}.{name}", kind) for name, kind in self.interfaces[inner][1])
            else:
                made = "[ InPort(), OutPort( 2 ) ]"
                members.extend([(f"{member}[0]", 1), (f"{member}[1]", 2)])
            if form != 7 and self.chance(20):
                self.put(2, f"if {what} > 2: s.{member} = {made}")
                if self.chance(60):
                    other = self.pick(["OutPort()", "[ OutPort() ]", "7"])
                    self.put(2, f"else: s.{member} = {other}")
                members = [known for known in members if not known[0].startswith(member)]
            else:
                self.put(2, f"s.{member} = {made}")
        self.interfaces[name] = (sort, members, default is not None)
        self.numbers[name] = numbers
        members_only = self.lines[start:]
        if self.chance(50) and all(line.startswith("    s.") for line in members_only):
            self.random.shuffle(members_only)
            self.lines.extend([head.replace(name, name + "r"), *members_only])
            self.interfaces[name + "r"], self.numbers[name + "r"] = self.interfaces[name], numbers

    def make_interface(self, name, scope):
        sort, _, has_default = self.interfaces[name]
        if sort is None or has_default and self.chance(30):
            return f"{name}()"
        if sort == "int":
            value = f"{self.integer(scope, 1)} % 6 + 1"
            return f"{name}( {value} )" if self.chance(70) else f"{name}( n={value} )"
        value = self.type_name(scope)
        return f"{name}( {value} )" if self.chance(70) else f"{name}( Type={value} )"

    # ---- components

    def component(self, name, is_top):
        """The parameters of the top are integers and types, which can be words of a command line."""
        scope, parameters = Scope([]), []
        for n in range(self.random.randint(0, 3)):
            sorts = ["int", "int", "int", "type", "type"]
            sort = self.pick(sorts if is_top else [*sorts, "list", "constant", "class"])
            needs_default = bool(parameters) and parameters[-1][2] is not None
            if sort == "class" and needs_default:
                continue  # a default would need a class that stands before
            default = None
            if sort != "class" and (self.chance(60) or needs_default):
                default = self.default(sort)
            parameters.append((f"p{n}", sort, default))
            if sort == "type":
                scope.types.append(f"p{n}")
            elif sort == "int":
                scope.integers.append(f"( p{n} % 25 )")
            elif sort == "list":
                scope.integers.extend([f"len( p{n} )", f"p{n}[0]"])
            elif sort == "constant":
                scope.left.append(f"p{n}")
        listed = [p if default is None else f"{p}={default}" for p, _, default in parameters]
        self.put(0, f"class {name}( Component ):")
        if self.chance(20):
            self.put(1, f'"""The component {name}."""')
        methods = [self.method(scope, n) for n in range(self.random.randint(0, 3))]
        before = [method for method in methods if self.chance(50)]
        scope.callees = [f"s.{method[0]}" for method in methods]
        self.put_methods(before)
        self.put(1, f"def construct( {', '.join(['s', *listed])} ):")
        for _ in range(self.random.randint(2, 5)):
            self.declare(scope, 2)
        for parameter, sort, _ in parameters:
            if sort == "class":
                self.put(2, f"s.{parameter} = {parameter}()")
        for _ in range(self.random.randint(3, 18)):
            self.statement(scope, 2)
        self.put_methods([method for method in methods if method not in before])
        if self.chance(20):
            self.put(1, "def line_trace( s ):")
            self.put(2, 'return f"{s.in_} and more"')
        self.components.append({"name": name, "parameters": parameters, "scope": scope})

    def method(self, scope, n):
        """A method's name, its parameters and the lines of it."""
        arguments = [f"a{k}: {self.type_of_port()}" for k in range(self.pick([0, 1, 1, 1, 2]))]
        result = self.type_of_port() if self.chance(40) else self.pick([None, "None"])
        arrow = "" if result is None else f" -> {result}"
        head = f"def m{n}( {', '.join(['s', *arguments])} ){arrow}:"
        lines = [head]
        if self.chance(30):
            lines.insert(0, "@non_blocking( lambda s: len( s.d ) > 0 )")
        if result in (None, "None"):
            lines.append(self.pick(["  pass", "  s.n = s.n + 1", "  s.d.append( a0 )"]))
        else:
            lines.append(self.pick(["  return s.d.popleft()", "  return s.n", "  return 0"]))
        return f"m{n}", lines

    def put_methods(self, methods):
        for _, lines in methods:
            for line in lines:
                self.put(1, line)

    def statement(self, scope, depth):
        weights = {
            self.declare: 2, self.connection: 4, self.tie: 1, self.local: 1, self.list_local: 1, self.plain: 1,
            self.lambda_block: 1, self.block: 2, self.branch: 1, self.loop: 1, self.each: 1, self.state: 1,
            self.member: 3, self.join_interfaces: 3, self.child: 6, self.caller: 2, self.bind: 4, self.constraint: 2,
            self.check: 1, self.alias: 2,
        }
        [form] = self.random.choices(list(weights), list(weights.values()))
        form(scope, depth)

    def join(self, depth, a, b):
        form = self.random.randrange(10)
        if form < 5:
            self.put(depth, f"{a} //= {b}")
        elif form < 9:
            self.put(depth, f"connect( {a}, {b} )")
        else:
            self.put(depth, "connect(")
            self.put(depth, f"  {a},")
            self.put(depth, f"  {b} )")

    def connection(self, scope, depth):
        if scope.ends:
            other = "s.reset" if self.chance(1) else self.part(self.pick(scope.ends), scope)
            self.join(depth, self.part(self.pick(scope.ends), scope), other)

    def tie(self, scope, depth):
        if not scope.ends:
            return
        end = self.part(self.pick(scope.ends), scope)
        width = self.pick([1, 4, 8])
        value = self.pick([f"Bits{width}( {self.random.randint(-(1 << width - 1), (1 << width) - 1)} )", None, None])
        if scope.left and self.chance(30):
            self.put(depth, f"{self.pick(scope.left)} //= {end}")
        elif value is None:
            self.join(depth, end, self.integer(scope, 1))
        else:
            self.put(depth, f"connect( {value}, {end} )")

    def each(self, scope, depth):
        """Lists of signals, and a loop that connects their elements."""
        name, other, i = scope.fresh("w"), scope.fresh("w"), scope.fresh("i")
        count, more = self.random.randint(1, 4), 4 if self.chance(5) else 0
        self.put(depth, f"s.{name} = [ Wire( i + 1 ) for i in range( {count} ) ]")
        self.put(depth, f"s.{other} = [ {self.pick(['InPort', 'OutPort'])}( 8 ) for _ in range( {count} ) ]")
        self.put(depth, f"for {i} in range( {count + more} ):")
        self.put(depth + 1, f"s.{name}[{i}] //= s.{other}[{i}][0:{i} + 1]")
        if self.chance(50):
            self.put(depth + 1, f"connect( {self.pick([i, f'Bits8( {i} )'])}, s.{other}[{count} - 1 - {i}] )")

    def local(self, scope, depth):
        name = scope.fresh("n")
        self.put(depth, f"{name} = {self.integer(scope)} % 50")
        scope.integers.append(name)
        scope.left.append(name)
        if depth == 2:
            scope.locals.append(name)

    def plain(self, scope, depth):
        name = scope.fresh("k")
        if self.chance(50):
            value = self.pick(["Bits4( 3 )", "b2( 0 )", "[ 1, [ 2, 3 ] ]", "Bits9"])
            self.put(depth, f"s.{name} = {value}")
            if "(" in value:
                scope.left.append(f"s.{name}")
        else:
            self.put(depth, f"{name} = {self.type_name(scope)}")
            scope.types.append(name)

    def list_local(self, scope, depth):
        name, count = scope.fresh("ns"), self.random.randint(1, 4)
        if self.chance(50):
            elements = ", ".join(f"{self.integer(scope, 1)} % 20" for _ in range(count))
            self.put(depth, f"{name} = [ {elements} ]")
        else:
            self.put(depth, f"{name} = [ ( i * {self.leaf(scope)} ) % 20 for i in range( {count} ) ]")
        scope.lists.append((name, count))

    def lambda_block(self, scope, depth):
        if scope.ends:
            end = self.part(self.pick(scope.ends), scope)
            other = self.pick(scope.locals) if scope.locals and self.chance(30) else self.random.randint(0, 9)
            read = self.pick([text for text, _ in scope.ends if text.startswith("s.")] or ["s.reset"])
            self.put(depth, f"{end} //= lambda: {read} + {other}")

    def block(self, scope, depth):
        name = scope.fresh("up")
        self.put(depth, self.pick(["@update", "@update_once", "@update_ff"]))
        target = self.pick(scope.ends)[0] if scope.ends else "s.x"
        self.put(depth, f"def {name}():")
        self.put(depth + 1, self.pick(["pass", f"{target} @= {target} + 1", f"if s.reset: {target} <<= 0"]))
        scope.blocks.append(name)

    def branch(self, scope, depth):
        if depth > 3:
            return
        for head in ["if", *["elif"] * self.random.randint(0, 1)]:
            self.put(depth, f"{head} {self.integer(scope, 2)}:")
            self.inner(scope, depth + 1)
        if self.chance(60):
            self.put(depth, "else:")
            self.inner(scope, depth + 1)

    def loop(self, scope, depth):
        if depth > 3:
            return
        name = scope.fresh("i")
        low, high = self.random.randint(-2, 2), self.random.randint(0, 4)
        bounds = self.pick([f"{high}", f"{low}, {high}", f"{high}, {low}, -1", f"{self.leaf(scope)} % 4"])
        if self.chance(30) and scope.ends:
            self.put(depth, f"for {name} in range( {bounds} ): {self.pick(scope.ends)[0]} //= {name} * 2")
            return
        self.put(depth, f"for {name} in range( {bounds} ):")
        self.inner(scope, depth + 1, [name])

    def inner(self, scope, depth, names=()):
        """Statements that may run not at all or more than once: what they declare is known to nobody else."""
        inside = Scope(scope.integers)
        inside.__dict__.update({
            name: list(value) if isinstance(value, list) else value for name, value in scope.__dict__.items()
        })
        inside.integers.extend(names)
        choices = [self.connection, self.connection, self.tie, self.tie, self.local, self.check, self.bind,
                   self.constraint, self.join_interfaces, self.lambda_block]
        if not names and depth == 3:
            choices += [self.declare, self.block, self.child, self.state, self.branch, self.loop, self.member]
        elif depth == 3:
            choices += [self.branch, self.loop]
        before = len(self.lines)
        for _ in range(self.random.randint(1, 3)):
            self.pick(choices)(inside, depth)
        if len(self.lines) == before:
            self.put(depth, "pass")
        scope.made = inside.made

    def state(self, scope, depth):
        if self.chance(50):
            name = scope.fresh("d")
            self.put(depth, f"s.{name} : {self.type_name(scope)} = deque( maxlen={self.width(scope)} )")
        else:
            name, width = scope.fresh("n"), self.random.randint(2, 9)
            value = self.random.randint(-(1 << width - 1), (1 << width) - 1)
            value = value if self.chance(97) else 1 << width
            self.put(depth, f"s.{name} : Bits{width} = {value}")
        scope.states.append(f"s.{name}")

    def member(self, scope, depth):
        if not self.interfaces:
            return
        name, interface = scope.fresh("ifc"), self.pick(list(self.interfaces))
        if self.chance(30):
            count = self.random.randint(1, 2)
            self.put(depth, f"s.{name} = [ {self.make_interface(interface, scope)} for _ in range( {count} ) ]")
            places = [f"s.{name}[{k}]" for k in range(count)]
        else:
            self.put(depth, f"s.{name} = {self.make_interface(interface, scope)}")
            places = [f"s.{name}"]
        for place in places:
            scope.interfaces.append((place, interface))
            scope.integers.extend(f"{place}.{member}" for member in self.numbers[interface])
            scope.ends.extend((f"{place}.{member}", kind) for member, kind in self.interfaces[interface][1])

    def join_interfaces(self, scope, depth):
        if depth == 2 and len(scope.interfaces) < 3:
            self.member(scope, depth)
            self.member(scope, depth)
        if scope.interfaces:
            a, name = self.pick(scope.interfaces)
            same = [b for b, other in scope.interfaces if other[:4] == name[:4]]
            b = self.pick(same) if self.chance(60) else self.pick(scope.interfaces)[0]
            self.join(depth, a, b)

    def child(self, scope, depth):
        if not self.components:
            return
        child = self.pick(self.components)
        name = scope.fresh("c")
        if self.chance(10):
            leaf = self.pick(["Leaf()", "Leaf( 2 )", "Leaf( 1 )", "Leaf( True )", "Leaf( n=3 - 2 )", "Other()"])
            self.put(depth, f"s.{name} = {self.pick([leaf, leaf, f'Tree( {self.random.randint(0, 5)} )'])}")
            return
        if self.chance(25):
            count = self.random.randint(1, 3)
            made = f"[ {self.make_child(child, scope, ['i'])} for i in range( {count} ) ]"
            places = [f"s.{name}[{k}]" for k in range(count)]
        elif self.chance(15):
            made = f"[ [ {self.make_child(child, scope)} ], {self.make_child(child, scope)} ]"
            places = [f"s.{name}[0][0]", f"s.{name}[1]"]
        else:
            made, places = self.make_child(child, scope), [f"s.{name}"]
        self.put(depth, f"s.{name} = {made}")
        scope.children.extend(places)
        scope.far.extend(place + one[1:] for place in places for one in child["scope"].children)
        scope.states.extend(place + one[1:] for place in places for one in child["scope"].states
                            if not one.startswith("s.c"))
        if "for i" in made:
            scope.integers.append(f"len( s.{name} )")
        its = child["scope"]
        for place in places:
            scope.ends.extend((place + end[1:], kind) for end, kind in its.ends
                              if end.startswith("s.") and not end.startswith("s.c")
                              and (end not in its.hidden or self.chance(1)))
            scope.ends.append((f"{place}.reset", 1))
            scope.interfaces.extend((place + one[1:], its_class) for one, its_class in its.interfaces
                                    if not one.startswith("s.c"))
            scope.callees.extend(place + one[1:] for one in its.callees if not one.startswith("s.c"))
            scope.ports.extend(place + one[1:] for one in its.ports if not one.startswith("s.c"))
            scope.integers.extend(f"( {place + one[1:]} % 9 )" for one in its.integers if one.startswith("s.in_"))

    def make_child(self, child, scope, names=()):
        inside = Scope(scope.integers + list(names))
        inside.types, inside.lists = scope.types, scope.lists
        arguments, by_name = [], False
        for name, sort, default in child["parameters"]:
            if default is not None and self.chance(35):
                by_name = True
                continue
            value = self.argument(sort, inside)
            by_name = by_name or self.chance(30)
            arguments.append(f"{name}={value}" if by_name else value)
        if all(re.match(r"p[0-9]=", argument) for argument in arguments):
            self.random.shuffle(arguments)
        return f"{child['name']}( {', '.join(arguments)} )" if arguments else f"{child['name']}()"

    def default(self, sort):
        """An expression with a value: Python evaluates it even if nothing needs it."""
        return self.argument(sort, Scope([], may_fail=False))

    def argument(self, sort, scope):
        if sort == "type":
            return self.type_name(scope)
        if sort == "list":
            return f"[ {', '.join(str(self.random.randint(0, 2)) for _ in range(self.random.randint(1, 2)))} ]"
        if sort == "constant":
            return self.pick(["Bits4( 1 )", "b4( -15 + 16 )", "Bits4( -1 )", "Bits5( 1 )", "mk_bits( 4 )( 1 )"])
        if sort == "class":
            return self.pick(["Leaf", "Other"])
        return self.pick([str(self.random.randint(0, 4)), self.pick(["True", "1", "2 - 1"]), self.integer(scope, 1)])

    def caller(self, scope, depth):
        name = scope.fresh("p")
        words = [f"{word}={self.type_of_port()}" for word in ("Type", "RetType") if self.chance(50)]
        self.put(depth, f"s.{name} = CallerPort( {', '.join(words)} )" if words else f"s.{name} = CallerPort()")
        scope.callees.append(f"s.{name}")
        scope.ports.append(f"s.{name}")

    def bind(self, scope, depth):
        if self.chance(20) and [one for one in scope.callees if one not in scope.ports]:
            if depth == 2:
                name = scope.fresh("f")
                method = self.pick([one for one in scope.callees if one not in scope.ports])
                self.put(depth, f"s.{name} = CalleePort( method={method} )")
                scope.callees.append(f"s.{name}")
        elif scope.ports:
            ends = [self.pick(scope.ports), self.pick(scope.callees)]
            self.random.shuffle(ends)
            self.join(depth, *ends)

    def term(self, scope):
        sort = self.random.randrange(5)
        if sort in (0, 4) and scope.blocks:
            return f"U( {self.pick(scope.blocks)} )"
        if sort == 1 and scope.callees:
            return f"M( {self.pick(scope.callees)} )"
        if sort == 2 and scope.states:
            return f"{self.pick(['RD', 'WR'])}( {self.pick(scope.states)} )"
        if scope.ends:
            return f"{self.pick(['RD', 'WR'])}( {self.part(self.pick(scope.ends), scope)} )"
        return "RD( s.reset )"

    def constraint(self, scope, depth):
        rules = [f"{self.term(scope)} {self.pick('<>')} {self.term(scope)}" for _ in range(self.random.randint(1, 3))]
        if self.chance(20):
            self.put(depth, "s.add_constraints(")
            for rule in rules:
                self.put(depth, f"  {rule},")
            self.put(depth, ")")
        else:
            self.put(depth, f"s.add_constraints( {', '.join(rules)} )")

    def check(self, scope, depth):
        value = self.integer(scope, 2)
        self.put(depth, f"assert {value}" + (f" == {value}, 'the same'" if self.chance(98) else ""))

    def alias(self, scope, depth):
        others = scope.callees + scope.states + scope.children + scope.far + [text for text, _ in scope.interfaces]
        if others and self.chance(40):
            self.put(depth, f"{self.pick(['s.', ''])}{scope.fresh('again')} = {self.pick(others)}")
            return
        if scope.ends and self.chance(30):
            a, b, name = self.pick(scope.ends), self.pick(scope.ends), scope.fresh("l")
            self.put(depth, f"s.{name} = [ {a[0]}, {self.integer(scope, 1)}, {b[0]}, Wire( 3 ), InPort() ]")
            kinds = {0: a[1], 2: b[1], 3: 3, 4: 1}
            scope.ends.extend((f"s.{name}[{k}]", kind) for k, kind in kinds.items())
            scope.hidden.update(f"s.{name}[{k}]" for k in (0, 2, 3))
            return
        if scope.ends:
            end, kind = self.pick(scope.ends)
            name = scope.fresh("a")
            self.put(depth, f"{self.pick(['s.', ''])}{name} = {end}")
            other = self.lines[-1].split()[0]
            scope.ends.append((other, kind))
            if end in scope.hidden or end.startswith("s.c"):
                scope.hidden.add(other)
