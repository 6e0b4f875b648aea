"""The types of the bodies of blocks, methods and guards, found by Python's own reading of them.

It was written from the rules of the language, and not from what `show_design` prints. A design must have been run with
the stand-in for the module `pymtl3` in tests/pymtl3_stand_in. `Body` types one block or method: its statements without
loops, or `Fault` with the refusal's number and the line of the statement. How many nodes they have isn't counted.
"""

import ast
import operator
from dataclasses import dataclass

import pymtl3
from pymtl3 import Callee, Component, Constant, Interface, Part, State, Type, fits

INT_LIMIT = 1 << 63
MISMATCH, RANGE, UNBOUND, NOT_HERE, INDEX = 30, 31, 32, 33, 34
NAMES = {30: "WidthMismatch", 31: "ConstRange", 32: "MaybeUnbound", 33: "NotAllowedHere", 34: "IndexRange"}

BITS_OPERATORS = {
    ast.Add: "+", ast.Sub: "-", ast.Mult: "*", ast.BitAnd: "&", ast.BitOr: "|", ast.BitXor: "^",
    ast.LShift: "<<", ast.RShift: ">>",
}
COMPARISONS = {ast.Eq: "==", ast.NotEq: "!=", ast.Lt: "<", ast.LtE: "<=", ast.Gt: ">", ast.GtE: ">="}
INT_OPERATORS = {
    ast.Add: operator.add, ast.Sub: operator.sub, ast.Mult: operator.mul, ast.FloorDiv: operator.floordiv,
    ast.Mod: operator.mod, ast.BitAnd: operator.and_, ast.BitOr: operator.or_, ast.BitXor: operator.xor,
    ast.LShift: operator.lshift, ast.RShift: operator.rshift, ast.Pow: operator.pow,
    ast.Eq: operator.eq, ast.NotEq: operator.ne, ast.Lt: operator.lt, ast.LtE: operator.le, ast.Gt: operator.gt,
    ast.GtE: operator.ge,
}
FOLDS = {"reduce_and": "&", "reduce_or": "|", "reduce_xor": "^"}
FUNCTIONS = {"concat", "zext", "sext", "trunc", "clog2", "len", "mk_bits", *FOLDS}
CHANGES = {"append", "appendleft", "pop", "popleft", "clear"}


class Fault(Exception):
    def __init__(self, number, line=None):
        super().__init__(number, line)
        self.number, self.line = number, line


def need(condition, number):
    if not condition:
        raise Fault(number)


@dataclass(frozen=True)
class Ex:
    """A typed expression: what it is, what it is made of, its width, and its bitstruct if it has one."""

    what: str
    parts: tuple
    width: int
    shape: int | None = None

    def of_type(self, other):
        return self.width == other.width and self.shape == other.shape


@dataclass(frozen=True)
class Temporary:
    """A temporary, or bits of it."""

    number: int
    low: int
    width: int
    shape: int | None

    def within(self, low, width, shape=None):
        return Temporary(self.number, self.low + low, width, shape)


@dataclass(frozen=True)
class Pick:
    """The parts among which a dynamic index chooses."""

    index: Ex
    parts: tuple


@dataclass(frozen=True)
class Item:
    """An item of a deque, counted from the left; -1 is the last."""

    state: State
    place: int


@dataclass(frozen=True)
class Change:
    """`append` and the like, of a deque."""

    state: State
    name: str


@dataclass(frozen=True)
class Ready:
    callee: Callee


@dataclass(frozen=True)
class Function:
    name: str


def bits(number, width):
    return Ex("const", (number,), width)


def is_int(value):
    return isinstance(value, int)


def in_range(number):
    need(-INT_LIMIT <= number < INT_LIMIT, RANGE)
    return number


def constant(number, width):
    need(fits(width, number), RANGE)
    return bits(number % (1 << width), width)


def int_result(kind, a, b):
    """What an operator of integers gives, as in `construct`."""
    if kind in (ast.FloorDiv, ast.Mod):
        need(b != 0, RANGE)
    if kind in (ast.LShift, ast.RShift):
        need(0 <= b <= 63, RANGE)
    if kind is ast.Pow:
        need(b >= 0, RANGE)
        need(abs(a) < 2 or b < 64, RANGE)
    return in_range(int(INT_OPERATORS[kind](a, b)))


class Scope:
    """What a component's blocks or methods may read and write."""

    def __init__(self, component, sort):
        self.component, self.sort = component, sort

    def is_own(self, part):
        return part._signal._owner is self.component

    def may_read(self, part):
        if self.is_own(part):
            return True
        is_port = part._signal._owner in self.component._children and part._signal._role != "wire"
        return is_port and self.sort != "method"

    def may_write(self, part):
        if self.sort == "method":
            return False
        role = part._signal._role
        if self.is_own(part):
            return role != "input"
        return part._signal._owner in self.component._children and role == "input"

    def may_change(self):
        return self.sort in ("update_once", "method")


@dataclass(frozen=True)
class ChildView:
    """A child as its parent sees it: its ports and methods."""

    child: Component


class Body:
    """Types a body: `statements` are those it has in the end, and `temps` the widths of its temporaries."""

    def __init__(self, component, sort, names, own_names, line):
        self.scope = Scope(component, sort)
        self.component, self.names, self.own_names = component, names, own_names
        self.line = line
        self.temps = []
        self.known = {}  # of each name of the body that is assigned: an integer, or the number of a temporary
        self.types = {}  # of each temporary's name its number and shape
        self.in_index = False

    # ---- temporaries

    def temporary(self, width):
        self.temps.append(width)
        return len(self.temps) - 1

    # ---- expressions: integers, values of `construct`, references, typed expressions

    def name(self, name):
        if name in self.own_names:
            need(name in self.known, UNBOUND)
            return self.known[name]
        return self.names(name)

    def value(self, tree):
        kind = type(tree)
        method = getattr(self, "value_" + kind.__name__, None)
        need(method is not None, NOT_HERE)
        return method(tree)

    def value_Name(self, tree):
        return self.name(tree.id)

    def value_Constant(self, tree):
        need(is_int(tree.value), NOT_HERE)
        return in_range(int(tree.value))

    def value_List(self, tree):
        return [self.value(element) for element in tree.elts]

    def value_Attribute(self, tree):
        return self.attribute(self.value(tree.value), tree.attr)

    def attribute(self, of, name):
        match of:
            case Component():
                if of is not self.component:
                    raise Fault(NOT_HERE)
                need(name in of._methods or name in of._values, 32 if name != "clk" else NOT_HERE)
                return self.seen(of._methods.get(name) or of._values[name])
            case ChildView(child):
                need(name in child._methods or name in child._values, 32 if name != "clk" else NOT_HERE)
                return self.seen_of_child(child._methods.get(name) or child._values[name])
            case Interface():
                need(name in of._members, UNBOUND)
                return self.seen(of._members[name])
            case Type() if name == "nbits":
                return of.nbits
            case State() if of.maxlen and name == "maxlen":
                return of.maxlen
            case State() if of.maxlen and name in CHANGES:
                return Change(of, name)
            case Callee() if name == "rdy":
                return Ready(of)
            case Part():
                low, kind = self.field(of._kind.shape, name)
                return Part(of._signal, of._low + low, kind, "field")
            case Temporary():
                low, kind = self.field(of.shape, name)
                return of.within(low, kind.nbits, kind.shape)
            case Pick(index, parts):
                low, kind = self.field(parts[0]._kind.shape, name)
                return Pick(index, tuple(Part(p._signal, p._low + low, kind, "field") for p in parts))
            case Item() | Ex():
                raise Fault(NOT_HERE)
        raise Fault(UNBOUND)

    def field(self, shape, name):
        need(shape is not None, UNBOUND)
        fields = pymtl3.notes.shapes[shape].fields
        need(name in fields, UNBOUND)
        return fields[name]

    def seen(self, value):
        if isinstance(value, Component) and value is not self.component:
            need(value in self.component._children, NOT_HERE)
            return ChildView(value)
        if isinstance(value, Part):
            need(self.is_near(value), NOT_HERE)
        if isinstance(value, State):
            need(value.owner is self.component, NOT_HERE)
        return value

    def is_near(self, part):
        owner = part._signal._owner
        return owner is self.component or (owner in self.component._children and part._signal._role != "wire")

    def seen_of_child(self, value):
        if isinstance(value, Part):
            need(self.is_near(value), NOT_HERE)
            return value
        need(isinstance(value, (list, Interface, Callee)), NOT_HERE)
        return value

    def value_Subscript(self, tree):
        of = self.value(tree.value)
        if isinstance(tree.slice, ast.Slice):
            return self.sliced(of, self.value(tree.slice.lower), self.value(tree.slice.upper))
        inside, self.in_index = self.in_index, True
        index = self.value(tree.slice)
        self.in_index = inside
        return self.element(of, index) if is_int(index) else self.dynamic(of, self.typed(index))

    def sliced(self, of, low, high):
        need(is_int(low) and is_int(high), NOT_HERE)
        return self.cut(of, low, high)

    def cut(self, of, low, high):
        match of:
            case Part():
                need(0 <= low < high <= of._kind.nbits, INDEX)
                return Part(of._signal, of._low + low, Type(high - low), "slice")
            case Temporary():
                need(0 <= low < high <= of.width, INDEX)
                return of.within(low, high - low)
            case Pick(index, parts):
                need(0 <= low < high <= parts[0]._kind.nbits, INDEX)
                return Pick(index, tuple(Part(p._signal, p._low + low, Type(high - low), "slice") for p in parts))
        raise Fault(NOT_HERE)

    def element(self, of, place):
        if isinstance(of, list):
            need(0 <= place < len(of), INDEX)
            return self.seen(of[place])
        if isinstance(of, State) and of.maxlen:
            need(-1 <= place < of.maxlen, INDEX)
            return Item(of, place)
        return self.cut(of, place, place + 1)

    def dynamic(self, of, index):
        need(index.shape is None, MISMATCH)
        if isinstance(of, Part) and of._form != "slice":
            parts = [Part(of._signal, of._low + bit, Type(1), "slice") for bit in range(of._kind.nbits)]
        else:
            need(isinstance(of, list) and of and all(isinstance(element, Part) for element in of), NOT_HERE)
            parts = [self.seen(element) for element in of]
        need(not self.in_index, NOT_HERE)
        need(len({part._kind.key() for part in parts}) == 1, MISMATCH)
        return Pick(index, tuple(parts[: 1 << index.width]))

    # ---- typed expressions

    def typed(self, value):
        """Bits, where bits are needed."""
        match value:
            case Ex():
                return value
            case int():
                raise Fault(MISMATCH)
            case Constant():
                return bits(value.value, value.width)
            case Part():
                need(self.scope.may_read(value), NOT_HERE)
                return Ex("get", (value,), value._kind.nbits, value._kind.shape)
            case Temporary():
                return Ex("temp", (value,), value.width, value.shape)
            case Pick(index, parts):
                need(all(map(self.scope.may_read, parts)), NOT_HERE)
                return Ex("pick", (index, parts), parts[0]._kind.nbits, parts[0]._kind.shape)
            case Item(state, _):
                return Ex("item", (value,), state.kind.nbits, state.kind.shape)
            case State() if not value.maxlen:
                return Ex("number", (value,), value.kind.nbits, value.kind.shape)
        raise Fault(NOT_HERE)

    def plain(self, value):
        """An integer, or bits."""
        return value if is_int(value) else self.typed(value)

    def as_type(self, value, width, shape):
        """A value for a place of a type: an integer takes its width."""
        if is_int(value):
            need(shape is None, MISMATCH)
            return constant(value, width)
        need(value.width == width and value.shape == shape, MISMATCH)
        return value

    def both(self, a, b):
        """Two values of one type, of which at least one is bits."""
        if is_int(a):
            return self.as_type(a, b.width, b.shape), b
        return a, self.as_type(b, a.width, a.shape)

    def two_bits(self, a, b):
        a, b = self.both(a, b)
        need(a.shape is None, MISMATCH)
        return a, b

    def value_BinOp(self, tree):
        a, b = self.plain(self.value(tree.left)), self.plain(self.value(tree.right))
        if is_int(a) and is_int(b):
            return int_result(type(tree.op), a, b)
        need(type(tree.op) in BITS_OPERATORS, NOT_HERE)
        a, b = self.two_bits(a, b)
        return Ex("binary", (BITS_OPERATORS[type(tree.op)], a, b), a.width)

    def value_Compare(self, tree):
        a, b = self.plain(self.value(tree.left)), self.plain(self.value(tree.comparators[0]))
        kind = type(tree.ops[0])
        if is_int(a) and is_int(b):
            return int_result(kind, a, b)
        a, b = self.both(a, b)
        need(a.shape is None or kind in (ast.Eq, ast.NotEq), MISMATCH)
        return Ex("binary", (COMPARISONS[kind], a, b), 1)

    def value_BoolOp(self, tree):
        values = iter(tree.values)
        left = self.plain(self.value(next(values)))
        for right in values:
            left = self.logical(tree.op, left, self.plain(self.value(right)))
        return left

    def logical(self, kind, a, b):
        if is_int(a) and is_int(b):
            return (a and b) if isinstance(kind, ast.And) else (a or b)
        a, b = self.two_bits(a, b)
        need(a.width == 1, MISMATCH)
        return Ex("binary", ("&" if isinstance(kind, ast.And) else "|", a, b), 1)

    def value_UnaryOp(self, tree):
        a = self.plain(self.value(tree.operand))
        match tree.op, a:
            case ast.Not(), int():
                return int(not a)
            case ast.Not(), Ex():
                need(a.width == 1 and a.shape is None, MISMATCH)
                return Ex("not", (a,), 1)
            case ast.Invert(), int():
                return ~a
            case ast.Invert(), Ex():
                need(a.shape is None, MISMATCH)
                return Ex("not", (a,), a.width)
            case ast.USub(), int():
                return in_range(-a)
            case ast.UAdd(), int():
                return a
        raise Fault(NOT_HERE)

    def condition(self, value):
        """A condition: an integer, or one bit."""
        if is_int(value):
            return value
        need(value.shape is None, MISMATCH)
        return value if value.width == 1 else Ex("binary", ("!=", value, bits(0, value.width)), 1)

    def value_IfExp(self, tree):
        test = self.condition(self.plain(self.value(tree.test)))
        if is_int(test):
            return self.value(tree.body if test else tree.orelse)
        a, b = self.plain(self.value(tree.body)), self.plain(self.value(tree.orelse))
        need(not (is_int(a) and is_int(b)), MISMATCH)
        a, b = self.both(a, b)
        return Ex("cond", (test, a, b), a.width, a.shape)

    # ---- calls inside an expression

    def value_Call(self, tree):
        function = self.value(tree.func)
        match function:
            case Ready(callee):
                need(not tree.args and not tree.keywords, NOT_HERE)
                return Ex("ready", (callee,), 1)
            case Function(name):
                need(not tree.keywords, NOT_HERE)
                return getattr(self, "call_" + name, self.call_fold(name))(*map(self.value, tree.args))
            case Type(shape=None):
                need(len(tree.args) == 1 and not tree.keywords, NOT_HERE)
                value = self.literal(tree.args[0])
                need(is_int(value), NOT_HERE)
                return constant(value, function.nbits)
            case Type():
                return self.call_bitstruct(function, tree)
        raise Fault(NOT_HERE)

    def literal(self, tree):
        """The argument of `BitsN( .. )`, where a literal may have more than 63 bits."""
        if isinstance(tree, ast.Constant) and is_int(tree.value):
            return int(tree.value)
        return self.value(tree)

    def call_bitstruct(self, kind, tree):
        need(not tree.keywords, NOT_HERE)
        values = [self.plain(self.value(argument)) for argument in tree.args]
        fields = [field for _, field in pymtl3.notes.shapes[kind.shape].fields.values()]
        need(len(values) == len(fields), MISMATCH)
        parts = [self.as_type(value, field.nbits, field.shape) for value, field in zip(values, fields)]
        return Ex("concat", tuple(parts), kind.nbits, kind.shape)

    def call_fold(self, name):
        def fold(*values):
            need(len(values) == 1, NOT_HERE)
            value = self.typed(values[0])
            need(value.shape is None, MISMATCH)
            return Ex("fold", (FOLDS[name], value), 1)

        return fold

    def call_concat(self, *values):
        need(values, NOT_HERE)
        parts = tuple(map(self.typed, values))
        width = sum(part.width for part in parts)
        need(all(part.shape is None for part in parts) and width <= 128, MISMATCH)
        return Ex("concat", parts, width)

    def call_zext(self, *values):
        return self.extension("zext", values, lambda width, n: width <= n <= 128)

    def call_sext(self, *values):
        return self.extension("sext", values, lambda width, n: width <= n <= 128)

    def call_trunc(self, *values):
        return self.extension("trunc", values, lambda width, n: 1 <= n <= width)

    def extension(self, name, values, is_good):
        need(len(values) == 2, NOT_HERE)
        value, n = self.typed(values[0]), values[1]
        need(is_int(n), NOT_HERE)
        need(value.shape is None and is_good(value.width, n), MISMATCH)
        return Ex(name, (value, n), n)

    def call_clog2(self, *values):
        need(len(values) == 1 and is_int(values[0]), NOT_HERE)
        need(values[0] >= 1, RANGE)
        return (values[0] - 1).bit_length()

    def call_mk_bits(self, *values):
        need(len(values) == 1 and is_int(values[0]), NOT_HERE)
        need(1 <= values[0] <= 128, MISMATCH)
        return Type(values[0])

    def call_len(self, *values):
        need(len(values) == 1, NOT_HERE)
        if isinstance(values[0], list):
            return len(values[0])
        need(isinstance(values[0], State) and values[0].maxlen, NOT_HERE)
        return Ex("len", (values[0],), values[0].maxlen.bit_length())

    # ---- statements

    def block(self, statements):
        return [typed for statement in statements for typed in self.statement(statement)]

    def statement(self, tree):
        try:
            return getattr(self, "statement_" + type(tree).__name__)(tree)
        except Fault as fault:
            if fault.line is None:
                fault.line = pymtl3.notes.first_line[tree.lineno]
            raise

    def statement_Pass(self, _):
        return []

    def statement_Expr(self, tree):
        if isinstance(tree.value, ast.Constant) and isinstance(tree.value.value, str):
            return []
        need(isinstance(tree.value, ast.Call), NOT_HERE)
        found = self.call(tree.value, wants_value=False)
        need(found is not None, NOT_HERE)
        return [found[0]]

    def call(self, tree, wants_value):
        """A call that changes state, as a statement without its temporary and with its answer's type; else None."""
        if not isinstance(tree, ast.Call):
            return None
        function = self.value(tree.func)
        if isinstance(function, Change):
            return self.change(function, tree)
        if isinstance(function, Callee):
            return self.method_call(function, tree, wants_value)
        return None

    def change(self, change, tree):
        takes = change.name in ("append", "appendleft")
        values = [self.plain(self.value(argument)) for argument in tree.args]
        need(len(values) == takes and not tree.keywords, NOT_HERE)
        kind = change.state.kind
        values = [self.as_type(value, kind.nbits, kind.shape) for value in values]
        need(self.scope.may_change(), NOT_HERE)
        answer = kind if change.name in ("pop", "popleft") else None
        return ["change", None, change, *values], answer

    def method_call(self, callee, tree, wants_value):
        values = [self.plain(self.value(argument)) for argument in tree.args]
        need(len(values) == len(callee.arguments) and not tree.keywords, NOT_HERE)
        values = [self.as_type(v, kind.nbits, kind.shape) for v, kind in zip(values, callee.arguments)]
        need(self.scope.may_change(), NOT_HERE)
        need(not wants_value or callee.result is not None, NOT_HERE)
        return ["call", None, callee, values], callee.result

    def right_side(self, tree):
        """The statements that stand before an assignment, and the value that is assigned."""
        found = self.call(tree, wants_value=True)
        if found is None:
            return [], self.plain(self.value(tree))
        statement, answer = found
        need(answer is not None, NOT_HERE)
        statement[1] = self.temporary(answer.nbits)
        return [statement], Ex("temp", (Temporary(statement[1], 0, answer.nbits, answer.shape),), answer.nbits,
                               answer.shape)

    def statement_AugAssign(self, tree):
        before, value = self.right_side(tree.value)
        target = self.value(tree.target)
        need(isinstance(target, (Part, Pick)), NOT_HERE)
        parts = target.parts if isinstance(target, Pick) else (target,)
        need(all(map(self.scope.may_write, parts)), NOT_HERE)
        value = self.as_type(value, parts[0]._kind.nbits, parts[0]._kind.shape)
        at_edge = isinstance(tree.op, ast.LShift)
        need(at_edge == (self.scope.sort == "update_ff"), NOT_HERE)
        need(not at_edge or all(isinstance(part, pymtl3.Signal) for part in parts), NOT_HERE)
        return before + [("set", target, value)]

    def statement_Assign(self, tree):
        target = tree.targets[0]
        if not isinstance(target, ast.Name):
            return self.set_number(tree)
        found = self.call(tree.value, wants_value=True)
        if found is not None:
            statement, answer = found
            need(answer is not None, NOT_HERE)
            statement[1] = self.assign(target.id, answer.nbits, answer.shape)
            return [statement]
        value = self.plain(self.value(tree.value))
        width, shape = self.type_of_name(target.id, value)
        value = self.as_type(value, width, shape)
        return [("temp", self.assign(target.id, width, shape), value)]

    def type_of_name(self, name, value):
        if name in self.types:
            return self.temps[self.types[name][0]], self.types[name][1]
        need(not is_int(value), MISMATCH)
        return value.width, value.shape

    def assign(self, name, width, shape):
        if name not in self.types:
            self.types[name] = (self.temporary(width), shape)
        number, known = self.types[name]
        need((self.temps[number], known) == (width, shape), MISMATCH)
        self.known[name] = Temporary(number, 0, width, shape)
        return number

    def set_number(self, tree):
        before, value = self.right_side(tree.value)
        state = self.value(tree.targets[0])
        need(isinstance(state, State) and not state.maxlen and self.scope.may_change(), NOT_HERE)
        return before + [("number", state, self.as_type(value, state.kind.nbits, state.kind.shape))]

    def statement_If(self, tree):
        test = self.condition(self.plain(self.value(tree.test)))
        if is_int(test):
            return self.block(tree.body if test else tree.orelse)
        known = dict(self.known)
        then = self.block(tree.body)
        after_then, self.known = self.known, known
        otherwise = self.block(tree.orelse)
        self.known = {name: value for name, value in self.known.items() if after_then.get(name) == value}
        return [("if", test, then, otherwise)]

    def statement_For(self, tree):
        bounds = [self.value(argument) for argument in tree.iter.args]
        need(all(map(is_int, bounds)), NOT_HERE)
        need(len(bounds) < 3 or bounds[2] != 0, RANGE)
        statements = []
        for number in range(*bounds):
            self.known[tree.target.id] = number
            statements += self.block(tree.body)
        return statements


# ---- the bodies of a component


def assigned_names(statements):
    """The names that belong to a body: those that it assigns somewhere."""
    names = set()
    for statement in statements:
        for node in ast.walk(statement):
            if isinstance(node, ast.Assign) and isinstance(node.targets[0], ast.Name):
                names.add(node.targets[0].id)
            if isinstance(node, ast.For):
                names.add(node.target.id)
    return names


def in_a_body(value):
    """The value of a local of `construct` in a body; references have none."""
    if isinstance(value, list):
        return [in_a_body(element) for element in value]
    need(isinstance(value, (int, Type, Constant, type)), UNBOUND)
    return value


def names_of(component, function):
    """The names that a block, lambda, method or guard sees besides its own."""
    cells = dict(zip(function.__code__.co_freevars, function.__closure__ or ()))

    def look_up(name):
        if name == "s":
            return component
        if name in cells:
            try:
                return in_a_body(cells[name].cell_contents)
            except ValueError:
                raise Fault(UNBOUND) from None
        value = function.__globals__.get(name)
        if isinstance(value, (Type, Constant)) or is_int(value) or isinstance(value, list):
            return value
        if isinstance(value, type) and issubclass(value, (Component, Interface)):
            return value
        if name in FUNCTIONS:
            return Function(name)
        raise Fault(UNBOUND)

    return look_up


@dataclass
class TypedMethod:
    guard: Ex | None
    temps: list
    statements: list
    answer: Ex | None


class Bodies:
    """The typed bodies of a component: of its blocks in order, and of its methods by name."""

    def __init__(self, component, trees):
        self.component, self.trees = component, trees
        codes = [(block.line, self.block, block) for block in component._blocks]
        for method in component._methods.values():
            function = self.trees.function(method.function)
            codes.append((pymtl3.notes.first_line[function.lineno], self.method, method))
        self.blocks, self.methods = {}, {}
        for _, typing, owner in sorted(codes, key=lambda code: code[0]):
            typing(owner)

    def block(self, block):
        if block.target is not None:
            self.blocks[block.name] = self.of_lambda(block)
            return
        tree = self.trees.function(block.function)
        body = Body(self.component, block.sort, names_of(self.component, block.function),
                    assigned_names(tree.body), block.line)
        statements = body.block(tree.body)
        self.blocks[block.name] = (body.temps, statements)

    def of_lambda(self, block):
        tree = self.trees.function(block.function)
        body = Body(self.component, "update", names_of(self.component, block.function), set(), block.line)
        try:
            value = body.plain(body.value(tree.body))
            need(body.scope.may_write(block.target), NOT_HERE)
            value = body.as_type(value, block.target._kind.nbits, block.target._kind.shape)
        except Fault as fault:
            raise Fault(fault.number, block.line) from None
        return body.temps, [("set", block.target, value)]

    def method(self, method):
        tree = self.trees.function(method.function)
        guard = getattr(method.function, "guard", None)
        typed_guard = self.of_guard(guard) if guard is not None else None
        body = Body(self.component, "method", names_of(self.component, method.function),
                    assigned_names(tree.body) | {a.arg for a in tree.args.args[1:]}, tree.lineno)
        for argument, kind in zip(tree.args.args[1:], method.arguments):
            body.assign(argument.arg, kind.nbits, kind.shape)
        has_return = bool(tree.body) and isinstance(tree.body[-1], ast.Return)
        statements = body.block(tree.body[: len(tree.body) - has_return])
        answer = self.answer(body, method, tree, has_return, statements)
        self.methods[method.name] = TypedMethod(typed_guard, body.temps, statements, answer)

    def answer(self, body, method, tree, has_return, statements):
        line = pymtl3.notes.first_line[(tree.body[-1] if has_return else tree).lineno]
        try:
            if not has_return:
                need(method.result is None, NOT_HERE)
                return None
            need(method.result is not None, NOT_HERE)
            before, value = body.right_side(tree.body[-1].value)
            statements += before
            return body.as_type(value, method.result.nbits, method.result.shape)
        except Fault as fault:
            raise Fault(fault.number, line) from None

    def of_guard(self, guard):
        tree = self.trees.function(guard)
        body = Body(self.component, "method", names_of(self.component, guard), set(), tree.lineno)
        try:
            return body.condition(body.typed(body.value(tree.body)))
        except Fault as fault:
            raise Fault(fault.number, pymtl3.notes.first_line[tree.lineno]) from None


class Trees:
    """The trees of a design's functions, by their first line."""

    def __init__(self, source):
        self.functions, self.lambdas = {}, {}
        for node in ast.walk(ast.parse(source)):
            if isinstance(node, ast.FunctionDef):
                first = min([node.lineno, *(decorator.lineno for decorator in node.decorator_list)])
                self.functions[first] = node
            if isinstance(node, ast.Lambda):
                self.lambdas[node.lineno] = node

    def function(self, function):
        place = self.lambdas if function.__name__ == "<lambda>" else self.functions
        return place[function.__code__.co_firstlineno]


# ---- the text of a typed body


class Text:
    """Spells the typed bodies of a component as `show_design bodies` does."""

    def __init__(self, component):
        self.component = component

    def part(self, part):
        low, high = part._low, part._low + part._kind.nbits - 1
        return f"{part._signal._name_in(self.component)}[{high}:{low}]"

    def callee(self, callee):
        if callee.owner is self.component:
            return callee.name
        return f"{self.component._child_name(callee.owner)}.{callee.name}"

    def temporary(self, temporary, widths):
        whole = temporary.low == 0 and temporary.width == widths[temporary.number]
        low, high = temporary.low, temporary.low + temporary.width - 1
        return f"t{temporary.number}" if whole else f"t{temporary.number}[{high}:{low}]"

    def pick(self, pick, widths):
        return f"pick({self.expression(pick.index, widths)}; {', '.join(map(self.part, pick.parts))})"

    def expression(self, e, widths):
        def inner(x):
            return self.expression(x, widths)

        match e.what, e.parts:
            case "const", (number,):
                return f"{e.width}'d{number}"
            case "get", (part,):
                return self.part(part)
            case "temp", (temporary,):
                return self.temporary(temporary, widths)
            case "pick", (index, parts):
                return self.pick(Pick(index, parts), widths)
            case "item", (Item(state, place),):
                return f"{state.name}[{place}]"
            case "number", (state,):
                return state.name
            case "len", (state,):
                return f"len({state.name})"
            case "ready", (callee,):
                return f"{self.callee(callee)}.rdy()"
            case "not", (a,):
                return f"(~{inner(a)})"
            case "fold", (sign, a):
                return f"({sign}{inner(a)})"
            case "binary", (sign, a, b):
                return f"({inner(a)} {sign} {inner(b)})"
            case "cond", (test, a, b):
                return f"({inner(test)} ? {inner(a)} : {inner(b)})"
            case "concat", parts:
                return "{" + ", ".join(map(inner, parts)) + "}"
            case name, (a, n):
                return f"{name}({inner(a)}, {n})"

    def statements(self, statements, widths, indent):
        return [line for statement in statements for line in self.statement(statement, widths, indent)]

    def statement(self, statement, widths, indent):
        def value(x):
            return self.expression(x, widths)

        match statement:
            case ("set", Part() as part, e):
                return [f"{indent}{self.part(part)} = {value(e)}"]
            case ("set", pick, e):
                return [f"{indent}{self.pick(pick, widths)} = {value(e)}"]
            case ("temp", number, e):
                return [f"{indent}t{number} = {value(e)}"]
            case ("number", state, e):
                return [f"{indent}{state.name} = {value(e)}"]
            case ["change", temporary, Change(state, name), *values]:
                kept = "" if temporary is None else f"t{temporary} = "
                return [f"{indent}{kept}{state.name}.{name}({', '.join(map(value, values))})"]
            case ["call", temporary, callee, values]:
                kept = "" if temporary is None else f"t{temporary} = "
                return [f"{indent}{kept}{self.callee(callee)}({', '.join(map(value, values))})"]
            case ("if", test, then, otherwise):
                lines = [f"{indent}if {value(test)}:", *self.statements(then, widths, indent + "  ")]
                if otherwise:
                    lines += [f"{indent}else:", *self.statements(otherwise, widths, indent + "  ")]
                return lines

    def block(self, temps, statements):
        lines = [f"    temps {' '.join(map(str, temps))}"] if temps else []
        return lines + self.statements(statements, temps, "    ")

    def method(self, method):
        lines = [] if method.guard is None else [f"    guard {self.expression(method.guard, [])}"]
        lines += self.block(method.temps, method.statements)
        if method.answer is not None:
            lines.append(f"    return {self.expression(method.answer, method.temps)}")
        return lines
