"""A stand-in for the module `pymtl3`: designs that are run with it leave notes of their kinds behind.

It was written from the rules of the language, and not from what `show_design` prints. It builds no hardware: a
component notes what its `construct` declares, connects and constrains, and `notes.kinds` has a `Kind` for each class
with its arguments, in the order in which their `construct` returned. `begin` must be called before each design.

It doesn't look at the bodies of blocks, methods and guards, at integers of more than 64 bits, at how long `construct`
runs and how deep, or at the names that a lambda reads.
"""

import ast
import inspect
import io
import sys
import tokenize
import types
from collections import deque

MAX_WIDTH = 128
MAX_LEN = 64
MAX_INSTANCES = 4096
LAYOUT = {tokenize.NEWLINE, tokenize.NL, tokenize.COMMENT, tokenize.INDENT, tokenize.DEDENT, tokenize.ENDMARKER}
SKIPPED = {"construct", "line_trace", "__str__"}  # functions of a class that are no methods


class Refused(Exception):
    """The design breaks a rule of the language."""


def need(condition, words):
    if not condition:
        raise Refused(words)


class Notes:
    """What is known of the design that is being run."""

    def __init__(self, source, name):
        self.name = name
        self.shapes = []
        self.kinds = []
        self.first_of = []  # of each kind the first component that was made
        self.number_of = {}  # a class and its arguments, and the number of their kind
        self.running = []  # components and interfaces whose `construct` runs, the innermost last
        self.first_line = {}  # of each line of the text the one at which its logical line begins
        start = None
        for token in tokenize.generate_tokens(io.StringIO(source).readline):
            if token.type not in LAYOUT:
                start = start or token.start[0]
                self.first_line.update((line, start) for line in range(token.start[0], token.end[0] + 1))
            elif token.type == tokenize.NEWLINE:
                start = None
        self.joins = set()  # lines of statements with `//=`
        self.annotations = {}  # of a line, the attribute that has an annotation there, and the annotation
        for node in ast.walk(ast.parse(source)):
            if isinstance(node, ast.AugAssign):
                self.joins.add(self.first_line[node.lineno])
            if isinstance(node, ast.AnnAssign) and isinstance(node.target, ast.Attribute):
                self.annotations[self.first_line[node.lineno]] = (node.target.attr, ast.Expression(node.annotation))

    def frame(self):
        """The innermost frame of the design's own text."""
        frame = sys._getframe()
        while frame.f_code.co_filename != self.name:
            frame = frame.f_back
        return frame

    def line(self):
        """The line at which the statement that runs begins."""
        return self.first_line[self.frame().f_lineno]

    def annotation(self, attribute):
        """The value of the annotation of the statement that runs, if this attribute has one there. In functions Python
        itself evaluates none."""
        name, tree = self.annotations.get(self.line(), (None, None))
        if name != attribute:
            return None
        frame = self.frame()
        return type_of(eval(compile(tree, self.name, "eval"), frame.f_globals, frame.f_locals))

    def component(self):
        """The component whose `construct` runs."""
        need(self.running and isinstance(self.running[-1], Component), "outside a component")
        return self.running[-1]


notes = None


def begin(source, name):
    """Forgets all designs, and prepares for the one in this text."""
    global notes
    notes = Notes(source, name)
    return notes


# ---- types and constants


class Type:
    """Bits of a width, or a bitstruct. Only equal bitstructs are equal."""

    def __init__(self, nbits, shape=None):
        need(type(nbits) in (int, bool) and 1 <= nbits <= MAX_WIDTH, "width")
        self.nbits = int(nbits)
        self.shape = shape

    def key(self):
        return ("type", self.nbits, self.shape)

    def __call__(self, value):
        need(self.shape is None, "a bitstruct has no constants")
        return Constant(self.nbits, value)


class Constant:
    def __init__(self, width, value):
        need(type(value) in (int, bool), "an integer is needed")
        need(fits(width, value), "the integer doesn't fit")
        self.width = width
        self.value = value % (1 << width)

    def key(self):
        return ("constant", self.width, self.value)


def fits(width, value):
    return -(1 << width - 1) <= value < 1 << width


class Shape:
    def __init__(self, name, fields):
        self.name = name
        self.width = sum(kind.nbits for kind in fields.values())
        self.fields = {}  # of each name the lowest bit and the type
        low = self.width
        for field, kind in fields.items():
            low -= kind.nbits
            self.fields[field] = (low, kind)


def bitstruct(cls):
    shape = Shape(cls.__name__, {name: type_of(kind) for name, kind in cls.__annotations__.items()})
    made = Type(shape.width, len(notes.shapes))
    notes.shapes.append(shape)
    return made


def mk_bits(width):
    return Type(width)


def clog2(number):
    need(number >= 1, "clog2")
    return (number - 1).bit_length()


def type_of(value):
    need(isinstance(value, Type), "a type is needed")
    return value


for _width in range(1, MAX_WIDTH + 1):
    globals()[f"Bits{_width}"] = globals()[f"b{_width}"] = Type(_width)


# ---- ends of connections


class End:
    """What `//=` connects: a signal or a part of one, a caller port, a method, or an interface."""

    def __ifloordiv__(self, other):
        if isinstance(other, types.FunctionType) and other.__name__ == "<lambda>":
            need(isinstance(self, Part), "a lambda needs a signal")
            self._seen()
            notes.component()._add_lambda(self, other)
        else:
            connect(self, other)
        return self

    def __rfloordiv__(self, other):
        connect(other, self)
        return other


class Part(End):
    """Bits of a signal. A whole signal is one too."""

    def __init__(self, signal, low, kind, form):
        set_all(self, _signal=signal, _low=low, _kind=kind, _form=form)

    def _seen(self):
        """Its text, if the component whose `construct` runs sees it as a signal of its own or as a child's port."""
        name = self._signal._name_in(notes.component())
        return f"{name}[{self._low + self._kind.nbits - 1}:{self._low}]"

    def __getitem__(self, place):
        width = self._kind.nbits
        if isinstance(place, slice):
            low, high = place.start, place.stop
            need(type(low) in (int, bool) and type(high) in (int, bool), "a bound is no integer")
        else:
            need(type(place) in (int, bool), "an index is no integer")
            low, high = place, place + 1
        need(0 <= low < high <= width, "outside the signal")
        return Part(self._signal, self._low + low, Type(high - low), "slice")

    def __setitem__(self, place, value):
        need(isinstance(value, Part), "assignment to bits")

    def __getattr__(self, name):
        need(not name.startswith("_") and self._kind.shape is not None, "no attribute")
        fields = notes.shapes[self._kind.shape].fields
        need(name in fields, "no such field")
        low, kind = fields[name]
        return Part(self._signal, self._low + low, kind, "field")

    def __setattr__(self, name, value):
        need(isinstance(value, Part), "assignment to a field")


class Signal(Part):
    """It has no owner and no name until an attribute takes it."""

    def __init__(self, role, kind):
        kind = kind if isinstance(kind, Type) else Type(kind)
        set_all(self, _role=role, _owner=None, _name=None)
        Part.__init__(self, self, 0, kind, "whole")

    def _take(self, owner, name):
        set_all(self, _owner=owner, _name=name)
        shape = "" if self._kind.shape is None else f" shape {self._kind.shape}"
        owner._kind.signals.append(f"{self._role} {name} {self._kind.nbits}{shape}")
        owner._signals.append(self)

    def _name_in(self, component):
        if self._owner is component:
            return self._name
        need(self._role != "wire", "a child's wire")
        return f"{component._child_name(self._owner)}.{self._name}"


def set_all(thing, **values):
    for name, value in values.items():
        object.__setattr__(thing, name, value)


def InPort(kind=1):
    return Signal("input", kind)


def OutPort(kind=1):
    return Signal("output", kind)


def Wire(kind=1):
    return Signal("wire", kind)


class State:
    """A deque of at most `maxlen` items, or a number, whose `maxlen` is 0."""

    def __init__(self, owner, name, kind, maxlen, start):
        self.owner, self.name, self.kind, self.maxlen, self.start = owner, name, kind, maxlen, start


class Callee(End):
    """A caller port, or a method of a component."""

    def __init__(self, arguments, result, is_port, owner=None, name=None):
        self.arguments, self.result, self.is_port = arguments, result, is_port
        self.owner, self.name = owner, name

    def types(self):
        return [kind.key() for kind in self.arguments], self.result and self.result.key()

    def text(self):
        result = "" if self.result is None else f" -> {self.result.nbits}"
        return f"{self.name}({', '.join(str(kind.nbits) for kind in self.arguments)}){result}"

    def _seen(self):
        component = notes.component()
        if self.owner is component:
            return self.name
        return f"{component._child_name(self.owner)}.{self.name}"


def CallerPort(Type=None, RetType=None):
    arguments = [] if Type is None else [type_of(Type)]
    return Callee(arguments, RetType and type_of(RetType), True)


def CalleePort(method):
    need(isinstance(method, Callee) and not method.is_port, "a method is needed")
    method._seen()
    return method


def method_of(owner, name, function):
    parameters = list(inspect.signature(function).parameters.values())[1:]
    need(all(parameter.default is parameter.empty for parameter in parameters), "a method has no defaults")
    result = function.__annotations__.get("return")
    callee = Callee([type_of(p.annotation) for p in parameters], result and type_of(result), False, owner, name)
    callee.function = function
    return callee


def non_blocking(guard):
    def guarded(function):
        function.guard = guard
        return function

    return guarded


# ---- connections


def connect(a, b):
    component = notes.component()
    kind, line = component._kind, notes.line()
    if isinstance(a, Callee) and isinstance(b, Callee):
        need(a.is_port or b.is_port, "two methods")
        kind.binds.append(f"bind line {line} {a._seen()} {b._seen()}{'' if a.types() == b.types() else ' unequal'}")
        component._binds.append((line, a, b))
    elif isinstance(a, Interface) and isinstance(b, Interface):
        pairs = matched(a, b)
        if pairs is None:
            kind.mismatched.append(f"mismatched line {line}")
            component._mismatched.append(line)
        for one, other in pairs or []:
            connect_ends(kind, line, one, other)
    else:
        connect_ends(kind, line, a, b)


def connect_ends(kind, line, a, b):
    for end in (a, b):
        own = isinstance(end, Part) and end._signal._owner is notes.component()
        need(not (own and end._signal._name == "reset"), "reset is connected by itself")
    if isinstance(a, Part) and isinstance(b, Part):
        equal = a._kind.key() == b._kind.key()
        kind.joins.append(f"join line {line} {a._seen()} {b._seen()}{'' if equal else ' unequal'}")
        notes.component()._joins.append((line, a, b, equal))
        return
    part, value = (a, b) if isinstance(a, Part) else (b, a)
    need(isinstance(part, Part) and isinstance(value, (int, Constant)), "no ends")
    number = tied(part._kind, value)
    text = "unfit" if number is None else f"{part._kind.nbits}'d{number}"
    kind.ties.append(f"tie line {line} {part._seen()} {text}")
    notes.component()._ties.append((line, part, number))


def tied(kind, value):
    """The number that a constant gives bits of this type, or None if it doesn't fit."""
    if isinstance(value, Constant):
        fit, number = value.width == kind.nbits, value.value
    else:
        fit, number = fits(kind.nbits, value), value
    if not fit or kind.shape is not None:
        return None
    return number % (1 << kind.nbits)


def matched(a, b):
    """The ends that two members of one name connect, or None if they don't match."""
    if isinstance(a, Interface) and isinstance(b, Interface):
        if a._members.keys() != b._members.keys():
            return None
        return matched_all([(a._members[name], b._members[name]) for name in a._members])
    if isinstance(a, list) and isinstance(b, list):
        return matched_all(list(zip(a, b))) if len(a) == len(b) else None
    if isinstance(a, int) and isinstance(b, int):
        return []
    if isinstance(a, (Part, int)) and isinstance(b, (Part, int)):
        return [(a, b)]
    return None


def matched_all(pairs):
    found = [matched(a, b) for a, b in pairs]
    return None if None in found else [pair for pairs in found for pair in pairs]


# ---- constraints


class Term:
    def __init__(self, text, word, thing):
        self.text, self.word, self.thing = text, word, thing

    def __lt__(self, other):
        return Rule(self, other)

    def __gt__(self, other):
        return Rule(other, self)


class Rule:
    def __init__(self, before, after):
        need(isinstance(before, Term) and isinstance(after, Term), "a term is needed")
        self.before, self.after = before, after
        self.text = f"{before.text} < {after.text}"


class Block:
    """An update block: a function, or a lambda with its target."""

    def __init__(self, owner, sort, name, line, function, target=None):
        self.owner, self.sort, self.name, self.line = owner, sort, name, line
        self.function, self.target = function, target


def U(block):
    need(isinstance(block, Block), "a block is needed")
    return Term("wrong", "wrong", block) if block.sort == "update_ff" else Term(f"U({block.name})", "U", block)


def touched(word, thing):
    if isinstance(thing, State):
        return Term("wrong", "wrong", thing)
    need(isinstance(thing, Part), "a signal is needed")
    return Term(f"{word}({thing._seen()})", word, thing)


def RD(thing):
    return touched("RD", thing)


def WR(thing):
    return touched("WR", thing)


def M(callee):
    need(isinstance(callee, Callee), "a method is needed")
    return Term(f"M({callee._seen()})", "M", callee)


# ---- blocks


def update(function):
    return notes.component()._add_block("update", function.__name__, function)


def update_once(function):
    return notes.component()._add_block("update_once", function.__name__, function)


def update_ff(function):
    return notes.component()._add_block("update_ff", function.__name__, function)


# ---- components and interfaces


class Kind:
    def __init__(self, name):
        self.name = name
        self.instances = 1
        self.signals = ["input reset 1"]
        self.states, self.children, self.callers, self.joins, self.mismatched = [], [], [], [], []
        self.ties, self.binds, self.rules, self.methods, self.blocks = [], [], [], [], []

    def lines(self):
        return (
            self.signals + self.states + self.children + self.callers + self.joins + self.mismatched + self.ties
            + self.binds + self.rules + self.methods + self.blocks
        )


def key_of(value):
    """Equal arguments have equal keys."""
    if isinstance(value, list):
        return ("list", *map(key_of, value))
    if isinstance(value, (Type, Constant)):
        return value.key()
    if isinstance(value, type):
        return ("class", value.__name__)
    need(isinstance(value, int), "no argument")
    return int(value)


def run_construct(thing, positional, named):
    """Runs `construct`, and returns the values of all its parameters as keys."""
    bound = inspect.signature(type(thing).construct).bind(thing, *positional, **named)
    bound.apply_defaults()
    keys = tuple(key_of(value) for value in list(bound.arguments.values())[1:])
    notes.running.append(thing)
    type(thing).construct(*bound.args, **bound.kwargs)
    notes.running.pop()
    return keys


class Component:
    def __init__(self, *positional, **named):
        set_all(self, _kind=Kind(type(self).__name__), _parent=None, _values={}, _children={})
        set_all(self, _lambdas=0, _blocks=[], _joins=[], _mismatched=[], _ties=[], _binds=[], _rules=[])
        set_all(self, _signals=[], _states=[], _callers=[])
        set_all(self, _methods={
            name: method_of(self, name, function)
            for name, function in vars(type(self)).items()
            if isinstance(function, types.FunctionType) and name not in SKIPPED
        })
        need(not {"clk", "reset"} & self._methods.keys(), "clk and reset are there already")
        self._kind.methods = [f"method {method.text()}" for method in self._methods.values()]
        reset = Signal("input", 1)
        set_all(reset, _owner=self, _name="reset")
        self._values["reset"] = reset
        self._signals.append(reset)
        # Python runs it each time, although a kind is noted once: each child has attributes of its own.
        key = (type(self).__name__, run_construct(self, positional, named))
        if key not in notes.number_of:
            notes.number_of[key] = len(notes.kinds)
            notes.kinds.append(self._kind)
            notes.first_of.append(self)
        set_all(self, _number=notes.number_of[key])

    def construct(s):
        pass

    def __getattribute__(self, name):
        if name.startswith("_") or name == "add_constraints":
            return object.__getattribute__(self, name)
        if name in self._methods:
            return self._methods[name]
        need(name in self._values, f"no attribute {name}")
        return self._values[name]

    def __setattr__(self, name, value):
        if notes.line() in notes.joins and self._methods.get(name, self._values.get(name)) is value:
            return  # Python assigns what `//=` has returned
        need(notes.component() is self, "an attribute of another component")
        need(name not in ("clk", "reset"), "clk and reset are there already")
        need(name not in self._values and name not in self._methods, "an attribute is made twice")
        kind = notes.annotation(name)
        if kind is not None:
            value = self._add_state(name, kind, value)
        elif isinstance(value, Callee) and value.owner is None:
            value.owner, value.name = self, name
            self._kind.callers.append(f"caller {value.text()}")
            self._callers.append(value)
        else:
            self._take(name, value)
        self._values[name] = value

    def _take(self, name, value):
        """Names what is new in the value of an attribute."""
        if isinstance(value, list):
            for place, element in enumerate(value):
                need(not (isinstance(element, Callee) and element.is_port), "a list of caller ports")
                self._take(f"{name}[{place}]", element)
        elif isinstance(value, Interface):
            if value._owner is None:
                set_all(value, _owner=self)
                for member, part in value._members.items():
                    self._take(f"{name}.{member}", part)
        elif isinstance(value, Signal):
            if value._owner is None:
                value._take(self, name)
        elif isinstance(value, Component):
            need(value is not self, "a component as its own attribute")
            if value._parent is None:
                set_all(value, _parent=self)
                self._children[value] = name
                self._kind.instances += value._kind.instances
                need(self._kind.instances <= MAX_INSTANCES, "too many instances")
                self._kind.children.append(f"child {name} kind {value._number} line {notes.line()}")
        else:
            need(isinstance(value, (int, Type, Constant, type, Part, Callee, State)), "no attribute's value")

    def _add_state(self, name, kind, value):
        if isinstance(value, deque):
            need(value.maxlen is not None and 1 <= value.maxlen <= MAX_LEN, "maxlen")
            self._kind.states.append(f"deque {name} {kind.nbits} maxlen {value.maxlen}")
        else:
            need(type(value) in (int, bool) and fits(kind.nbits, value), "start")
            self._kind.states.append(f"number {name} {kind.nbits} start {value % (1 << kind.nbits)}")
        is_deque = isinstance(value, deque)
        state = State(self, name, kind, value.maxlen if is_deque else 0, 0 if is_deque else value % (1 << kind.nbits))
        self._states.append(state)
        return state

    def _add_block(self, sort, name, function, target=None):
        need(all(block.name != name for block in self._blocks), "a block is made twice")
        block = Block(self, sort, name, notes.line(), function, target)
        self._blocks.append(block)
        self._kind.blocks.append(f"{sort} {name}")
        return block

    def _add_lambda(self, target, function):
        self._add_block("update", f"lambda_{self._lambdas}", function, target)
        set_all(self, _lambdas=self._lambdas + 1)

    def add_constraints(self, *rules):
        need(notes.component() is self, "a constraint of another component")
        for rule in rules:
            need(isinstance(rule, Rule), "a constraint is needed")
            self._kind.rules.append(f"rule line {notes.line()} {rule.text}")
            self._rules.append((notes.line(), rule))

    def _child_name(self, child):
        need(child in self._children, "no child's port")
        return self._children[child]


class Interface(End):
    def __init__(self, *positional, **named):
        set_all(self, _members={}, _owner=None)
        run_construct(self, positional, named)

    def construct(s):
        pass

    def __getattr__(self, name):
        need(not name.startswith("_") and name in self._members, f"no member {name}")
        return self._members[name]

    def __setattr__(self, name, value):
        if notes.line() in notes.joins and self._members.get(name) is value:
            return
        need(notes.running[-1] is self, "a member of another interface")
        need(name not in self._members and is_member(value), "no new member")
        self._members[name] = value


def is_member(value):
    if isinstance(value, list):
        return all(map(is_member, value))
    if isinstance(value, (Signal, Interface)):
        return value._owner is None
    return isinstance(value, int)


def text_of_design(top):
    """What `show_design kinds` prints of the design whose top component this is."""
    lines = []
    for number, shape in enumerate(notes.shapes):
        lines.append(f"shape {number} {shape.name} {shape.width}")
        for name, (low, kind) in shape.fields.items():
            inner = "" if kind.shape is None else f" shape {kind.shape}"
            lines.append(f"  field {name}[{low + kind.nbits - 1}:{low}]{inner}")
    for number, kind in enumerate(notes.kinds):
        lines.append(f"kind {number} {kind.name} instances {kind.instances}")
        lines.extend("  " + line for line in kind.lines())
    lines.append(f"top {top._number}")
    return "".join(line + "\n" for line in lines)


__all__ = [f"{stem}{width}" for stem in ("Bits", "b") for width in range(1, MAX_WIDTH + 1)] + [
    "bitstruct", "mk_bits", "clog2", "InPort", "OutPort", "Wire", "CallerPort", "CalleePort", "non_blocking", "connect",
    "U", "RD", "WR", "M", "update", "update_once", "update_ff", "Component", "Interface",
]
