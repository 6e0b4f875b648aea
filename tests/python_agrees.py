"""Compares what the program `parse_lines` reads with what Python's own tokenizer and parser read.

usage: python_agrees.py FILE                 prints what Python reads in the file
       python_agrees.py --compare PROGRAM FILE..   compares, in the files and in lines made at random

Each logical line is printed as its number, its column and its tokens, and under that its statement: a list in
parentheses of what it is and its parts. A line whose statement is outside the subset is `Syntax`, and one with an
expression that is more than 64 deep is `TooDeep`. The last line is the tree of the lines: the numbers of those under a
header follow its number in brackets, and the functions that print a component are left out.
With `--compare` the lines that differ are printed, and the exit status is then 1. `crates/parse_lines/stdout` is what
Python reads in the files that `crates/parse_lines/args` names, one after the other.
"""

import ast
import io
import random
import subprocess
import sys
import tempfile
import tokenize

MAX_DEPTH = 64
SEED = 1
LINES = 800  # so many are made at random

UNARY = {ast.USub: "-", ast.UAdd: "+", ast.Invert: "~", ast.Not: "not"}
BINARY = {
    ast.BitOr: "|", ast.BitXor: "^", ast.BitAnd: "&", ast.LShift: "<<", ast.RShift: ">>", ast.Add: "+", ast.Sub: "-",
    ast.Mult: "*", ast.FloorDiv: "//", ast.Mod: "%", ast.Pow: "**", ast.Or: "or", ast.And: "and", ast.Eq: "==",
    ast.NotEq: "!=", ast.Lt: "<", ast.LtE: "<=", ast.Gt: ">", ast.GtE: ">=",
}
ASSIGNMENTS = {ast.MatMult: "@=", ast.LShift: "<<=", ast.FloorDiv: "//="}


class Outside(Exception):
    """What was read is outside the subset."""


def within(condition):
    if not condition:
        raise Outside


def sign(signs, op):
    within(type(op) in signs)
    return signs[type(op)]


# Trees: an expression with parts is a tuple, what else has parts is a list, and a leaf is a text.


def expression(e):
    match e:
        case ast.Name(id=name):
            return name
        case ast.Constant(value=bool() | int() as value):
            return str(value)
        case ast.UnaryOp(op=op, operand=a):
            return (sign(UNARY, op), expression(a))
        case ast.BinOp(left=a, op=op, right=b):
            return (sign(BINARY, op), expression(a), expression(b))
        case ast.BoolOp(op=op, values=[first, *others]):
            tree = expression(first)
            for other in others:
                tree = (sign(BINARY, op), tree, expression(other))
            return tree
        case ast.Compare(left=a, ops=[op], comparators=[b]):
            return (sign(BINARY, op), expression(a), expression(b))
        case ast.IfExp(body=a, test=condition, orelse=b):
            return ("cond", expression(a), expression(condition), expression(b))
        case ast.Attribute(value=a, attr=name):
            return ("attr", expression(a), name)
        case ast.Call(func=a, args=arguments, keywords=named):
            within(all(k.arg for k in named))
            by_name = [["named", k.arg, expression(k.value)] for k in named]
            return ("call", expression(a), *map(expression, arguments), *by_name)
        case ast.Subscript(value=a, slice=ast.Slice(lower=low, upper=high, step=None)):
            return ("slice", expression(a), expression(low), expression(high))
        case ast.Subscript(value=a, slice=place):
            return ("index", expression(a), expression(place))
        case ast.List(elts=items):
            return ("list", *map(expression, items))
        case ast.ListComp(elt=a, generators=[ast.comprehension(target=name, iter=bounds, ifs=[], is_async=0)]):
            return ("each", expression(a), *over_range(name, bounds))
    raise Outside


def over_range(name, bounds):
    within(isinstance(name, ast.Name))
    match bounds:
        case ast.Call(func=ast.Name(id="range"), args=arguments, keywords=[]) if 1 <= len(arguments) <= 3:
            return [name.id, ["range", *map(expression, arguments)]]
    raise Outside


def option(e):
    return "-" if e is None else expression(e)


def is_string(e):
    return isinstance(e, ast.JoinedStr) or isinstance(e, ast.Constant) and isinstance(e.value, str)


def simple(s):
    match s:
        case ast.Pass():
            return ["pass"]
        case ast.Return(value=a):
            return ["return", expression(a)]
        case ast.Assert(test=a, msg=message):
            within(message is None or is_string(message))
            return ["assert", expression(a)]
        case ast.Expr(value=a):
            return ["doc"] if is_string(a) else ["do", expression(a)]
        case ast.Assign(targets=[target], value=a):
            return ["assign", "=", expression(target), expression(a)]
        case ast.AugAssign(target=target, op=ast.FloorDiv(), value=ast.Lambda(args=parameters, body=a)):
            within(not ast.unparse(parameters))
            return ["join_lambda", expression(target), expression(a)]
        case ast.AugAssign(target=target, op=op, value=a):
            return ["assign", sign(ASSIGNMENTS, op), expression(target), expression(a)]
        case ast.AnnAssign(target=target, annotation=note, value=a):
            return ["note", expression(target), expression(note), option(a)]
    raise Outside


def imported(s):
    names = [name.name for name in s.names]
    within(s.level == 0 and not any(name.asname for name in s.names))
    within(s.module == "pymtl3" or s.module == "collections" and names == ["deque"])
    return ["import"]


def signature(parameters):
    within(not (parameters.posonlyargs or parameters.vararg or parameters.kwonlyargs or parameters.kwarg))
    names = parameters.args
    if not names:
        return []
    within(names[0].arg == "s" and names[0].annotation is None and len(parameters.defaults) < len(names))
    defaults = [None] * (len(names) - len(parameters.defaults)) + parameters.defaults
    return ["s", *([p.arg, option(p.annotation), option(d)] for p, d in list(zip(names, defaults))[1:])]


def decorator(e):
    match e:
        case ast.Name(id=name):
            return ["mark", name]
        case ast.Call(func=ast.Name(id="non_blocking"), args=[ast.Lambda(args=parameters, body=a)], keywords=[]):
            within(ast.unparse(parameters) == "s")
            return ["non_blocking", expression(a)]
    raise Outside


# The depth of the deepest expression. The first part of a tree says what it is, and is no part of the expression.
def depth(tree):
    if isinstance(tree, str):
        return 1
    return isinstance(tree, tuple) + max(map(depth, tree[1:]), default=0)


def written(tree):
    return tree if isinstance(tree, str) else "(" + " ".join(map(written, tree)) + ")"


class Reading:
    """What Python reads in a text: for the number of each logical line what it says."""

    def __init__(self, text):
        self.lines = {}
        self.starts = []  # of the logical lines: the number, the column and the first word
        first = True
        for token in tokenize.generate_tokens(io.StringIO(text).readline):
            if token.type == tokenize.NEWLINE:
                first = True
            elif first and token.type not in (tokenize.NL, tokenize.COMMENT, tokenize.INDENT, tokenize.DEDENT):
                self.starts.append((*token.start, token.string))
                first = False
        self.block(ast.parse(text).body)

    def number(self, node):
        return max(number for number, _, _ in self.starts if number <= node.lineno)

    def says(self, number, tree_of):
        try:
            within(number not in self.lines)
            tree = tree_of()
            self.lines[number] = "TooDeep" if depth(tree) > MAX_DEPTH else written(tree)
        except Outside:
            self.lines[number] = "Syntax"

    def block(self, statements):
        for statement in statements:
            self.statement(statement)

    # A header, of which a simple statement on its line is a part, and the lines that belong to it.
    def header(self, number, parts_of, body):
        if self.number(body[0]) > number:
            self.says(number, lambda: [*parts_of(), "-"])
            self.block(body)
        else:
            self.says(number, lambda: [*parts_of(), simple(*body) if len(body) == 1 else simple(None)])

    # The lines of `elif` and `else`, for which the tree has no node of their own.
    def otherwise(self, s):
        if not s.orelse:
            return
        nested, last = s.orelse[0], max(node.end_lineno for node in s.body)
        if isinstance(nested, ast.If) and (self.number(nested), s.col_offset, "elif") in self.starts:
            self.header(self.number(nested), lambda: ["elif", expression(nested.test)], nested.body)
            self.otherwise(nested)
            return
        here = [n for n, c, w in self.starts if last < n <= nested.lineno and c == s.col_offset and w == "else"]
        self.header(here[0], lambda: ["else"], s.orelse)

    def statement(self, s):
        number = self.number(s)
        for mark in getattr(s, "decorator_list", []):
            self.says(self.number(mark), lambda: decorator(mark))
        match s:
            case ast.ImportFrom():
                self.says(number, lambda: imported(s))
            case ast.ClassDef(name=name, bases=bases, keywords=named, body=body):
                self.says(number, lambda: class_line(name, bases, named, self.number(body[0]) > number))
                self.block([one for one in body if self.number(one) > number])
            case ast.FunctionDef(name=name, args=parameters, returns=result, body=body):
                nothing = isinstance(result, ast.Constant) and result.value is None
                note = None if nothing else result
                self.header(number, lambda: ["def", name, signature(parameters), option(note)], body)
            case ast.If(test=condition, body=body):
                self.header(number, lambda: ["if", expression(condition)], body)
                self.otherwise(s)
            case ast.For(target=name, iter=bounds, body=body):
                self.header(number, lambda: ["for", *over_range(name, bounds)], body)
                self.otherwise(s)
            case _:
                self.says(number, lambda: simple(s))


# The numbers of the lines, those under a header in brackets behind its own, without functions that print a component.
def outline(text):
    words = ["file"]
    printed = [True]  # whether the lines at this indentation, and at those around it, are
    left_out = set(printer_lines(ast.parse(text)))
    first = True
    for token in tokenize.generate_tokens(io.StringIO(text).readline):
        number = token.start[0]
        if token.type == tokenize.INDENT:
            printed.append(number not in left_out)
            words += ["["] * printed[-1]
        elif token.type == tokenize.DEDENT:
            words += ["]"] * printed.pop()
        elif token.type == tokenize.NEWLINE:
            first = True
        elif first and token.type not in (tokenize.NL, tokenize.COMMENT, tokenize.ENDMARKER):
            words += [str(number)] * (number not in left_out)
            first = False
    return " ".join(words)


def printer_lines(tree):
    for holder in (node for node in ast.walk(tree) if isinstance(node, ast.ClassDef)):
        for s in holder.body:
            if isinstance(s, ast.FunctionDef) and s.name in ("line_trace", "__str__"):
                yield from range(s.lineno, s.end_lineno + 1)


def class_line(name, bases, named, is_alone):
    within(is_alone and not named and len(bases) < 2 and all(isinstance(base, ast.Name) for base in bases))
    return ["class", name, bases[0].id if bases else "-"]


# Lines made at random. Operators and signs stand in any order, so that some lines spell no statement.

NAMES = ["a", "b", "s", "in_", "reg_", "_t0", "Bits8", "range", "deque"]
LEAVES = [*NAMES, "0", "8", "1_000", "0x1F", "0o17", "0b1010", str(2**128 - 1), "True", "False"]
COMPARISONS = ["==", "!=", "<", "<=", ">", ">="]
OPERATORS = [op for op in BINARY.values() if op not in COMPARISONS]
OUTSIDE_OPERATORS = ["/", "@", "is", "in"]


class Maker:
    """Makes statements, each as the words of one line."""

    def __init__(self, seed):
        self.random = random.Random(seed)

    def one(self, *choices):
        return self.random.choice(choices)

    def some(self, make, least, most, comma_may_end=True):
        made = [make() for _ in range(self.random.randint(least, most))]
        return " , ".join(made) + (" ," if made and comma_may_end and self.one(0, 0, 0, 1) else "")

    def expression(self, size=2):
        if size and self.random.random() < 0.15:
            middle = self.expression(size - 1) if self.random.random() < 0.1 else self.operation(size - 1)
            return f"{self.operation(size - 1)} if {middle} else {self.expression(size - 1)}"
        return self.operation(size)

    def operation(self, size):
        words = ["not"] * self.one(0, 0, 0, 0, 0, 1) + [self.operand(size)]
        while size and self.random.random() < 0.55:
            draw = self.random.random()
            ops = OPERATORS if draw < 0.89 else COMPARISONS if draw < 0.99 else OUTSIDE_OPERATORS
            words += [self.one(*ops), self.operand(size - 1)]
        return " ".join(words)

    def operand(self, size):
        draw = self.random.random()
        if draw < 0.12:
            return f"{self.one('-', '+', '~')} {self.operand(size)}"
        if draw < 0.13:
            return f"not {self.operand(size)}"
        return self.postfix(size)

    def postfix(self, size):
        text = self.atom(size)
        while self.random.random() < 0.35:
            text += self.suffix(max(size - 1, 0))
        return text

    def suffix(self, size):
        def inner():
            return self.expression(size)

        draw = self.random.randrange(10)
        if draw < 4:
            return f" . {self.one(*NAMES)}"
        if draw < 6:
            return f" [ {inner()} ]"
        if draw < 8:
            return f" [ {inner()} : {inner()} ]" if self.random.random() < 0.95 else f" [ : {inner()} ]"
        plain = self.some(inner, 0, 2)
        named = self.one("", "", f"maxlen = {inner()}", f"n = {inner()} , m = {inner()} ,")
        comma = " ," if plain and named and not plain.endswith(",") else ""
        return f" ( {plain}{comma} {named} )"

    def atom(self, size):
        draw = self.random.random()
        if not size or draw < 0.6:
            return self.one(*LEAVES)
        if draw < 0.8:
            return f"( {self.expression(size - 1)} )"
        if draw < 0.93:
            return f"[ {self.some(lambda: self.expression(size - 1), 0, 3)} ]"
        return f"[ {self.expression(size - 1)} for {self.over_range(size - 1)} ]"

    def over_range(self, size):
        bounds = self.some(lambda: self.expression(size), 1, 3, comma_may_end=False)
        return f"{self.one(*NAMES)} in range ( {bounds} )"

    def target(self):
        text = self.one(*NAMES)
        while self.random.random() < 0.6:
            text += self.one(" . out", " . val", f" [ {self.expression(1)} ]", f" [ {self.operation(1)} : 4 ]")
        return text

    def simple(self):
        a, b, target = self.expression(), self.expression(1), self.target()
        sign = self.one("=", "@=", "<<=", "//=")
        other = self.one(
            "pass", "'a' r\"b\" '''c'''", "f'{a}'", f"{target} = 'a'", f"assert {b} , a", f"{target} += {b}",
            f"{target} = a = {b}", f"{target} = {b} ; pass", f"{target} = lambda : {b}",
        )
        return self.one(
            a, a, f"{target} {sign} {a}", f"{target} {sign} {a}", f"{target} {sign} {a}", f"{target} //= lambda : {a}",
            f"{target} : {b}", f"{target} : {b} = {a}", f"return {a}", f"assert {a}", f"assert {b} , 'a' \"b\"", other,
        )

    def parameter(self):
        self.parameters += 1
        return f"p{self.parameters}{self.one('', f' : {self.expression(1)}')}"

    def definition(self):
        self.parameters = 0
        first = self.some(self.parameter, 0, 2, comma_may_end=False)
        others = self.some(lambda: f"{self.parameter()} = {self.expression(1)}", 0, 2)
        words = " , ".join(word for word in ("s", first, others) if word)
        result = self.one("", "-> None", f"-> {self.expression(1)}")
        return f"def {self.one(*NAMES)} ( {self.one(words, words, '')} ) {result}"

    def statement(self):
        if self.random.random() < 0.6:
            return self.simple()
        a = self.expression()
        header = self.one(f"if {a}", f"elif {a}", "else", f"for {self.over_range(1)}", self.definition())
        other = self.one(
            "class A :", "class A ( B ) :", "class A ( B , C ) :", "@ update", "@ a . b", "from pymtl3 import *",
            "from pymtl3 import a , b", "from collections import deque", "from a import *",
        )
        return self.one(
            f"{header} :", f"{header} : {self.simple()}", f"{header} : {self.simple()}",
            f"@ non_blocking ( lambda s : {a} )", other,
        )


# Lines about as deep as an expression may be.
def deep_lines():
    for n in range(MAX_DEPTH - 2, MAX_DEPTH + 2):
        yield from (
            " + ".join(["a"] * n), " or ".join(["a"] * n), " ** ".join(["a"] * n), "not " * n + "a", "- " * n + "a",
            "a" + " . b" * n, "f ( " * n + "a" + " )" * n, "[ " * n + "]" * n, "( " * n + "a" + " )" * n,
            "a" + " [ 0 ]" * n, "a" + " [ 0 : 1 ]" * n, "a if b else " * n + "c", f"a . b @= {' + '.join(['a'] * n)}",
            f"if a : return {' * '.join(['a'] * n)}", f"f ( n = {' & '.join(['a'] * n)} )",
        )


# What Python reads in one line. A line that needs others around it gets them.
def line_reading(line):
    before = "if a: pass\n" if line.split()[0] in ("elif", "else") else ""
    after = "\n  pass" if line.endswith(":") else "\ndef a(): pass" if line.startswith("@") else ""
    try:
        return Reading(before + line + after + "\n").lines[2 if before else 1]
    except SyntaxError:
        return "Syntax"


NO_TOKENS = (tokenize.NL, tokenize.COMMENT, tokenize.INDENT, tokenize.DEDENT, tokenize.ENDMARKER)


# The logical lines of a text, by number: the column of the first token, and the tokens.
def logical_lines(text):
    lines, current, strings = {}, None, 0
    for token in tokenize.generate_tokens(io.StringIO(text).readline):
        kind = tokenize.tok_name[token.type]
        if token.type == tokenize.NEWLINE:
            current = None
        elif token.type not in NO_TOKENS:
            if current is None:
                current = lines[token.start[0]] = (token.start[1], [])
            # from Python 3.12 on a string with a prefix `f` comes in parts
            if strings or kind == "FSTRING_MIDDLE":
                current[1][-1] += token.string
            else:
                current[1].append(token.string)
            strings += (kind == "FSTRING_START") - (kind == "FSTRING_END")
    return lines


def file_reading(name):
    with open(name, encoding="utf-8") as file:
        text = file.read()
    lines = logical_lines(text)
    read = []
    for number, says in sorted(Reading(text).lines.items()):
        column, tokens = lines[number]
        read += [f"{number} {column} {' '.join(tokens)}", f"  {says}"]
    return read + [outline(text)]


def program_reading(program, name):
    return subprocess.run([program, name], capture_output=True, check=True, text=True).stdout.splitlines()


# Prints the places where both differ, with the texts that are known, and gives their number.
def differences(name, python, program, texts):
    count = 0
    for place in range(max(len(python), len(program))):
        ours, theirs = (lines[place] if place < len(lines) else "nothing" for lines in (program, python))
        if ours != theirs:
            count += 1
            print(f"{name}:", *texts[place // 2 : place // 2 + 1])
            print(f"  the program: {ours}\n  Python:      {theirs}")
    return count


# The tokens of a line of a text that is no Python as a whole, or nothing where Python finds none.
def line_tokens(number, text):
    try:
        ((column, tokens),) = logical_lines(text + "\n").values()
        return f"{number} {column} {' '.join(tokens)}"
    except (SyntaxError, ValueError, tokenize.TokenError):
        return f"{number} 0 {text}"


def compare(program, names):
    count = 0
    total = 0
    for name in names:
        python = file_reading(name)
        total += len(python) // 2
        count += differences(name, python, program_reading(program, name), [])
    maker = Maker(SEED)
    texts = [maker.statement() for _ in range(LINES)] + list(deep_lines())
    total += len(texts)
    python = []
    for number, text in enumerate(texts, 1):
        python += [line_tokens(number, text), f"  {line_reading(text)}"]
    with tempfile.NamedTemporaryFile("w", suffix=".py") as file:
        file.write("\n".join(texts) + "\n")
        file.flush()
        read = program_reading(program, file.name)[:-1]  # without the file's fault
        count += differences("a line made at random", python, read, texts)
    print(f"{total} lines, {count} that differ", file=sys.stderr)
    return 1 if count else 0


if __name__ == "__main__":
    if len(sys.argv) > 2 and sys.argv[1] == "--compare":
        sys.exit(compare(sys.argv[2], sys.argv[3:]))
    if len(sys.argv) != 2:
        sys.exit(__doc__)
    print("\n".join(file_reading(sys.argv[1])))
