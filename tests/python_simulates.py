"""Simulates a design by the rules of the language, and prints its trace.

usage: python_simulates.py FILE TOP [name=value ..] [--reset N] [--order N,N,..] < VECTORS

It was written from the rules, and shares nothing with the programs of crates/. `--order` gives another order of the
scheduled blocks, by their numbers.
"""

import sys

import python_elaborates  # puts the stand-in for pymtl3 in reach
import pymtl3
from python_bodies import Fault, Item, Pick, Trees
from python_nets import Circuit, Refusal

BINARY = {
    "+": lambda a, b, w: a + b, "-": lambda a, b, w: a - b, "*": lambda a, b, w: a * b,
    "&": lambda a, b, w: a & b, "|": lambda a, b, w: a | b, "^": lambda a, b, w: a ^ b,
    "<<": lambda a, b, w: a << b if b < w else 0, ">>": lambda a, b, w: a >> b if b < w else 0,
    "==": lambda a, b, w: a == b, "!=": lambda a, b, w: a != b, "<": lambda a, b, w: a < b,
    "<=": lambda a, b, w: a <= b, ">": lambda a, b, w: a > b, ">=": lambda a, b, w: a >= b,
}


class Simulation:
    def __init__(self, circuit, order=None):
        self.circuit = circuit
        self.order = circuit.order if order is None else order
        self.nets = [0] * circuit.net_count
        self.states = {}
        self.temps = []
        for instance in circuit.instances:
            for _, part, number in instance._ties:
                self.put(part, number)
            for state in instance._states:
                self.states[state] = [] if state.maxlen else state.start

    # ---- parts of signals

    def get(self, part):
        return sum(self.nets[self.circuit.net_of[bit]] << k for k, bit in enumerate(self.circuit.bits(part)))

    def put(self, part, number):
        for k, bit in enumerate(self.circuit.bits(part)):
            self.nets[self.circuit.net_of[bit]] = number >> k & 1

    # ---- expressions

    def value(self, e):
        return int(self.any_value(e)) % (1 << e.width)

    def any_value(self, e):
        match e.what, e.parts:
            case "const", (number,):
                return number
            case "get", (part,):
                return self.get(part)
            case "temp", (temporary,):
                return self.temps[temporary.number] >> temporary.low
            case "pick", (index, parts):
                place = self.value(index)
                return self.get(parts[place]) if place < len(parts) else 0
            case "item", (Item(state, place),):
                items = self.states[state]
                return items[place] if items and place < len(items) else 0
            case "number", (state,):
                return self.states[state]
            case "len", (state,):
                return len(self.states[state])
            case "ready", (callee,):
                return self.ready(self.circuit.method_of(callee))
            case "not", (a,):
                return ~self.value(a)
            case "fold", (sign, a):
                return self.fold(sign, self.value(a), a.width)
            case "binary", (sign, a, b):
                return BINARY[sign](self.value(a), self.value(b), a.width)
            case "cond", (test, a, b):
                return self.value(a) if self.value(test) else self.value(b)
            case "concat", parts:
                number = 0
                for part in parts:
                    number = number << part.width | self.value(part)
                return number
            case "sext", (a, _):
                number = self.value(a)
                return number - (1 << a.width) if number >> (a.width - 1) else number
            case ("zext" | "trunc"), (a, _):
                return self.value(a)
        raise AssertionError(e)

    def fold(self, sign, number, width):
        ones = bin(number).count("1")
        return {"&": ones == width, "|": ones > 0, "^": ones % 2}[sign]

    def ready(self, method):
        guard = self.circuit.typed_method(method).guard
        return 1 if guard is None else self.value(guard)

    # ---- statements

    def run(self, temps, statements, put):
        outer, self.temps = self.temps, [0] * len(temps)
        for statement in statements:
            self.statement(statement, put)
        self.temps = outer

    def statement(self, statement, put):
        match statement:
            case ("set", Pick(index, parts), e):
                number, place = self.value(e), self.value(index)
                if place < len(parts):
                    put(parts[place], number)
            case ("set", part, e):
                put(part, self.value(e))
            case ("temp", temporary, e):
                self.temps[temporary] = self.value(e)
            case ("number", state, e):
                self.states[state] = self.value(e)
            case ["change", temporary, change, *values]:
                answer = self.change(change.state, change.name, [self.value(e) for e in values])
                if temporary is not None:
                    self.temps[temporary] = answer
            case ["call", temporary, callee, values]:
                answer = self.call(self.circuit.method_of(callee), [self.value(e) for e in values])
                if temporary is not None:
                    self.temps[temporary] = answer
            case ("if", test, then, otherwise):
                for inner in then if self.value(test) else otherwise:
                    self.statement(inner, put)

    def change(self, state, name, values):
        items = self.states[state]
        match name:
            case "append":
                items.append(values[0])
                del items[: max(len(items) - state.maxlen, 0)]
            case "appendleft":
                items.insert(0, values[0])
                del items[state.maxlen:]
            case "pop":
                return items.pop() if items else 0
            case "popleft":
                return items.pop(0) if items else 0
            case "clear":
                items.clear()
        return None

    def call(self, method, values):
        typed = self.circuit.typed_method(method)
        outer, self.temps = self.temps, values + [0] * (len(typed.temps) - len(values))
        for statement in typed.statements:
            self.statement(statement, None)
        answer = None if typed.answer is None else self.value(typed.answer)
        self.temps = outer
        return answer

    # ---- cycles

    def body(self, entry):
        instance, block = entry
        return self.circuit.bodies[instance].blocks[block.name]

    def settle(self, reset, inputs):
        self.put(self.circuit.top._values["reset"], reset)
        for signal, number in inputs:
            self.put(signal, number)
        for number in self.order:
            self.run(*self.body(self.circuit.scheduled[number]), self.put)

    def edge(self):
        waiting = []
        for entry in self.circuit.edge_blocks:
            self.run(*self.body(entry), lambda part, number: waiting.append((part, number)))
        for part, number in waiting:
            self.put(part, number)


def trace(circuit, lines, reset=2, order=None):
    """The lines of the trace of vectors."""
    simulation = Simulation(circuit, order)
    ports = [signal for signal in circuit.top._signals[1:] if signal._role != "wire"]
    inputs = {signal._name: signal for signal in ports if signal._role == "input"}
    header = [inputs[name] for name in lines[0].split()]
    rows = [(1, [(signal, 0) for signal in header])] * reset
    rows += [(0, [(signal, int(word, 0)) for signal, word in zip(header, line.split())]) for line in lines[1:]]
    yield " ".join(["cycle", "reset", *(port._name for port in ports)])
    for cycle, (is_reset, values) in enumerate(rows):
        simulation.settle(is_reset, values)
        words = [f"{simulation.get(port):0{(port._kind.nbits + 3) // 4}x}" for port in ports]
        yield " ".join([str(cycle), str(is_reset), *words])
        simulation.edge()


def circuit_of(text, top, words):
    """The checked circuit of a design; `Refusal`, `Fault` or an error of Python if it is refused."""
    if python_elaborates.found(text, top, words) is None:
        raise python_elaborates.found.error
    number = int(pymtl3.text_of_design(pymtl3.notes.first_of[-1]).split()[-1])
    circuit = Circuit(pymtl3.notes.first_of[number], Trees(text))
    circuit.check_all()
    return circuit


def simulated(text, top, words, lines, reset=2, order=None):
    return list(trace(circuit_of(text, top, words), lines, reset, order))


def main(words):
    options = {"--reset": "2", "--order": None}
    for name in options:
        if name in words:
            at = words.index(name)
            options[name] = words[at + 1]
            del words[at : at + 2]
    if len(words) < 2:
        sys.exit(__doc__)
    file, top, *words = words
    order = options["--order"] and [int(number) for number in options["--order"].split(",") if number]
    try:
        lines = simulated(open(file).read(), top, words, sys.stdin.read().splitlines(), int(options["--reset"]), order)
    except Refusal as refused:
        sys.exit(" ".join(map(str, refused.args)))
    except Fault as fault:
        sys.exit(f"{fault.number} line {fault.line}")
    print("\n".join(lines))


if __name__ == "__main__":
    main(sys.argv[1:])
