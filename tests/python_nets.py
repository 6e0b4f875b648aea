"""Instances, nets, drivers, read and write sets, orders: what Python finds in a design from the rules of the language.

It was written from those rules, and not from what `show_design` prints. `Circuit` takes the top component of a design that
was run with the stand-in for `pymtl3`, and the trees of its text. `Fault` has the number and the detail of a refusal.
"""

from collections import deque
from functools import cached_property

from pymtl3 import Part
from python_bodies import Bodies, Pick

MAX_BITS, MAX_BLOCKS, MAX_WORK, MAX_VERSIONS = 1 << 18, 4096, 1 << 24, 1 << 19


class Refusal(Exception):
    """A refusal of nets, constraints and orders: its number, name and detail."""


class Classes:
    """Classes of things that chains connect."""

    def __init__(self):
        self.root = {}

    def find(self, thing):
        while (above := self.root.get(thing, thing)) != thing:
            self.root[thing] = self.root.get(above, above)
            thing = above
        return thing

    def join(self, a, b):
        a, b = self.find(a), self.find(b)
        if a != b:
            self.root[max(a, b)] = min(a, b)


class Reach:
    """What a block may read and write on some path, with the methods that it calls put in, and how many nodes it has."""

    def __init__(self, circuit):
        self.circuit = circuit
        self.reads, self.writes, self.calls, self.nodes = set(), set(), set(), 0

    def parts(self, into, parts):
        for part in parts:
            into.update(self.circuit.net_of[bit] for bit in self.circuit.bits(part))

    def expression(self, e):
        match e.what, e.parts:
            case "get", (part,):
                self.nodes += 1
                self.parts(self.reads, [part])
            case "pick", (index, parts):
                self.nodes += 1 + len(parts)
                self.parts(self.reads, parts)
                self.expression(index)
            case ("number" | "len"), (state,):
                self.nodes += 1
                self.reads.add(self.circuit.state_number(state))
            case "item", (item,):
                self.nodes += 1
                self.reads.add(self.circuit.state_number(item.state))
            case "ready", (callee,):
                self.nodes += 1
                method = self.circuit.method_of(callee)
                guard = self.circuit.typed_method(method).guard
                if guard is not None:
                    self.expression(guard)
            case ("const" | "temp"), _:
                self.nodes += 1
            case ("zext" | "sext" | "trunc"), (a, _):
                self.nodes += 1
                self.expression(a)
            case "fold", (_, a):
                self.nodes += 1
                self.expression(a)
            case "binary", (_, a, b):
                self.nodes += 1
                self.expression(a)
                self.expression(b)
            case _, parts:
                self.nodes += 1
                for part in parts:
                    self.expression(part)

    def statements(self, statements):
        for statement in statements:
            self.nodes += 1
            self.statement(statement)
        return self

    def statement(self, statement):
        match statement:
            case ("set", Part() as part, e):
                self.expression(e)
                self.parts(self.writes, [part])
            case ("set", Pick(index, parts), e):
                self.expression(index)
                self.expression(e)
                self.nodes += len(parts)
                self.parts(self.writes, parts)
            case ("temp", _, e):
                self.expression(e)
            case ("number", state, e):
                self.expression(e)
                self.writes.add(self.circuit.state_number(state))
            case ["change", _, change, *values]:
                for value in values:
                    self.expression(value)
                self.writes.add(self.circuit.state_number(change.state))
            case ["call", _, callee, values]:
                for value in values:
                    self.expression(value)
                self.method(self.circuit.method_of(callee))
            case ("if", test, then, otherwise):
                self.expression(test)
                self.statements(then)
                self.statements(otherwise)

    def method(self, callee):
        self.calls.add(callee)
        typed = self.circuit.typed_method(callee)
        self.statements(typed.statements)
        if typed.answer is not None:
            self.expression(typed.answer)


class Circuit:
    def __init__(self, top, trees):
        self.top = top
        self.instances, self.paths = [], {}
        self.first_bit, self.first_state = {}, {}
        self.bit_count = self.state_count = 0
        self.signal_of_bit = []
        self.bodies = {}
        self.number(top, "s")
        if self.bit_count > MAX_BITS:
            raise Refusal(44, "TooManyBits", str(self.bit_count))
        for instance in self.instances:
            self.bodies[instance] = Bodies(instance, trees)

    def number(self, instance, path):
        self.instances.append(instance)
        self.paths[instance] = path
        for signal in instance._signals:
            self.first_bit[signal] = self.bit_count
            self.bit_count += signal._kind.nbits
            self.signal_of_bit += [signal] * signal._kind.nbits
        for state in instance._states:
            self.first_state[state] = self.state_count
            self.state_count += 1
        for child, name in instance._children.items():
            self.number(child, f"{path}.{name}")

    def bits(self, part):
        first = self.first_bit[part._signal] + part._low
        return range(first, first + part._kind.nbits)

    def bit_name(self, bit):
        signal = self.signal_of_bit[bit]
        return f"{self.paths[signal._owner]}.{signal._name} bit {bit - self.first_bit[signal]}"

    # ---- nets and drivers

    def joined_bits(self, instance):
        for _, a, b, _ in instance._joins:
            yield from zip(self.bits(a), self.bits(b))
        for child in instance._children:
            yield self.first_bit[instance._values["reset"]], self.first_bit[child._values["reset"]]

    @cached_property
    def nets(self):
        classes = Classes()
        for instance in self.instances:
            for a, b in self.joined_bits(instance):
                classes.join(a, b)
        return classes

    @cached_property
    def net_of(self):
        numbers = {}
        return [numbers.setdefault(self.nets.find(bit), len(numbers)) for bit in range(self.bit_count)]

    @cached_property
    def net_count(self):
        return max(self.net_of) + 1

    def written(self, instance, block):
        """The flat bits that a block may write by itself."""
        found = set()
        stack = list(self.bodies[instance].blocks[block.name][1])
        while stack:
            match stack.pop():
                case ("set", Part() as part, _):
                    found.update(self.bits(part))
                case ("set", Pick(_, parts), _):
                    for part in parts:
                        found.update(self.bits(part))
                case ("if", _, then, otherwise):
                    stack += then + otherwise
        return found

    def is_source(self, instance, part):
        """Whether a part is an own input, or a child's output."""
        return part._signal._role == ("input" if part._signal._owner is instance else "output")

    def check_connections(self):
        """40, then 41, by the first kind and line."""
        by_kind = {}
        for instance in self.instances:
            by_kind.setdefault(instance._number, instance)
        lines = []
        for number in sorted(by_kind):
            instance = by_kind[number]
            bad = [line for line, a, b, _ in instance._joins
                   if self.is_source(instance, a) and self.is_source(instance, b)]
            bad += [line for line, part, _ in instance._ties if self.is_source(instance, part)]
            lines += [sorted(bad)]
        for bad in lines:
            if bad:
                raise Refusal(40, "BadDirection", f"line {bad[0]}")
        for number in sorted(by_kind):
            instance = by_kind[number]
            bad = [line for line, *_, equal in instance._joins if not equal] + instance._mismatched
            bad += [line for line, _, value in instance._ties if value is None]
            bad += [line for line, a, b in instance._binds if a.types() != b.types()]
            if bad:
                raise Refusal(41, "JoinMismatch", f"line {min(bad)}")

    def local_drivers(self, instance):
        """The local drivers of an instance, each as the bit that it drives."""
        for signal in instance._signals:
            if signal._role == "input":
                yield from self.bits(signal)
        for child in instance._children:
            for signal in child._signals:
                if signal._role == "output":
                    yield from self.bits(signal)
        for _, part, _ in instance._ties:
            yield from self.bits(part)
        for block in instance._blocks:
            yield from self.written(instance, block)

    def check_drivers(self):
        twice = []
        driven = set(self.net_of[bit] for signal in self.top._signals if signal._role == "input"
                     for bit in self.bits(signal))
        for instance in self.instances:
            local = Classes()
            for a, b in self.joined_bits(instance):
                local.join(a, b)
            members, count = {}, {}
            for signal in [*instance._signals, *(s for child in instance._children for s in child._signals)]:
                for bit in self.bits(signal):
                    root = local.find(bit)
                    members[root] = min(bit, members.get(root, bit))
            for bit in self.local_drivers(instance):
                root = local.find(bit)
                count[root] = count.get(root, 0) + 1
            twice += [members[root] for root, drivers in count.items() if drivers > 1]
            for _, part, _ in instance._ties:
                driven.update(self.net_of[bit] for bit in self.bits(part))
            for block in instance._blocks:
                driven.update(self.net_of[bit] for bit in self.written(instance, block))
        if twice:
            raise Refusal(42, "MultiWriter", self.bit_name(min(twice)))
        sizes = {}
        for bit in range(self.bit_count):
            sizes.setdefault(self.net_of[bit], []).append(bit)
        undriven = [bits[0] for net, bits in sizes.items() if len(bits) > 1 and net not in driven]
        if undriven:
            raise Refusal(43, "NoWriter", self.bit_name(min(undriven)))

    # ---- methods

    @cached_property
    def chains(self):
        chains, order = Classes(), {}
        self.callees = {}
        for instance in self.instances:
            for _, a, b in instance._binds:
                for callee in (a, b):
                    order.setdefault(id(callee), callee)
                chains.join(id(a), id(b))
        self.callees = order
        return chains

    def methods_of(self, callee):
        if not callee.is_port:
            return [callee]
        root = self.chains.find(id(callee))
        return [c for c in self.callees.values() if not c.is_port and self.chains.find(id(c)) == root]

    def method_of(self, callee):
        return self.methods_of(callee)[0]

    def typed_method(self, method):
        return self.bodies[method.owner].methods[method.name]

    def state_number(self, state):
        return self.net_count + self.first_state[state]

    def check_callers(self):
        for number, name, is_bad in [(45, "NoCallee", lambda n: n == 0), (46, "TwoCallees", lambda n: n > 1)]:
            for instance in self.instances:
                for caller in instance._callers:
                    if is_bad(len(self.methods_of(caller))):
                        raise Refusal(number, name, f"{self.paths[instance]}.{caller.name}")

    def check_method_cycles(self):
        for instance in self.instances:
            for method in instance._methods.values():
                for start, next_of in [(method, self.called), (method, self.asked)]:
                    if self.leads_to_itself(start, next_of):
                        raise Refusal(47, "MethodCycle", f"{self.paths[instance]}.{method.name}")

    def leads_to_itself(self, start, next_of):
        seen, stack = set(), [start]
        while stack:
            for found in next_of(stack.pop()):
                if found is start:
                    return True
                if id(found) not in seen:
                    seen.add(id(found))
                    stack.append(found)
        return False

    def called(self, method):
        found, stack = [], list(self.typed_method(method).statements)
        while stack:
            match stack.pop():
                case ["call", _, callee, _]:
                    found.append(self.method_of(callee))
                case ("if", _, then, otherwise):
                    stack += then + otherwise
        return found

    def asked(self, method):
        guard = self.typed_method(method).guard
        found, stack = [], [] if guard is None else [guard]
        while stack:
            e = stack.pop()
            if e.what == "ready":
                found.append(self.method_of(e.parts[0]))
            stack += [part for part in e.parts if hasattr(part, "what")]
        return found

    def check_nets(self):
        self.check_connections()
        self.check_drivers()
        self.check_callers()
        self.check_method_cycles()
        if self.work > MAX_WORK:
            raise Refusal(48, "TooMuchWork", str(self.work))

    # ---- blocks

    def flat_blocks(self, sorts):
        return [(instance, block) for instance in self.instances for block in instance._blocks if block.sort in sorts]

    @cached_property
    def scheduled(self):
        return self.flat_blocks(("update", "update_once"))

    @cached_property
    def edge_blocks(self):
        return self.flat_blocks(("update_ff",))

    def reach(self, instance, block):
        return Reach(self).statements(self.bodies[instance].blocks[block.name][1])

    @cached_property
    def reaches(self):
        return [self.reach(*entry) for entry in self.scheduled]

    @cached_property
    def work(self):
        return sum(reach.nodes for reach in self.reaches) + sum(self.reach(*e).nodes for e in self.edge_blocks)

    def block_name(self, number):
        instance, block = self.scheduled[number]
        return f"{self.paths[instance]}.{block.name}"

    # ---- constraints and orders

    def blocks_of(self, instance, term):
        match term.word:
            case "U":
                return {n for n, entry in enumerate(self.scheduled) if entry == (instance, term.thing)}
            case "RD" | "WR":
                nets = {self.net_of[bit] for bit in self.bits(term.thing)}
                return {n for n, reach in enumerate(self.reaches)
                        if nets & (reach.reads if term.word == "RD" else reach.writes)}
            case "M":
                method = self.method_of(term.thing)
                return {n for n, reach in enumerate(self.reaches) if method in reach.calls}

    def check_constraints(self):
        blocks = len(self.scheduled) + len(self.edge_blocks)
        if blocks > MAX_BLOCKS:
            raise Refusal(50, "TooManyBlocks", str(blocks))
        for instance in sorted(self.instances, key=lambda i: i._number):
            bad = [line for line, rule in instance._rules if "wrong" in (rule.before.word, rule.after.word)]
            if bad:
                raise Refusal(51, "UnknownTerm", f"line {min(bad)}")

    @cached_property
    def explicit(self):
        edges = set()
        for instance in self.instances:
            for _, rule in instance._rules:
                for a in self.blocks_of(instance, rule.before):
                    edges.update((a, b) for b in self.blocks_of(instance, rule.after) if a != b)
        return edges

    @cached_property
    def before(self):
        edges = set(self.explicit)
        for a, one in enumerate(self.reaches):
            for b, other in enumerate(self.reaches):
                touched = {net for net in one.writes & other.reads if net < self.net_count}
                if a != b and touched and (b, a) not in self.explicit:
                    edges.add((a, b))
        return edges

    @cached_property
    def after(self):
        return [sorted(b for a, b in self.before if a == n) for n in range(len(self.scheduled))]

    def conflicts(self, a):
        one = self.reaches[a]
        return [b for b in range(a + 1, len(self.scheduled))
                if one.writes & (self.reaches[b].writes | self.reaches[b].reads) or one.reads & self.reaches[b].writes]

    def reported_cycle(self):
        """The shortest cycle through the least block that is on one, and of these the least list."""
        for start in range(len(self.scheduled)):
            back = {start: 0}  # of each block, how far it is from there to the start
            queue = deque([start])
            while queue:
                block = queue.popleft()
                for a, b in self.before:
                    if b == block and a not in back:
                        back[a] = back[block] + 1
                        queue.append(a)
            steps = [back[b] for b in self.after[start] if b in back]
            if not steps:
                continue
            cycle, left = [start], min(steps)
            while left:
                cycle.append(next(b for b in self.after[cycle[-1]] if back.get(b) == left))
                left -= 1
            return cycle
        return None

    @cached_property
    def order(self):
        order, left = [], set(range(len(self.scheduled)))
        while left:
            block = min(b for b in left if not any((a, b) in self.before for a in left))
            order.append(block)
            left.remove(block)
        return order

    def reachable(self, start):
        seen, stack = set(), [start]
        while stack:
            for b in self.after[stack.pop()]:
                if b not in seen:
                    seen.add(b)
                    stack.append(b)
        return seen

    def check_orders(self):
        cycle = self.reported_cycle()
        if cycle is not None:
            raise Refusal(53, "Cycle", " ".join(map(self.block_name, cycle)))
        behind = [self.reachable(a) for a in range(len(self.scheduled))]
        for a in range(len(self.scheduled)):
            for b in self.conflicts(a):
                if b not in behind[a] and a not in behind[b]:
                    raise Refusal(52, "UnorderedPair", f"{self.block_name(a)} {self.block_name(b)}")

    def check_all(self):
        self.check_nets()
        self.check_constraints()
        self.check_orders()
