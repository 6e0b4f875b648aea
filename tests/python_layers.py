"""Prints a layer of a design as `show_design` does, from what Python finds in it.

usage: python_layers.py LAYER FILE TOP [name=value ..]      LAYER is kinds, bodies, nets or orders
       python_layers.py --compare PROGRAM LAYER [SEED [COUNT]]

The second compares with what PROGRAM prints: of the designs of examples/, and of COUNT designs that random_bodies.py makes
from SEED. Designs that differ are printed, and the exit status is then 1.
"""

import sys

import python_elaborates  # puts the stand-in for pymtl3 in reach
import pymtl3
import random_bodies
from python_bodies import NAMES, Bodies, Fault, Text, Trees
from python_nets import Circuit, Refusal


def with_bodies(trees):
    """The lines of all kinds with their typed bodies, and the refusal that ends them or None."""
    lines = pymtl3.text_of_design(pymtl3.notes.first_of[-1]).splitlines()[:-1]
    texts, refusal = [], None
    for component in pymtl3.notes.first_of:
        try:
            texts.append(body_lines(component, Bodies(component, trees)))
        except Fault as fault:
            return None, f"{fault.number} {NAMES[fault.number]} line {fault.line}"
    found = []
    kind = -1
    for line in lines:
        found.append(line)
        if line.startswith("kind "):
            kind += 1
        head = line.split("(")[0].strip()
        if kind >= 0 and line.startswith("  ") and head in texts[kind]:
            found.extend(texts[kind][head])
    return found, refusal


def body_lines(component, bodies):
    text = Text(component)
    found = {f"method {name}": text.method(method) for name, method in bodies.methods.items()}
    for block in component._blocks:
        found[f"{block.sort} {block.name}"] = text.block(*bodies.blocks[block.name])
    return found


def runs(numbers):
    """Numbers that rise by one, as `a-b`."""
    found = []
    for number in numbers:
        if found and found[-1][1] + 1 == number:
            found[-1][1] = number
        else:
            found.append([number, number])
    return "".join(f" {a}" if a == b else f" {a}-{b}" for a, b in found)


def net_lines(circuit):
    lines, bit, state = [], 0, 0
    for number, instance in enumerate(circuit.instances):
        lines.append(f"instance {number} {circuit.paths[instance]} kind {instance._number} bit {bit} state {state}")
        for signal in instance._signals:
            lines.append(f"  net {signal._name}{runs(circuit.net_of[b] for b in circuit.bits(signal))}")
            bit += signal._kind.nbits
        state += len(instance._states)
    return lines + [f"nets {circuit.net_count}", f"work {circuit.work}"]


def order_lines(circuit):
    lines = []
    for number, reach in enumerate(circuit.reaches):
        explicit = sorted(b for a, b in circuit.explicit if a == number)
        lines += [
            f"block {number} {circuit.block_name(number)}",
            f"  reads{runs(sorted(reach.reads))}",
            f"  writes{runs(sorted(reach.writes))}",
            f"  before{runs(circuit.after[number])}",
            f"  explicit{runs(explicit)}",
            f"  conflicts{runs(circuit.conflicts(number))}",
        ]
    return lines


def shown(layer, text, top, words):
    """What `show_design` should print of a design; None where Python finds a refusal of elaboration."""
    kinds = python_elaborates.found(text, top, words)
    if kinds is None or layer == "kinds":
        return kinds
    trees = Trees(text)
    lines, refusal = with_bodies(trees)
    if refusal is not None:
        return refusal + "\n"
    number = kinds.splitlines()[-1]
    if layer == "bodies":
        return "\n".join([*lines, number]) + "\n"
    top_component = pymtl3.notes.first_of[int(number.split()[1])]
    try:
        circuit = Circuit(top_component, trees)
        circuit.check_nets()
        if layer == "nets":
            return "\n".join(net_lines(circuit)) + "\n"
        circuit.check_constraints()
        lines = order_lines(circuit)
        circuit.check_orders()
        return "\n".join(lines + ["order " + " ".join(map(str, circuit.order))]) + "\n"
    except Refusal as refused:
        return " ".join(map(str, refused.args)) + "\n"


SEED, COUNT = 1, 400


def compare(program, layer, seed, count):
    designs = [(f"{file.name} {' '.join(words)}", file.read_text(), words[0], words[1:])
               for file, words in python_elaborates.examples()]
    designs += [(f"seed {seed} design {n}", *random_bodies.make(seed, n)) for n in range(count)]
    answers = python_elaborates.shown(program, [design[1:] for design in designs], layer)
    tally = python_elaborates.Tally()
    for (title, text, top, words), answer in zip(designs, answers):
        from_python = shown(layer, text, top, words)
        if from_python is not None and python_elaborates.REFUSAL.match(from_python.splitlines()[-1]):
            # what is printed before a refusal isn't compared
            tally.refused += 1
            from_python, answer = (part.splitlines()[-1] + "\n" for part in (from_python, answer))
        tally.compare(title, text, from_python, answer)
    print(f"{layer}: compared {tally.compared} designs, {tally.refused} of them refused, {tally.differ} differ")
    return tally.differ == 0


def main(words):
    match words:
        case ["--compare", program, layer, *numbers] if len(numbers) <= 2:
            seed, count = (*map(int, numbers), *(SEED, COUNT)[len(numbers):])
            sys.exit(0 if compare(program, layer, seed, count) else 1)
        case [layer, file, top, *words]:
            print(shown(layer, open(file).read(), top, words) or f"refused: {python_elaborates.found.error!r}", end="")
        case _:
            sys.exit(__doc__)


if __name__ == "__main__":
    main(sys.argv[1:])
