"""Simulates each part of examples/parts with random vectors, and compares it with a model of what its comment says.

usage: python_parts.py [SEED [CYCLES]]

A model is a generator: it is sent the inputs of a cycle by their names, and yields the outputs of that cycle. Parts that
differ from their models are printed, and the exit status is then 1.
"""

import random
import sys
from pathlib import Path

from python_simulates import circuit_of, trace

PARTS = Path(__file__).resolve().parent.parent / "examples" / "parts"
SEED, CYCLES = 1, 500


def counter():
    count, out = 0, {}
    while True:
        i = yield out
        wraps = i["en"] and count == 9
        out = {"count": count, "wraps": int(wraps)}
        count = 0 if i["reset"] or i["clear"] or wraps else count + i["en"]


def decoder():
    out = {}
    while True:
        i = yield out
        out = {"out": 1 << i["in_"] if i["en"] and i["in_"] < 5 else 0}


def edge_detector():
    last, out = 0, {}
    while True:
        i = yield out
        out = {"rises": i["in_"] & ~last, "falls": last & ~i["in_"]}
        last = 0 if i["reset"] else i["in_"]


def mux():
    out = {}
    while True:
        i = yield out
        out = {"out": i[f"in_[{i['sel']}]"] if i["sel"] < 3 else 0}


def priority_arbiter():
    out = {}
    while True:
        i = yield out
        out = {"grants": next((1 << k for k in range(4) if i["reqs"] >> k & 1), 0)}


def round_robin_arbiter():
    turn, out = None, {}  # before the first clock edge no place has the turn
    while True:
        i = yield out
        places = [] if turn is None else [(turn + k) % 4 for k in range(4)]
        granted = next((place for place in places if i["reqs"] >> place & 1), None)
        out = {"grants": 0 if granted is None else 1 << granted}
        if i["reset"]:
            turn = 0
        elif granted is not None:
            turn = (granted + 1) % 4


def register_file():
    regs, out = [0] * 4, {}
    while True:
        i = yield out
        out = {f"rdata[{k}]": regs[i[f"raddr[{k}]"]] for k in range(2)}
        for k in range(2):
            if i[f"wen[{k}]"]:
                regs[i[f"waddr[{k}]"]] = i[f"wdata[{k}]"]


def registers():
    plain = rst = enabled = both = 0
    out = {}
    while True:
        i = yield out
        out = {"plain": plain, "rst": rst, "enabled": enabled, "both": both}
        plain = i["in_"]
        rst = 5 if i["reset"] else i["in_"]
        enabled = i["in_"] if i["en"] else enabled
        both = 255 if i["reset"] else i["in_"] if i["en"] else both


def queue(takes_if_full, gives_if_empty):
    held, out = [], {}
    while True:
        i = yield out
        ready = len(held) < 3 or (takes_if_full and i["send.rdy"])
        valid = len(held) > 0 or (gives_if_empty and i["recv.val"])
        out = {"recv.rdy": int(ready), "send.val": int(valid)}
        if valid:
            out["send.msg"] = held[0] if held else i["recv.msg"]
        if i["recv.val"] and ready:
            held.append(i["recv.msg"])
        if valid and i["send.rdy"]:
            held.pop(0)
        if i["reset"]:
            held.clear()


def normal_queue():
    return queue(False, False)


def pipe_queue():
    return queue(True, False)


def bypass_queue():
    return queue(False, True)


MODELS = [
    bypass_queue, counter, decoder, edge_detector, mux, normal_queue, pipe_queue, priority_arbiter, register_file,
    registers, round_robin_arbiter,
]


def vectors(circuit, chance, cycles):
    inputs = [signal for signal in circuit.top._signals[1:] if signal._role == "input"]
    rows = [[chance.randrange(1 << signal._kind.nbits) for signal in inputs] for _ in range(cycles)]
    return [" ".join(signal._name for signal in inputs)] + [" ".join(map(str, row)) for row in rows]


def differences(model, lines):
    """The rows of a trace that a model contradicts."""
    names = lines[0].split()
    running = model()
    next(running)
    for line in lines[1:]:
        row = {name: int(word, 10 if name == "cycle" else 16) for name, word in zip(names, line.split())}
        for name, number in running.send(row).items():
            if row[name] != number:
                yield f"cycle {row['cycle']}: {name} is {row[name]:x}, and {number:x} by the model"


def main(words):
    seed, cycles = (*map(int, words), *(SEED, CYCLES)[len(words):])
    missing = {path.stem for path in PARTS.glob("*.py")} ^ {model.__name__ for model in MODELS}
    found = [f"{name}: no part, or no model" for name in sorted(missing)]
    for model in MODELS:
        text = (PARTS / f"{model.__name__}.py").read_text()
        circuit = circuit_of(text, "Example", [])
        lines = list(trace(circuit, vectors(circuit, random.Random(seed), cycles)))
        found += [f"{model.__name__}: {difference}" for difference in differences(model, lines)][:5]
    print("\n".join(found + [f"simulated {len(MODELS)} parts for {cycles} cycles, {len(found)} differences"]))
    sys.exit(1 if found else 0)


if __name__ == "__main__":
    main(sys.argv[1:])
