"""Simulates each design of examples/designs with random vectors, and checks that it does what its comment says.

usage: python_designs.py [SEED [CYCLES]]
       python_designs.py --traces          checks the traces of examples/ too, which Python's simulation must give

A check takes the rows of a trace, each with the values of the ports by name, and yields what is wrong. Designs that differ
are printed, and the exit status is then 1.
"""

import binascii
import math
import random
import re
import sys
from collections import deque
from pathlib import Path

from python_parts import vectors
from python_simulates import circuit_of, trace

EXAMPLES = Path(__file__).resolve().parent.parent / "examples"
SEED, CYCLES = 1, 400


def signed(number, width):
    return number - (1 << width) if number >> (width - 1) else number


def gcd(rows):
    asked = deque()
    for row in rows:
        if row["reset"]:
            continue
        if row["recv.val"] and row["recv.rdy"]:
            asked.append(math.gcd(row["recv.msg"] >> 16, row["recv.msg"] & 0xFFFF))
        if row["send.val"] and row["send.msg"] != asked[0]:
            yield row, asked[0]
        if row["send.val"] and row["send.rdy"]:
            asked.popleft()


def alu(rows):
    held = None
    for row in rows:
        a, b, shift = row["a"], row["b"], row["b"] % 16
        sa, sb = signed(a, 16), signed(b, 16)
        results = [
            a + b, a - b, a & b, a | b, a ^ b, a << shift, a >> shift, sa >> shift, int(sa < sb), int(a < b), b,
        ]
        out = results[row["op"]] % 65536 if row["op"] < len(results) else 0
        flags = (out == 0) << 3 | (out >> 15) << 2
        if row["op"] == 0:
            flags |= (a + b > 65535) << 1 | (not -32768 <= sa + sb < 32768)
        if row["op"] == 1:
            flags |= (a >= b) << 1 | (not -32768 <= sa - sb < 32768)
        if (row["out"], row["flags"]) != (out, flags) or row["held"] != (out if held is None else held):
            if held is not None or (row["out"], row["flags"]) != (out, flags):
                yield row, (out, flags, held)
        held = 0 if row["reset"] else out


def traffic_light(rows):
    red, last = 0, None
    for row in rows:
        lights = (row["main"], row["side"])
        if lights.count(red) == 0 or (row["walks"] and lights != (red, red)):
            yield row, "somebody meets"
        if last and lights[0] == red and last[0] == 2:
            yield row, "no yellow"
        last = lights if not row["reset"] else None
    if not all(any(row[light] == 2 for row in rows) for light in ("main", "side")):
        yield rows[-1], "a road never gets green"
    if not any(row["walks"] for row in rows):
        yield rows[-1], "nobody walks"


def uart(rows):
    sent, got = [], []
    for row in rows:
        if not row["reset"] and row["val"] and row["rdy"]:
            sent.append(row["msg"])
        if row["got_val"]:
            got.append(row["got_msg"])
    if got != sent[: len(got)] or len(sent) - len(got) > 1 or len(got) < 10:
        yield rows[-1], (sent, got)


def fir(rows):
    taps = [0] * 7
    for row in rows:
        out = sum(c * signed(t, 8) for c, t in zip([1, -2, 3, 5, 3, -2, 1], taps)) % (1 << 14)
        if row["out"] != out and row["cycle"] > 0:
            yield row, out
        if row["reset"]:
            taps = [0] * 7
        elif row["in_val"]:
            taps = [row["in_"], *taps[:-1]]


def systolic(rows):
    """Each sum has the products of what came in since the last `clear`, later by the cell's distance."""
    n = 3
    lefts, aboves = [], []
    sums = [[0] * n for _ in range(n)]
    for row in rows:
        lefts.append([row[f"rows[{i}]"] for i in range(n)])
        aboves.append([row[f"cols[{i}]"] for i in range(n)])
        for i in range(n):
            for j in range(n):
                if row[f"sums[{i * n + j}]"] != sums[i][j]:
                    yield row, (i, j, sums[i][j])
                at = len(lefts) - 1 - i - j
                product = lefts[at][i] * aboves[at][j] if at >= 0 else 0
                sums[i][j] = 0 if row["reset"] or row["clear"] else (sums[i][j] + product) % (1 << 18)


def crossbar(rows):
    under_way = {}
    for row in rows:
        if row["reset"]:
            continue
        for i in range(4):
            if row[f"send[{i}].val"] and row[f"send[{i}].rdy"]:
                packet = row[f"send[{i}].msg"]
                inputs = [key for key in under_way if key[1] == i and under_way[key][:1] == [packet]]
                if packet >> 10 != i or not inputs:
                    yield row, (i, packet, under_way)
                    return
                under_way[inputs[0]].pop(0)
            if row[f"recv[{i}].val"] and row[f"recv[{i}].rdy"]:
                packet = row[f"recv[{i}].msg"]
                under_way.setdefault((i, packet >> 10), []).append(packet)
        if sum(map(len, under_way.values())) > 4:
            yield row, "more packets under way than there are places"
            return


def crc(rows):
    read = b""
    for row in rows:
        if row["cycle"] > 0 and row["crc"] != binascii.crc_hqx(read, 0xFFFF):
            yield row, read
        if row["cycle"] > 0 and row["rdy"] and not row["equal"]:
            yield row, "the two differ"
        if row["reset"] or row["clear"]:
            read = b""
        elif row["val"] and row["rdy"]:
            read += bytes([row["in_"]])


def sorter(rows):
    for before, row in zip(rows, rows[5:]):
        expected = sorted(before[f"in_[{i}]"] for i in range(5))
        if [row[f"out[{i}]"] for i in range(5)] != expected:
            yield row, expected
        if row["out_val"] != (before["in_val"] and not before["reset"]):
            yield row, "out_val"


def pwm(rows):
    enable, period, duties, count, held = 0, 255, [0] * 3, 0, [0] * 3
    for row in rows[1:]:
        out = sum((enable >> i & 1 and count < held[i]) << i for i in range(3))
        if row["out"] != out:
            yield row, out
        wraps = count >= period
        held = [d if wraps or not enable >> i & 1 else h for i, (d, h) in enumerate(zip(duties, held))]
        count = 0 if wraps or row["reset"] else count + 1
        addr, data = row["write"] >> 8, row["write"] & 255
        if row["reset"]:
            enable, period, duties, held = 0, 255, [0] * 3, [0] * 3
        elif row["write_val"]:
            enable = data % 8 if addr == 0 else enable
            period = data if addr == 1 else period
            duties = [data if addr == 4 + i else d for i, d in enumerate(duties)]


def processor(rows):
    """It reads two numbers, one a cycle, multiplies them until it gives the product out, and reads again."""
    rows = [row for row in rows if not row["reset"]]
    start = 0
    for at, row in enumerate(rows):
        if row["out_val"]:
            product = rows[start]["in_"] * rows[start + 1]["in_"] % 65536
            if row["out"] != product:
                yield row, product
            start = at + 1
    if start == 0:
        yield rows[-1], "no product"


def credits(rows):
    items, credit, number, total = deque(), 3, 0, 0
    for row in rows:
        # the consumer is first in each cycle
        got = bool(row["recv"] and items)
        message = items.popleft() if got else 0
        credit += got
        sent = bool(row["send"] and credit)
        if sent:
            items.append(number)
            credit -= 1
        if (row["got"], row["sent"]) != (got, sent) or row["sum"] != total:
            yield row, (got, sent, total)
        number = 0 if row["reset"] else (number + sent) % 256
        total = 0 if row["reset"] else (total + message) % 256


CHECKS = {
    "Alu": alu, "Crc": crc, "Credits": credits, "Crossbar": crossbar, "Fir": fir, "Gcd": gcd, "Loopback": uart,
    "Processor": processor, "Pwm": pwm, "Sorter": sorter, "Systolic": systolic, "TrafficLight": traffic_light,
}


def rows_of(lines):
    names = lines[0].split()
    return [{n: int(w, 10 if n == "cycle" else 16) for n, w in zip(names, line.split())} for line in lines[1:]]


def check_random(file, seed, cycles):
    """The differences of a design from what it should do."""
    top = re.findall(r"^class ([A-Za-z_0-9]+)\( *Component *\)", file.read_text(), flags=re.MULTILINE)[-1]
    circuit = circuit_of(file.read_text(), top, [])
    chance = random.Random(seed)
    lines = vectors(circuit, chance, cycles)
    if top == "Gcd":  # small numbers, so that there are results
        lines[1:] = [" ".join([str(chance.randrange(64) << 16 | chance.randrange(1, 64)), *line.split()[1:]])
                     for line in lines[1:]]
    if top == "Pwm":  # short periods and few changes
        lines[1:] = [f"{chance.randrange(8) << 8 | chance.randrange(12)} {int(chance.random() < 0.05)}"
                     for _ in lines[1:]]
    rows = rows_of(list(trace(circuit, lines)))
    return [f"{file.name} cycle {row['cycle']}: {what} {row}" for row, what in CHECKS[top](rows)][:3]


def check_trace(file):
    """Whether Python gives the trace that stands beside a design: `NAME.trace` of `NAME.vec`, whose top class is the
    file's last."""
    top = re.findall(r"^class ([A-Za-z_0-9]+)\( *Component *\)", file.read_text(), flags=re.MULTILINE)[-1]
    vec, expected = file.with_suffix(".vec"), file.with_suffix(".trace")
    found = list(trace(circuit_of(file.read_text(), top, []), vec.read_text().splitlines()))
    return [] if "\n".join(found) + "\n" == expected.read_text() else [f"{expected}: Python finds another trace"]


def main(words):
    traces = "--traces" in words
    numbers = [int(word) for word in words if word != "--traces"]
    seed, cycles = (*numbers, *(SEED, CYCLES)[len(numbers):])
    files = sorted((EXAMPLES / "designs").glob("*.py"))
    found = [difference for file in files for difference in check_random(file, seed, cycles)]
    checked = 0
    for file in sorted(EXAMPLES.rglob("*.py")) if traces else []:
        if file.with_suffix(".trace").exists():
            checked += 1
            found += check_trace(file)
    print("\n".join(found + [f"simulated {len(files)} designs and {checked} traces, {len(found)} differences"]))
    sys.exit(1 if found else 0)


if __name__ == "__main__":
    main(sys.argv[1:])
