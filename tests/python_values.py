#!/usr/bin/env python3
"""Answers the rows of crates/show_values by Python's own integers.

To write the expected output again:
    python3 tests/python_values.py < crates/show_values/stdin > crates/show_values/stdout
"""
import re
import sys

BINARY = re.compile(r"(-?\d+) (or|and|==|!=|<=|>=|<<|>>|<|>|\||\^|&|\+|-|\*\*|\*|//|%) (-?\d+)$")
UNARY = re.compile(r"(-|\+|~|not) (-?\d+)$")
CLOG2 = re.compile(r"clog2\( (-?\d+) \)$")
RANGE = re.compile(r"range\( (-?\d+), (-?\d+), (-?\d+) \)$")
SHOWN = 8


def fits(number):
    return -(2**63) <= number < 2**63


def shown(number):
    return str(number) if fits(number) else "none"


def between(left, sign, right):
    if sign in ("//", "%") and right == 0 or sign == "**" and right < 0:
        return "none"
    if sign in ("<<", ">>") and not 0 <= right <= 63:
        return "none"
    if sign == "**" and right > 64 and abs(left) > 1:
        return "none"  # it doesn't fit, and Python would take long
    return shown(int(eval(f"({left}) {sign} ({right})")))


def logarithm(number):
    return "none" if number < 1 else str((number - 1).bit_length())


def integers(start, stop, step):
    if step == 0:
        return "none"
    found = range(start, stop, step)
    more = [".."] if len(range(start, stop, step)[SHOWN : SHOWN + 1]) else []
    return " ".join([str(number) for number in found[:SHOWN]] + more)


def answer(row):
    if match := BINARY.match(row):
        left, sign, right = match.groups()
        return between(int(left), sign, int(right)) if fits(int(left)) and fits(int(right)) else "?"
    if match := UNARY.match(row):
        return shown(int(eval(f"{match[1]} ({match[2]})")))
    if match := CLOG2.match(row):
        return logarithm(int(match[1]))
    if match := RANGE.match(row):
        return integers(*map(int, match.groups()))
    return "?"


for line in sys.stdin:
    row = line.rstrip("\n")
    print(row if row == "" or row.startswith("#") else f"{row} = {answer(row)}".rstrip())
