#!/usr/bin/env python3
"""Writes a large automaton: make.py STATES RULES [SEED [short]].

The symbols are a:0 b:0 f:1 g:2 h:3. Each rule is drawn by a fixed generator, so that the same
arguments give the same file; rules are distinct. Every tenth state is final. States are named q0, q1
and so on, or with `short` by numbers in base 36.
"""
import sys

SYMBOLS = [("a", 0), ("b", 0), ("f", 1), ("g", 2), ("h", 3)]


def numbers(seed):
    """A linear congruential generator of 64 bits; its upper half."""
    x = seed
    while True:
        x = (x * 6364136223846793005 + 1442695040888963407) % 2**64
        yield x >> 32


def short_name(i):
    digits = "0123456789abcdefghijklmnopqrstuvwxyz"
    name = digits[i % 36]
    while i >= 36:
        i //= 36
        name = digits[i % 36] + name
    return name


def main():
    states, rules = int(sys.argv[1]), int(sys.argv[2])
    draw = numbers(int(sys.argv[3]) if len(sys.argv) > 3 else 1)
    name_of = short_name if "short" in sys.argv[4:] else "q{}".format
    names = [name_of(i) for i in range(states)]
    out = sys.stdout
    out.write("Ops" + "".join(f" {name}:{rank}" for name, rank in SYMBOLS) + "\n")
    out.write("Automaton large\n")
    out.write("States" + "".join(f" {name}" for name in names) + "\n")
    out.write("Final States" + "".join(f" {name}" for name in names[::10]) + "\n")
    out.write("Transitions\n")
    seen = set()
    while len(seen) < rules:
        name, rank = SYMBOLS[next(draw) % len(SYMBOLS)]
        kids = tuple(next(draw) % states for _ in range(rank))
        rule = (name, kids, next(draw) % states)
        if rule in seen:
            continue
        seen.add(rule)
        left = name + ("(" + ",".join(names[k] for k in kids) + ")" if kids else "")
        out.write(f"{left} -> {names[rule[2]]}\n")


main()
