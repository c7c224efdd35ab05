#!/usr/bin/env python3
"""Writes an automaton of a fixed shape: shapes.py SHAPE N.

    chain    a leaf and a unary symbol: the tree of height i reaches state i alone, and the last is final
    cycle    the same, and the last state leads to the first, which is final: it counts modulo N
    fan      a leaf and a binary symbol: state i has the children 2i + 1 and 2i + 2, and the first is final
    doubled  the chain with each state twice, so that each is below its double in a simulation
"""
import sys


def chain(n):
    rules = ["a -> q0"] + [f"f(q{i}) -> q{i + 1}" for i in range(n - 1)]
    return ["a:0", "f:1"], n, [n - 1], rules


def cycle(n):
    symbols, count, _, rules = chain(n)
    return symbols, count, [0], rules + [f"f(q{n - 1}) -> q0"]


def fan(n):
    inner = [f"g(q{2 * i + 1},q{2 * i + 2}) -> q{i}" for i in range(n) if 2 * i + 2 < n]
    leaves = [f"a -> q{i}" for i in range(n) if 2 * i + 2 >= n]
    return ["a:0", "g:2"], n, [0], leaves + inner


def doubled(n):
    rules = ["a -> q0", "a -> q1"]
    for i in range(n // 2 - 1):
        rules += [f"f(q{2 * i + j}) -> q{2 * i + 2 + k}" for j in (0, 1) for k in (0, 1)]
    return ["a:0", "f:1"], n, [n - 2, n - 1], rules


def main():
    shapes = {"chain": chain, "cycle": cycle, "fan": fan, "doubled": doubled}
    symbols, count, finals, rules = shapes[sys.argv[1]](int(sys.argv[2]))
    out = sys.stdout
    out.write("Ops " + " ".join(symbols) + "\n")
    out.write(f"Automaton {sys.argv[1]}\n")
    out.write("States" + "".join(f" q{i}" for i in range(count)) + "\n")
    out.write("Final States" + "".join(f" q{q}" for q in finals) + "\n")
    out.write("Transitions\n")
    out.write("".join(rule + "\n" for rule in rules))


main()
