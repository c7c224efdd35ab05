#!/usr/bin/env python3
"""Writes an automaton, or a certificate, for timing inclusions: inclusion_shapes.py SHAPE NUMBERS..

    random N SEED    N states over a:0 b:0 f:2, of density 2: a left side leads to two states on average, which a
                     fixed generator draws; every second state is final
    red_black N      red-black trees whose paths have N black nodes at most, leaves aside
    coloured         trees over the same symbols in which no red node has a red child
    heap N           trees of height N at most whose left subtree is as high as the right one, or one higher
    height N         all trees of height N at most over the same symbols; a leaf leads to each state
    words            all words, a leaf under two unary symbols
    letters N        the same words, by states that each keep one of the last N letters: 2^N sets of states,
                     none in another one. A mark for each state, which no word has, keeps them apart in a simulation
    sums N           binary trees over two leaves, by N states: to each lead rules from the one before it and an
                     earlier one
    parity           all trees over the same symbols, by the parity of the leaves of one kind
    sums_in_parity N the certificate of that inclusion, with two pairs for each of the N states
"""
import sys


def numbers(seed):
    """A linear congruential generator of 64 bits; its upper half."""
    x = seed
    while True:
        x = (x * 6364136223846793005 + 1442695040888963407) % 2**64
        yield x >> 32


def random(n, seed):
    draw = numbers(seed)
    names = [f"q{i}" for i in range(n)]

    def drawn(count, left):
        rules = {}
        while len(rules) < count:
            rules[f"{left()} -> {names[next(draw) % n]}"] = True
        return list(rules)

    def pair():
        return f"f({names[next(draw) % n]},{names[next(draw) % n]})"

    rules = drawn(2, lambda: "a") + drawn(2, lambda: "b") + drawn(2 * n * n, pair)
    return ["a:0", "b:0", "f:2"], names, names[::2], rules


def red_black(n):
    rules = ["nil -> b0"]
    for i in range(n + 1):
        rules.append(f"red(b{i},b{i}) -> r{i}")
        if i < n:
            rules += [f"black({x}{i},{y}{i}) -> b{i + 1}" for x in "rb" for y in "rb"]
    blacks = [f"b{i}" for i in range(n + 1)]
    return ["nil:0", "red:2", "black:2"], blacks + [f"r{i}" for i in range(n + 1)], blacks, rules


def coloured():
    rules = ["nil -> b", "red(b,b) -> r"] + [f"black({x},{y}) -> b" for x in "rb" for y in "rb"]
    return ["nil:0", "red:2", "black:2"], ["b", "r"], ["b", "r"], rules


def heap(n):
    rules = ["nil -> h0"]
    for i in range(n):
        rules.append(f"node(h{i},h{i}) -> h{i + 1}")
        if i > 0:
            rules.append(f"node(h{i},h{i - 1}) -> h{i + 1}")
    names = [f"h{i}" for i in range(n + 1)]
    return ["nil:0", "node:2"], names, names, rules


def height(n):
    rules = [f"nil -> q{i}" for i in range(n + 1)] + [f"node(q{i},q{i}) -> q{i + 1}" for i in range(n)]
    return ["nil:0", "node:2"], [f"q{i}" for i in range(n + 1)], [f"q{n}"], rules


def words():
    return ["e:0", "g:1", "h:1"], ["u"], ["u"], ["e -> u", "g(u) -> u", "h(u) -> u"]


def letters(n):
    kept = [f"{x}{i}" for i in range(n) for x in "gh"]
    symbols = ["e:0", "g:1", "h:1"] + [f"mark_{q}:1" for q in kept]
    rules = [f"e -> g{i}" for i in range(n)]
    for letter in "gh":
        rules += [f"{letter}({x}0) -> {letter}0" for x in "gh"]
        rules += [f"{letter}({x}{i}) -> {x}{i + 1}" for i in range(n - 1) for x in "gh"]
    rules += [f"mark_{q}({q}) -> marked" for q in kept]
    return symbols, kept + ["marked"], ["g0", "h0", "marked"], rules


def sums(n):
    rules = ["a -> q0", "b -> q0"]
    for i in range(n - 1):
        rules += [f"f(q{i},q{j}) -> q{i + 1}" for j in sorted({i, i // 2, i // 3, 0})]
    names = [f"q{i}" for i in range(n)]
    return ["a:0", "b:0", "f:2"], names, names[-1:], rules


def parity():
    rules = ["a -> s0", "b -> s1"] + [f"f(s{i},s{j}) -> s{i ^ j}" for i in (0, 1) for j in (0, 1)]
    return ["a:0", "b:0", "f:2"], ["s0", "s1"], ["s0", "s1"], rules


def sums_in_parity(n):
    lines = ["included", "certificate 1 up", "left identity", "right identity", f"pairs {2 * n}"]
    return lines + [f"q{i} : s{j}" for i in range(n) for j in (0, 1)]


def automaton_of(title, symbols, states, finals, rules):
    head = ["Ops " + " ".join(symbols), f"Automaton {title}", "States " + " ".join(states)]
    return head + ["Final States " + " ".join(finals), "Transitions"] + rules


def main():
    shape, given = sys.argv[1], [int(word) for word in sys.argv[2:]]
    if shape == "sums_in_parity":
        lines = sums_in_parity(*given)
    else:
        shapes = [random, red_black, coloured, heap, height, words, letters, sums, parity]
        make = {maker.__name__: maker for maker in shapes}[shape]
        lines = automaton_of(shape, *make(*given))
    sys.stdout.write("".join(line + "\n" for line in lines))


main()
