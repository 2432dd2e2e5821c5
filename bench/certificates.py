#!/usr/bin/env python3
"""Texts with large certificates.

usage: bench/certificates.py >crates/covern_cases/data/large    (writes that file of cases again)

Each text is a note that states hypotheses and a goal, with one certificate. A certificate in a text has at most 10,000 nodes and the
height 64, the expressions inside not counted, an expression at most 1,000 nodes, and a note at most 64 predicates.
"""
import sys
from typing import NamedTuple

MOST_NODES, MOST_HEIGHT = 10_000, 64
SIZES = (2_499, 4_999, 9_999)


def inside(cert):
    """A certificate as a part of another."""
    return cert if " " not in cert else f"({cert})"


def row(name, hypotheses, goal, cert):
    """A named text. The goal stands where the type of a variable would, so that each predicate is a hypothesis."""
    state = f"{', '.join(hypotheses)}; x: {goal}"
    return f"//// {name}\nthread t {{ note {{ {state} }} by {{ 1: {cert} }}; }}\n"


def tree(nodes, join, leaf):
    """A tree with an odd number of nodes, as low as can be: two trees joined at each node that is no leaf."""
    if nodes == 1:
        return leaf
    half = (nodes - 1) // 2
    left = half if half % 2 else half + 1
    return f"{join} {inside(tree(left, join, leaf))} {inside(tree(nodes - 1 - left, join, leaf))}"


def highest(join, leaf):
    """A certificate with as many nodes and as high as a text may have: below an axiom, joins with trees to their left."""
    heights = range(2, MOST_HEIGHT)
    sizes = [min(159, 2 ** (MOST_HEIGHT - height) - 1) for height in heights]
    sizes[0] = MOST_NODES - 2 - len(sizes) - sum(sizes[1:])
    cert = leaf
    for size in reversed(sizes):
        cert = f"{join} {inside(tree(size, join, leaf))} {inside(cert)}"
    return f"axiom 14 (a) {inside(cert)}"


def chains(count, length, join, leaf):
    """A tree of so many chains of joins, each so long; the left child of a join in a chain is a leaf. With the number of nodes."""
    chain = leaf
    for _ in range(length):
        chain = f"{join} {leaf} {inside(chain)}"
    level = [chain] * count
    while len(level) > 1:
        joined = [f"{join} {inside(left)} {inside(right)}" for left, right in zip(level[::2], level[1::2])]
        level = joined + level[len(joined) * 2:]
    return level[0], count * (2 * length + 1) + count - 1


def large(leaves, last):
    """A balanced sum of so many leaves, each of which is `a` but the last. It has twice as many nodes, less one."""
    if leaves == 1:
        return last
    left = leaves // 2
    return f"({large(left, 'a')} + {large(leaves - left, last)})"


class Measured(NamedTuple):
    """A text to be measured."""

    name: str
    nodes: int  # that a check looks at
    text: str
    times: int  # how often it is checked
    is_double: bool = False  # twice the nodes of the one before
    is_small: bool = True  # the expressions fit into a processor's cache


def measured():
    """The texts that are measured."""
    for count, length in (25, 50), (49, 50), (98, 50):
        cert, nodes = chains(count, length, "have [a == a]", "refl")
        yield Measured(f"`have`, {count} chains of {length}", nodes, row("have", ["a"], "a == a", cert), 200, count > 25)
    for nodes in SIZES:
        cert = tree(nodes, "split [a == b]", "refl")
        yield Measured("`split`, a tree", nodes, row("split", ["a"], "a == a", cert), 100, nodes > SIZES[0])
    either = f"{large(250, 'b')} || {large(250, 'c')}"
    for nodes in SIZES:
        cert = tree(nodes, "cases 1", "calc")
        yield Measured("`cases` of 999 nodes, a tree", nodes, row("cases", [either], "1", cert), 200, nodes > SIZES[0])
    for count, leaves in (64, 125), (64, 250), (64, 500), (16, 500), (32, 500):
        hypotheses = [large(leaves, f"x{i}") for i in range(count)]
        name = f"`auto`, {count} hypotheses of {2 * leaves - 1} nodes"
        text = row("auto", hypotheses, hypotheses[-1], "auto")
        yield Measured(name, count * (2 * leaves - 1), text, 200, (count, leaves) not in ((64, 125), (16, 500)), False)
    hypotheses = [large(500, f"x{i}") for i in range(64)]
    yield Measured("`hyp 64` of 999 nodes", 999, row("hyp", hypotheses, hypotheses[-1], "hyp 64"), 20_000)


def main():
    sys.stdout.write("// Made by bench/certificates.py.\n")
    sys.stdout.write(row("10,000 nodes, height 64", [], "1", highest("split [a]", "calc")))
    sys.stdout.write("% certificates\nvalid\n\n")


if __name__ == "__main__":
    main()
