#!/usr/bin/env python3
"""Writes the example trees beside this file: mate.tree, quiet.tree, game.tree, damaged.tree. The same bytes each time."""
import sys
from pathlib import Path

sys.dont_write_bytecode = True
HERE = Path(__file__).resolve().parent
sys.path.insert(0, str(HERE.parent / "compare"))

from probe_format import CHECK, DRAW, QUIET, mate_tree, node, quiet_tree, tree

# How many moves a position of the game has, by its distance from the root.
WIDTHS = (7, 5, 4, 2, 0)
# The root's move that wins: each reply to it allows a mate.
WINNING = 4


class Numbers:
    """Numbers that look random: splitmix64, from a fixed start."""

    def __init__(self):
        self.state = 0

    def next(self):
        self.state = (self.state + 0x9E3779B97F4A7C15) % 2 ** 64
        z = self.state
        z = (z ^ z >> 30) * 0xBF58476D1CE4E5B9 % 2 ** 64
        z = (z ^ z >> 27) * 0x94D049BB133111EB % 2 ** 64
        return z ^ z >> 31

    def below(self, n):
        return self.next() % n


class Position:
    def __init__(self, move, flags, evaluation, hash):
        self.move, self.flags, self.evaluation, self.hash = move, flags, evaluation, hash
        self.children = []


def moves(numbers, count):
    """That many moves, each from a square to another; no two alike."""
    squares = {}
    while len(squares) < count:
        start, end = numbers.below(64), numbers.below(64)
        if start != end:
            squares[1024 * start + 16 * end] = None
    return list(squares)


def reply(numbers, move, evaluation):
    """The position after a move: two of three moves are quiet; a capture changes the evaluation more."""
    quiet = numbers.below(3) < 2
    swing = numbers.below(61) - 30 if quiet else numbers.below(601) - 300
    flags = (QUIET if quiet else 0) | (DRAW if numbers.below(40) == 0 else 0)
    return Position(move, flags, swing - evaluation, numbers.next())


def grow(numbers, position, level):
    for move in moves(numbers, WIDTHS[level]):
        child = reply(numbers, move, position.evaluation)
        grow(numbers, child, level + 1)
        position.children.append(child)


def game():
    """A middle game whose side to move mates with its second move."""
    numbers = Numbers()
    root = Position(0, 0, 25, numbers.next())
    grow(numbers, root, 0)
    for answer in root.children[WINNING].children:
        mated = answer.children[numbers.below(WIDTHS[2])]
        mated.flags, mated.children = QUIET | CHECK, []
    return root


def laid_out(root):
    """The records of a tree, breadth first."""
    order = [root]
    records = []
    for p in order:
        first = len(order) if p.children else 0
        order += p.children
        records.append(node(first, len(p.children), p.flags, p.evaluation, p.move, p.hash))
    return tree(records)


def damaged(t):
    """One bit of an evaluation is another, and the block's check is as it was."""
    return t[:1044] + bytes([t[1044] ^ 4]) + t[1045:]


played = laid_out(game())
for name, data in ("mate", mate_tree()), ("quiet", quiet_tree()), ("game", played), ("damaged", damaged(played)):
    (HERE / f"{name}.tree").write_bytes(data)
