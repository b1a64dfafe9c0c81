#!/usr/bin/env python3
"""Good trees and damaged ones, each with the line that the program must answer it with.

usage: compare/damaged.py             writes crates/damaged/stdin's bytes: each tree after its length, 4 bytes
       compare/damaged.py --expect    writes crates/damaged/stdout
       compare/damaged.py --list      writes number, line and name of each
       compare/damaged.py --probe [PROGRAM]
                                      has a probe check and search each tree (target/compare/oracle if none is
                                      named); status 1 on a difference

The refusals in `cases` are written by hand, from the words of 01; nothing here computes one. The lines of good trees are
the oracle's, but for one node, where nothing is found, and the two quiet children, where 01 has the line.
"""
import struct
import subprocess
import sys
from pathlib import Path

sys.dont_write_bytecode = True

from probe_format import CHECK, block_check, mate_tree, node, quiet_tree, request, tree

ROOT = Path(__file__).resolve().parent.parent


# Good trees

def line(score, move, depth, nodes, stopped=0):
    return f"score {score} move {move} depth {depth} nodes {nodes} stopped {stopped}"


def checks(moves):
    """A chain of checks that ends in mate, all of it in one slot of the table, so that hints are lost."""
    above = [node(k + 1, 1, CHECK, move=k, hash=4096 * k) for k in range(moves)]
    return tree(above + [node(flags=CHECK, move=moves, hash=4096 * moves)])


def fields(k, first, count):
    """A record whose other fields differ from node to node and keep row 4."""
    return node(first, count, flags=k % 32, evaluation=977 * k % 2001 - 1000, move=k, hash=k * 0x9E3779B97F4A7C15 % 2 ** 64)


def heap(n, width):
    """n nodes; each has `width` children as long as there are nodes left for them."""
    counts = [max(0, min(width, n - 1 - width * k)) for k in range(n)]
    return tree([fields(k, width * k + 1 if counts[k] else 0, counts[k]) for k in range(n)])


def chain(moves):
    """One child to a node, the last node that many moves below the root."""
    return heap(moves + 1, 1)


def comb(moves):
    """Two nodes to a level; the second of them has the two of the next level."""
    records = [fields(0, 1, 2)]
    for level in range(1, moves + 1):
        k = 2 * level - 1
        records += [fields(k, 0, 0), fields(k + 1, k + 2 if level < moves else 0, 2 if level < moves else 0)]
    return tree(records)


def base():
    """80 nodes in three blocks of 31, 31 and 18; nodes 0 to 25 have three children, node 26 has one."""
    return heap(80, 3)


# What a fault is put in by: the checks of all whole blocks are then made anew, so a fault of a check comes last.

def fixed(t):
    blocks = [t[at:at + 512] for at in range(0, len(t), 512)]
    return b"".join(b if len(b) < 512 else b[:508] + struct.pack("<I", block_check(struct.unpack("<127I", b[:508])))
                    for b in blocks)


def put(t, at, form, value):
    data = struct.pack("<" + form, value)
    return fixed(t[:at] + data + t[at + len(data):])


def record_at(k):
    return 512 * (k // 31) + 16 * (k % 31)


# Faults of row 1

def cut(t, length):
    return t[:length]


def longer(t, bytes_):
    return t + bytes(bytes_)


# Faults of row 2

def mark(t, block, letter=0, value=b"G"):
    return put(t, 512 * block + 496 + letter, "c", value)


def number(t, block, value):
    return put(t, 512 * block + 500, "H", value)


def used(t, block, value):
    return put(t, 512 * block + 502, "H", value)


def zero_byte(t, block, place, value=1):
    return put(t, 512 * block + 504 + place, "B", value)


def check_bit(t, block, bit):
    at = 512 * block + 508
    old, = struct.unpack_from("<I", t, at)
    return t[:at] + struct.pack("<I", old ^ 1 << bit) + t[at + 4:]


def check_not_rotated(t, block):
    at = 512 * block
    words = struct.unpack_from("<127I", t, at)
    return t[:at + 508] + struct.pack("<I", sum(words) % 2 ** 32) + t[at + 512:]


def stale_check(t, k):
    """Node k's hash is another, which no rule forbids, and the check is left as it was."""
    at = record_at(k) + 8
    return t[:at] + bytes([t[at] ^ 1]) + t[at + 1:]


def swapped(t, a, b):
    blocks = [t[at:at + 512] for at in range(0, len(t), 512)]
    blocks[a], blocks[b] = blocks[b], blocks[a]
    return b"".join(blocks)


# Faults of row 3

def count(t, k, value):
    return put(t, record_at(k) + 2, "B", value)


def first(t, k, value):
    return put(t, record_at(k), "H", value)


def own_child():
    """The root has no children, and node 1's begin at node 1 itself; all else is right."""
    return tree([fields(0, 0, 0), fields(1, 1, 2), fields(2, 0, 0)])


# Faults of row 4

def flags(t, k, value):
    return put(t, record_at(k) + 3, "B", value)


def evaluation(t, k, value):
    return put(t, record_at(k) + 4, "h", value)


def move(t, k, value):
    return put(t, record_at(k) + 6, "H", value)


def hash_of(t, k, value):
    return put(t, record_at(k) + 8, "Q", value)


def unused(t, block, place, value=1):
    return put(t, 512 * block + place, "B", value)


def cases():
    """(refusal or line, name, tree)"""
    one, two, wide = heap(1, 1), heap(3, 2), heap(64, 63)
    two_line, base_line = line(29999, 1, 6, 12), line(0, 3, 30, 570)
    yield line(0, 0, 0, 0), "one node", one
    yield line(0, 32, 30, 60), "01's two quiet children", quiet_tree()
    yield line(29999, 16, 6, 6), "01's mate", mate_tree()
    yield two_line, "two children", two
    yield line(29999, 1, 6, 378), "63 children", wide
    yield line(0, 1, 30, 402), "a full block", heap(31, 3)
    yield line(0, 1, 30, 402), "one node in the second block", heap(32, 3)
    yield base_line, "three blocks", base()
    yield line(0, 1, 30, 1726), "128 blocks, all full", heap(3968, 7)
    yield line(0, 9, 30, 3005), "128 blocks, one node in the last", heap(3938, 63)
    yield line(-29990, 1, 6, 3012), "ten checks, the last mate", checks(10)
    yield line(-29900, 1, 4, 1000003, stopped=1), "a hundred checks, over the limit", checks(100)

    # Row 1: length
    yield 1, "length 0", b""
    yield 1, "length 1", b"g"
    yield 1, "length 511", cut(one, 511)
    yield 1, "length 513", longer(one, 1)
    yield 1, "a block and a half", longer(one, 256)
    yield 1, "three blocks less a byte", cut(base(), 1535)
    yield 1, "129 blocks, otherwise right", heap(3999, 7)
    yield 1, "128 blocks and a byte, 65,537 bytes", longer(heap(3968, 7), 1)

    # Row 2: mark
    yield 2, "mark, byte 0", mark(base(), 0)
    yield 2, "mark, byte 1", mark(base(), 1, 1, b"T")
    yield 2, "mark, byte 2", mark(base(), 2, 2, b"R")
    yield 2, "mark, byte 3", mark(one, 0, 3, b"E")
    # Row 2: block number
    yield 2, "number 1 in block 0", number(base(), 0, 1)
    yield 2, "number 1 in block 2", number(base(), 2, 1)
    yield 2, "number 256 in block 0", number(one, 0, 256)
    yield 2, "number 257 in block 1", number(base(), 1, 257)
    yield 2, "blocks 0 and 1 change places", swapped(base(), 0, 1)
    yield 2, "the first block is lost", base()[512:]
    yield 2, "a block of zeros behind the last", longer(base(), 512)
    # Row 2: used count
    yield 2, "used 0 in the only block", used(one, 0, 0)
    yield 2, "used 0 in the last block", used(base(), 2, 0)
    yield 2, "used 32 in the last block", used(base(), 2, 32)
    yield 2, "used 274 in the last block (18 in its low byte)", used(base(), 2, 274)
    yield 2, "used 30 in the first block", used(base(), 0, 30)
    yield 2, "used 30 in the middle block", used(base(), 1, 30)
    yield 2, "used 32 in the first block", used(base(), 0, 32)
    yield 2, "used 0 in the first block", used(base(), 0, 0)
    yield 2, "used 287 in the first block (31 in its low byte)", used(base(), 0, 287)
    # Row 2: zero bytes
    yield 2, "zero byte 504", zero_byte(base(), 0, 0)
    yield 2, "zero byte 505", zero_byte(base(), 1, 1)
    yield 2, "zero byte 506", zero_byte(base(), 2, 2)
    yield 2, "zero byte 507", zero_byte(one, 0, 3, 128)
    # Row 2: check
    yield 2, "check, bit 0", check_bit(base(), 0, 0)
    yield 2, "check, bit 31", check_bit(base(), 2, 31)
    yield 2, "check, bit 13", check_bit(one, 0, 13)
    yield 2, "check, words added without the rotation", check_not_rotated(base(), 1)
    yield 2, "another hash and the old check", stale_check(base(), 40)
    yield base_line, "another hash and a new check", hash_of(base(), 40, 12345)

    # Row 3: child count
    yield 3, "64 children, otherwise right", heap(65, 64)
    yield 3, "255 children, otherwise right", heap(256, 255)
    yield 3, "count 64 on a childless node", count(base(), 79, 64)
    # Row 3: first child
    yield 3, "first child one too high", first(base(), 5, 17)
    yield 3, "first child one too low", first(base(), 5, 15)
    yield 3, "first child 256 too high", first(base(), 5, 16 + 256)
    yield 3, "the root's first child 0", first(base(), 0, 0)
    yield 3, "first child 0 with children", first(base(), 26, 0)
    yield 3, "the last node names a first child", first(base(), 79, 80)
    yield 3, "a childless node names a first child", first(base(), 40, 1)
    yield 3, "the only node names a first child", first(one, 0, 1)
    # Row 3: the start lies above the node
    yield 3, "a node that is its own child", own_child()
    yield 3, "a second node and no children", used(one, 0, 2)
    yield 3, "one more record used than nodes", used(base(), 2, 19)
    # Row 3: the total
    yield 3, "the root's children end behind the last node", count(two, 0, 3)
    yield 3, "the only node's child is absent", first(count(one, 0, 1), 0, 1)
    yield 3, "the last node's child is absent", first(count(base(), 79, 1), 79, 80)
    yield 3, "one less record used than nodes", used(base(), 2, 17)
    yield 3, "the last block is lost", cut(base(), 1024)
    yield 3, "one child less, and all else as it was", count(base(), 26, 0)

    # Row 4: flags
    yield base_line, "flags 31", flags(base(), 0, 31)
    for k, value in (0, 32), (40, 64), (79, 128), (79, 63):
        yield 4, f"flags {value}", flags(base(), k, value)
    # Row 4: evaluation, strictly inside plus and minus 29,872
    for k, value in (0, 29871), (79, -29871):
        yield base_line, f"evaluation {value:,}", evaluation(base(), k, value)
    for k, value in (0, 29872), (79, -29872), (31, 32767), (30, -32768):
        yield 4, f"evaluation {value:,}", evaluation(base(), k, value)
    # Row 4: moves
    for k, value in (0, 1), (0, 256), (1, 0), (79, 0):
        yield 4, f"move {value} of node {k}", move(base(), k, value)
    for value in 256, 65535:
        yield base_line, f"the last node's move {value:,}", move(base(), 79, value)
    # Row 4: siblings
    yield 4, "the root's two children alike", move(two, 2, 1)
    yield 4, "adjacent siblings alike", move(base(), 41, 40)
    yield 4, "siblings alike across a block's end", move(base(), 62, 61)
    yield 4, "the first and the last of 63 alike", move(wide, 63, 1)
    yield 4, "the last two of 63 alike", move(wide, 63, 62)
    yield 4, "two in the middle of 63 alike", move(wide, 20, 45)
    yield two_line, "siblings that differ in the high byte alone", move(two, 2, 257)
    yield line(29999, 256, 6, 12), "siblings that differ in the low byte alone", move(move(two, 1, 256), 2, 257)
    yield base_line, "cousins alike", move(base(), 6, 7)
    yield base_line, "a child's move is its parent's", move(base(), 4, 1)
    # Row 4: unused records
    yield 4, "the first unused byte", unused(one, 0, 16)
    yield 4, "the last unused byte", unused(one, 0, 495)
    yield 4, "the first unused byte of three blocks", unused(base(), 2, 16 * 18)
    yield 4, "the last unused byte of three blocks", unused(base(), 2, 495, 128)
    yield 4, "an unused byte in the middle", unused(base(), 2, 400)

    # Row 5: depth
    yield line(0, 1, 30, 230), "100 moves deep", chain(100)
    yield 5, "101 moves deep", chain(101)
    yield 5, "102 moves deep", chain(102)
    yield two_line, "100 moves deep by the second of two", comb(100)
    yield 5, "101 moves deep by the second of two", comb(101)
    yield 5, "3,967 moves deep", chain(3967)

    # Two faults: the lower row is given, wherever the two stand.
    yield 1, "1 and 2: too short, mark of block 0", cut(mark(base(), 0), 1535)
    yield 1, "1 and 2: too long, check of block 0", longer(check_bit(base(), 0, 0), 1)
    yield 1, "1 and 2: 129 blocks, mark of block 0", mark(heap(3999, 7), 0)
    yield 1, "1 and 3: too short, count of the root", cut(count(base(), 0, 64), 1535)
    yield 1, "1 and 4: too long, flags of the root", longer(flags(base(), 0, 32), 511)
    yield 1, "1 and 5: too short, 101 moves deep", cut(chain(101), 4 * 512 - 1)
    yield 2, "2 and 3: mark of the last block, count of the root", mark(count(base(), 0, 64), 2)
    yield 2, "2 and 3: number of the last block, first child of the root", number(first(base(), 0, 2), 2, 3)
    yield 2, "2 and 3: used count of the last block, a node that is its own child", used(own_child(), 0, 32)
    yield 2, "2 and 3: zero byte of the last block, count of the root", zero_byte(count(base(), 0, 2), 2, 3)
    yield 2, "2 and 3: check of the last block, total", check_bit(count(base(), 26, 2), 2, 7)
    yield 2, "2 and 3: used 30 in the middle block, first child of the root", used(first(base(), 0, 0), 1, 30)
    yield 2, "2 and 4: mark of the last block, flags of the root", mark(flags(base(), 0, 128), 2)
    yield 2, "2 and 4: number of the last block, evaluation of the root", number(evaluation(base(), 0, 29872), 2, 0)
    yield 2, "2 and 4: used count 0, an unused byte", used(unused(one, 0, 495), 0, 0)
    yield 2, "2 and 4: zero byte of the last block, the root's move", zero_byte(move(base(), 0, 1), 2, 0)
    yield 2, "2 and 4: check of the last block, siblings alike in the first", check_bit(move(base(), 2, 1), 2, 0)
    yield 2, "2 and 5: mark of the last block, 101 moves deep", mark(chain(101), 3)
    yield 2, "2 and 5: check of the first block, 101 moves deep", check_bit(chain(101), 0, 0)
    yield 3, "3 and 4: total, flags of the root", flags(first(count(base(), 79, 1), 79, 80), 0, 32)
    yield 3, "3 and 4: first child of node 26, evaluation of the root", evaluation(first(base(), 26, 0), 0, -29872)
    yield 3, "3 and 4: first child of the last node, the root's move", move(first(base(), 79, 80), 0, 1)
    yield 3, "3 and 4: count 64, siblings alike", move(heap(65, 64), 2, 1)
    yield 3, "3 and 4: a node that is its own child, move 0", move(own_child(), 1, 0)
    yield 3, "3 and 4: total, an unused byte", unused(count(two, 0, 3), 0, 495)
    yield 3, "3 and 5: first child of the last node, 101 moves deep", first(chain(101), 101, 102)
    yield 3, "3 and 5: total, 101 moves deep", first(count(chain(101), 101, 1), 101, 102)
    yield 3, "3 and 5: first child at move 50, 101 moves deep", first(chain(101), 50, 52)
    yield 4, "4 and 5: flags of the last node, 101 moves deep", flags(chain(101), 101, 32)
    yield 4, "4 and 5: evaluation of the root, 101 moves deep", evaluation(chain(101), 0, 29872)
    yield 4, "4 and 5: the last node's move 0, 101 moves deep", move(chain(101), 101, 0)
    yield 4, "4 and 5: siblings alike at the end, 101 moves deep", move(comb(101), 202, 201)
    yield 4, "4 and 5: an unused byte, 101 moves deep", unused(chain(101), 3, 495)
    # More than two
    deep = flags(chain(101), 0, 32)
    yield 4, "4 and 5", deep
    yield 3, "3, 4 and 5", first(deep, 100, 0)
    yield 2, "2, 3, 4 and 5", mark(first(deep, 100, 0), 3)
    yield 1, "1 to 5", cut(mark(first(deep, 100, 0), 3), 2047)
    yield base_line, "a good tree at the end", base()


def with_length(t):
    return struct.pack("<I", len(t)) + t


def answer(expected):
    return expected if isinstance(expected, str) else f"refused {expected}"


def asked(t):
    """The tree's check, and the program's search of it."""
    return request(3, tree=t) + request(1, depth=1, end=31, tree=t)


def told(check, root):
    """The program's line, from a probe's two answers; the check's refusal must be the search's."""
    words = root.split()
    if check.split()[1] != words[1]:
        return f"{check}, {root}"
    return " ".join(words[2:12]) if words[1] == "0" else f"refused {words[1]}"


def probe(program):
    trees = list(cases())
    data = b"".join(asked(t) for _, _, t in trees)
    lines = subprocess.run([program], input=data, stdout=subprocess.PIPE, check=True).stdout.decode().splitlines()
    answers = [told(*pair) for pair in zip(lines[::2], lines[1::2])]
    wrong = [(i, answer(expected), name, got) for i, ((expected, name, _), got) in enumerate(zip(trees, answers))
             if got != answer(expected)]
    for i, expected, name, got in wrong:
        print(f"{i} {name}: expected '{expected}', got '{got}'")
    print(f"{len(answers) - len(wrong)} of {len(trees)} trees agree")
    return 1 if wrong or len(answers) != len(trees) else 0


def main(words):
    if words == ["--expect"]:
        for i, (expected, _, _) in enumerate(cases()):
            print(i, answer(expected))
        print("bad input")
    elif words == ["--list"]:
        for i, (expected, name, _) in enumerate(cases()):
            print(f"{i} {answer(expected)}: {name}")
    elif words[:1] == ["--probe"]:
        return probe(words[1] if len(words) > 1 else ROOT / "target/compare/oracle")
    elif not words:
        for _, _, t in cases():
            sys.stdout.buffer.write(with_length(t))
        # The input ends a byte short of a tree.
        sys.stdout.buffer.write(with_length(base())[:-1])
    else:
        sys.exit(__doc__)
    return 0


sys.exit(main(sys.argv[1:]))
