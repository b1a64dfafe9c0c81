"""Trees, and requests of the probe format, made and taken apart. Used by the scripts beside it and by examples/make.py."""
import struct

HEADER = "<BBhHhBbbBhhQQQ5QIIIBBH"
ALL_ON = 0b111111
CHECK, QUIET, DRAW = 1, 2, 8


def block_check(words):
    value = 0
    for word in words:
        value = ((value << 1 | value >> 31) & 0xFFFFFFFF) + word & 0xFFFFFFFF
    return value


def node(first=0, count=0, flags=0, evaluation=0, move=0, hash=0):
    return struct.pack("<HBBhHQ", first, count, flags, evaluation, move, hash)


def tree(nodes):
    """The blocks of a list of 16-byte records."""
    blocks = b""
    for number in range((len(nodes) + 30) // 31):
        used = nodes[31 * number:31 * number + 31]
        body = b"".join(used).ljust(496, b"\0") + b"gtre"
        body += struct.pack("<HHI", number, len(used), 0)
        blocks += body + struct.pack("<I", block_check(struct.unpack("<127I", body)))
    return blocks


def mate_tree():
    """01: "Root whose one child is in check and childless"."""
    return tree([node(1, 1), node(flags=CHECK, move=16, hash=1)])


def quiet_tree():
    """01: "Two quiet childless children, not in check, moves 16 and 32, evaluations 30 and -40"."""
    return tree([node(1, 2, hash=1), node(flags=QUIET, evaluation=30, move=16, hash=2),
                 node(flags=QUIET, evaluation=-40, move=32, hash=3)])


def step(operation, d=0, h=0, s=0, m=0, a=0, b=0):
    return struct.pack("<BbHhHQQ", operation, d, h, s, m, a, b)


def request(kind, switches=ALL_ON, inf=30000, max_ply=128, hh_max=16384, side=0, depth=0, end=0,
            age=0, alpha=0, beta=0, limit=1000000, at=0, ply=0, counters=(0, 0, 0, 0, 0),
            tree=b"", words=None, table=8192, entries=None, history=8192, steps=()):
    """`words` and `entries` are sent if given; else only their lengths `table` and `history`."""
    unsent = (1 if words is None else 0) | (2 if entries is None else 0)
    table = table if words is None else len(words)
    history = history if entries is None else len(entries)
    header = struct.pack(HEADER, kind, switches, inf, max_ply, hh_max, side, depth, end, age, alpha,
                         beta, limit, at, ply, *counters, len(tree), table, history, unsent, 0,
                         len(steps))
    body = struct.pack(f"<{len(words or ())}Q", *(words or ()))
    body += struct.pack(f"<{len(entries or ())}h", *(entries or ()))
    return header + tree + body + b"".join(steps)


def split(data):
    """Yields (request bytes, number of answer lines) for well-formed requests."""
    at = 0
    while at + 96 <= len(data):
        fields = struct.unpack_from(HEADER, data, at)
        kind, (tree_len, table, history, unsent, _, steps) = fields[0], fields[19:]
        size = 96 + tree_len + 24 * steps
        size += 0 if unsent & 1 else 8 * table
        size += 0 if unsent & 2 else 2 * history
        yield data[at:at + size], steps if kind >= 5 else 1
        at += size
