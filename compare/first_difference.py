"""Shows the first answer line that differs, and keeps the request that it answers.

usage: first_difference.py REQUESTS EXPECTED GOT KEEP_AS
"""
import sys

sys.dont_write_bytecode = True

from probe_format import HEADER, split
import struct

NAMES = ("kind switches inf max_ply hh_max side depth/start end age alpha beta limit node ply "
         "lookups inserts hits misses collisions tree table history unsent unseen steps").split()


def first_line(expected, got):
    for number, (a, b) in enumerate(zip(expected, got)):
        if a != b:
            return number
    return min(len(expected), len(got))


def main():
    requests, expected, got, keep = sys.argv[1:]
    data = open(requests, "rb").read()
    expected = open(expected, "rb").read().decode().split("\n")
    got = open(got, "rb").read().decode(errors="replace").split("\n")
    line = first_line(expected, got)
    print(f"first difference: line {line + 1}")
    print("  oracle:", expected[line] if line < len(expected) else "(nothing)")
    print("  probe: ", got[line] if line < len(got) else "(nothing)")
    before = 0
    for number, (request, lines) in enumerate(split(data)):
        if before + lines > line:
            with open(keep, "wb") as file:
                file.write(request)
            fields = struct.unpack_from(HEADER, request)
            print(f"request {number} of the batch, its answer line {line - before + 1} of {lines}, kept in {keep}")
            print("  " + " ".join(f"{n}={v}" for n, v in zip(NAMES, fields)))
            return
        before += lines
    with open(keep, "wb") as file:
        file.write(data)
    print(f"the end of the run; all of it is kept in {keep}")


main()
