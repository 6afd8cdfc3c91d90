#!/usr/bin/env python3
"""Inputs at the frame program's edges that are too large to store: compared with frames.py.

    edge_frames.py PROGRAM [ARGUMENT..]
"""
import subprocess
import sys

from frames import answer


def head(n, m, k):
    return b"10%04X%04X%02X\n" % (n, m, k)


def arc(u, v, w):
    return b"11%04X%04X%08X\n" % (u, v, w)


def hub(entries, exits):
    """A node 0 that all roads lead through: each entry reaches each exit."""
    last = entries + exits
    arcs = [(0, v, 1) for v in range(entries + 1, last + 1)] + [(v, 0, 2) for v in range(1, entries + 1)]
    return head(last + 1, len(arcs), 2) + b"".join(arc(*a) for a in arcs)


def ring(n):
    return head(n, n, 2) + b"".join(arc(v, (v + 1) % n, 1_000_000) for v in range(n))


QUESTION = b"2000000001\n"
CASES = {
    "an overlay that just fills its room": hub(64, 64),
    "one arc too many for the room": hub(65, 64),
    "512 nodes": ring(512) + QUESTION,
    "65,535 lines": ring(2) + QUESTION * 65532,
    "65,536 lines": ring(2) + QUESTION * 65533,
    "line 65,536 without a line feed": ring(2) + QUESTION * 65532 + b"2",
    "line 65,536 empty": ring(2) + QUESTION * 65532 + b"\n",
    "a very long line": ring(2) + b"20" * 100_000 + b"\n" + QUESTION,
    "a very long first line": b"0" * 1_000_000,
    "a drive of 64": ring(2) + b"3040" + b"00000001" * 32 + b"\n",
}

failed = 0
for name, data in CASES.items():
    got = subprocess.run(sys.argv[1:], input=data, stdout=subprocess.PIPE).stdout
    same = got == answer(data)
    failed += not same
    print(("same: " if same else "DIFFERS: ") + name)
sys.exit(1 if failed else 0)
