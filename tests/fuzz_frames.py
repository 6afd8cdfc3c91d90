#!/usr/bin/env python3
"""Sends random and damaged inputs to the frame program and to frames.py, and compares what they print.

    fuzz_frames.py SECONDS PROGRAM [ARGUMENT..]     for so many seconds
    fuzz_frames.py --count N PROGRAM [ARGUMENT..]   so many inputs
    --seed N first: another seed than 1

The first difference is printed, with its input, and ends it with status 1.
"""
import random
import subprocess
import sys
import time

from frames import answer


def hexline(*parts):
    return b"".join(parts).hex().upper().encode() + b"\n"


def two(x):
    return (x % 65536).to_bytes(2, "big")


def small_graph(rng):
    """n, k and sorted arcs, mostly well formed."""
    n = rng.choice([1, 2, 3, 4, 5, 6, 7, 8, 9, 12])
    k = rng.choice([1, 2, 2, 3, 3, 4, 5, 6, 32])
    density = rng.choice([0.0, 0.1, 0.2, 0.3, 0.5])
    heavy = rng.choice([0, 3, 20, 1_000_000])
    arcs = []
    for u in range(n):
        for v in range(n):
            if u != v and rng.random() < density:
                arcs.append([u, v, rng.randint(0, heavy)])
    return n, k, arcs


def spoil_graph(rng, n, k, arcs):
    """At times one thing that the moment of building refuses, or a tail that is refused as it is read."""
    if not arcs or rng.random() < 0.7:
        return n, rng.choice([k] * 12 + [0, 33, 255]), arcs
    a = rng.choice(arcs)
    what = rng.randrange(6)
    if what == 0:
        a[1] = rng.choice([n, n + 1, 65535])
    elif what == 1:
        a[1] = a[0]
    elif what == 2:
        arcs.insert(arcs.index(a), list(a))
    elif what == 3:
        a[2] = rng.choice([1_000_001, 2**32 - 1, 1_000_000])
    elif what == 4:
        a[0] = rng.choice([n, n + 5, 65535, 0])
    else:
        rng.shuffle(arcs)
    return n, k, arcs


def questions(rng, n, arcs):
    out = {}
    for u, v, _ in arcs:
        out.setdefault(u, []).append(v)
    lines = []
    for _ in range(rng.choice([0, 1, 3, 6, 10])):
        if rng.random() < 0.5:
            top = max(1, n) if rng.random() < 0.93 else n + 2
            lines.append(hexline(b"\x20", two(rng.randrange(top)), two(rng.randrange(top))))
            continue
        v = rng.randrange(n) if n else 0
        drive = [v]
        for _ in range(rng.choice([0, 1, 2, 5, 12, 63])):
            if v not in out or rng.random() < 0.02:
                break
            v = rng.choice(out[v])
            drive.append(v)
        if rng.random() < 0.05:
            drive.append(rng.randrange(n + 1))
        if rng.random() < 0.03:
            drive = []
        if rng.random() < 0.03:
            drive = (drive * 70)[: rng.choice([64, 65])]
        lines.append(hexline(b"\x30", bytes([len(drive)]), *map(two, drive)))
    return lines


def whole(rng):
    n, k, arcs = spoil_graph(rng, *small_graph(rng))
    if rng.random() < 0.03:
        n = rng.choice([0, 512, 513, 65535])
    m = len(arcs)
    if rng.random() < 0.04:
        m = rng.choice([max(0, m - 1), m + 1, 2048, 2049])
    lines = [hexline(b"\x10", two(n), two(m), bytes([k]))]
    lines += [hexline(b"\x11", two(u), two(v), w.to_bytes(4, "big")) for u, v, w in arcs]
    return lines + questions(rng, n, arcs)


def damage(rng, data):
    """One or a few bytes changed, lost, doubled or put in; a line moved; the end cut off."""
    for _ in range(rng.choice([1, 1, 2, 3])):
        at = rng.randrange(len(data) + 1)
        what = rng.randrange(7)
        if what == 0 and at < len(data):
            data = data[:at] + bytes([rng.choice(b"0123456789ABCDEFabcdef\n\r Gg@/:\x00\xff")]) + data[at + 1 :]
        elif what == 1 and at < len(data):
            data = data[:at] + data[at + 1 :]
        elif what == 2:
            data = data[:at] + bytes([rng.choice(b"0123456789ABCDEF\n\r f")]) + data[at:]
        elif what == 3:
            data = data[:at]
        elif what == 4:
            lines = data.split(b"\n")
            i, j = rng.randrange(len(lines)), rng.randrange(len(lines))
            lines[i], lines[j] = lines[j], lines[i]
            data = b"\n".join(lines)
        elif what == 5:
            lines = data.split(b"\n")
            lines.insert(rng.randrange(len(lines) + 1), rng.choice(lines))
            data = b"\n".join(lines)
        else:
            data = data[:at] + bytes(rng.randrange(256) for _ in range(rng.choice([1, 4, 300]))) + data[at:]
    return data


def an_input(rng):
    if rng.random() < 0.02:
        return bytes(rng.randrange(256) for _ in range(rng.randrange(40)))
    data = b"".join(whole(rng))
    return damage(rng, data) if rng.random() < 0.4 else data


def main():
    args = sys.argv[1:]
    seed = 1
    if args[:1] == ["--seed"]:
        seed, args = int(args[1]), args[2:]
    most = None
    if args[:1] == ["--count"]:
        most, args = int(args[1]), args[1:]
    if len(args) < 2:
        sys.exit(__doc__)
    end = None if most is not None else time.monotonic() + float(args[0])
    program = args[1:]
    rng = random.Random(seed)
    tried = refused = 0
    while (tried < most) if end is None else (time.monotonic() < end):
        data = an_input(rng)
        wanted = answer(data)
        got = subprocess.run(program, input=data, stdout=subprocess.PIPE).stdout
        if got != wanted:
            print(f"input {tried} of seed {seed} differs")
            print("input: ", data)
            print("wanted:", wanted)
            print("got:   ", got)
            sys.exit(1)
        tried += 1
        refused += b"FF" in wanted.rsplit(b"\n", 2)[-2][:2] if wanted else 0
    print(f"{tried} inputs of seed {seed}, {refused} of them refused: no difference")


if __name__ == "__main__":
    main()
