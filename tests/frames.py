#!/usr/bin/env python3
"""The frame program once more, for comparison: frames on standard input, frames on standard output.

Written from document 01 alone, for clearness and not for speed: the cover tries every path of k nodes.
"""
import heapq
import sys

MOST_N, MOST_M, MOST_DRIVE, MOST_OVERLAY, MOST_LINE = 512, 2048, 64, 4096, 65535
MOST_WEIGHT, MOST_K = 1_000_000, 32
DIGITS = b"0123456789ABCDEF"


class Refused(Exception):
    """A refusal's number."""


def frame(line):
    """The bytes of a line of upper-case hexadecimal, or None."""
    if len(line) % 2 or any(c not in DIGITS for c in line):
        return None
    return bytes(DIGITS.index(line[i]) * 16 + DIGITS.index(line[i + 1]) for i in range(0, len(line), 2))


def number(part):
    return int.from_bytes(part, "big")


def two(x):
    return x.to_bytes(2, "big")


def text(parts):
    return b"".join(parts).hex().upper().encode() + b"\n"


class Graph:
    """Arcs by tail, in the layout's order."""

    def __init__(self, n):
        self.n = n
        self.out = [[] for _ in range(n)]
        self.back = [[] for _ in range(n)]

    def add(self, tail, head, weight):
        self.out[tail].append((head, weight))
        if head < self.n:
            self.back[head].append((tail, weight))


def check_build(g, k):
    """Numbers 1, 3 and 4: what the moment of building can find before it searches."""
    if g.n < 1:
        raise Refused(1)
    for tail in range(g.n):
        former = -1
        for head, weight in g.out[tail]:
            if head >= g.n or head == tail or head <= former or weight > MOST_WEIGHT:
                raise Refused(3)
            former = head
    if k < 1 or k > MOST_K:
        raise Refused(4)


def has_path(g, v, k, dropped):
    """Whether a path of k nodes contains v and otherwise only dropped nodes."""

    def outward(u, missing, on):
        if missing == 0:
            return True
        for head, _ in g.out[u]:
            if head in dropped and head not in on:
                if outward(head, missing - 1, on | {head}):
                    return True
        return False

    def inward(u, missing, on):
        if outward(v, missing, on):
            return True
        if missing == 0:
            return False
        for tail, _ in g.back[u]:
            if tail in dropped and tail not in on:
                if inward(tail, missing - 1, on | {tail}):
                    return True
        return False

    return inward(v, k - 1, frozenset([v]))


def cover(g, k):
    dropped = set()
    for v in range(g.n):
        if not has_path(g, v, k, dropped):
            dropped.add(v)
    return [v for v in range(g.n) if v not in dropped]


def least(arcs, source, chosen):
    """Least weights from the source over paths with no chosen node strictly inside."""
    best = {source: 0}
    done = set()
    queue = [(0, source)]
    while queue:
        d, u = heapq.heappop(queue)
        if u in done:
            continue
        done.add(u)
        if u != source and u in chosen:
            continue
        for head, weight in arcs[u]:
            if head not in best or d + weight < best[head]:
                best[head] = d + weight
                heapq.heappush(queue, (d + weight, head))
    return best


def overlay(g, points):
    chosen = set(points)
    out = [[] for _ in range(g.n)]
    for a in points:
        best = least(g.out, a, chosen)
        out[a] = sorted((b, best[b]) for b in best if b in chosen and b != a)
    if sum(map(len, out)) > MOST_OVERLAY:
        raise Refused(12)
    return out


def any_pair(g, points, over, s, t):
    if s >= g.n or t >= g.n:
        raise Refused(8)
    chosen = set(points)
    outward = least(g.out, s, chosen)
    inward = least(g.back, t, chosen)
    entries = {s: 0} if s in chosen else {a: d for a, d in outward.items() if a in chosen}
    exits = {t: 0} if t in chosen else {b: d for b, d in inward.items() if b in chosen}
    found = [outward[t]] if t in outward else []
    for a, first in entries.items():
        middle = least(over, a, set())
        found += [first + middle[b] + last for b, last in exits.items() if b in middle]
    return min(found) if found else None


def thin(g, points, drive):
    if not drive or any(v >= g.n for v in drive):
        raise Refused(10)
    for u, v in zip(drive, drive[1:]):
        if all(head != v for head, _ in g.out[u]):
            raise Refused(10)
    return [i for i, v in enumerate(drive) if v in set(points)]


class Program:
    def __init__(self):
        self.out = []
        self.state = "head"
        self.former = 0

    def build(self):
        check_build(self.g, self.k)
        self.points = cover(self.g, self.k)
        self.over = overlay(self.g, self.points)
        self.state = "questions"
        self.out.append(text([b"\x90", two(len(self.points)), two(sum(map(len, self.over)))]))
        for v in self.points:
            self.out.append(text([b"\x91", two(v)]))
        for tail in range(self.g.n):
            for head, weight in self.over[tail]:
                self.out.append(text([b"\x92", two(tail), two(head), weight.to_bytes(4, "big")]))

    def head(self, b):
        if b is None or len(b) != 6 or b[0] != 0x10:
            raise Refused(13)
        n, self.m, self.k = number(b[1:3]), number(b[3:5]), b[5]
        if n > MOST_N or self.m > MOST_M:
            raise Refused(13)
        self.g = Graph(n)
        self.state = "arcs"

    def arc(self, b):
        if b is None or len(b) != 9 or b[0] != 0x11:
            raise Refused(13)
        tail, head, weight = number(b[1:3]), number(b[3:5]), number(b[5:9])
        if tail >= self.g.n or tail < self.former:
            raise Refused(13)
        self.former = tail
        self.m -= 1
        self.g.add(tail, head, weight)

    def question(self, b):
        if b is None or not b:
            raise Refused(13)
        if b[0] == 0x20 and len(b) == 5:
            s, t = number(b[1:3]), number(b[3:5])
            d = any_pair(self.g, self.points, self.over, s, t)
            tail = [b"\x00"] if d is None else [b"\x01", d.to_bytes(8, "big")]
            self.out.append(text([b"\xA0", two(s), two(t)] + tail))
        elif b[0] == 0x30 and len(b) >= 2 and len(b) == 2 + 2 * b[1] and b[1] <= MOST_DRIVE:
            drive = [number(b[i : i + 2]) for i in range(2, len(b), 2)]
            kept = thin(self.g, self.points, drive)
            self.out.append(text([b"\xB0", bytes([len(kept)]), bytes(kept)]))
        else:
            raise Refused(13)

    def line(self, content, ended):
        if not ended:
            raise Refused(13)
        b = frame(content)
        if self.state == "questions":
            self.question(b)
            return
        if self.state == "head":
            self.head(b)
        else:
            self.arc(b)
        if self.m == 0:
            self.build()

    def run(self, data):
        at = 0
        count = 0
        try:
            while at < len(data):
                count += 1
                if count > MOST_LINE:
                    raise Refused(13)
                end = data.find(b"\n", at)
                if end < 0:
                    self.line(data[at:], False)
                self.line(data[at:end], True)
                at = end + 1
            if self.state != "questions":
                count += 1
                raise Refused(13)
        except Refused as r:
            self.out.append(text([b"\xFF", bytes([r.args[0]]), two(min(count, 65535))]))
        return b"".join(self.out)


def answer(data):
    return Program().run(data)


if __name__ == "__main__":
    sys.stdout.buffer.write(answer(sys.stdin.buffer.read()))
