#!/usr/bin/env python3
"""A second splice, with persistent weight-balanced trees of its own, to compare the program with.

  tests/splice.py [--join-mulaw F] [--gain N] [--columns N] --piece S+N .. --move FROM+LEN@TO FILE

The track is also kept as a plain list of samples; tree and list must agree.
"""
import argparse
import struct


class Node:
    def __init__(self, left, element, right):
        self.left, self.element, self.right = left, element, right
        self.count = count(left) + 1 + count(right)
        self.extent = extent(left) + element[1] + extent(right)


def count(t):
    return t.count if t else 0


def extent(t):
    return t.extent if t else 0


def weight(t):
    return count(t) + 1


def node(flip, a, e, b):
    return Node(b, e, a) if flip else Node(a, e, b)


def sides(flip, t):
    return (t.right, t.left) if flip else (t.left, t.right)


def rebalanced(flip, l, e, r):
    if weight(l) <= 3 * weight(r):
        return node(flip, l, e, r)
    a, b = sides(flip, l)
    if weight(b) < 2 * weight(a):
        return node(flip, a, l.element, node(flip, b, e, r))
    c, d = sides(flip, b)
    return node(flip, node(flip, a, l.element, c), b.element, node(flip, d, e, r))


def hung(flip, l, e, r):
    if weight(r) <= 3 * weight(l):
        return node(flip, l, e, r)
    a, b = sides(flip, r)
    return rebalanced(flip, hung(flip, l, e, a), r.element, b)


def link(l, e, r):
    if 3 * weight(l) < weight(r):
        return hung(False, l, e, r)
    return hung(True, r, e, l)


# A tree taken apart at a place: what lies before it, then nothing or the next element and the tree behind that.
def parted(t, p):
    if p >= extent(t):
        return t, None
    (start, frames), at = t.element, p - extent(t.left)
    if at < 0:
        before, (e, rest) = parted(t.left, p)
        return before, (e, link(rest, t.element, t.right))
    if at >= frames:
        before, rest = parted(t.right, at - frames)
        return link(t.left, t.element, before), rest
    if at == 0:
        return t.left, (t.element, t.right)
    return link(t.left, (start, at), None), ((start + at, frames - at), t.right)


def parted_rest(rest, p):
    if rest is None:
        return None, None
    (start, frames), t = rest
    if p >= frames:
        before, behind = parted(t, p - frames)
        return link(None, (start, frames), before), behind
    if p == 0:
        return None, rest
    return link(None, (start, p), None), ((start + p, frames - p), t)


def joined(t, rest):
    return link(t, rest[0], rest[1]) if rest else t


def put(t, p, new):
    before, rest = parted(t, p)
    return joined(joined(before, parted(new, 0)[1]), rest)


def cut(t, start, frames):
    before, rest = parted(t, start)
    taken, behind = parted_rest(rest, frames)
    return joined(before, behind), taken


def elements(t):
    return elements(t.left) + [t.element] + elements(t.right) if t else []


def cells(roots):
    seen, todo = set(), list(roots)
    while todo:
        t = todo.pop()
        if t and t not in seen:
            seen.add(t)
            todo += [t.left, t.right]
    return seen


def check(t):
    if t:
        assert weight(t.left) <= 3 * weight(t.right) and weight(t.right) <= 3 * weight(t.left)
        check(t.left)
        check(t.right)


def mulaw(path):
    out = []
    for byte in open(path, "rb").read():
        u = byte ^ 0xFF
        size = (8 * (u & 15) + 132) * 2 ** ((u >> 4) & 7) - 132
        out.append(-size if u & 0x80 else size)
    return out


def tell(name, t, took, beside):
    n, s = extent(t), extent(t) // 48000
    time = "%d:%02d:%02d.%05d" % (s // 3600, s // 60 % 60, s % 60, n % 48000)
    print("%s    %d elements, %s, took %d cells, shares %d" % (name, count(t), time, took, count(t) + beside - took))


def main():
    ap = argparse.ArgumentParser()
    ap.add_argument("--join-mulaw")
    ap.add_argument("--gain", type=int, default=256)
    ap.add_argument("--columns", type=int, default=64)
    ap.add_argument("--piece", action="append")
    ap.add_argument("--move")
    ap.add_argument("file")
    a = ap.parse_args()
    b = open(a.file, "rb").read()
    reel = list(struct.unpack("<%dh" % (len(b) // 2), b)) + (mulaw(a.join_mulaw) if a.join_mulaw else [])
    reel = [max(-32768, min(32767, x * a.gain // 256)) for x in reel]
    pieces = [tuple(int(x) for x in p.split("+")) for p in a.piece]
    source, to = a.move.split("@")
    start, frames = (int(x) for x in source.split("+"))
    to = int(to)

    laid = None
    for piece in pieces:
        laid = put(laid, extent(laid), Node(None, piece, None))
    left, taken = cut(laid, start, frames)
    moved = put(left, to, taken)

    # the same by plain lists
    track = [x for s, n in pieces for x in reel[s:s + n]]
    rest = track[:start] + track[start + frames:]
    xs = rest[:to] + track[start:start + frames] + rest[to:]
    assert xs == [x for s, n in elements(moved) for x in reel[s:s + n]]
    for t in (laid, left, taken, moved):
        check(t)

    one, two, three = cells([laid]), cells([laid, left, taken]), cells([laid, left, taken, moved])
    tell("laid ", laid, len(one), 0)
    tell("cut  ", left, len(two) - len(one), count(taken))
    tell("moved", moved, len(three) - len(two), 0)
    n = len(xs)
    cols = [xs[i * n // a.columns:(i + 1) * n // a.columns] for i in range(a.columns)]
    for row in range(16):
        high = 32767 - 4096 * row
        print("".join("#" if c and min(c) <= high and max(c) >= high - 4095 else " " for c in cols) + "|")
    print("free     8192 of 8192 cells")


main()
