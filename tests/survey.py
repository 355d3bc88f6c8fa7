#!/usr/bin/env python3
"""A second survey, written from docs/ alone, to compare the program with.

  tests/survey.py [--mulaw] [--join F] [--join-mulaw F] [--gain N] [--columns N] [--write OUT] FILE
"""
import argparse
import struct


def pcm(path):
    b = open(path, "rb").read()
    return list(struct.unpack("<%dh" % (len(b) // 2), b))


def mulaw(path):
    out = []
    for byte in open(path, "rb").read():
        u = byte ^ 0xFF
        segment, step = (u >> 4) & 7, u & 15
        size = (8 * step + 132) * 2 ** segment - 132
        out.append(-size if u & 0x80 else size)
    return out


def main():
    ap = argparse.ArgumentParser()
    ap.add_argument("--mulaw", action="store_true")
    ap.add_argument("--join")
    ap.add_argument("--join-mulaw")
    ap.add_argument("--gain", type=int)
    ap.add_argument("--columns", type=int, default=64)
    ap.add_argument("--write")
    ap.add_argument("file")
    a = ap.parse_args()
    xs = mulaw(a.file) if a.mulaw else pcm(a.file)
    xs += pcm(a.join) if a.join else mulaw(a.join_mulaw) if a.join_mulaw else []
    if a.gain is not None:
        xs = [max(-32768, min(32767, x * a.gain // 256)) for x in xs]
    n = len(xs)
    s = n // 48000
    print("frames   %d" % n)
    print("length   %d:%02d:%02d.%05d" % (s // 3600, s // 60 % 60, s % 60, n % 48000))
    if n:
        print("lowest   %d\nhighest  %d\nclipped  %d" % (min(xs), max(xs), sum(x in (-32768, 32767) for x in xs)))
        cols = [xs[i * n // a.columns:(i + 1) * n // a.columns] for i in range(a.columns)]
        for row in range(16):
            high = 32767 - 4096 * row
            print("".join("#" if c and min(c) <= high and max(c) >= high - 4095 else " " for c in cols) + "|")
    if a.write:
        open(a.write, "wb").write(struct.pack("<%dh" % n, *xs))
        print("wrote    %s" % a.write)


main()
