#!/usr/bin/env python3
"""Makes the bundled reels of the program `survey`, by whole numbers alone:

  crates/survey/data/tone.pcm    9,600 frames: a falling triangle wave that starts beyond full scale
  crates/survey/data/sweep.ulaw  4,800 mu-law bytes: each code in turn, at changing speed
"""
import os
import struct

HERE = os.path.join(os.path.dirname(os.path.abspath(__file__)), "..", "crates", "survey", "data")


def triangle(i, period):
    at = i % period
    up = at if at < period // 2 else period - at
    return up * 4 * 32768 // period - 32768


def tone():
    out = bytearray()
    for i in range(9600):
        loud = 40960 * (9600 - i) // 9600
        sample = triangle(i, 480 + i // 24) * loud // 32768
        out += struct.pack("<h", max(-32768, min(32767, sample)))
    return bytes(out)


def sweep():
    return bytes((i * i // 512) % 256 for i in range(4800))


if __name__ == "__main__":
    os.makedirs(HERE, exist_ok=True)
    open(os.path.join(HERE, "tone.pcm"), "wb").write(tone())
    open(os.path.join(HERE, "sweep.ulaw"), "wb").write(sweep())
