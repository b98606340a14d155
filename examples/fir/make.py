#!/usr/bin/env python3
"""Writes the input of the example `fir`, and what its network should give.

    make.py FOLDER

FOLDER gets `in.bin` and `expected/out.bin`: samples of 16 bits, the low byte first. The filters are computed here over the
whole input at once, as sums of products, and in whole numbers alone."""

import os
import sys

SHIFT = 6
FILTERS = [[1, 6, 15, 20, 15, 6, 1],
           [64, 0, 0, 0, 32, 0, 0, 0, -16],
           [-24, 112, -24]]


def triangle(k, period, height):
    """A triangle wave, so that no sine is rounded in another way elsewhere."""
    place = 4 * (k % period)
    return height * (place if place <= period else 2 * period - place if place <= 3 * period else place - 4 * period) // period


def samples():
    """A low tone, a higher one that sets in later, some noise, and a square wave that is loud enough to be clipped."""
    noise = 1
    for k in range(1000):
        noise = (noise * 1103515245 + 12345) % 2**31
        yield (triangle(k, 100, 9000) + (triangle(k, 9, 6000) if k >= 300 else 0)
               + (noise >> 16) % 801 - 400 + (0 if k < 600 else 16000 if k // 25 % 2 else -16000))


def filtered(come, taps):
    for n in range(len(come)):
        total = sum(tap * come[n - k] for k, tap in enumerate(taps) if k <= n)
        yield max(-2**15, min(2**15 - 1, (total + 2**(SHIFT - 1)) // 2**SHIFT))


def main():
    if len(sys.argv) != 2:
        sys.exit(__doc__)
    come = list(samples())
    leave = come
    for taps in FILTERS:
        leave = list(filtered(leave, taps))
    os.makedirs(os.path.join(sys.argv[1], "expected"), exist_ok=True)
    for name, numbers in ("in.bin", come), ("expected/out.bin", leave):
        with open(os.path.join(sys.argv[1], name), "wb") as file:
            file.write(b"".join(number.to_bytes(2, "little", signed=True) for number in numbers))


main()
