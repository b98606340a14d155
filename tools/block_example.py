#!/usr/bin/env python3
"""Writes the input of the example `block` and what its network should give.

    block_example.py FOLDER

FOLDER gets `in.bin`, `expected/out.bin` and `expected/report.txt`. The samples come from the definitions alone: the pairs of a
stream give the levels of its blocks, these are scaled and transformed by the product with the matrix of H.265 (8.6.4), and
clipped. The numbers of the report come from the rules of rounds and from how many tokens each firing takes and gives. It
shares nothing with the actors: neither their tables of the scan nor their way to compute the product."""

import math
import os
import sys

QP = 30
SIDE = 32
MIDDLE = 128
STEPS = [40, 45, 51, 57, 64, 72]
SCALE = 16 * STEPS[QP % 6] * 2 ** (QP // 6)
# 64 times the square root of 2 times the cosine of a 16th of pi, two, three and so on, as the standard rounds them.
COSINES = [89, 83, 75, 64, 50, 36, 18]


def cosine(angle):
    """The standard's number for the cosine of an angle in 16ths of pi."""
    angle = min(angle % 32, 32 - angle % 32)
    return 0 if angle == 8 else COSINES[angle - 1] if angle < 8 else -COSINES[15 - angle]


MATRIX = [[64 if k == 0 else cosine(k * (2 * n + 1)) for n in range(8)] for k in range(8)]
# The diagonals from the corner on, by turns upwards and downwards.
SCAN = sorted(((y, x) for y in range(8) for x in range(8)),
              key=lambda place: (sum(place), place[0] if sum(place) % 2 else place[1]))


def clip(number, low, high):
    return max(low, min(number, high))


def product(left, right):
    return [[sum(a * b for a, b in zip(row, column)) for column in zip(*right)] for row in left]


def turned(block):
    return [list(column) for column in zip(*block)]


# What the network should give.

def levels_of(pairs):
    """The levels of each whole block of a stream, in the order of the scan."""
    levels = []
    for run, value in pairs:
        if value == 0:
            yield levels + [0] * (64 - len(levels))
            levels = []
        elif len(levels) < 64:
            levels += [0] * clip(run, 0, 63 - len(levels)) + [value]


def residual(levels):
    """A block of levels, scaled and transformed back."""
    coefficients = [[0] * 8 for _ in range(8)]
    for (y, x), level in zip(SCAN, levels):
        coefficients[y][x] = clip((level * SCALE + 32) >> 6, -2**15, 2**15 - 1)
    columns = [[clip((sum_ + 64) >> 7, -2**15, 2**15 - 1) for sum_ in row]
               for row in product(turned(MATRIX), coefficients)]
    return [[(sum_ + 2048) >> 12 for sum_ in row] for row in product(columns, MATRIX)]


def samples(levels):
    return [clip(sample + MIDDLE, 0, 255) for row in residual(levels) for sample in row]


# The stream: the blocks of a picture, and then some that are damaged or extreme.

def picture(y, x):
    """A slope from dark to bright, a bright disc with a hard edge, and a fine weave in one corner."""
    sample = 40 + 3 * x + 2 * y
    if (x - 20) ** 2 + (y - 11) ** 2 < 64:
        sample = 230
    if y >= 24 and x < 8:
        sample += 30 * (-1) ** (x + y)
    return clip(sample, 0, 255)


def levels_for(block):
    """The levels that come nearest to a block of samples."""
    sums = product(product(MATRIX, [[sample - MIDDLE for sample in row] for row in block]), turned(MATRIX))
    coefficients = [[(sum_ + 1024) >> 11 for sum_ in row] for row in sums]
    return [(1 if coefficients[y][x] >= 0 else -1) * ((abs(coefficients[y][x]) * 64 + SCALE // 2) // SCALE)
            for y, x in SCAN]


def pairs_for(levels):
    run = 0
    for level in levels:
        if level == 0:
            run += 1
        else:
            yield run, level
            run = 0
    yield 0, 0


def blocks():
    for top in range(0, SIDE, 8):
        for left in range(0, SIDE, 8):
            yield [[picture(y, x) for x in range(left, left + 8)] for y in range(top, top + 8)]


def stream():
    pairs = [pair for block in blocks() for pair in pairs_for(levels_for(block))]
    # Nothing; a run past the end of the block, and one below 0; extreme levels, and more of them than a block has.
    pairs += [(0, 0)]
    pairs += [(5, 20), (100, -7), (0, 3), (0, 0), (-3, 40), (0, 0)]
    pairs += [(0, 32767 if k % 3 else -32768) for k in range(70)] + [(0, 0)]
    return pairs


# The numbers of the report: how many tokens each firing takes and gives, and the rounds that this makes.

def firings_of_reading(pairs):
    """What the reader's firings take and give, one after another."""
    sent = 0
    for run, value in pairs:
        yield 2, 0
        if value == 0:
            yield from [(0, 1)] * (64 - sent) + [(0, 0)]
            sent = 0
        elif sent < 64:
            fresh = clip(run, 0, 63 - sent) + 1
            yield from [(0, 1)] * fresh
            sent += fresh
    yield 2, 0


def always(take, give):
    while True:
        yield take, give


def report(pairs):
    """The report of a run by the default policy, burst and budget."""
    cells = [firings_of_reading(pairs), always(64, 64), always(1, 1), always(64, 64), always(64, 64), always(1, 1)]
    coming = [next(cell) for cell in cells]
    capacity = [512, 512, 512, 512, 128, 512, 512]
    held, sent = [0] * 7, [0] * 7
    left, firings, rounds, fired = 2 * len(pairs), 0, 0, True
    out = 0
    while fired:
        rounds += 1
        held = [tokens + more for tokens, more in zip(held, sent)]
        out += held[6]
        sent, held[6] = [0] * 7, 0
        fill = min(left, capacity[0] - held[0])
        left, held[0] = left - fill, held[0] + fill
        room = [most - tokens for most, tokens in zip(capacity, held)]
        fired = False
        for k, cell in enumerate(cells):
            for _ in range(64):
                take, give = coming[k]
                if held[k] < take or sent[k + 1] + give > room[k + 1]:
                    break
                held[k] -= take
                sent[k + 1] += give
                firings, fired, coming[k] = firings + 1, True, next(cell)
    assert left == 0 and held == [0] * 7
    return [f"instances {len(cells)}", f"links {len(capacity)}", f"certified {len(cells)}", f"firings {firings}",
            f"rounds {rounds}", f"in Pairs 0 tokens {2 * len(pairs)} rest 0", f"out Video tokens {out}", "quiet"]


# Whether the definitions above are those of a cosine transform, and whether the picture comes back.

def cosine_transformed_back(levels):
    """The same residual by cosines in floating point."""
    def weight(k, n):
        return math.sqrt((1 if k == 0 else 2) / 8) * math.cos(math.pi * k * (2 * n + 1) / 16)
    step = SCALE / 64 / 16
    return [[sum(level * step * weight(v, y) * weight(u, x) for (v, u), level in zip(SCAN, levels)) for x in range(8)]
            for y in range(8)]


def test_definitions():
    for block in blocks():
        levels = levels_for(block)
        for got, exact in zip(sum(residual(levels), []), sum(cosine_transformed_back(levels), [])):
            assert abs(got - exact) < 2.5, (got, exact)
        for got, sample in zip(samples(levels), sum(block, [])):
            assert abs(got - sample) < 50, (got, sample)
    assert [8 * y + x for y, x in SCAN[:8]] == [0, 1, 8, 16, 9, 2, 3, 10] and len(SCAN) == 64


def main():
    if len(sys.argv) != 2:
        sys.exit(__doc__)
    test_definitions()
    pairs = stream()
    files = {
        "in.bin": b"".join(number.to_bytes(2, "little", signed=True) for pair in pairs for number in pair),
        "expected/out.bin": bytes(sample for levels in levels_of(pairs) for sample in samples(levels)),
        "expected/report.txt": "".join(line + "\n" for line in report(pairs)).encode(),
    }
    for name, content in files.items():
        with open(os.path.join(sys.argv[1], name), "wb") as file:
            file.write(content)


main()
