#!/usr/bin/env python3
"""Prints what the tables of crates/test_rounds/src ask for. Of policies.rt: of a network of three actors in a row (runs of
zeros, a zigzag, numbers cut to a byte), by policy and burst, how many rounds its run takes and the FNV-1a number of 64
bits of its trace. Of crews.rt: the same of five actors in a row that add one, by burst and budget, with how many firings
are made and what goes out, and in how many rounds as many workers start as are asked for, and one. It follows the rules of
rounds and shares no code with the crates."""

BLOCK = bytes.fromhex("000064000000D4FE02001B003A000500")
CAPACITY = 512
LEFT = 1_000_000
ORDER = [0, 1, 8, 16, 9, 2, 3, 10, 17, 24, 32, 25, 18, 11, 4, 5, 12, 19, 26, 33, 40, 48, 41, 34, 27, 20, 13, 6, 7, 14, 21,
         28, 35, 42, 49, 56, 57, 50, 43, 36, 29, 22, 15, 23, 30, 37, 44, 51, 58, 59, 52, 45, 38, 31, 39, 46, 53, 60, 61,
         54, 47, 55, 62, 63]


def signed(number, bits):
    number %= 1 << bits
    return number - (1 << bits) if number >> (bits - 1) else number


class Runs:
    """Pairs of a count and a level: so many zeros, and then the level."""
    count, level, fresh = 0, 0, True

    def fire(self, tokens, sent, room):
        if self.fresh:
            if len(tokens) < 2:
                return "waits"
            self.count, self.level, self.fresh = signed(tokens.pop(0), 8), tokens.pop(0), False
            return 0
        if self.count < 0:
            return "waits"
        if len(sent) + 1 > room:
            return "lacks"
        if self.count > 0:
            self.count -= 1
            sent.append(0)
            return 1
        self.fresh = True
        sent.append(self.level)
        return 2


class Zigzag:
    """Sixty-four tokens are sent in the order of a zigzag."""

    def fire(self, tokens, sent, room):
        if len(tokens) < 64:
            return "waits"
        if len(sent) + 64 > room:
            return "lacks"
        block = [0] * 64
        for place in ORDER:
            block[place] = tokens.pop(0)
        sent += block
        return 0


class Sat:
    """128 is added, and what isn't from 0 to 255 becomes the nearer of the two."""

    def fire(self, tokens, sent, room):
        if not tokens:
            return "waits"
        if len(sent) + 1 > room:
            return "lacks"
        sent.append(min(max(tokens.pop(0) + 128, 0), 255))
        return 0


class Inc:
    """One is added."""

    def fire(self, tokens, sent, room):
        if not tokens:
            return "waits"
        if len(sent) + 1 > room:
            return "lacks"
        sent.append((tokens.pop(0) + 1) % 256)
        return 0


def picks(kind, count, number, seed):
    """The instances that the policy picks in a round, and the seed's next number."""
    if kind == "all":
        return [True] * count, seed
    if kind == "turn":
        return [k == (number - 1) % count for k in range(count)], seed
    marks = []
    for _ in range(count):
        seed = (seed * 6364136223846793005 + 1442695040888963407) % 2**64
        marks.append(seed >> 63 == 1)
    return marks, seed


def run(cells, feed, kind, burst, seed=0, left=LEFT):
    """How many rounds the run of a row of actors takes, its lines, what it sends out, and in how many rounds each instance
    that is picked may fire once at least, and in how many not."""
    count, feed = len(cells), list(feed)
    waiting, sent, out = [[] for _ in cells], [[] for _ in cells], []
    lines, number, idle, shared, alone = [], 0, False, 0, 0
    while True:
        number += 1
        for k in range(1, count):
            waiting[k] += sent[k - 1]
        out += sent[-1]
        sent = [[] for _ in cells]
        while feed and len(waiting[0]) < CAPACITY:
            waiting[0].append(feed.pop(0))
        lines.append("r")
        if left == 0:
            quiet = not any(waiting)
            return number, lines + ["q" if quiet else "b"], out, shared, alone
        marks, seed = picks(kind, count, number, seed)
        if idle or not any(marks):
            marks = [True] * count
        rooms = [CAPACITY - len(tokens) for tokens in waiting[1:]] + [CAPACITY]
        picked, fired, lacks = sum(marks), 0, False
        shared, alone = shared + (picked <= left), alone + (picked > left)
        for k, i in enumerate(i for i in range(count) if marks[i]):
            limit = min(burst, left // picked + (k < left % picked) if picked <= left else left - fired)
            for _ in range(limit):
                answer = cells[i].fire(waiting[i], sent[i], rooms[i])
                if isinstance(answer, str):
                    lacks = lacks or answer == "lacks"
                    break
                lines.append(f"f {i} {answer}")
                fired += 1
        left -= fired
        idle = fired == 0
        if idle and all(marks):
            assert not lacks
            return number, lines + ["q"], out, shared, alone


def fnv(text):
    number = 0xCBF29CE484222325
    for byte in text:
        number = (number ^ byte) * 0x100000001B3 % 2**64
    return number


def trace_of(lines):
    return "".join(line + "\n" for line in lines).encode()


BLOCK_FEED = [signed(low | high << 8, 16) for low, high in zip(BLOCK[::2], BLOCK[1::2])]
for kind, seed, burst in [("all", 0, 1), ("all", 0, 100), ("turn", 0, 1), ("turn", 0, 100), ("seed", 7, 1), ("seed", 7, 100),
                          ("seed", 0, 2), ("all", 0, 64)]:
    rounds, lines, out, _, _ = run([Runs(), Zigzag(), Sat()], BLOCK_FEED, kind, burst, seed)
    print(f"{kind} {seed} burst {burst}: {rounds} rounds, {fnv(trace_of(lines)):016X}, {len(out)} bytes that begin {bytes(out[:3]).hex()}")
for burst, budget in [(2, LEFT), (64, LEFT), (2, 35), (2, 23), (1, 13), (3, 7), (2, 5), (64, 4)]:
    rounds, lines, out, shared, alone = run([Inc() for _ in range(5)], [0, 1, 2, 250, 251, 252, 255], "all", burst, left=budget)
    firings = sum(line[0] == "f" for line in lines)
    print(f"five burst {burst} budget {budget}: {rounds} rounds, {fnv(trace_of(lines)):016X}, {firings} firings, out {list(out)}, "
          f"ends {lines[-1]}, {shared} rounds shared, {alone} alone")
