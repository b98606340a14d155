"""Times two programs in turn on decoders, filters, loops, rows, trees and rings, and prints how many times as fast the second is."""

import os
import re
import resource
import shutil
import subprocess
import sys
import tempfile

sys.path.insert(0, os.path.join(os.path.dirname(os.path.abspath(__file__)), '..'))

import workloads  # noqa: E402

# How much input a short run and a long one have: some hundredths of a second each, so that nine rounds take a minute or two.
# What is done once, as making the code, is in both, so it isn't in their difference.


def loads(room):
    rows, rings = workloads.rows(room, (1, 10, 100, 1000)), workloads.rings(room, (100, 1000))
    return [
        (workloads.block(room), 10, 60),
        (workloads.actor(room, 'FIR of 16 taps', 'Fir.cal'), 8000, 60000),
        (workloads.actor(room, 'tables of ADPCM', 'Adpcm.cal'), 10000, 100000),
        (workloads.actor(room, 'loop of 1,000 turns', 'Loop.cal'), 200, 2000),
        (rows[1], 200000, 1500000),
        (rows[10], 20000, 200000),
        (rows[100], 2000, 20000),
        (rows[1000], 200, 2000),
        (workloads.whole_tree(room), 400, 4000),
        (rings[100], 100, 800),
        (rings[1000], 1, 6),
        (workloads.generated(room), 50000, 1000000),
    ]


def spent(words, folder):
    """The processor seconds of a command, and how many firings it reports."""
    before = resource.getrusage(resource.RUSAGE_CHILDREN)
    done = subprocess.run(words, cwd=folder, stdout=subprocess.PIPE)
    after = resource.getrusage(resource.RUSAGE_CHILDREN)
    if done.returncode not in (0, 7):
        sys.exit('%s: status %d' % (' '.join(words), done.returncode))
    seconds = after.ru_utime + after.ru_stime - before.ru_utime - before.ru_stime
    return seconds, firings_in(done.stdout)


def left(folder):
    """What a run left, to be compared."""
    found = []
    for name in ('out', 'trace'):
        path = os.path.join(folder, name)
        if os.path.exists(path):
            with open(path, 'rb') as file:
                found.append(file.read())
    return found


def firings_in(report):
    return int(re.search(rb'^firings (\d+)$', report, re.M).group(1))


def instructions(words, folder):
    """The x86 instructions of a command, as valgrind counts them, and its firings; or none."""
    done = subprocess.run(['valgrind', '--tool=cachegrind', '--cache-sim=no', '--cachegrind-out-file=/dev/null', *words],
                          cwd=folder, stdout=subprocess.PIPE, stderr=subprocess.PIPE)
    found = re.search(rb'I\s+refs:\s+([\d,]+)', done.stderr)
    return (int(found.group(1).replace(b',', b'')), firings_in(done.stdout)) if found else None


class Side:
    """One of the two programs on one workload: the least of the times of short and of long runs."""

    def __init__(self, program):
        self.program, self.short, self.long, self.firings = program, [], [], 0

    def time(self, load, amounts):
        for amount, times in zip(amounts, (self.short, self.long)):
            seconds, firings = spent([self.program] + load.prepare(amount), load.folder)
            times.append(seconds)
            self.firings = firings - self.firings if times is self.long else firings

    def each(self):
        return (min(self.long) - min(self.short)) / self.firings

    def counted(self, load, short):
        """Instructions a firing. They are the same each time, and take long to count: so between half a short run and one."""
        half, whole = (instructions([self.program] + load.prepare(amount), load.folder)
                       for amount in (max(1, short // 2), max(2, short)))
        return (whole[0] - half[0]) / (whole[1] - half[1]) if half and whole else None


def compare(load, amounts, programs, rounds, counts):
    sides = [Side(program) for program in programs]
    for turn in range(rounds):
        # By turns the one and the other goes first.
        for side in sides if turn % 2 == 0 else sides[::-1]:
            side.time(load, amounts)
    found = []
    for side in sides:
        spent([side.program] + load.prepare(amounts[1]), load.folder)
        found.append(left(load.folder))
    old, new = (side.each() for side in sides)
    text = '%-26s %9.1f %9.1f ns a firing, %5.2f times as fast' % (load.name, old * 1e9, new * 1e9, old / new)
    if counts:
        old_count, new_count = (side.counted(load, amounts[0]) for side in sides)
        if old_count and new_count:
            text += '; %8.0f %8.0f instructions, %5.2f times as few' % (old_count, new_count, old_count / new_count)
    if found[0] != found[1]:
        text += '; THE OUTPUT OR THE TRACE DIFFERS'
    print(text, flush=True)


def main():
    programs, rounds = [os.path.abspath(word) for word in sys.argv[1:3]], int(sys.argv[3])
    wanted = sys.argv[4:]
    counts = shutil.which('valgrind') is not None
    with tempfile.TemporaryDirectory() as room:
        for load, short, long in loads(room):
            if not wanted or any(word in load.name for word in wanted):
                compare(load, (short, long), programs, rounds, counts)


main()
