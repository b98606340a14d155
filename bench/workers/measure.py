"""Times a program with 1, 2, 4 and 64 workers in turn, and prints the ratio of each to one worker."""

import os
import subprocess
import sys
import tempfile
import time

sys.path.insert(0, os.path.join(os.path.dirname(os.path.abspath(__file__)), '..'))

import workloads  # noqa: E402

WORKERS = (1, 2, 4, 64)


def loads(room):
    rows, rings = workloads.rows(room, (1000,)), workloads.rings(room, (1000,))
    return [
        (rows[1000], 1500),
        (workloads.sides(room, '16 light actors', ['Inc'] * 16), 60000),
        (workloads.sides(room, '16 heavy actors', ['Heavy'] * 16), 500),
        (workloads.sides(room, '1 heavy beside 15 light', ['Heavy'] + ['Inc'] * 15), 5000),
        (rings[1000], 6),
        (workloads.sides(room, '1 of three times the work', ['Heavier'] + ['Heavy'] * 15), 500),
        (workloads.block(room), 50),
    ]


def timed(words, folder):
    """The seconds that a command takes by the clock."""
    begun = time.perf_counter()
    status = subprocess.run(words, cwd=folder, stdout=subprocess.DEVNULL).returncode
    seconds = time.perf_counter() - begun
    if status != 0:
        sys.exit('%s: status %d' % (' '.join(words), status))
    return seconds


def compare(load, amount, program, rounds):
    words = [program] + load.prepare(amount)
    least = {}
    for turn in range(rounds):
        for workers in WORKERS if turn % 2 == 0 else WORKERS[::-1]:
            seconds = timed(words + ['--workers', str(workers)], load.folder)
            least[workers] = min(seconds, least.get(workers, seconds))
    ratios = ''.join('%9.2f' % (least[workers] / least[1]) for workers in WORKERS[1:])
    print('%-26s %9.3f s%s' % (load.name, least[1], ratios), flush=True)


def main():
    program, rounds, wanted = os.path.abspath(sys.argv[1]), int(sys.argv[2]), sys.argv[3:]
    print('%-26s %11s%s' % ('', '1 worker', ''.join('%9d' % workers for workers in WORKERS[1:])), flush=True)
    with tempfile.TemporaryDirectory() as room:
        for load, amount in loads(room):
            if not wanted or any(word in load.name for word in wanted):
                compare(load, amount, program, rounds)


main()
