"""Measures networks: measure.py PROGRAM PLAIN GNURADIO ROUNDS, the paths of the program, of the same rows in plain Rust and of
those in GNU Radio, and how often each is run. Prints a line for each network."""
import os
import subprocess
import sys
import tempfile
import time

from networks import FILES, mesh, ring, row, tree

# Firings of the shorter run of a row; the longer one has three times as many.
FIRINGS = 2_000_000


def timed(words, folder):
    """The seconds that a command takes."""
    start = time.perf_counter()
    status = subprocess.run(words, cwd=folder, stdout=subprocess.DEVNULL).returncode
    seconds = time.perf_counter() - start
    if status != 0:
        sys.exit('%s: status %d' % (' '.join(words), status))
    return seconds


def least(rounds, measure):
    """The least of several times, since other programs only make a run slower."""
    return min(measure() for _ in range(rounds))


def write(folder, name, data):
    with open(os.path.join(folder, name), 'wb') as file:
        file.write(data)


def run_words(program, top, tokens, folder):
    write(folder, 'in', bytes(k & 255 for k in range(tokens)))
    return [program, 'run', top, 'In=in', 'Out=out', '--trace', 'trace', '--budget', '1000000000']


def rvc_times(program, top, tokens, folder, rounds):
    """The times of a run, and of the replay of the trace that it wrote."""
    words = run_words(program, top, tokens, folder)
    run = least(rounds, lambda: timed(words, folder))
    replay = least(rounds, lambda: timed([program, 'replay', top, 'In=in', '--trace', 'trace'], folder))
    return run, replay


def printed(words):
    out = subprocess.run(words, capture_output=True, text=True).stdout.split()
    return float(out[0]) if out else None


def slope(short, long, tokens):
    return (long - short) / (2 * tokens)


def show_replay(name, each, run_each, firings_each):
    print('replay of %s: %.1f ns a firing; ratio to the run %.2f' % (name, each * 1e9 / firings_each, each / run_each), flush=True)


def show(name, each, firings_each, others):
    text = '%s: %.1f ns a firing, %.0f tokens a second' % (name, each * 1e9 / firings_each, 1 / each)
    for other, seconds in others:
        text += '; %s %.1f ns: ratio %.2f' % (other, seconds * 1e9 / firings_each, each / seconds)
    print(text, flush=True)


def rows(program, plain, gnuradio, folder, rounds):
    for count in (1, 10, 100, 1000):
        tokens = FIRINGS // count
        write(folder, 'Row.xdf', row(count).encode())
        short = rvc_times(program, 'Row.xdf', tokens, folder, rounds)
        long = rvc_times(program, 'Row.xdf', 3 * tokens, folder, rounds)
        run, replay = slope(short[0], long[0], tokens), slope(short[1], long[1], tokens)
        others = []
        for name, words in (('plain', [plain]), ('GNU Radio', ['/usr/bin/python3', gnuradio])):
            # GNU Radio moves whole buffers and begins a thread for each block, so its runs are longer.
            many = tokens if name == 'plain' else 5_000_000
            times = [[printed(words + [str(count), str(n)]) for n in (many, 3 * many)] for _ in range(rounds)]
            if all(t is not None for pair in times for t in pair):
                others.append((name, max(slope(min(t[0] for t in times), min(t[1] for t in times), many), 1e-12)))
        show('row of %d' % count, run, count, others)
        show_replay('row of %d' % count, replay, run, count)


def one(program, name, text, tokens, firings_each, folder, rounds):
    write(folder, name + '.xdf', text.encode())
    short = rvc_times(program, name + '.xdf', tokens, folder, rounds)
    long = rvc_times(program, name + '.xdf', 3 * tokens, folder, rounds)
    run, replay = slope(short[0], long[0], tokens), slope(short[1], long[1], tokens)
    show(name.lower(), run, firings_each, [])
    show_replay(name.lower(), replay, run, firings_each)


def loading(program, folder, rounds):
    for count in (250, 500, 1000):
        write(folder, 'Mesh.xdf', mesh(count).encode())
        seconds = least(rounds, lambda: timed([program, 'check', 'Mesh.xdf'], folder))
        print('check of %d instances and %d links: %.3f s' % (count, 4 * (count + 1), seconds), flush=True)


def main():
    program, plain, gnuradio, rounds = sys.argv[1], sys.argv[2], sys.argv[3], int(sys.argv[4])
    with tempfile.TemporaryDirectory(dir='/dev/shm' if os.path.isdir('/dev/shm') else None) as folder:
        for name, text in FILES.items():
            write(folder, name, text.encode())
        rows(program, plain, gnuradio, folder, rounds)
        one(program, 'Ring', ring(100), 2_000, 100, folder, rounds)
        one(program, 'Tree', tree(512), 2_000, 511, folder, rounds)
        loading(program, folder, rounds)


main()
