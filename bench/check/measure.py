"""Processor seconds of checks of sources of many like parts: measure.py PROGRAM SECONDS [WORD..].

SECONDS are the most for one check. With words, only the shapes whose names have all of them are measured."""
import os
import resource
import subprocess
import sys
import tempfile

from shapes import SHAPES

FEW, MANY = 100_000, 1_000_000
# What a check may take of memory.
MOST_MEMORY = 8 << 30


def limited(seconds):
    resource.setrlimit(resource.RLIMIT_CPU, (seconds, seconds))
    resource.setrlimit(resource.RLIMIT_AS, (MOST_MEMORY, MOST_MEMORY))


def checked(program, files, seconds):
    """The processor seconds of a check, or why there are none."""
    top = "B.xdf" if "B.xdf" in files else "B.cal"
    with tempfile.TemporaryDirectory() as folder:
        for name, text in files.items():
            with open(os.path.join(folder, name), "w") as file:
                file.write(text)
        before = resource.getrusage(resource.RUSAGE_CHILDREN)
        ended = subprocess.run([program, "check", top], cwd=folder, stdout=subprocess.PIPE,
                               preexec_fn=lambda: limited(seconds))
        after = resource.getrusage(resource.RUSAGE_CHILDREN)
    taken = after.ru_utime + after.ru_stime - before.ru_utime - before.ru_stime
    if ended.stdout.endswith(b"done\n"):
        return taken, "%.2f s" % taken
    if taken > seconds - 1:
        return None, "more than %d s" % seconds
    said = ended.stdout.decode().split("\n")[0]
    return None, "ended with status %d behind %.2f s: %s" % (ended.returncode, taken, said)


def measure(program, seconds, shape):
    """What a shape takes, as a row."""
    files, few = SHAPES[shape](FEW)
    short, said = checked(program, files, seconds)
    if short is None:
        return "%s | %d | %s | |" % (shape, few, said)
    files, many = SHAPES[shape](MANY)
    long, more = checked(program, files, seconds)
    times = "" if long is None else "%.0f" % (long / max(short, 0.001) / (many / few) * 10)
    return "%s | %d | %s | %d | %s | %s" % (shape, few, said, many, more, times)


def main():
    program, seconds, words = sys.argv[1], int(sys.argv[2]), sys.argv[3:]
    print("shape | few | take | many | take | times as long, if they are ten times as many")
    for shape in SHAPES:
        if all(word in shape for word in words):
            print(measure(program, seconds, shape), flush=True)


main()
