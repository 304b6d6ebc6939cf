#!/usr/bin/env python3
"""Times two programs that print run files on the same files, in turn:

    bench/programs.py BEFORE AFTER [--words N] [--runs N]

BEFORE and AFTER are programs as `tools/build lister` leaves them, target/bin/lister of two revisions. The files, one of a queue and one of a stack, are
made up from a fixed seed: begins and steps of four workers, with refused calls among them, 10,000,000 words unless told otherwise. For each file and
program: the least and the median of the processor seconds of so many runs (21) and, from a run of its own, the most memory; then the ratios of the two.
What the two print is compared, and a difference is told.
"""
import argparse
import filecmp
import os
import random
import resource
import statistics
import struct
import subprocess
import sys
import tempfile

BEGIN_PUT, BEGIN_TAKE, STEP, END = 3, 4, 5, 6
WORKERS, WIDTH, DEPTH, ROWS = 4, 4, 4, 64


def word(kind, worker=0, value=0):
    return kind << 28 | worker << 22 | value


def run_file(path, words, stack):
    rng = random.Random(5)
    block = []
    while len(block) < min(words, 25_000):
        worker = rng.randrange(WORKERS)
        put = rng.randrange(2) == 0
        block.append(word(BEGIN_PUT, worker, rng.randrange(1, 1 << 22)) if put else word(BEGIN_TAKE, worker))
        block += [word(STEP, worker)] * rng.randrange(3, 9)
    packed = struct.pack(f"<{len(block)}I", *block)
    with open(path, "wb") as out:
        out.write(struct.pack("<2I", 1 << 28 | WIDTH | DEPTH << 5 | DEPTH << 12 | stack << 19, 2 << 28 | ROWS | WORKERS << 11))
        for _ in range(words // len(block)):
            out.write(packed)
        out.write(struct.pack("<I", word(END)))


def seconds(program, path, output):
    before = resource.getrusage(resource.RUSAGE_CHILDREN)
    with open(path, "rb") as source, open(output, "wb") as sink:
        subprocess.run([program], stdin=source, stdout=sink, check=True)
    after = resource.getrusage(resource.RUSAGE_CHILDREN)
    return after.ru_utime - before.ru_utime + after.ru_stime - before.ru_stime


def kilobytes(program, path):
    """The most memory, as the system tells it while the program runs: a child's account in getrusage has that of its parent in it."""
    most = 0
    with open(path, "rb") as source, subprocess.Popen([program], stdin=source, stdout=subprocess.DEVNULL) as running:
        while running.poll() is None:
            with open(f"/proc/{running.pid}/status") as status:
                most = max([most] + [int(line.split()[1]) for line in status if line.startswith("VmHWM")])
    return most


def main():
    parser = argparse.ArgumentParser(usage="%(prog)s BEFORE AFTER [--words N] [--runs N]")
    parser.add_argument("programs", nargs=2, metavar="PROGRAM")
    parser.add_argument("--words", type=int, default=10_000_000)
    parser.add_argument("--runs", type=int, default=21)
    options = parser.parse_args()
    same = True
    with tempfile.TemporaryDirectory() as work:
        for stack, name in enumerate(("queue", "stack")):
            path = os.path.join(work, name)
            run_file(path, options.words, stack)
            times = {0: [], 1: []}
            for turn in range(options.runs):
                for which in (0, 1) if turn % 2 else (1, 0):
                    times[which].append(seconds(options.programs[which], path, os.path.join(work, f"out{which}")))
            same = same and filecmp.cmp(os.path.join(work, "out0"), os.path.join(work, "out1"), shallow=False)
            least, median = [min(times[which]) for which in (0, 1)], [statistics.median(times[which]) for which in (0, 1)]
            for which, title in enumerate(("before", "after")):
                print(f"{name} {title}: least {least[which]:.3f} s, median {median[which]:.3f} s, {kilobytes(options.programs[which], path)} KB")
            print(f"{name}: ratio of the least {least[1] / least[0]:.3f}, of the medians {median[1] / median[0]:.3f}")
    if not same:
        sys.exit("the two print different texts")


if __name__ == "__main__":
    main()
