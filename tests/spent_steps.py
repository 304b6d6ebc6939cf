#!/usr/bin/env python3
"""A run file of 16 GB that uses up the step count, on standard output:

    tests/spent_steps.py | target/bin/lister

Two workers of a stack whose shift is its depth step on without an answer (examples/runs, stack-endless), up to 4,000,000,000 steps. The step after
them and a begin are refused with 27. The listing, in full:

    6 1 0 1 0 1 1 0
    4000000005 27 0 0 0 0 0 0
    4000000006 27 2 0 0 0 0 0
    held 1 worst 0
"""
import os
import sys

STEP_LIMIT = 4_000_000_000


def words(*values):
    return b"".join(value.to_bytes(4, "little") for value in values)


def put(worker, value):
    return words(3 << 28 | worker << 22 | value)


def take(worker):
    return words(4 << 28 | worker << 22)


def step(worker, times=1):
    return words(5 << 28 | worker << 22) * times


def write(data):
    at = 0
    while at < len(data):
        at += os.write(sys.stdout.fileno(), data[at:])


def main():
    # stack w=1 d=1 s=1 R=2 n=3; one item is held, as many as the window is high
    write(words(1 << 28 | 1 << 19 | 1 << 12 | 1 << 5 | 1, 2 << 28 | 3 << 11 | 2))
    write(put(0, 1) + step(0, 4) + put(0, 2) + take(1))
    # the put moves the window up, the take moves it down again
    rounds, at_once = (STEP_LIMIT - 4) // 6, 40_000
    some = (step(0, 3) + step(1, 3)) * at_once
    for _ in range(rounds // at_once):
        write(some)
    write(some[:24 * (rounds % at_once)])
    write(step(0) + put(2, 3) + words(6 << 28))


if __name__ == "__main__":
    main()
