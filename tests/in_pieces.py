#!/usr/bin/env python3
"""Gives a program its standard input in pieces, so that words are cut in all ways:

    tests/in_pieces.py [--sizes BYTES,..] PROGRAM [ARGUMENT..] < FILE

The pieces are of these sizes in turn; if none are given, of 1 to 7 bytes. Each of its reads gets one of them: the pipe is in packet mode, which Linux
has, and a read ends where a write did. A packet holds 4,096 bytes at most: where a size is above that, the pipe is a plain one, which gets each piece
in one write.
"""
import itertools
import os
import subprocess
import sys

SIZES = (1, 2, 3, 5, 7, 4, 6, 3, 1, 6, 2, 5)
PACKET_BYTES = 4096


def main():
    sizes, command = SIZES, sys.argv[1:]
    if command[:1] == ["--sizes"]:
        sizes, command = [int(size) for size in command[1].split(",")], command[2:]
    data = sys.stdin.buffer.read()
    reader, writer = os.pipe2(os.O_DIRECT if max(sizes) <= PACKET_BYTES else 0)
    program = subprocess.Popen(command, stdin=reader)
    os.close(reader)
    at, sizes = 0, itertools.cycle(sizes)
    try:
        while at < len(data):
            at += os.write(writer, data[at:at + next(sizes)])
    except BrokenPipeError:
        pass  # it read no further
    os.close(writer)
    sys.exit(program.wait())


if __name__ == "__main__":
    main()
