#!/usr/bin/env python3
"""Draws names, has them quoted by the program of text cases, and compares what `sh` makes of them with the names.

quoted_names.py PROGRAM COUNT SEED
"""
import random
import re
import subprocess
import sys

BATCH = 100


def drawn(rng):
    """A name of 1 to 12 characters of ASCII but NUL, at times with one beyond ASCII."""
    codes = [rng.randrange(1, 128) for _ in range(rng.randint(1, 12))]
    return "".join("é" if rng.random() < 0.01 else chr(code) for code in codes)


def field(name):
    return "".join("\\x%02x" % byte if not 33 <= byte <= 126 or byte == 92 else chr(byte) for byte in name.encode())


def bytes_of(text):
    return re.sub(rb"\\x(..)", lambda found: bytes([int(found[1], 16)]), text)


def quoted(program, names):
    table = "".join("quote %s\n" % field(name) for name in names)
    answers = subprocess.run([program], input=table.encode(), stdout=subprocess.PIPE, check=True).stdout
    return [bytes_of(line) for line in answers.split(b"\n")[:-1]]


def read_back(words):
    """The words that `sh` makes of a command."""
    command = b"printf '%s\\000' " + b" ".join(words)
    return subprocess.run([b"sh", b"-c", command], stdout=subprocess.PIPE, check=True).stdout.split(b"\0")[:-1]


def main():
    program, count, rng = sys.argv[1], int(sys.argv[2]), random.Random(int(sys.argv[3]))
    names = [drawn(rng) for _ in range(count)]
    words = quoted(program, names)
    for begin in range(0, count, BATCH):
        wanted = [b"./" * name.startswith("-") + name.encode() for name in names[begin:begin + BATCH]]
        if read_back(words[begin:begin + BATCH]) != wanted:
            print("FAILED: sh reads names of %d and behind it otherwise" % begin)
            return 1
    print("real-shell: sh reads %d quoted names as they are" % count)
    return 0


if __name__ == "__main__":
    sys.exit(main())
