#!/usr/bin/env python3
"""Random edits of a printed buffer: each run of `commit` ends with a status of the program's own, 0 to 25. And a buffer of
400,000 lines is read, while one of 400,001 is too large, status 18.

fuzz-edits.py PROGRAM [COUNT] [SEED]

Each run is `PROGRAM commit before after` in an empty folder, with a few bytes or lines of the buffer changed in AFTER, or in
both. The folder stays empty, and nothing is written to the errors' output. COUNT is 100,000 where it isn't given.
"""
import os
import random
import subprocess
import sys
import tempfile

BUFFER = b"""dired 1
  .:
  total 4
  -rw-r--r-- 1 user group   12 2026-01-01 00:00 a
* drwxr-xr-t 3 user group    0 2026-02-28 23:59 d
  lrwxrwxrwx 1 user group    1 2026-01-01 00:00 l -> a
  -rwsr-sr-x 2 u    g     4096 1970-01-01 00:00 n\\n\\\\\\015

  d:
  total 2
  lrwxrwxrwx 1 user group    1 2026-01-01 00:00 a -\\076 b -> ../x
  -rw------- 1 user group    1 2026-01-01 00:00 e

  d/h: ...
"""
PIECES = [b"", b" ", b"\n", b"\\", b"\\n", b"\\076", b"\\000", b" -> ", b"/", b"..", b"./", b"\x00", b"\xff", b"\xc3\xa9", b"s", b"T",
          b"-", b"x" * 256, b"y" * 4096, b"99999999999999999999", b"  .:", b": ...", b"dired 1", b"  total 0"]


def changed(rng, text):
    """The text with one to four places of it replaced, or lines of it taken out, doubled or swapped."""
    for _ in range(rng.randint(1, 4)):
        kind = rng.randrange(5)
        lines = text.split(b"\n")
        i = rng.randrange(len(lines))
        if kind == 0:
            del lines[i]
        elif kind == 1:
            lines.insert(i, lines[rng.randrange(len(lines))])
        if kind < 2:
            text = b"\n".join(lines)
            continue
        start = rng.randrange(len(text) + 1)
        end = min(len(text), start + rng.choice([0, 1, 1, 2, 5]))
        piece = rng.choice(PIECES) if kind < 4 else bytes([rng.randrange(256)])
        text = text[:start] + piece + text[end:]
    return text


def commit(program, work, before, after):
    """Runs `commit` on these buffers, in the empty folder."""
    for name, text in (("before", before), ("after", after)):
        with open(os.path.join(work, name), "wb") as file:
            file.write(text)
    return subprocess.run([program, "commit", "../before", "../after"], cwd=os.path.join(work, "tree"), capture_output=True, timeout=60)


def of_lines(count):
    """A buffer of so many lines."""
    return b"dired 1\n  .:\n  total 0\n" + b"".join(b"  -rw-r--r-- 1 u g 0 1970-01-01 00:00 %d\n" % i for i in range(count - 3))


def main():
    program = os.path.realpath(sys.argv[1])
    count = int(sys.argv[2]) if len(sys.argv) > 2 else 100_000
    seed = int(sys.argv[3]) if len(sys.argv) > 3 else random.randrange(1 << 32)
    rng = random.Random(seed)
    statuses = {}
    with tempfile.TemporaryDirectory() as work:
        tree = os.path.join(work, "tree")
        os.mkdir(tree)
        for lines, too_large in ((400_000, False), (400_001, True)):
            done = commit(program, work, of_lines(lines), b"")
            if (done.returncode == 18) != too_large:
                print(f"FAILED: {lines} lines give status {done.returncode}")
                return 1
        for run in range(count):
            before = changed(rng, BUFFER) if rng.random() < 0.2 else BUFFER
            after = changed(rng, before)
            done = commit(program, work, before, after)
            statuses[done.returncode] = statuses.get(done.returncode, 0) + 1
            if not 0 <= done.returncode <= 25 or done.stderr or os.listdir(tree):
                sys.stdout.buffer.write(b"FAILED: seed %d, run %d, status %d\n--- before\n%s\n--- after\n%s\n--- errors\n%s\n"
                                        % (seed, run, done.returncode, before, after, done.stderr))
                return 1
    print(f"fuzz-edits: {count} runs of seed {seed}, by status: {dict(sorted(statuses.items()))}")
    return 0


if __name__ == "__main__":
    sys.exit(main())
