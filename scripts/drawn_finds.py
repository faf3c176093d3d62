#!/usr/bin/env python3
"""Draws predicates and compares the files that the program of text cases finds in a tree in memory with those that GNU `find` finds in a
real tree of the same entries. Both have the same rules for what is drawn: sizes and counts of links are asked of files alone, modes not
of links, since directories and links of the tree in memory have others; each `[` is closed, and names are of ASCII alone, since
GNU `find` has `?` and `[...]` match a byte of another character, too.

drawn_finds.py PROGRAM COUNT SEED
"""
import os
import random
import re
import subprocess
import sys
import tempfile
import time

BATCH = 50
DAY = 86400
NAMES = ["a", "b", "ab", "ba", "abc", ".a", "a.o", "b.o", "a-b", "a b", "[a]", "a*", "!", "]", "xyz", "A"]
MODES = [0o644, 0o600, 0o755, 0o777, 0o444, 0o4755, 0o2711, 0o1777, 0]
SIZES = [0, 1, 2, 511, 512, 513, 1024, 1025, 3000]


def field(text):
    return "".join("\\x%02x" % byte if not 33 <= byte <= 126 or byte == 92 else chr(byte) for byte in text.encode()) or "\\e"


def bytes_of(text):
    return re.sub(rb"\\x(..)", lambda found: bytes([int(found[1], 16)]), text)


# ---- the tree

class Entry:
    def __init__(self, path, kind, mode, moment, number=0, size=0, target=""):
        self.path, self.kind, self.mode, self.moment, self.number, self.size, self.target = path, kind, mode, moment, number, size, target

    def row(self):
        if self.kind == "dir":
            return "dir %o %d %s" % (self.mode, self.moment, field(self.path))
        if self.kind == "link":
            return "link %d %s %s" % (self.moment, field(self.path), field(self.target))
        return "file %d %o %d %s %s" % (self.number, self.mode, self.moment, field(self.path), "x" * self.size or "\\e")


def drawn_tree(rng, now):
    """Some thirty entries. Moments are half a day off those at which a count of days changes."""
    entries, dirs, files = [], [""], []
    for _ in range(30):
        path = rng.choice(dirs) + rng.choice(NAMES)
        if any(entry.path == path for entry in entries):
            continue
        moment = now - rng.randint(-2, 9) * DAY - DAY // 2
        kind = rng.choice(["dir", "file", "file", "file", "link", "again"])
        if kind == "dir":
            entries.append(Entry(path, "dir", rng.choice([0o755, 0o700, 0o1777]), moment))
            dirs.append(path + "/")
        elif kind == "link":
            entries.append(Entry(path, "link", 0o777, moment, target=rng.choice(["a", "nowhere", "."])))
        elif kind == "again" and files:
            old = rng.choice(files)
            entries.append(Entry(path, "file", old.mode, old.moment, old.number, old.size))
        else:
            entries.append(Entry(path, "file", rng.choice(MODES), moment, len(entries), rng.choice(SIZES)))
            files.append(entries[-1])
    return entries


def build(root, entries):
    first = {}
    for entry in entries:
        path = os.path.join(root, entry.path)
        if entry.kind == "dir":
            os.mkdir(path)
        elif entry.kind == "link":
            os.symlink(entry.target, path)
        elif entry.number in first:
            os.link(first[entry.number], path)
        else:
            first[entry.number] = path
            with open(path, "wb") as file:
                file.write(b"x" * entry.size)
    for entry in reversed(entries):
        path = os.path.join(root, entry.path)
        if entry.kind != "link":
            os.chmod(path, entry.mode)
        os.utime(path, (entry.moment, entry.moment), follow_symlinks=False)


# ---- predicates, as words

def drawn_pattern(rng):
    parts = ["*", "?", "a", "b", ".", "-", "x", "é", "[ab]", "[!ab]", "[a-c]", "[!a-c]", "[]a]", "[.!]", "\\*", "\\[", "]", " "]
    return "".join(rng.choice(parts) for _ in range(rng.randint(1, 4)))


def number(rng, numbers):
    return rng.choice(["", "+", "-"]) + str(rng.choice(numbers))


def condition(rng):
    kind = rng.randrange(7)
    if kind < 2:
        return ["-name", drawn_pattern(rng)]
    if kind == 2:
        return ["-type", rng.choice("fdl")]
    if kind == 3:
        unit = rng.choice(["", "c"])
        return ["(", "-type", "f", "-size", number(rng, SIZES if unit else [0, 1, 2, 3, 6]) + unit, ")"]
    if kind == 4:
        return ["-mtime", number(rng, range(10))]
    if kind == 5:
        return ["(", "!", "-type", "l", "-perm", rng.choice(["", "-"]) + "%o" % rng.choice(MODES + [0o200, 0o111, 0o4000]), ")"]
    return ["(", "-type", "f", "-links", number(rng, range(4)), ")"]


def drawn_words(rng, depth):
    kind = rng.randrange(6) if depth else 0
    if kind < 2:
        return condition(rng)
    if kind == 2:
        return ["!"] + drawn_operand(rng, depth - 1)
    if kind == 3:
        return ["("] + drawn_words(rng, depth - 1) + [")"]
    joint = rng.choice([["-a"], []]) if kind == 4 else ["-o"]
    return drawn_words(rng, depth - 1) + joint + drawn_words(rng, depth - 1)


def drawn_operand(rng, depth):
    return condition(rng) if rng.random() < 0.5 else ["("] + drawn_words(rng, depth) + [")"]


def text_of(rng, words):
    return rng.choice([" ", "  ", "\t"]).join("'%s'" % word if " " in word or rng.random() < 0.1 else word for word in words)


# ---- both answers

def found_in_memory(program, entries, now, texts):
    rows = " ".join(field(entry.row()) for entry in entries)
    table = "".join("find %s %d %s\n" % (field(text), now, rows) for text in texts)
    answers = subprocess.run([program], input=table.encode(), stdout=subprocess.PIPE, check=True).stdout
    return [[bytes_of(name) for name in line.split()] for line in answers.split(b"\n")[:-1]]


def found_in_files(root, words):
    asked = ["find", ".", "-mindepth", "1", "("] + words + [")", "-printf", "%P\\0"]
    names = subprocess.run(asked, cwd=root, stdout=subprocess.PIPE, check=True, env={**os.environ, "LC_ALL": "C.UTF-8"}).stdout
    return sorted(names.split(b"\0")[:-1], key=lambda name: name.split(b"/"))


def main():
    if len(sys.argv) != 4:
        print(__doc__)
        return 2
    program, count, rng = sys.argv[1], int(sys.argv[2]), random.Random(int(sys.argv[3]))
    found = 0
    for start in range(0, count, BATCH):
        now = int(time.time())
        entries = drawn_tree(rng, now)
        asked = [drawn_words(rng, rng.randint(0, 3)) for _ in range(min(BATCH, count - start))]
        texts = [text_of(rng, words) for words in asked]
        with tempfile.TemporaryDirectory() as root:
            build(root, entries)
            for text, words, answer in zip(texts, asked, found_in_memory(program, entries, now, texts), strict=True):
                names = found_in_files(root, words)
                found += len(names)
                if answer != names:
                    print("real-find: %r finds %r, and `find` %r" % (text, answer, names))
                    return 1
    print("real-find: %d predicates, %d files found" % (count, found))
    return 0


if __name__ == "__main__":
    sys.exit(main())
