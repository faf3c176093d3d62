"""Journals: the steps of a commit as bytes.

Steps are ("mkdir", path), ("rename", from, to) and ("mode", path, old, new). A journal of version 2 begins with `WDJ2` and the number of steps. A path
is written as the number of first bytes that it shares with the one before it, the number of its other bytes, and these. Numbers have four
bytes, modes two, the highest byte first. In version 1, `WDJ1`, a path is the number of its bytes, in two bytes, and these.
"""
import re

from texts import MAX_NAME_BYTES, MAX_PATH_BYTES, path_text
from trees import STAGING

LETTERS = {"mkdir": b"D", "rename": b"R", "mode": b"M"}
KINDS = {letter: kind for kind, letter in LETTERS.items()}
ENTRY = re.compile("[thf](0|[1-9][0-9]{0,9})")
MAX_ALL_BYTES = 1 << 28


def shared(one, other):
    count = 0
    while count < min(len(one), len(other)) and one[count] == other[count]:
        count += 1
    return count


def spelled(base, path):
    count = shared(base, path)
    return count.to_bytes(4, "big") + (len(path) - count).to_bytes(4, "big") + path[count:]


def journal(steps):
    out, base = b"WDJ2" + len(steps).to_bytes(4, "big"), b""
    for kind, path, *words in steps:
        first = path_text(path).encode()
        out += LETTERS[kind] + spelled(base, first)
        if kind == "rename":
            out += spelled(first, path_text(words[0]).encode())
        if kind == "mode":
            out += b"".join(mode.to_bytes(2, "big") for mode in words)
        base = first
    return out


# ---- read

class Bad(Exception):
    """The bytes aren't those of a step."""


class Reader:
    def __init__(self, data):
        self.data, self.place, self.all_bytes = data, 4, 0
        self.shares = data[:4] == b"WDJ2"

    def take(self, count):
        if self.place + count > len(self.data):
            raise Bad()
        self.place += count
        return self.data[self.place - count:self.place]

    def number(self, count):
        return int.from_bytes(self.take(count), "big")

    def path(self, base):
        if self.shares:
            count = self.number(4)
            more = self.take(self.number(4))
            path = base[:count] + more
            if count > len(base) or shared(base, path) != count:
                raise Bad()
        else:
            path = self.take(self.number(2))
        self.all_bytes += len(path)
        return path

    def step(self, base):
        """The bytes of the first path of the next step, and the step."""
        kind = KINDS.get(self.take(1))
        if kind is None:
            raise Bad()
        first = self.path(base)
        words = [lawful(first, kind == "rename")]
        if kind == "rename":
            words.append(lawful(self.path(first), True))
        if kind == "mode":
            words += [self.number(2), self.number(2)]
        if not is_lawful(kind, words) or (self.shares and self.all_bytes > MAX_ALL_BYTES):
            raise Bad()
        return first, (kind, *words)


def lawful(data, may_be_staged):
    """The path of these bytes. Of the staging directory only entries may be named, and only by a rename."""
    try:
        path = tuple(data.decode().split("/"))
    except UnicodeDecodeError:
        raise Bad()
    is_name = all(name not in ("", ".", "..") and "\0" not in name and len(name.encode()) <= MAX_NAME_BYTES for name in path)
    is_entry = len(path) == 2 and ENTRY.fullmatch(path[1]) is not None and int(path[1][1:]) < 1 << 32
    if not is_name or len(data) > MAX_PATH_BYTES or (path[:1] == STAGING and not (may_be_staged and is_entry)):
        raise Bad()
    return path


def is_lawful(kind, words):
    if kind == "rename":
        source, to = words
        return source[:len(to)] != to and to[:len(source)] != source
    return kind == "mkdir" or (words[1] != words[2] and max(words[1:]) <= 0o7777)


def read_journal(data):
    """The steps, or the offset of the first item that can't be read."""
    if data[:4] not in (b"WDJ1", b"WDJ2"):
        return 0
    if len(data) < 8:
        return 4
    reader, steps, base = Reader(data), [], b""
    for _ in range(reader.number(4)):
        begin = reader.place
        try:
            base, step = reader.step(base)
        except Bad:
            return begin
        steps.append(step)
    return steps if reader.place == len(data) else reader.place
