#!/usr/bin/env python3
"""Prints the listing of the working directory and of further ones, made from lstat alone: listing-by-lstat.py [DIR].."""
import datetime
import grp
import os
import pwd
import stat
import sys


def escaped(text, in_link=False):
    out = bytearray()
    for byte in text:
        if byte == 0x5C:
            out += b"\\\\"
        elif byte == 0x0A:
            out += b"\\n"
        elif byte == 0x09:
            out += b"\\t"
        elif byte < 32 or byte == 127 or (in_link and byte == 0x3E):
            out += b"\\%03o" % byte
        else:
            out.append(byte)
    return bytes(out)


def owner(name, number):
    try:
        shown = os.fsencode(name(number)[0])
    except KeyError:
        return b"%d" % number
    lawful = 1 <= len(shown) <= 64 and all(33 <= byte <= 126 for byte in shown)
    return shown if lawful else b"%d" % number


def date(seconds):
    seconds = min(max(seconds, -62135596800), 253370764799)
    moment = datetime.datetime(1970, 1, 1) + datetime.timedelta(seconds=seconds)
    return b"%04d-%02d-%02d %02d:%02d" % (moment.year, moment.month, moment.day, moment.hour, moment.minute)


def fields(directory, name):
    path = os.path.join(directory, name)
    found = os.lstat(path)
    mode = stat.filemode(found.st_mode).encode()
    shown = escaped(name)
    if mode[:1] == b"l":
        mode = b"lrwxrwxrwx"
        shown = escaped(name, True) + b" -> " + escaped(os.readlink(path))
    elif mode[:1] not in (b"-", b"d"):
        return None
    return (
        mode,
        b"%d" % found.st_nlink,
        owner(pwd.getpwuid, found.st_uid),
        owner(grp.getgrgid, found.st_gid),
        b"%d" % found.st_size,
        date(found.st_mtime_ns // 1_000_000_000),
        shown,
    )


def section(names):
    directory = b"/".join(names) or b"."
    rows = [row for row in (fields(directory, name) for name in sorted(os.listdir(directory))) if row]
    links, owners, groups, sizes = (max((len(row[i]) for row in rows), default=0) for i in (1, 2, 3, 4))
    lines = [b"  " + escaped(directory) + b":", b"  total %d" % len(rows)]
    for mode, link, user, group, size, when, name in rows:
        columns = (link.rjust(links), user.ljust(owners), group.ljust(groups), size.rjust(sizes), when, name)
        lines.append(b"  " + mode + b" " + b" ".join(columns))
    return b"".join(line + b"\n" for line in lines)


def path_of(word):
    names = []
    for name in os.fsencode(word).split(b"/"):
        if name == b"..":
            names.pop()
        elif name not in (b"", b"."):
            names.append(name)
    return tuple(names)


paths = sorted({()} | {path_of(word) for word in sys.argv[1:]})
sys.stdout.buffer.write(b"dired 1\n" + b"\n".join(section(names) for names in paths))
