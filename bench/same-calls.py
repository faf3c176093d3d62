#!/usr/bin/env python3
"""Makes the same calls on files and directories as a traced program, in the working directory, and prints the milliseconds that they take.

same-calls.py LOG, where LOG was written by `strace -s 100000000 -e trace=file,desc,process`. Calls on files of the system are left out, and for each
program that was started `sync -f .` is run.
"""
import os
import re
import subprocess
import sys
import time

CALL = re.compile(r"(\w+)\((.*)\) += (-?\d+)")
TEXT = re.compile(r'"((?:[^"\\]|\\.)*)"')
STARTS = ("clone", "clone3", "vfork", "fork")
SYNC = ("sync", "-f", ".")


def texts(words):
    """The bytes between quotes."""
    return [text.encode("latin-1").decode("unicode_escape").encode("latin-1") for text in TEXT.findall(words)]


def flags_of(words):
    """The flags of a call that opens, which stand behind the path."""
    found = re.search(r'", ([A-Z_|]+)', words)
    return sum(getattr(os, name, 0) for name in found[1].split("|")) if found else 0


def quietly(call, *words):
    try:
        return call(*words)
    except OSError:
        return None


def made(name, words, answer, files):
    """What makes a call again, or None where nothing does. `files` maps the numbers of files that are open to those of this program."""
    paths, fd = texts(words), int(words.split(",")[0]) if re.match(r"\d+(,|$)", words) else None
    if name in STARTS:
        return lambda: subprocess.run(SYNC, check=False)
    if fd is None and (not paths or paths[0].startswith(b"/")):
        return None
    if name in ("open", "openat"):
        flags, mode = flags_of(words), int(words.rsplit(", ", 1)[1], 8) if "O_CREAT" in words else 0o600
        return lambda: files.__setitem__(answer, quietly(os.open, paths[0], flags, mode)) if answer >= 0 else quietly(os.open, paths[0], flags, mode)
    on_file = {"close": lambda at: os.close(files.pop(fd)), "fsync": os.fsync, "fstat": os.fstat, "write": lambda at: os.write(at, paths[0]),
               "read": lambda at: os.read(at, int(words.rsplit(", ", 1)[1])), "getdents64": lambda at: os.lseek(at, 0, os.SEEK_CUR),
               "fchmod": lambda at: os.fchmod(at, int(words.rsplit(", ", 1)[1], 8)), "newfstatat": os.fstat, "statx": os.fstat}
    if fd is not None and name in on_file:
        return lambda: quietly(on_file[name], files[fd]) if files.get(fd) is not None else None
    mode = words.rsplit(", ", 1)[-1]
    on_path = {"mkdir": lambda: os.mkdir(paths[0], int(mode, 8)), "mkdirat": lambda: os.mkdir(paths[0], int(mode, 8)),
               "unlink": lambda: os.unlink(paths[0]), "unlinkat": lambda: (os.rmdir if "AT_REMOVEDIR" in words else os.unlink)(paths[0]),
               "rmdir": lambda: os.rmdir(paths[0]), "chmod": lambda: os.chmod(paths[0], int(mode, 8)), "readlink": lambda: os.readlink(paths[0])}
    for rename in ("rename", "renameat", "renameat2"):
        on_path[rename] = lambda: os.rename(paths[0], paths[1])
    for look in ("stat", "lstat", "newfstatat", "statx"):
        on_path[look] = lambda: os.lstat(paths[0])
    return (lambda: quietly(on_path[name])) if name in on_path else None


def main():
    files, calls = {}, []
    with open(sys.argv[1], encoding="latin-1") as log:
        for line in log:
            found = CALL.match(line)
            call = made(found[1], found[2], int(found[3]), files) if found else None
            if call is not None:
                calls.append(call)
    begun = time.perf_counter()
    for call in calls:
        call()
    print("%.1f" % (1000 * (time.perf_counter() - begun)))
    return 0


if __name__ == "__main__":
    sys.exit(main())
