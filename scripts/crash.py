#!/usr/bin/env python3
"""Stops the built program at each of its system calls that change something, makes each of them fail, and has what then stands recovered.

crash.py [PROGRAM] [--examples COUNT] [--only NAME] [--edits COUNT] [--lines COUNT] [--seed SEED] [--every COUNT] [--drawn-every COUNT] [--jobs COUNT]
         [--mask MASK]

For the first COUNT small examples of commits (all, unless given), and for COUNT drawn edits (none, unless given; of at most LINES lines, 50 unless
given), or of all these the one of this NAME, on real folders: the program is killed as each changing call begins, and each of them fails, of the examples with EIO
and with ENOSPC, of the drawn edits with one of them in turn; so does the `sync` of the programs that it starts. Each tree that stands then is recovered, and
a copy of it with `--back`. Each of these recoveries is killed itself as a changing call begins: at every call of it (--every 1, unless given), of
the drawn edits at each so many-th, the first of them drawn (--drawn-every 12, unless given); and what stands then is recovered and killed in the same way, until
no tree comes that was not seen before. The end must be the old tree or the edited one, by path, inode, mode, target and bytes, with no name
of the program's own: the edited one where a seal stood, or a whole journal that isn't on its way back and no `--back` was asked for. A tree that was
seen is not recovered again, since a recovery sees only what stands. Calls are stopped by `strace`. The programs run with an octal mask of file modes (22,
unless given), and so many edits are tried at a time (as many as there are processors, unless given). What a loss of power leaves is not seen here: a killed
program's calls have all reached the file system.
"""
import argparse
import multiprocessing
import os
import random
import re
import shutil
import stat
import subprocess
import sys
import tempfile
import time

sys.dont_write_bytecode = True
sys.path.insert(0, os.path.join(os.path.dirname(os.path.abspath(__file__)), "cases"))
from commit_examples import small  # noqa: E402
from plan_examples import drawn_edits, edit  # noqa: E402
from draw import draw_tree  # noqa: E402
from plans import check, edited_tree  # noqa: E402
from edits import Fault  # noqa: E402
from plan_table import PlanCase  # noqa: E402
from texts import escape, mode_text, path_text  # noqa: E402

STAGING = ".wdired-commit"

# the calls of a process that change something
CHANGING = ("rename renameat renameat2 mkdir mkdirat symlink symlinkat link linkat unlink unlinkat rmdir chmod fchmod fchmodat fchmodat2 "
            "write fsync fdatasync syncfs ftruncate clone clone3 vfork fork").split()
STARTS = ("clone", "clone3", "vfork", "fork")
ERRORS = ("EIO", "ENOSPC")
CALL = re.compile(r"^(?:\[pid +\d+\] |\d+ +)?(\w+)\(")


COUNTS = ("stopped", "failed", "trees", "recovered", "killed")
SAID = ("%(stopped)d runs were killed and %(failed)d met a failing call; %(trees)d trees stood then; %(recovered)d recoveries ended old or edited, and "
        "%(killed)d were killed")


class Problem(Exception):
    pass


# ---- folders

def make(tree, folder):
    """Makes a tree in a folder. Each file's bytes are its own; paths of one number are hard links."""
    first = {}
    for path in tree.paths():
        at, (kind, value) = os.path.join(folder, path_text(path)), tree.nodes[path]
        if kind == "dir":
            os.mkdir(at)
        elif kind == "link":
            os.symlink(value, at)
        elif value in first:
            os.link(first[value], at)
        else:
            first[value] = at
            with open(at, "wb") as out:
                out.write(b"file %d\n" % value + tree.files[value][0])
    for path in reversed(tree.paths()):
        if tree.kind(path) != "link":
            os.chmod(os.path.join(folder, path_text(path)), tree.mode(path))


def shown(folder):
    """What stands in a folder: by path its kind, inode, mode, and target or bytes."""
    found = {}
    for above, dirs, names in os.walk(folder):
        for name in dirs + names:
            at = os.path.join(above, name)
            about = os.lstat(at)
            path = os.path.relpath(at, folder)
            if stat.S_ISLNK(about.st_mode):
                found[path] = ("link", about.st_ino, os.readlink(at))
            elif stat.S_ISDIR(about.st_mode):
                found[path] = ("dir", about.st_ino, stat.S_IMODE(about.st_mode))
            else:
                with open(at, "rb") as data:
                    found[path] = ("file", about.st_ino, stat.S_IMODE(about.st_mode), data.read())
    return found


def expected(case, old):
    """What the edited tree shows. An entry that is new has None for its inode."""
    tree, edited = case.tree, edited_tree(case.tree, case.changes)
    source = {}
    for path in tree.paths():
        source.setdefault(tree.nodes[path] if tree.kind(path) == "file" else ("at", path), old[path_text(path)])
    place = {new: path for path, new in moved(case)}
    found = {}
    for path in edited.paths():
        kind, value = edited.nodes[path]
        was = source.get(("file", value)) if kind == "file" else source.get(("at", place.get(path)))
        if kind == "link":
            is_same = was is not None and was[0] == "link" and was[2] == value
            found[path_text(path)] = ("link", was[1] if is_same else None, value)
        elif kind == "dir":
            found[path_text(path)] = ("dir", was[1] if was else None, edited.mode(path))
        else:
            found[path_text(path)] = ("file", was[1], edited.mode(path), was[3])
    return found


def moved(case):
    """The old paths that stay in the tree, with their new places."""
    from plans import places, victims_of
    place = places(case.changes)
    gone = {change.to for change in victims_of(case.tree, case.changes)} | {change.source for change in case.changes if change.target is not None}
    return [(path, place(path)) for path in case.tree.paths() if path not in gone]


def is_shown(found, wanted):
    """Whether a folder shows this, whatever inodes stand for None."""
    if found.keys() != wanted.keys():
        return False
    return all(found[path] == wanted[path] or (wanted[path][1] is None and found[path][::2] == wanted[path][::2] and found[path][3:] == wanted[path][3:])
               for path in found)


def copy(folder, to, labels):
    """A copy in which hard links are kept, and the labels of its inodes."""
    places, copied = {}, {}
    os.mkdir(to)
    for above, dirs, names in os.walk(folder):
        for name in dirs + names:
            at = os.path.join(above, name)
            there, about = os.path.join(to, os.path.relpath(at, folder)), os.lstat(at)
            if stat.S_ISLNK(about.st_mode):
                os.symlink(os.readlink(at), there)
            elif stat.S_ISDIR(about.st_mode):
                os.mkdir(there)
            elif about.st_ino in places:
                os.link(places[about.st_ino], there)
            else:
                places[about.st_ino] = there
                shutil.copy(at, there)
            if about.st_ino in labels:
                copied[os.lstat(there).st_ino] = labels[about.st_ino]
    for above, dirs, _ in os.walk(folder, topdown=False):
        for name in dirs:
            at = os.path.join(above, name)
            if not os.path.islink(at):
                os.chmod(os.path.join(to, os.path.relpath(at, folder)), stat.S_IMODE(os.lstat(at).st_mode))
    return copied


def removed(folder):
    """Removes a folder, whatever the modes in it are."""
    for above, dirs, _ in os.walk(folder):
        for name in dirs:
            if not os.path.islink(os.path.join(above, name)):
                os.chmod(os.path.join(above, name), 0o700)
    shutil.rmtree(folder, ignore_errors=True)


# ---- buffers

def buffers(program, case, folder):
    """The listing of all directories of a folder, and the same with the changes of a case."""
    dirs = [path_text(path) for path in case.tree.paths() if case.tree.is_dir(path)]
    before = subprocess.run([program, "list", "-Al"] + dirs, cwd=folder, stdout=subprocess.PIPE, check=True).stdout.decode()
    edits = {change.source: change for change in case.changes}
    after, above, last = [], "", None
    for line in before.split("\n"):
        # the head of a section is the first line, or stands behind an empty one
        if last in ("dired 1", ""):
            above = "" if line == "  .:" else line[2:-1]
        last = line
        for path, change in edits.items():
            name = escape(path[-1], case.tree.kind(path) == "link")
            ending = " " + name + (" -> " + escape(case.tree.target(path)) if case.tree.kind(path) == "link" else "")
            if escape(path_text(path[:-1])) == above and len(line) > 38 and line.endswith(ending):
                line = edited_line(case, line, ending, change)
                break
        after.append(line)
    return before, "\n".join(after)


def edited_line(case, line, ending, change):
    path = change.source
    is_link = case.tree.kind(path) == "link"
    to = path if change.to is None else change.to
    name = to[-1] if to[:-1] == path[:-1] else "/".join([".."] * (len(path) - 1) + list(to))
    new = " " + escape(name, is_link)
    if is_link:
        new += " -> " + escape(case.tree.target(path) if change.target is None else change.target)
    line = line[:len(line) - len(ending)] + new
    if change.mode is not None:
        line = line[:3] + mode_text(change.mode) + line[12:]
    return line


# ---- runs

def traced(words, folder, log, *rules, with_started=False):
    """Runs a program in a folder under strace, and answers its status: 137 where it was killed."""
    trace = ["strace", "-qq"] + ["-f"] * with_started + ["-o", log, "-e", "trace=" + ",".join("?" + name for name in CHANGING)]
    for rule in rules:
        trace += ["-e", rule]
    ended = subprocess.run(trace + words, cwd=folder, stdout=subprocess.PIPE, stderr=subprocess.PIPE)
    return ended.returncode if ended.returncode >= 0 else 128 - ended.returncode


def calls_in(log):
    """The changing calls of a run as (name, number): the number counts calls of this name, from 1. A write to the output isn't one."""
    counts, calls = {}, []
    with open(log, errors="replace") as lines:
        for line in lines:
            found = CALL.match(line)
            if found and found[1] in CHANGING:
                name = found[1]
                counts[name] = counts.get(name, 0) + 1
                if not (name == "write" and line.split("(", 1)[1].startswith(("1,", "2,"))):
                    calls.append((name, counts[name]))
    return calls


class State:
    """What stands in a folder: by path its kind, the old path of its inode (None where it is new), mode, and target or bytes."""

    def __init__(self, folder, labels):
        self.folder, self.labels = folder, labels
        self.entries = {path: (entry[0], labels.get(entry[1])) + entry[2:] for path, entry in shown(folder).items()}
        self.names = {path.split(os.sep)[1] for path in self.entries if path.startswith(STAGING + os.sep)}

    def key(self):
        return tuple(sorted(self.entries.items(), key=lambda entry: entry[0]))

    def wants_new(self, flags):
        """Whether a recovery must lead to the edited tree, or to the old one; None where both will do."""
        if "done" in self.names:
            return True
        if "plan" in self.names:
            return not flags and not any(name.startswith("back-") for name in self.names)
        return False if "undone" in self.names else None


class Trial:
    """One edit on a real folder. Each call fails so many times, with different errors, and recoveries are killed at each `every`-th of their calls."""

    def __init__(self, program, case, work, every, errors_each, rng):
        self.program, self.case, self.work, self.every, self.errors_each, self.rng = program, case, work, every, errors_each, rng
        self.folder, self.log = os.path.join(work, "tree"), os.path.join(work, "log")
        self.counts = dict.fromkeys(COUNTS, 0)
        self.texts, self.seen, self.waiting = None, set(), []

    def fresh(self):
        removed(self.folder)
        os.mkdir(self.folder)
        make(self.case.tree, self.folder)
        found, self.labels = shown(self.folder), {}
        for path, entry in sorted(found.items()):
            self.labels.setdefault(entry[1], path)
        if self.texts is None:
            self.texts = buffers(self.program, self.case, self.folder)
            for name, text in zip(("before", "after"), self.texts):
                with open(os.path.join(self.work, name), "w") as out:
                    out.write(text)
            self.old = self.now().entries
            self.new = {path: (entry[0], self.labels.get(entry[1])) + entry[2:] for path, entry in expected(self.case, found).items()}

    def words(self):
        return [self.program, "commit", "--all", "../before", "../after"]

    def now(self):
        return State(self.folder, self.labels)

    def is_old(self, state):
        return is_shown(state.entries, self.old)

    def is_new(self, state):
        return is_shown(state.entries, self.new)

    def run(self):
        self.fresh()
        status = traced(self.words(), self.folder, self.log)
        if status != 0 or not self.is_new(self.now()):
            raise Problem("%s: status %d of the whole commit" % (self.case.name, status))
        for place, (name, number) in enumerate(calls_in(self.log)):
            self.stop(name, number)
            for more in range(self.errors_each if name not in STARTS else 0):
                self.fail(name, number, ERRORS[(place + more) % 2])
        for error in ERRORS:
            self.fail_started("syncfs", error)
        while self.waiting:
            state, what = self.waiting.pop()
            for flags in ([], ["--back"]):
                self.recover(state, flags, what)
            removed(state.folder)
        return self.counts

    def stop(self, name, number):
        self.fresh()
        traced(self.words(), self.folder, self.log, "inject=%s:signal=KILL:when=%d" % (name, number))
        self.counts["stopped"] += 1
        self.stands(self.now(), "%s killed at %s %d" % (self.case.name, name, number))

    def fail(self, name, number, error):
        self.fresh()
        status = traced(self.words(), self.folder, self.log, "inject=%s:error=%s:when=%d" % (name, error, number))
        self.ended(status, "%s with %s at %s %d" % (self.case.name, error, name, number))

    def fail_started(self, name, error):
        """Each call of this name fails, in the programs that are started too."""
        self.fresh()
        status = traced(self.words(), self.folder, self.log, "inject=%s:error=%s" % (name, error), with_started=True)
        self.ended(status, "%s with %s at each %s" % (self.case.name, error, name))

    def ended(self, status, what):
        """A run in which a call failed has ended with this status."""
        self.counts["failed"] += 1
        state = self.now()
        if status == 0 and not self.is_new(state):
            raise Problem("%s: status 0, and not the edited tree" % what)
        if status in (4, 12) and not self.is_old(state):
            raise Problem("%s: status %d, and not the old tree" % (what, status))
        if status not in (0, 4, 12, 13, 14):
            raise Problem("%s: status %d" % (what, status))
        self.stands(state, what)

    # ---- recovery

    def stands(self, state, what):
        """What stands is recovered later, unless it was seen before."""
        key = state.key()
        if key not in self.seen:
            self.seen.add(key)
            self.counts["trees"] += 1
            kept = os.path.join(self.work, "state%d" % len(self.seen))
            self.waiting.append((State(kept, copy(state.folder, kept, state.labels)), what))

    def recover(self, state, flags, what):
        """Recovers a copy of what stands, and others by recoveries that are killed."""
        words, what = [self.program, "recover"] + flags, "%s, %s" % (what, "recovered back" if flags else "recovered")
        there = os.path.join(self.work, "copy")
        labels = copy(state.folder, there, state.labels)
        status = traced(words, there, self.log)
        self.has_ended(state, State(there, labels), flags, status, what)
        removed(there)
        calls = calls_in(self.log)
        for name, number in calls[self.rng.randrange(self.every)::self.every]:
            labels = copy(state.folder, there, state.labels)
            traced(words, there, self.log, "inject=%s:signal=KILL:when=%d" % (name, number))
            self.counts["killed"] += 1
            self.stands(State(there, labels), "%s, killed at %s %d" % (what, name, number))
            removed(there)

    def has_ended(self, state, ended, flags, status, what):
        """A recovery of what stood has ended with this status and this tree."""
        is_old, is_new, wants_new = self.is_old(ended), self.is_new(ended), state.wants_new(flags)
        if status != 0 or not (is_old or is_new):
            raise Problem("%s: status %d, %s" % (what, status, "old" if is_old else "edited" if is_new else "neither the old tree nor the edited one"))
        if wants_new is not None and not (is_new if wants_new else is_old):
            raise Problem("%s: the other tree" % what)
        self.counts["recovered"] += 1


# ---- edits

def drawn(rng, lines):
    """A drawn case of edits that can be made, of at most so many lines: some in a drawn tree, and for the others files that it gets besides."""
    while True:
        tree, count = draw_tree(rng), rng.randint(1, lines)
        changes = drawn_edits(rng, tree)[:count]
        changes += more_files(rng, tree, count - len(changes))
        for number, change in enumerate(changes):
            change.line = 4 + number
        try:
            check(tree, changes, True, ())
        except Fault:
            continue
        if changes:
            return PlanCase("drawn-%d" % rng.randrange(10 ** 6), tree, changes, None)


def more_files(rng, tree, count):
    """Puts so many files into a tree, and gives them the names of one another, other names, or places in new directories."""
    names, first = ["w%02d" % number for number in range(count)], max(tree.files, default=-1) + 1
    for number, name in enumerate(names):
        tree.add_file((name,), first + number, b"", 0o644)
    traded, length = rng.sample(names, rng.randint(0, count)), rng.choice((2, 3, 5, 40))
    news = {}
    for place in range(0, len(traded), length):
        cycle = traded[place:place + length]
        news.update(zip(cycle, cycle[1:] + cycle[:1]) if len(cycle) > 1 else ())
    return [edit(tree, name, news.get(name) or rng.choice((name + ".bak", "new/" + name, "new/deep/" + name))) for name in names]


def tried(job):
    """The name of a case, and its counts or what was wrong."""
    program, case, every, errors_each, seed = job
    with tempfile.TemporaryDirectory() as work:
        try:
            return case.name, Trial(program, case, work, every, errors_each, random.Random(seed)).run(), None
        except Problem as problem:
            return case.name, None, str(problem)


def jobs_of(words):
    """What is tried: the longest first, which are the drawn edits."""
    rng, program = random.Random(words.seed), os.path.abspath(words.program)
    examples = [case for case in small() if all(change.is_edit() for change in case.changes) and words.only in ("", case.name)][:words.examples]
    drawn_cases = [drawn(rng, words.lines) for _ in range(words.edits)]
    edits = sorted((case for case in drawn_cases if words.only in ("", case.name)), key=lambda case: -len(case.changes))
    return ([(program, case, words.drawn_every, 1, words.seed + place) for place, case in enumerate(edits)]
            + [(program, case, words.every, 2, words.seed + place) for place, case in enumerate(examples)])


def main():
    parser = argparse.ArgumentParser(add_help=False)
    built = os.path.join(os.path.dirname(os.path.abspath(__file__)), "..", "crates", "dired_cli", "out", "dired_cli")
    parser.add_argument("program", nargs="?", default=built)
    for name, default in (("examples", 99), ("edits", 0), ("lines", 50), ("seed", 1), ("every", 1), ("drawn-every", 12), ("jobs", os.cpu_count() or 1)):
        parser.add_argument("--" + name, type=int, default=default)
    parser.add_argument("--only", default="")
    parser.add_argument("--mask", type=lambda digits: int(digits, 8), default=0o22)
    words = parser.parse_args()
    for lacking, why in ((shutil.which("strace") is None, "no strace"), (not os.access(words.program, os.X_OK), "no program at " + words.program)):
        if lacking:
            print("crash: skipped, %s" % why)
            return 0
    os.umask(words.mask)
    begun, totals, problems, edits = time.time(), dict.fromkeys(COUNTS, 0), 0, 0
    with multiprocessing.Pool(words.jobs) as pool:
        for name, counts, problem in pool.imap_unordered(tried, jobs_of(words)):
            if problem is not None:
                print("FAILED %s" % problem, flush=True)
                problems += 1
                continue
            print("crash: %s: %s" % (name, SAID % counts), flush=True)
            edits += 1
            for count in COUNTS:
                totals[count] += counts[count]
    print("crash: %d edits in %d s: %s" % (edits, time.time() - begun, SAID % totals))
    return min(problems, 1)


if __name__ == "__main__":
    sys.exit(main())
