"""What the program answers: status, text, the tree afterwards, and whether something is pending."""
import re

import buffers
import drills
import edits as rules
import listing
from commits import Commit
from disks import Disk
from plans import Change, holds, plan
from recoveries import Recovery
from texts import Refused, escape, path_text, resolve

USAGE = "dired: usage: list, commit, run, recover or drill\n"


class Ended(Exception):
    """A run ends with this status and its text."""

    def __init__(self, status, text):
        super().__init__(status, text)
        self.status, self.text = status, text


class Schedule:
    """Which calls fail, counted from 0: `changes` maps a changing call to whether it is done; `stop` is the call behind which the run is
    stopped, with the number of the image that stands then."""

    def __init__(self, changes=None, looks=(), reads=(), writes=(), stop=None):
        self.changes, self.looks, self.reads, self.writes, self.stop = changes or {}, list(looks), list(reads), list(writes), stop


def usage():
    return Ended(1, USAGE)


def tree_fault(call):
    return Ended(4, "dired: %s failed; nothing was decided\n" % call)


def named(text, name):
    return "dired: %s: %s\n" % (text, escape(name)) if text != "cannot read" else "dired: %s %s\n" % (text, escape(name))


def at_line(line, said):
    return "dired: line %d: %s\n" % (line, said)


class Outcome:
    """What a run did. A run that was stopped has no status; `held` is the status whose text could not be written."""

    def __init__(self, status, text, tree, pending, held=None):
        self.status, self.text, self.tree, self.pending, self.held = status, text, tree, pending, held


class Run:
    """A run on a tree, with inputs by name."""

    def __init__(self, tree, inputs, schedule):
        self.tree, self.inputs, self.schedule = tree, inputs, schedule
        self.reads = self.looks = 0
        # where a commit has begun
        self.disk = None

    # ---- the outside

    def look(self, looks):
        """Makes looks of these names."""
        failing = [look - self.looks for look in self.schedule.looks if 0 <= look - self.looks < len(looks)]
        if failing:
            raise tree_fault(looks[min(failing)])
        self.looks += len(looks)

    def read(self, name):
        self.reads += 1
        if self.reads - 1 in self.schedule.reads:
            raise Ended(3, named("cannot read", name))
        if name not in self.inputs:
            raise Ended(6, named("no such input", name))
        return self.inputs[name]

    # ---- the words

    def run(self, words):
        try:
            text = self.decided(words)
            status = 0
        except Ended as ended:
            status, text = ended.status, ended.text
        if self.schedule.stop is not None:
            return Outcome(None, "", self.image(self.schedule.stop[1]), False)
        if 0 in self.schedule.writes:
            return Outcome(5, "", self.tree, self.is_pending(), status)
        return Outcome(status, text, self.tree, self.is_pending())

    def is_pending(self):
        return self.disk is not None and bool(self.disk.pending)

    def image(self, number):
        """What a crash leaves: of the pending calls those are kept whose bits above the lowest one are set in the number. Where that one is
        set, files are left without the bytes that were written."""
        if self.disk is None:
            return self.tree
        pending = self.disk.pending
        return self.disk.image([pending[place] for place in range(len(pending)) if number >> 1 >> place & 1], not number & 1)

    def decided(self, words):
        if words[:1] == ["list"]:
            return self.list(words[1:])
        if words[:1] == ["commit"]:
            return self.commit(words[1:])
        if words[:1] == ["recover"]:
            return self.recover(words[1:])
        if words[:1] == ["drill"]:
            return self.drill(words[1:])
        raise usage()

    def list(self, words):
        flags, names = split_words(words, "AltSr", [])
        try:
            directories = [() if name == "." else resolve((), name) for name in names]
        except Refused:
            raise usage()
        for count, directory in enumerate(directories, 1):
            if not self.tree.is_dir(directory):
                self.look(["kind"] * count)
                raise Ended(6, named("no such input", path_text(directory)))
        self.look(listing.looks_of(self.tree, directories, flags))
        return listing.listing_text(self.tree, directories, flags)

    def commit(self, words):
        flags, names = split_words(words, "", ["all"])
        if len(names) < 2:
            raise usage()
        try:
            confirmed = [resolve((), name) for name in names[2:]]
        except Refused:
            raise usage()
        before, after = self.read(names[0]), self.read(names[1])
        edits, emptied = asked_by(names[0], before, after)
        self.look(rules.looks_of(self.tree, edits))
        try:
            rules.check(self.tree, edits, "all" in flags, confirmed)
        except rules.Fault as fault:
            raise refusal_of(fault)
        return self.carry_out(edits, emptied)

    def begin(self):
        """Changing calls begin, with the looks that haven't been made."""
        looks = [look - self.looks for look in self.schedule.looks if look >= self.looks]
        stop = None if self.schedule.stop is None else self.schedule.stop[0]
        self.disk = Disk(self.tree, self.schedule.changes, looks, stop)

    def recover(self, words):
        flags, names = split_words(words, "", ["back"])
        if names:
            raise usage()
        self.begin()
        ended = Recovery(self.disk, "back" in flags).run()
        self.tree = self.disk.tree
        if ended[0] in RECOVERED:
            return RECOVERED[ended[0]]
        raise recovery_end(*ended)

    def drill(self, words):
        _, names = split_words(words, "", [])
        if len(names) != 1 or not re.fullmatch("[1-9][0-9]*", names[0], re.ASCII) or int(names[0]) > drills.MAX_GROUPS:
            raise usage()
        return drills.line_of(int(names[0]))

    def carry_out(self, edits, emptied):
        """Commits all edits."""
        counts, edited = rules.counts_of(self.tree, edits), rules.edited_tree(self.tree, edits)
        changes = [Change(edit.line, edit.source, edit.was, edit.to, edit.target, edit.mode) for edit in edits]
        fresh = [("link", change.target) for change in changes if change.is_fresh()]
        held = [self.tree.is_dir(path) for _, path, _ in holds(self.tree, changes)]
        self.begin()
        ended = Commit(self.disk, plan(self.tree, changes)[0], fresh, held).run()
        self.tree = self.disk.tree
        if ended[0] != "done":
            raise commit_end(*ended)
        assert self.tree.nodes == edited.nodes
        return summary_text(counts, emptied)


def commit_end(name, *calls):
    """The status of a commit that wasn't done."""
    return {
        "tree-fault": tree_fault,
        "rolled-back": lambda first: Ended(12, "dired: %s failed; every change was taken back\n" % first),
        "unfinished": lambda first, second: Ended(13, "dired: %s failed, then %s failed; run recover\n" % (first, second)),
        "unclean": lambda first: Ended(14, "dired: committed, but %s failed; run recover\n" % first),
    }[name](*calls)


RECOVERED = {"nothing": "nothing to recover\n", "edited": "recovered: edited\n", "old": "recovered: old\n",
             "cleared": "recovered: cleared\n"}


def recovery_end(name, carried):
    """The status of a recovery that wasn't done."""
    return {
        "tree-fault": tree_fault,
        "bad-journal": lambda offset: Ended(15, "dired: journal unreadable at byte %d\n" % offset),
        "foreign": lambda name: Ended(16, named("not of this program", name)),
        "strange": lambda step: Ended(21, "dired: step %d: the tree is neither before nor after it\n" % step),
    }[name](carried)


def split_words(words, letters, long_names):
    """The flags and the other words. A flag may stand anywhere before `--`, and once."""
    flags, names, words = [], [], list(words)
    while words:
        word = words.pop(0)
        if word == "--":
            names += words
            break
        if word.startswith("--"):
            if word[2:] not in long_names:
                raise usage()
            flags.append(word[2:])
        elif word.startswith("-") and word != "-":
            if any(letter not in letters for letter in word[1:]):
                raise usage()
            flags += word[1:]
        else:
            names.append(word)
    if len(set(flags)) != len(flags):
        raise usage()
    return set(flags), names


def asked_by(name, before, after):
    """The edits and the emptied names of two buffers."""
    try:
        lines = buffers.read_buffer(before)
    except buffers.BadBuffer as bad:
        raise Ended(7, "dired: %s, line %d: %s\n" % (escape(name), bad.line, bad.cause))
    try:
        return buffers.edits_of(lines, after)
    except buffers.Faulty as faulty:
        raise Ended(8, at_line(faulty.line, faulty.cause))


def refusal_of(fault):
    """The status of a fault of the check."""
    if fault.name == "Pending":
        return Ended(11, "dired: an unfinished commit stands; run recover\n")
    if fault.name == "Stale":
        return Ended(10, at_line(fault.line, "the file is not as shown"))
    if fault.name == "Unconfirmed":
        return Ended(9, at_line(fault.line, "%s would be replaced" % escape(path_text(fault.other))))
    if fault.name == "PathBytes":
        return Ended(18, "dired: too large: PathBytes %d\n" % fault.other)
    if fault.name == "ParentTaken":
        return Ended(8, at_line(fault.line, "a directory to be made is taken by line %d" % fault.other))
    if fault.other is None:
        return Ended(8, at_line(fault.line, fault.name))
    other = fault.other if isinstance(fault.other, int) else escape(path_text(fault.other))
    return Ended(8, at_line(fault.line, "%s %s" % (fault.name, other)))


def summary_text(counts, emptied):
    flagged = "".join("flagged %s\n" % escape(path_text(path)) for path in emptied)
    return flagged + ("renamed %(renamed)d, retargeted %(retargeted)d, modes %(modes)d, replaced %(replaced)d, made %(made)d, " % counts
                      + "flagged %d\n" % len(emptied))
