"""Recovery: what an interrupted commit left is brought to the edited or to the old tree."""
import re

from commits import DONE, PLAN, UNDONE, at, back_at, call_of, cuts, look, named, own, undo_of
from disks import Failed
from journals import read_journal
from trees import STAGING

ENTRY = re.compile("([fht])(0|[1-9][0-9]{0,9})")
MARKER = re.compile("(at|back)-(0|[1-9][0-9]*)")

# which entries and markers may stand beside each journal
ENTRIES = {None: "f", "plan": "fht", "done": "h", "undone": "f"}
MARKERS = {None: (), "plan": ("at", "back"), "done": ("at",), "undone": ("back",)}


class Refused(Exception):
    """It ends with this answer: ("foreign", name), ("bad-journal", offset) or ("strange", step)."""


def entry(name):
    """Letter and number of the name of an entry, or None."""
    found = ENTRY.fullmatch(name)
    return (found[1], int(found[2])) if found and int(found[2]) < 1 << 32 else None


def marker(name):
    found = MARKER.fullmatch(name)
    return (found[1], int(found[2])) if found else None


class Recovery:
    def __init__(self, disk, back):
        self.disk, self.back = disk, back
        # what the names were found to stand for
        self.kinds = {}

    def run(self):
        try:
            return (self.recovered(),)
        except Failed as first:
            return ("tree-fault", first.call)
        except Refused as end:
            return end.args

    def recovered(self):
        kind = self.disk.kind(STAGING)
        if kind is None:
            self.disk.sync()
            return "nothing"
        if kind != "dir":
            raise Refused("foreign", STAGING[0])
        names = self.disk.names(STAGING)
        journal, mark, entries = self.tested(names)
        steps = self.steps_of(journal, mark)
        self.disk.sync()
        if journal is None:
            for name in names:
                self.disk.do(("remove", own(name)))
            self.disk.do(("remove_dir", STAGING))
            self.disk.sync()
            return "cleared"
        if journal == "plan":
            entries |= {entry(path[1]) for step in steps for path in named(step) if path[:1] == STAGING}
        return self.from_journal(journal, mark, steps, sorted(entries))

    # ---- the names

    def tested(self, names):
        """The journal, the marker and the entries that stand. Nothing is changed where one of them isn't of a commit."""
        journals = [name for name in names if name in ("plan", "done", "undone")]
        if len(journals) > 1:
            raise Refused("foreign", journals[0])
        journal = journals[0] if journals else None
        marks, entries = [], set()
        for name in names:
            if not self.may_stand(name, journal):
                raise Refused("foreign", name)
            if marker(name) and journal is not None:
                marks.append(name)
            if entry(name):
                entries.add(entry(name))
        if len(marks) > 1:
            raise Refused("foreign", marks[1])
        if journal == "plan" and not marks:
            raise Refused("foreign", "plan")
        return journal, marker(marks[0]) if marks else None, entries

    def may_stand(self, name, journal):
        kind = self.kinds[name] = self.disk.kind(own(name))
        if name == journal or (journal is None and name in ("new", "at-0")):
            return kind == "file"
        if entry(name):
            letter = entry(name)[0]
            if letter not in ENTRIES[journal]:
                return False
            is_bare = kind == "dir" and letter == "h" and self.disk.is_empty(own(name))
            return letter == "t" or kind in ("file", "link") or is_bare
        return marker(name) is not None and marker(name)[0] in MARKERS[journal] and kind == "file"

    def steps_of(self, journal, mark):
        if journal is None:
            return []
        found = read_journal(self.disk.read(own(journal)))
        if isinstance(found, int):
            raise Refused("bad-journal", found)
        if mark is not None and mark[1] > len(found):
            raise Refused("foreign", "%s-%d" % mark)
        return found

    # ---- by the journal

    def from_journal(self, journal, mark, steps, entries):
        if journal == "done":
            self.clear(entries, DONE, [at(mark[1])] if mark else [])
            return "edited"
        if journal == "undone":
            self.clear(entries, UNDONE, [back_at(mark[1])] if mark else [])
            return "old"
        side, place = mark
        if side == "at" and not self.back:
            self.go_forward(steps, place)
            self.end(steps, entries, "ft", "h", PLAN, DONE)
            self.clear(self.left(entries, "h"), DONE, [at(len(steps))])
            return "edited"
        if side == "at":
            place = self.turn(steps, place)
        self.go_back(steps, place)
        self.end(steps, entries, "ht", "f", PLAN, UNDONE)
        self.clear(self.left(entries, "f"), UNDONE, [back_at(0)])
        return "old"

    def seen(self, steps, place, undoing):
        found = look(self.disk, steps[place], undoing)
        if found is None:
            raise Refused("strange", place)
        return found

    def go_forward(self, steps, place):
        for end in [cut for cut in cuts(steps) if cut > place]:
            for number in range(place, end):
                if self.seen(steps, number, False) == "before":
                    self.disk.do(call_of(steps[number]))
            self.disk.sync()
            self.disk.rename(at(place), at(end))
            self.disk.sync()
            place = end

    def turn(self, steps, place):
        end = min([cut for cut in cuts(steps) if cut > place], default=place)
        found = [self.seen(steps, number, True) for number in range(place, end)]
        turn = end if "after" in found else place
        self.disk.rename(at(place), back_at(turn))
        self.disk.sync()
        return turn

    def go_back(self, steps, place):
        for begin in reversed([cut for cut in cuts(steps) if cut < place]):
            for number in reversed(range(begin, place)):
                if self.seen(steps, number, True) == "after":
                    self.disk.do(undo_of(steps[number]))
            self.disk.sync()
            self.disk.rename(back_at(place), back_at(begin))
            self.disk.sync()
            place = begin

    def end(self, steps, entries, waiting, left, journal, last):
        """The journal gets its last name, unless an entry stands that still waits, or one of those that are left can't be removed."""
        for letter, number in entries:
            path = own("%s%d" % (letter, number))
            kind = self.disk.kind(path)
            is_full = kind == "dir" and (letter == "f" or (letter == "h" and not self.disk.is_empty(path)))
            if kind is not None and (letter in waiting or is_full):
                raise Refused("strange", len(steps) if last == DONE else 0)
        self.disk.rename(journal, last)
        self.disk.sync()

    def left(self, entries, letter):
        """Those of this letter, whose kinds are those that they have now: each is removed as it comes."""
        for found, number in entries:
            if found == letter:
                self.kinds["%s%d" % (found, number)] = self.disk.kind(own("%s%d" % (found, number)))
                yield found, number

    def clear(self, entries, journal, marks):
        for letter, number in entries:
            name = "%s%d" % (letter, number)
            if self.kinds[name] is not None:
                self.disk.do(("remove_dir" if self.kinds[name] == "dir" else "remove", own(name)))
        for path in marks:
            self.disk.do(("remove", path))
        self.disk.sync()
        self.disk.do(("remove", journal))
        self.disk.do(("remove_dir", STAGING))
        self.disk.sync()
