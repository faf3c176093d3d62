"""The commit of a plan call by call, its way back, and recovery.

A commit works in the staging directory: it writes the new entries `fN` and the journal there, does its steps in groups, puts what is given up
aside as `hN`, and clears all of it. A marker `at-M` says that the steps before place M are done, `back-M` that only these are left. The
journal is `new` while it is written, then `plan`, behind the last step `done`, and at the end of a way back `undone`.
"""
from disks import Failed
from journals import journal
from plans import staged
from texts import ancestors
from trees import STAGING

FEW_STEPS = 8


def at(place):
    return STAGING + ("at-%d" % place,)


def back_at(place):
    return STAGING + ("back-%d" % place,)


def own(name):
    return STAGING + (name,)


NEW, PLAN, DONE, UNDONE = (own(name) for name in ("new", "plan", "done", "undone"))


# ---- steps and groups

def call_of(step):
    kind, *words = step
    return {"mkdir": lambda path: ("make_dir", path, 0o755), "rename": lambda source, to: ("rename", source, to),
            "mode": lambda path, old, new: ("set_mode", path, new)}[kind](*words)


def undo_of(step):
    kind, *words = step
    return {"mkdir": lambda path: ("remove_dir", path), "rename": lambda source, to: ("rename", to, source),
            "mode": lambda path, old, new: ("set_mode", path, old)}[kind](*words)


def named(step):
    return [word for word in step[1:] if isinstance(word, tuple)]


def cuts(steps):
    """The places where groups begin, and the end. A list of few steps has one step in each group. In a longer one a group goes on as
    long as none of the paths that its steps name is equal to or below another."""
    if len(steps) <= FEW_STEPS:
        return list(range(len(steps) + 1))
    places, paths, above = [0], set(), set()
    for place, step in enumerate(steps):
        new = named(step)
        if any(path in paths or path in above or any(upper in paths for upper in ancestors(path)) for path in new):
            places.append(place)
            paths, above = set(), set()
        paths.update(new)
        above.update(upper for path in new for upper in ancestors(path))
    return places + [len(steps)]


def sorted_by_layer(steps):
    """The steps in the order in which a commit does them. A step depends on an earlier one where a path that it names is equal to, below or
    above one that that names. It is in layer 0 where it depends on none, and else in the one behind the highest on which it depends; in a
    layer the steps keep their order. A list of few steps stays as it is."""
    if len(steps) <= FEW_STEPS:
        return list(steps)
    layers = []
    for place, step in enumerate(steps):
        layers.append(max([layers[other] + 1 for other in range(place) if depends(step, steps[other])], default=0))
    return [steps[place] for place in sorted(range(len(steps)), key=lambda place: layers[place])]


def depends(step, other):
    """Whether a path that the step names is equal to, below or above one that the other names."""
    return any(path[:len(named_there)] == named_there[:len(path)] for path in named(step) for named_there in named(other))


def look(disk, step, undoing):
    """Whether a step is still to be done ("before"), was done ("after"), or neither (None)."""
    kind, path, *words = step
    if kind == "rename":
        to = words[0]
        stands, taken = disk.kind(path), disk.kind(to)
        if stands and not taken:
            return "before" if disk.kind(to[:-1]) == "dir" else None
        if taken and not stands:
            return "after" if disk.kind(path[:-1]) == "dir" else None
        return None
    what = disk.kind(path)
    if kind == "mkdir":
        if what is None:
            return "before" if disk.kind(path[:-1]) == "dir" else None
        return "after" if what == "dir" and (not undoing or disk.is_empty(path)) else None
    if what not in ("file", "dir"):
        return None
    mode = disk.mode(path)
    return "before" if mode == words[0] else "after" if mode == words[1] else None


# ---- a commit

class Commit:
    """The commit of the steps of a plan; `fresh` are the new entries as ("link", target), ("file", mode, bytes) or ("same", path), and `held` tells of
    each entry that is put aside whether it is a directory."""

    def __init__(self, disk, steps, fresh, held):
        self.disk, self.steps, self.fresh, self.held = disk, sorted_by_layer(steps), fresh, held
        self.cuts = cuts(self.steps)

    def run(self):
        """How it ends: ("done",), or a name with the calls that failed."""
        try:
            self.disk.sync()
        except Failed as first:
            return ("tree-fault", first.call)
        if not self.steps:
            return ("done",)
        try:
            self.stage()
        except Failed as first:
            return self.ended(first, self.unstage)
        for number in range(len(self.cuts) - 1):
            try:
                self.do_group(number)
            except Failed as first:
                return self.ended(first, lambda: self.go_back(number))
        try:
            self.disk.rename(PLAN, DONE)
        except Failed as first:
            return self.unsealed(first)
        try:
            self.disk.sync()
            self.clean()
        except Failed as first:
            return ("unclean", first.call)
        return ("done",)

    def ended(self, first, back):
        try:
            back()
        except Failed as second:
            return ("unfinished", first.call, second.call)
        return ("rolled-back", first.call)

    def unsealed(self, first):
        try:
            is_sealed = self.disk.kind(DONE) is not None
        except Failed as second:
            return ("unfinished", first.call, second.call)
        return ("unclean", first.call) if is_sealed else self.ended(first, lambda: self.go_back(len(self.cuts) - 1))

    def fresh_call(self, number):
        path, (kind, *words) = staged("f", number), self.fresh[number]
        return {"link": lambda target: ("make_link", path, target), "file": lambda mode, data: ("write_file", path, data, mode),
                "same": lambda other: ("make_hard", path, other)}[kind](*words)

    def stage(self):
        self.disk.do(("make_dir", STAGING, 0o700))
        self.disk.do(("write_file", at(0), b"", 0o600))
        for number in range(len(self.fresh)):
            self.disk.do(self.fresh_call(number))
        self.disk.do(("write_file", NEW, journal(self.steps), 0o600))
        self.disk.sync()
        self.disk.rename(NEW, PLAN)
        self.disk.sync()

    def do_group(self, number):
        begin, end = self.cuts[number:number + 2]
        for step in self.steps[begin:end]:
            self.disk.do(call_of(step))
        self.disk.sync()
        self.disk.rename(at(begin), at(end))
        self.disk.sync()

    def clean(self):
        for number, is_dir in enumerate(self.held):
            self.disk.do(("remove_dir" if is_dir else "remove", staged("h", number)))
        self.disk.do(("remove", at(len(self.steps))))
        self.disk.sync()
        self.disk.do(("remove", DONE))
        self.disk.do(("remove_dir", STAGING))
        self.disk.sync()

    # ---- the way back

    def unstage(self):
        """Where a call before the first group failed."""
        if self.disk.kind(PLAN) is not None:
            return self.go_back(0)
        if self.disk.kind(STAGING) is not None:
            for path in [at(0)] + [staged("f", number) for number in range(len(self.fresh))] + [NEW]:
                if self.disk.kind(path) is not None:
                    self.disk.do(("remove", path))
            self.disk.do(("remove_dir", STAGING))
        self.disk.sync()

    def go_back(self, number):
        """Where a call of the group of this number failed, or the seal behind the last one."""
        self.disk.sync()
        if number < len(self.cuts) - 1 and self.disk.kind(at(self.cuts[number])) is None:
            number += 1
        turn = number
        if number < len(self.cuts) - 1:
            begin, end = self.cuts[number:number + 2]
            if any(look(self.disk, step, True) == "after" for step in self.steps[begin:end]):
                turn = number + 1
        self.disk.rename(at(self.cuts[number]), back_at(self.cuts[turn]))
        self.disk.sync()
        for group in reversed(range(turn)):
            self.undo_group(group)
        self.disk.rename(PLAN, UNDONE)
        self.disk.sync()
        for path in [staged("f", number) for number in range(len(self.fresh))] + [back_at(0)]:
            self.disk.do(("remove", path))
        self.disk.sync()
        self.disk.do(("remove", UNDONE))
        self.disk.do(("remove_dir", STAGING))
        self.disk.sync()

    def undo_group(self, number):
        begin, end = self.cuts[number:number + 2]
        for step in reversed(self.steps[begin:end]):
            if look(self.disk, step, True) == "after":
                self.disk.do(undo_of(step))
        self.disk.sync()
        self.disk.rename(back_at(end), back_at(begin))
        self.disk.sync()
