"""Changes of a tree in one form, whether they can be made, the tree that they make, and the steps of a plan.

A change is an edit, a removal or a creation. Each line is carried out by moves: what gets another path waits at its source, a link with
another target and what is created wait in the staging directory, `.wdired-commit`, where a new entry stands for each.
"""
from edits import Fault, MAX_ALL_PATH_BYTES, is_as_shown, is_in_place, new_places
from texts import MAX_PATH_BYTES, ancestors, is_above, path_bytes, path_order
from trees import STAGING


class Change:
    """`source` is None for a creation, `to` for a removal and where an edit has no new path; `what` is ("link", target), ("file", mode,
    bytes) or ("same", path) for a creation, else None."""

    def __init__(self, line, source=None, was=None, to=None, target=None, mode=None, removes=False, what=None):
        self.line, self.source, self.was, self.to, self.target, self.mode = line, source, was, to, target, mode
        self.removes, self.what = removes, what

    def written(self):
        return self.source if self.to is None else self.to

    def is_edit(self):
        return self.source is not None and not self.removes

    def is_elsewhere(self):
        """Whether its written path is outside the directory of its source."""
        return self.what is not None or (self.is_edit() and not is_in_place(self))

    def is_fresh(self):
        """Whether a new entry stands for it."""
        return self.what is not None or self.target is not None

    def moves(self):
        """Whether what stands at its source gets another path."""
        return self.is_edit() and self.to is not None and self.target is None


def places(changes):
    return new_places([change for change in changes if change.is_edit()])


def missing_above(tree, change):
    return [path for path in ancestors(change.written()) if not tree.stands(path)] if change.is_elsewhere() else []


def missing_of(tree, changes):
    return sorted({path for change in changes for path in missing_above(tree, change)}, key=path_order)


def victims_of(tree, changes):
    sources = {change.source for change in changes}
    return [change for change in changes if change.to is not None and tree.stands(change.to) and change.to not in sources]


def modes_of(tree, changes):
    """The modes that change, as (new place, old mode, new mode). A file is named by its first line, and deeper places come first."""
    place, seen, modes = places(changes), set(), []
    for change in changes:
        if change.mode is None:
            continue
        key = tree.nodes[change.source] if tree.kind(change.source) == "file" else change.source
        if key not in seen:
            seen.add(key)
            modes.append((place(change.source), tree.mode(change.source), change.mode))
    return sorted(modes, key=lambda mode: (-len(mode[0]), path_order(mode[0])))


# ---- the check

def fault_across(tree, changes, change, place):
    """The lowest fault of a line beside the others, or None."""
    line, written = change.line, change.written()
    if STAGING in (written[:1], (change.source or written)[:1]):
        return Fault("Reserved", line)
    if not change.removes:
        same = [other.line for other in changes if other is not change and not other.removes and other.written() == written]
        if same:
            return Fault("TwoToOne", line, min(same))
    if change.mode is not None and tree.kind(change.source) == "file":
        clash = [other.line for other in changes if other.mode not in (None, change.mode)
                 and tree.nodes[other.source] == tree.nodes[change.source]]
        if clash:
            return Fault("ModeClash", line, min(clash))
    if change.is_elsewhere():
        for path in ancestors(written):
            if tree.stands(path) and not tree.is_dir(path):
                return Fault("ParentNotDirectory", line, path)
        moved = [other.line for other in changes if other.source is not None and other.to is not None and is_above(other.source, written)]
        if moved:
            return Fault("MovedParent", line, min(moved))
        missing = missing_above(tree, change)
        taken = [other.line for other in changes if other is not change and other.written() in missing]
        if taken:
            return Fault("ParentTaken", line, min(taken))
    if change.is_edit() and path_bytes(place(change.source)) > MAX_PATH_BYTES:
        return Fault("PathTooLong", line)
    return None


def all_path_bytes(tree, changes, place):
    total = 0
    for change in changes:
        total += sum(path_bytes(path) for path in missing_above(tree, change))
        total += path_bytes(change.written())
        if change.is_edit():
            total += path_bytes(change.source) + path_bytes(place(change.source))
    return total


def check(tree, changes, confirms_all, confirmed):
    """Raises the first fault of changes whose sources differ and whose lines rise."""
    if tree.stands(STAGING):
        raise Fault("Pending")
    for change in changes:
        if change.source is not None and not is_as_shown(tree, change):
            raise Fault("Stale", change.line)
    place = places(changes)
    for change in changes:
        fault = fault_across(tree, changes, change, place)
        if fault is not None:
            raise fault
    victims = victims_of(tree, changes)
    for change in victims:
        if tree.is_dir(change.to):
            raise Fault("TargetIsDirectory", change.line, change.to)
    for change in changes:
        if change.removes and tree.is_dir(change.source) and tree.names_in(change.source):
            raise Fault("NotEmpty", change.line, change.source)
    for change in victims:
        if not confirms_all and change.to not in confirmed:
            raise Fault("Unconfirmed", change.line, change.to)
    total = all_path_bytes(tree, changes, place)
    if total > MAX_ALL_PATH_BYTES:
        raise Fault("PathBytes", other=total)


def counts_of(tree, changes):
    edits = [change for change in changes if change.is_edit()]
    return [
        ("renamed", sum(edit.to is not None for edit in edits)),
        ("retargeted", sum(edit.target is not None for edit in edits)),
        ("modes", sum(edit.mode is not None for edit in edits)),
        ("replaced", len(victims_of(tree, changes))),
        ("made", len(missing_of(tree, changes))),
        ("removed", sum(change.removes for change in changes)),
        ("created", sum(change.what is not None for change in changes)),
    ]


# ---- the edited tree

def put_fresh(tree, path, old, change):
    """Puts what is new for a change: a link, a file of the next number, or another path of a file of the old tree."""
    what = ("link", change.target) if change.what is None else change.what
    if what[0] == "link":
        tree.add_link(path, what[1])
    elif what[0] == "file":
        tree.add_file(path, max(tree.files, default=-1) + 1, what[2], what[1])
    else:
        tree.add_file(path, old.nodes[what[1]][1])


def edited_tree(tree, changes):
    """The tree that changes which can be made leave."""
    place = places(changes)
    gone = {change.to for change in victims_of(tree, changes)} | {change.source for change in changes if change.removes or change.target}
    stays = [path for path in tree.nodes if path not in gone]
    edited = tree.copy()
    edited.nodes = {place(path): tree.nodes[path] for path in stays}
    edited.times = {place(path): tree.times[path] for path in stays}
    assert len(edited.nodes) == len(stays), "two paths at one place"
    for path in missing_of(tree, changes):
        edited.add_dir(path)
    for change in changes:
        if change.is_fresh():
            put_fresh(edited, change.to if change.source is None else place(change.source), tree, change)
    for change in changes:
        if change.mode is not None:
            edited.set_mode(place(change.source), change.mode)
    assert all(edited.is_dir(path[:-1]) for path in edited.nodes if path), "no tree"
    return edited


# ---- the plan

def staged(letter, number):
    return STAGING + ("%s%d" % (letter, number),)


def holds(tree, changes):
    """What is put aside, by line: what the line replaces, then the link that gets another target, or what is removed."""
    victims = {change.to for change in victims_of(tree, changes)}
    held = []
    for change in changes:
        held += [change.to] if change.to in victims else []
        held += [change.source] if change.removes or change.target is not None else []
    return [("rename", path, staged("h", number)) for number, path in enumerate(held)]


class Moves:
    """The moves of changes, one after the other. `at` are those that wait at their sources, `away` maps those that wait in the staging
    directory to their paths there."""

    def __init__(self, changes):
        self.at = [change for change in changes if change.moves()]
        fresh = [change for change in changes if change.is_fresh()]
        self.away = {change: staged("f", number) for number, change in enumerate(fresh)}
        self.steps, self.knots, self.is_forced = [], 0, True

    def is_ready(self, change):
        """What is written is free; and below the source of what waits there nothing waits, nor is anything written in place."""
        if any(other.source == change.written() for other in self.at):
            return False
        if change in self.away:
            return True
        below = [other.source for other in self.at]
        below += [other.written() for other in self.away if other.source is not None and is_in_place(other)]
        return not any(is_above(change.source, path) for path in below)

    def go(self, change, to):
        self.steps.append(("rename", self.away.pop(change, change.source), to))
        self.at = [other for other in self.at if other is not change]

    def run(self):
        while self.at or self.away:
            ready = [change for change in self.at + list(self.away) if self.is_ready(change)]
            self.is_forced = self.is_forced and len(ready) < 2
            if ready:
                self.go(ready[0], ready[0].written())
                continue
            knot = min(self.at, key=lambda change: (-len(change.source), path_order(change.source)))
            spot = staged("t", self.knots)
            self.knots += 1
            self.go(knot, spot)
            self.away[knot] = spot
        return self


def plan(tree, changes):
    """The steps of changes that can be made, and whether no other order of the moves would do."""
    moves = Moves(changes).run()
    steps = holds(tree, changes) + [("mkdir", path) for path in missing_of(tree, changes)] + moves.steps
    return steps + [("mode",) + mode for mode in modes_of(tree, changes)], moves.is_forced
