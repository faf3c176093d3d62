"""Whether edits can be made in a tree, and the tree that they make of it.

The new place of a path is found from the root down: an edit within its directory takes the new place of that directory and the new name, an
edit to elsewhere the path that it writes, and every other path the new place of its directory and its own name.
"""
from texts import MAX_PATH_BYTES, ancestors, is_above, path_bytes, path_order
from trees import STAGING

MAX_ALL_PATH_BYTES = 67108864


class Fault(Exception):
    """The edits can't be made: the name of the fault, its line, and another line, a path or a number where it carries one."""

    def __init__(self, name, line=None, other=None):
        super().__init__(name, line, other)
        self.name, self.line, self.other = name, line, other


def is_in_place(edit):
    return edit.written()[:-1] == edit.source[:-1]


def new_places(edits):
    """The function from a path to its new place."""
    by_source = {edit.source: edit for edit in edits}
    known = {(): ()}

    def place(path):
        if path not in known:
            edit = by_source.get(path)
            if edit is not None and not is_in_place(edit):
                known[path] = edit.written()
            elif edit is not None and edit.to is not None:
                known[path] = place(path[:-1]) + (edit.to[-1],)
            else:
                known[path] = place(path[:-1]) + (path[-1],)
        return known[path]

    return place


def is_as_shown(tree, edit):
    kind, mode, target = edit.was
    if tree.kind(edit.source) != kind:
        return False
    return tree.target(edit.source) == target if kind == "link" else tree.mode(edit.source) == mode


def victims_of(tree, edits):
    """The lines whose new path stands and is no source."""
    sources = {edit.source for edit in edits}
    return [edit for edit in edits if edit.to is not None and tree.stands(edit.to) and edit.to not in sources]


def missing_above(tree, edit):
    """The directories that have to be made above the new path of an edit to elsewhere."""
    return [] if is_in_place(edit) else [path for path in ancestors(edit.written()) if not tree.stands(path)]


def missing_of(tree, edits):
    return sorted({path for edit in edits for path in missing_above(tree, edit)}, key=path_order)


def fault_across(tree, edits, edit, place):
    """The lowest fault of a line beside the others, or None."""
    written, line = edit.written(), edit.line
    if STAGING == edit.source[:1] or STAGING == written[:1]:
        return Fault("Reserved", line)
    same = [other.line for other in edits if other is not edit and other.written() == written]
    if same:
        return Fault("TwoToOne", line, min(same))
    if edit.mode is not None and tree.kind(edit.source) == "file":
        clash = [other.line for other in edits if tree.nodes[other.source] == tree.nodes[edit.source]
                 and other.mode is not None and other.mode != edit.mode]
        if clash:
            return Fault("ModeClash", line, min(clash))
    if not is_in_place(edit):
        for path in ancestors(written):
            if tree.stands(path) and not tree.is_dir(path):
                return Fault("ParentNotDirectory", line, path)
        moved = [other.line for other in edits if other.to is not None and is_above(other.source, written)]
        if moved:
            return Fault("MovedParent", line, min(moved))
        missing = missing_above(tree, edit)
        taken = [other.line for other in edits if other is not edit and other.written() in missing]
        if taken:
            return Fault("ParentTaken", line, min(taken))
    if path_bytes(place(edit.source)) > MAX_PATH_BYTES:
        return Fault("PathTooLong", line)
    return None


def check(tree, edits, confirms_all, confirmed):
    """Raises the first fault of edits whose sources differ and whose lines rise."""
    if tree.stands(STAGING):
        raise Fault("Pending")
    for edit in edits:
        if not is_as_shown(tree, edit):
            raise Fault("Stale", edit.line)
    place = new_places(edits)
    for edit in edits:
        fault = fault_across(tree, edits, edit, place)
        if fault is not None:
            raise fault
    victims = victims_of(tree, edits)
    for edit in victims:
        if tree.is_dir(edit.to):
            raise Fault("TargetIsDirectory", edit.line, edit.to)
    for edit in victims:
        if not confirms_all and edit.to not in confirmed:
            raise Fault("Unconfirmed", edit.line, edit.to)
    total = sum(path_bytes(edit.source) + path_bytes(edit.written()) + path_bytes(place(edit.source))
                + sum(path_bytes(path) for path in missing_above(tree, edit)) for edit in edits)
    if total > MAX_ALL_PATH_BYTES:
        raise Fault("PathBytes", other=total)


def counts_of(tree, edits):
    """How much the edits change, as the summary has it."""
    return {
        "renamed": sum(edit.to is not None for edit in edits),
        "retargeted": sum(edit.target is not None for edit in edits),
        "modes": sum(edit.mode is not None for edit in edits),
        "replaced": len(victims_of(tree, edits)),
        "made": len(missing_of(tree, edits)),
    }


def edited_tree(tree, edits):
    """The tree that edits which can be made leave."""
    place = new_places(edits)
    victims = {edit.to for edit in victims_of(tree, edits)}
    edited = tree.copy()
    edited.nodes = {place(path): node for path, node in tree.nodes.items() if path not in victims}
    edited.times = {place(path): time for path, time in tree.times.items() if path not in victims}
    assert len(edited.nodes) == len(tree.nodes) - len(victims), "two paths at one place"
    for path in missing_of(tree, edits):
        edited.add_dir(path)
    for edit in edits:
        if edit.target is not None:
            edited.add_link(place(edit.source), edit.target)
        if edit.mode is not None:
            edited.set_mode(place(edit.source), edit.mode)
    assert all(edited.is_dir(path[:-1]) for path in edited.nodes if path), "no tree"
    return edited


def looks_of(tree, edits):
    """The names of the looks of a check, in their order, where none fails: at the staging directory, then at each source and then at each
    new path, from the root down, at each path once, and at nothing below what is no directory."""
    looks, seen = ["kind"], {STAGING}
    if tree.stands(STAGING):
        return looks

    def see(path):
        for at in ancestors(path) + [path]:
            if at not in seen:
                seen.add(at)
                looks.extend(["kind", "meta"] if tree.stands(at) else ["kind"])
            if not tree.is_dir(at):
                break

    for edit in edits:
        see(edit.source)
        if not is_as_shown(tree, edit):
            return looks
    for edit in edits:
        if edit.to is not None:
            see(edit.to)
    return looks
