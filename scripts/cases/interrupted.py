"""What may stand where a commit was stopped: the table of its rows."""
import re

from commits import DONE, PLAN, UNDONE, at, back_at, call_of, cuts, own
from disks import can, done
from trees import STAGING

ENTRY = re.compile("([thf])(0|[1-9][0-9]{0,9})")


def same(one, other):
    """Whether two trees show the same: kinds, modes, targets, bytes and the numbers of files."""
    def shown(tree):
        return {path: (node, tree.files[node[1]]) if node[0] == "file" else node for path, node in tree.nodes.items()}
    return shown(one) == shown(other)


def rest(tree):
    """The tree without the staging directory."""
    return without(tree, STAGING)


def without(tree, *paths):
    other = tree.copy()
    other.nodes = {path: node for path, node in tree.nodes.items() if not any(path[:len(gone)] == gone for gone in paths)}
    return other


def is_entry(tree, name, letters):
    """Whether such an entry may stand: `hN` is a file, a link or an empty directory, `fN` a file or a link."""
    entry = ENTRY.fullmatch(name)
    if entry is None or entry[1] not in letters or int(entry[2]) >= 1 << 32:
        return False
    kind = tree.kind(own(name))
    return entry[1] == "t" or kind in ("file", "link") or (entry[1] == "h" and not tree.names_in(own(name)))


class Interrupted:
    """The rows for the steps of a commit from an old tree, with the new entries as they stand before the first step, to an edited one."""

    def __init__(self, old, new, steps, entries):
        self.old, self.new, self.steps = old, new, steps
        start = old.copy().add_dir(STAGING, 0o700)
        for number, (node, body) in enumerate(entries):
            start.nodes[own("f%d" % number)], start.times[own("f%d" % number)] = node, 0
            if node[0] == "file":
                start.files[node[1]] = body
        self.places = [start]
        for step in steps:
            assert can(self.places[-1], call_of(step)), step
            self.places.append(done(self.places[-1], call_of(step), None))
        assert same(rest(self.places[-1]), new), "the steps lead elsewhere"

    def by_some(self, begin, end):
        """The trees with any of the steps from one place to another done."""
        for bits in range(1 << (end - begin)):
            tree = self.places[begin]
            for number, step in enumerate(self.steps[begin:end]):
                tree = done(tree, call_of(step), None) if bits >> number & 1 else tree
            yield tree

    def row(self, tree):
        """The name of the row in which a tree is, or None."""
        is_old, is_new = same(rest(tree), self.old), same(rest(tree), self.new)
        if not tree.stands(STAGING):
            return "nothing staged" if is_old or is_new else None
        names = tree.names_in(STAGING)
        if not any(tree.stands(path) for path in (PLAN, DONE, UNDONE)):
            early = all(name in ("new", "at-0") or is_entry(tree, name, "f") for name in names)
            return "no journal" if early and (is_old or is_new) else None
        if tree.stands(DONE):
            held = all(name in ("done", "at-%d" % len(self.steps)) or is_entry(tree, name, "h") for name in names)
            return "behind the seal" if held and is_new else None
        if tree.stands(UNDONE):
            fresh = all(name in ("undone", "back-0") or is_entry(tree, name, "f") for name in names)
            return "all undone" if fresh and is_old else None
        return self.marked(tree)

    def marked(self, tree):
        places = cuts(self.steps)
        for m in range(len(self.steps) + 1):
            following = min([cut for cut in places if cut > m], default=m)
            before = max([cut for cut in places if cut < m], default=0)
            for name, marker, begin, end in (("forward", at(m), m, following), ("back", back_at(m), before, m)):
                if tree.stands(marker) and any(same(without(tree, PLAN, marker), one) for one in self.by_some(begin, end)):
                    return name
        return None
