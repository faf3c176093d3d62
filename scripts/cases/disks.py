"""A tree on a disk: changing calls and looks that may fail, and what a crash leaves.

A call is ("sync",), ("make_dir", path, mode), ("make_link", path, target), ("make_hard", path, file), ("write_file", path, bytes, mode),
("rename", from, to), ("set_mode", path, mode), ("remove", path) or ("remove_dir", path). A crash keeps any of the calls that were done
since the last `sync`, in their order, and may lose the bytes of files that were written since then.
"""


class Failed(Exception):
    """A call of this name failed."""

    def __init__(self, call):
        super().__init__(call)
        self.call = call


def can(tree, call):
    """Whether the call can be done."""
    name, *words = call
    if name == "sync":
        return True
    path = words[1] if name == "rename" else words[0]
    is_free = not tree.stands(path) and path != () and tree.is_dir(path[:-1])
    if name == "make_hard":
        return is_free and tree.kind(words[1]) == "file"
    if name in ("make_dir", "make_link", "write_file"):
        return is_free
    if name == "rename":
        return tree.stands(words[0]) and path[:len(words[0])] != words[0] and is_free
    if name == "set_mode":
        return tree.kind(path) in ("file", "dir")
    if name == "remove":
        return tree.kind(path) in ("file", "link")
    return tree.is_dir(path) and path != () and not tree.names_in(path)


def done(tree, call, number):
    """The tree with a call done; `number` is that of a file that is written."""
    name, *words = call
    if name == "sync":
        return tree
    if name == "rename":
        return tree.renamed(*words)
    after, path = tree.copy(), words[0]
    if name == "make_dir":
        after.add_dir(path, words[1])
    elif name == "make_link":
        after.add_link(path, words[1])
    elif name == "make_hard":
        after.nodes[path], after.times[path] = after.nodes[words[1]], 0
    elif name == "write_file":
        after.files[number] = (words[1], words[2])
        after.nodes[path], after.times[path] = ("file", number), 0
    elif name == "set_mode":
        after.set_mode(path, words[1])
    else:
        del after.nodes[path], after.times[path]
    return after


class Disk:
    """`fails` maps changing calls, counted from 0, to whether they are done all the same; `stop` is the last one that is made: later ones
    fail and aren't done. `failing_looks` are counted from 0 as well."""

    def __init__(self, tree, fails=None, failing_looks=(), stop=None):
        self.tree, self.fails, self.failing_looks, self.stop = tree, fails or {}, failing_looks, stop
        self.synced, self.pending = tree, []
        self.next_number = max(tree.files, default=-1) + 1
        self.calls, self.looks = [], 0

    # ---- looks

    def look(self, name):
        self.looks += 1
        if self.looks - 1 in self.failing_looks:
            raise Failed(name)

    def kind(self, path):
        self.look("kind")
        return self.tree.kind(path)

    def mode(self, path):
        self.look("mode")
        return self.tree.mode(path)

    def is_empty(self, path):
        self.look("is_empty")
        return not self.tree.names_in(path)

    def names(self, path):
        self.look("names")
        return self.tree.names_in(path)

    def read(self, path):
        self.look("read")
        return self.tree.files[self.tree.nodes[path][1]][0]

    # ---- changing calls

    def do(self, call):
        place = len(self.calls)
        self.calls.append(call)
        fails = place in self.fails or (self.stop is not None and place > self.stop)
        if fails and not self.fails.get(place, False):
            raise Failed(call[0])
        assert can(self.tree, call), call
        number, self.next_number = self.next_number, self.next_number + (call[0] == "write_file")
        self.tree = done(self.tree, call, number)
        if call[0] == "sync":
            self.synced, self.pending = self.tree, []
        else:
            self.pending.append((call, number))
        if fails:
            raise Failed(call[0])

    def sync(self):
        self.do(("sync",))

    def rename(self, source, to):
        self.do(("rename", source, to))

    # ---- crashes

    def image(self, kept, keeps_bytes=True):
        """What a crash leaves that keeps these of the pending calls, or None where they can't be done so."""
        tree = self.synced
        for call, number in kept:
            if not keeps_bytes and call[0] == "write_file":
                call = ("write_file", call[1], b"", call[3])
            if can(tree, call):
                tree = done(tree, call, number)
        return tree
