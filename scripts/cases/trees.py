"""Trees: a map from paths to entries, and from the numbers of files to their bytes and modes."""
from texts import path_order

STAGING = (".wdired-commit",)


class Tree:
    """`nodes` maps a path to ("dir", mode), ("link", target) or ("file", number); `files` a number to (bytes, mode); `times`
    a path to the seconds of its last change. The root stands, with the mode 0o755."""

    def __init__(self):
        self.nodes = {(): ("dir", 0o755)}
        self.files = {}
        self.times = {(): 0}

    def copy(self):
        tree = Tree()
        tree.nodes, tree.files, tree.times = dict(self.nodes), dict(self.files), dict(self.times)
        return tree

    def add_dir(self, path, mode=0o755, time=0):
        self.nodes[path], self.times[path] = ("dir", mode), time
        return self

    def add_link(self, path, target, time=0):
        self.nodes[path], self.times[path] = ("link", target), time
        return self

    def add_file(self, path, number=None, data=b"", mode=0o644, time=0):
        """Adds a file, or a path of one that stands."""
        if number is None:
            number = max(self.files, default=-1) + 1
        self.files.setdefault(number, (data, mode))
        self.nodes[path], self.times[path] = ("file", number), time
        return self

    def stands(self, path):
        return path in self.nodes

    def kind(self, path):
        return self.nodes[path][0] if path in self.nodes else None

    def is_dir(self, path):
        return self.kind(path) == "dir"

    def mode(self, path):
        kind, value = self.nodes[path]
        if kind == "file":
            return self.files[value][1]
        return value if kind == "dir" else 0o777

    def set_mode(self, path, mode):
        kind, value = self.nodes[path]
        if kind == "dir":
            self.nodes[path] = (kind, mode)
        else:
            self.files[value] = (self.files[value][0], mode)

    def target(self, path):
        kind, value = self.nodes[path]
        return value if kind == "link" else ""

    def links(self, path):
        return sum(node == self.nodes[path] for node in self.nodes.values()) if self.kind(path) == "file" else 1

    def size(self, path):
        kind, value = self.nodes[path]
        if kind == "file":
            return len(self.files[value][0])
        return len(value.encode()) if kind == "link" else 0

    def paths(self):
        """All paths but the root, in their order."""
        return sorted((path for path in self.nodes if path), key=path_order)

    def names_in(self, directory):
        return [path[-1] for path in self.paths() if path[:-1] == directory]

    def renamed(self, source, to):
        """The tree with what stands at a path, and all below it, at another one."""
        tree = self.copy()
        place = {path: to + path[len(source):] if path[:len(source)] == source else path for path in self.nodes}
        tree.nodes = {place[path]: node for path, node in self.nodes.items()}
        tree.times = {place[path]: time for path, time in self.times.items()}
        return tree
