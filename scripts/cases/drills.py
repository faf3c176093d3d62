"""A drill: a tree that is made in memory with every kind of edit in it, and how much their commit does."""
from plans import Change, Moves, edited_tree, plan, victims_of
from trees import Tree

FILE, DIRECTORY = ("file", 0o644, None), ("dir", 0o755, None)
MAX_GROUPS = 20000


def chain():
    return ["a", "b", "c"], [("a", "b"), ("b", "c"), ("c", "d")]


def cycle(length):
    names = ["c%d" % number for number in range(length)]
    return names, [(name, names[(number + 1) % length]) for number, name in enumerate(names)]


def nested():
    return ["s/", "s/x"], [("s/x", "s/y"), ("s", "r")]


def replacing():
    return ["a", "b"], [("a", "b")]


def swallowing():
    return ["s/", "s/x"], [("s/x", "s"), ("s", "r")]


def group(number):
    """The entries of a group and its moves, from its directory. A directory's entry ends in a slash."""
    turn, kind = divmod(number, 5)
    return cycle(2 + turn % 6) if kind == 1 else (chain, None, nested, replacing, swallowing)[kind]()


def drill(groups):
    """The tree of so many groups, and its edits in their order."""
    tree, changes = Tree(), []
    for number in range(groups):
        top = "g%06d" % number
        entries, moves = group(number)
        tree.add_dir((top,))
        for entry in entries:
            path = (top,) + tuple(entry.rstrip("/").split("/"))
            if entry.endswith("/"):
                tree.add_dir(path)
            else:
                tree.add_file(path)
        for source, to in moves:
            path = (top,) + tuple(source.split("/"))
            was = DIRECTORY if tree.is_dir(path) else FILE
            changes.append(Change(len(changes) + 1, path, was, (top,) + tuple(to.split("/"))))
    return tree, changes


def line_of(groups):
    """What the drill of so many groups prints. Without the root are counted the entries before, and those that are left."""
    tree, changes = drill(groups)
    cycles = sum(number % 5 == 1 for number in range(groups))
    return ("drill %d: entries %d, edits %d, cycles %d, replaced %d, temporaries %d, steps %d, left %d\n"
            % (groups, len(tree.nodes) - 1, len(changes), cycles, len(victims_of(tree, changes)), Moves(changes).run().knots,
               len(plan(tree, changes)[0]), len(edited_tree(tree, changes).nodes) - 1))
