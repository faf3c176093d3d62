"""Drawn cases of removals and of creations, in trees of one to six levels with hard links."""
from draw import MODES, NAMES, TARGETS, disturbed, draw_tree
from plan_examples import shown
from plan_table import PlanCase
from plans import Change

MOST_LEVELS = 6


def linked(tree):
    """The paths of the files that have more than one."""
    return [at for at in tree.paths() if tree.links(at) > 1]


def draw_linked_tree(rng, levels):
    """A tree of this many levels with hard links."""
    while True:
        tree = draw_tree(rng)
        if max(len(at) for at in tree.paths()) == levels and linked(tree):
            return tree


def draw_removals(rng, tree):
    """Removals of a path of a hard link and of what has nothing below it, at times of any directory."""
    bare = [at for at in tree.paths() if not tree.names_in(at)]
    pool = tree.paths() if rng.random() < 0.15 else bare
    chosen = set(rng.sample(pool, rng.randint(1, min(8, len(pool))))) | {rng.choice(linked(tree))}
    return [Change(0, at, shown(tree, at), removes=True) for at in rng.sample(sorted(chosen), len(chosen))]


def draw_spot(rng, tree):
    """Where something is made: mostly at a new name, in a directory that stands or that has to be made, or over what stands and is no
    directory."""
    kind, dirs = rng.random(), [at for at in tree.paths() if tree.is_dir(at)] + [()]
    others = [at for at in tree.paths() if not tree.is_dir(at)]
    name = rng.choice(NAMES + ["new", "z"])
    if kind < 0.5:
        return rng.choice(dirs) + ("new-" + name,)
    if kind < 0.7:
        return rng.choice(dirs) + ("made", "deep")[:rng.randint(1, 2)] + (name,)
    if kind < 0.93:
        return rng.choice(others)
    if kind < 0.95:
        return rng.choice(tree.paths())
    if kind < 0.97:
        return rng.choice(others) + (name,)
    return (".wdired-commit", name) if kind < 0.98 else rng.choice(dirs) + ("made",)


def draw_creations(rng, tree):
    """Links, files and hard links, also of a file that another one replaces."""
    regular = [at for at in tree.paths() if tree.kind(at) == "file"]
    spots = [draw_spot(rng, tree) for _ in range(rng.choice((1, 2, 3, 4, 5, 7)))]
    spots = spots if rng.random() < 0.04 else list(dict.fromkeys(spots))
    whats = [("link", rng.choice(TARGETS)), ("file", rng.choice(MODES), rng.choice((b"", b"new", b"\x00\xff \\"))), None, None]
    made = []
    for spot in spots:
        what = rng.choice(whats) or ("same", rng.choice(linked(tree) if rng.random() < 0.4 else regular))
        made.append(Change(0, to=spot, what=what))
    return made


def drawn_case(rng, number):
    tree = draw_linked_tree(rng, number % MOST_LEVELS + 1)
    removes = rng.random() < 0.4
    changes = draw_removals(rng, tree) if removes else draw_creations(rng, tree)
    line = 0
    for change in changes:
        line += rng.randint(1, 3)
        change.line = line
    if removes and rng.random() < 0.06:
        tree = disturbed(rng, tree)
    over = [change.to for change in changes if change.to is not None and tree.stands(change.to)]
    confirmed = None if rng.random() < 0.5 else over if rng.random() < 0.85 else over[1:]
    return PlanCase("%s-%d" % ("removals" if removes else "creations", number + 1), tree, changes, confirmed)


def drawn(rng, count):
    """So many cases of removals or of creations."""
    return [drawn_case(rng, number) for number in range(count)]
