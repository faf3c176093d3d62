"""Cases of plans: worked examples, one for each rule of the check and of the order of moves, and drawn ones."""
from draw import MODES, NAMES, TARGETS, disturbed, draw_tree
from examples import files
from plan_table import PlanCase
from plans import Change

FIRST_LINE = 4


def path(text):
    return tuple(text.split("/"))


def shown(tree, at):
    return (tree.kind(at), tree.mode(at), tree.target(at))


def edit(tree, source, to=None, target=None, mode=None):
    source, to = path(source), None if to is None else path(to)
    return Change(0, source, shown(tree, source), to, target, mode)


def removal(tree, source):
    return Change(0, path(source), shown(tree, path(source)), removes=True)


def creation(to, *what):
    return Change(0, to=path(to), what=what)


def case(name, tree, *changes, confirmed=()):
    """A case of changes on lines that follow each other."""
    for number, change in enumerate(changes):
        change.line = FIRST_LINE + number
    return PlanCase(name, tree, list(changes), confirmed)


def renames(tree, *pairs):
    return [edit(tree, source, to) for source, to in pairs]


def worked():
    two, parent = files("a b"), files("a/x", "a")
    trade = files("m").add_link(("l",), "x")
    ring = files("a b c d e f g p q r")
    names = "abcdefg"
    source = files("Makefile build.log", "lib src")
    for number in range(1, 19):
        source.add_file(("lib", "l%02d.h" % number))
    for number in range(1, 21):
        source.add_file(("src", "m%02d.cc" % number))
    return [
        case("swap", two, *renames(two, ("a", "b"), ("b", "a"))),
        case("child-takes-parent-name", parent, *renames(parent, ("a", "b"), ("a/x", "a"))),
        case("child-and-parent", parent, *renames(parent, ("a", "b"), ("a/x", "a/y"))),
        case("link-retarget-trade", trade, edit(trade, "l", "m", "y"), edit(trade, "m", "l")),
        case("cycle-and-chain", ring, *renames(ring, *zip(names, names[1:] + names[:1])), *renames(ring, "pq", "qr", "rs")),
        case("big-edit", source, edit(source, "lib", "include"),
             *[edit(source, "src/m%02d.cc" % number, "src/m%02d.cpp" % number) for number in range(1, 21)],
             *[edit(source, "lib/l%02d.h" % number, mode=0o640) for number in (1, 2)]),
        case("one-creation", two, creation("k", "link", "t")),
        case("one-removal", files("k"), removal(files("k"), "k")),
    ]


def each_rule():
    """For each rule a case in which the changes would go wrong without it."""
    two, below, nested, deep = files("a b"), files("a d/x", "d"), files("d/a d/b", "d"), files("d/a d/b", "d e")
    linked = files("a").add_file(("b",), 0)
    pair = files("d/x", "d").add_link(("d", "l"), "t")
    return [
        case("two-to-one", two, *renames(two, ("a", "c"), ("b", "c"))),
        case("parent-not-directory", two, edit(two, "a", "b/a")),
        case("moved-parent", below, *renames(below, ("a", "d/a"), ("d", "e"))),
        case("parent-taken", two, *renames(two, ("a", "new/deep/a"), ("b", "new"))),
        case("target-is-directory", below, edit(below, "a", "d"), confirmed=None),
        case("not-empty", below, removal(below, "d")),
        case("mode-clash", linked, edit(linked, "a", mode=0o600), edit(linked, "b", mode=0o640)),
        case("unconfirmed", two, edit(two, "a", "b"), confirmed=[("a",)]),
        case("confirmed", two, edit(two, "a", "b"), confirmed=[("b",)]),
        case("nothing-waits-below", below, *renames(below, ("d", "e"), ("d/x", "x"))),
        case("nothing-is-written-below", nested, *renames(nested, ("d", "e"), ("d/a", "d/b"), ("d/b", "d/a"))),
        case("no-new-link-is-written-below", pair, edit(pair, "d", "e"), edit(pair, "d/l", "d/m", "u"), edit(pair, "d/x", "d/l")),
        case("deepest-first", deep, *renames(deep, ("d", "e"), ("e", "d"), ("d/a", "d/b"), ("d/b", "d/a"))),
        case("one-mode-of-hard-links", linked, edit(linked, "a", "c", mode=0o600), edit(linked, "b", mode=0o600)),
        case("directories-are-made", two, creation("n/m/k", "file", 0o600, b"x"), creation("n/l", "same", path("a"))),
    ]


# ---- drawn cases

def draw_path(rng, tree, source):
    """A new path: in the directory of the source, of something else, below it, or in a directory that has to be made."""
    kind, other = rng.random(), rng.choice(tree.paths())
    if kind < 0.35:
        return source[:-1] + (rng.choice(NAMES + ["new"]),)
    if kind < 0.6:
        return other
    if kind < 0.75:
        return other[:-1] + (rng.choice(NAMES),)
    if kind < 0.88:
        return other[:-1] + ("made", "new")[:rng.randint(1, 2)] + (source[-1],)
    if kind < 0.97:
        return rng.choice([at for at in tree.paths() if tree.is_dir(at)] + [other]) + (rng.choice(NAMES),)
    return (".wdired-commit", "h0")[:rng.randint(1, 2)]


def drawn_edit(rng, tree, source, to):
    kind, mode, target = was = shown(tree, source)
    new_target = rng.choice(TARGETS) if kind == "link" and rng.random() < 0.4 else None
    new_mode = rng.choice(MODES) if kind != "link" and rng.random() < 0.25 else None
    to = None if to == source else to
    new_target = None if new_target == target else new_target
    new_mode = None if new_mode == mode else new_mode
    asks = to is not None or new_target is not None or new_mode is not None
    return [Change(0, source, was, to, new_target, new_mode)] if asks else []


def drawn_edits(rng, tree):
    """Edits: some paths trade their places, others go anywhere."""
    sources = rng.sample(tree.paths(), min(rng.choice((1, 2, 2, 3, 3, 4, 6)), len(tree.paths())))
    traded = sources[:rng.randint(0, len(sources))]
    news = dict(zip(traded, traded[1:] + traded[:1])) if rng.random() < 0.5 else {}
    return [made for source in sources for made in drawn_edit(rng, tree, source, news.get(source) or draw_path(rng, tree, source))]


def drawn_removals(rng, tree):
    paths = rng.sample(tree.paths(), rng.randint(1, min(5, len(tree.paths()))))
    leaves = [at for at in paths if not tree.names_in(at)] if rng.random() < 0.8 else paths
    return [Change(0, at, shown(tree, at), removes=True) for at in leaves]


def drawn_creations(rng, tree):
    regular = [at for at in tree.paths() if tree.kind(at) == "file"]
    made = []
    for number in range(rng.randint(1, 4)):
        what = rng.choice([("link", rng.choice(TARGETS)), ("file", rng.choice(MODES), b"new")] + ([("same", rng.choice(regular))] if regular else []))
        made.append(Change(0, to=draw_path(rng, tree, (str(number),)), what=what))
    return made


def drawn_case(rng, name):
    tree = draw_tree(rng)
    kind = rng.random()
    draw = drawn_edits if kind < 0.7 else drawn_removals if kind < 0.83 else drawn_creations
    changes = draw(rng, tree)
    line = 0
    for change in changes:
        line += rng.randint(1, 3)
        change.line = line
    if rng.random() < 0.06 and draw is not drawn_creations:
        tree = disturbed(rng, tree)
    confirmed = None if rng.random() < 0.6 else rng.sample(tree.paths(), 1)
    return PlanCase(name, tree, changes, confirmed)


def drawn(rng, count):
    return [drawn_case(rng, "drawn-%d" % (number + 1)) for number in range(count)]
