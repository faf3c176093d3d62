"""Cases of commits: worked examples, each of their calls failing, pairs of failing calls, and what a crash may leave at each moment."""
import plan_draw
import plan_examples
from commit_table import CommitCase, committed, distinct_images, images, rows_of
from examples import files
from plan_examples import case, creation, edit, removal, renames, worked
from plan_table import shows_steps
from program import Schedule
from plans import plan


def small():
    """Small examples: in them each call fails, and at each moment it is seen what a crash may leave."""
    two, pair, parent, moved = files("a b"), files("a").add_file(("b",), 0), files("a/x", "a"), files("x")
    trade = files("m").add_link(("l",), "x")
    full = files("a b d/x", "d")
    return [
        case("one-rename", two, edit(two, "a", "c")),
        case("rename-and-mode", two, edit(two, "a", "c", mode=0o600)),
        case("swap", two, *renames(two, ("a", "b"), ("b", "a"))),
        case("child-takes-parent-name", parent, *renames(parent, ("a", "b"), ("a/x", "a"))),
        case("made-parent", moved, edit(moved, "x", "new/deep/x")),
        case("hard-link-victim", pair, edit(pair, "a", "b"), confirmed=[("b",)]),
        case("link-retarget-trade", trade, edit(trade, "l", "m", "y"), edit(trade, "m", "l")),
        case("two-files-replaced", two, creation("a", "file", 0o644, b"y"), creation("b", "file", 0o600, b"z"), confirmed=None),
        case("removals", full, removal(full, "a"), removal(full, "d/x")),
        case("directory-removed", files("k", "e"), removal(files("k", "e"), "e")),
    ]


def many():
    """Twenty independent renames, which are one group, and as many that are two."""
    names = ["n%02d" % number for number in range(20)]
    plain, chained = files(" ".join(names)), files(" ".join(names))
    return [
        case("one-group", plain, *renames(plain, *[(name, name + ".bak") for name in names])),
        case("two-groups", chained, *renames(chained, *[(name, name + ".bak") for name in names[:18]], (names[18], names[19]), (names[19], "z"))),
    ]


def layered():
    """More than eight steps, which a commit sorts by what they depend on: swaps, moves into new directories, files replaced by new ones,
    modes below directories that move, and eight steps, which stay as they are."""
    swaps, moved = files(" ".join("a%d b%d" % (number, number) for number in range(4))), files("x0 x1 x2 x3")
    full = files("a b c d").add_link(("l",), "x")
    dirs = files("d0/x d1/x d2/x", "d0 d1 d2")
    pairs = [("a%d" % number, "b%d" % number) for number in range(4)]
    return [
        case("four-swaps", swaps, *renames(swaps, *pairs, *[(other, one) for one, other in pairs])),
        case("moves-into-new-directories", moved, *[edit(moved, "x%d" % number, "n%d/deep/x" % number) for number in range(4)]),
        case("replaced-by-new-files", full, *[creation(name, "file", 0o644, name.encode()) for name in "abcd"], creation("l", "link", "y"), confirmed=None),
        case("modes-below-moved-directories", dirs, *[edit(dirs, "d%d" % number, "d%d" % (number + 1)) for number in range(3)],
             *[edit(dirs, "d%d/x" % number, "y%d" % number, mode=0o600) for number in range(3)]),
        case("eight-steps", files("a b c d e f g"), *renames(files("a b c d e f g"), ("a", "b"), ("b", "a"), *[(name, name + "2") for name in "cdefg"])),
    ]


def whole():
    """Commits in which nothing fails."""
    return [CommitCase(one, one.name, Schedule()) for one in worked() + small() + many() + layered()]


def failing_once(cases, fates=(False, True)):
    """Each changing call of each case fails, and is done or not. Behind the last one nothing fails."""
    made = []
    for one in cases:
        disk, _ = committed(one, Schedule())
        for call in range(len(disk.calls) + 1):
            for is_done in fates:
                made.append(CommitCase(one, "%s-%d-%s" % (one.name, call, "done" if is_done else "not-done"), Schedule({call: is_done})))
    return made


def failing_twice(cases):
    """Two calls fail, the second one on the way back from the first."""
    made = []
    for one in cases:
        for first in range(1, len(committed(one, Schedule())[0].calls)):
            for is_done in (False, True):
                back, end = committed(one, Schedule({first: is_done}))
                for second in range(first + 1, len(back.calls) if end[0] == "rolled-back" else 0):
                    fails = {first: is_done, second: (first + second) % 2 == 0}
                    made.append(CommitCase(one, "%s-%d-%d-%s" % (one.name, first, second, "done" if is_done else "not-done"), Schedule(fails)))
    return made


def failing_looks(cases):
    """A call fails, and the first look of the way back."""
    made = []
    for one in cases:
        for call in range(1, len(committed(one, Schedule())[0].calls)):
            disk, _ = committed(one, Schedule({call: False}))
            if disk.looks:
                made.append(CommitCase(one, "%s-%d-look" % (one.name, call), Schedule({call: False}, looks=[0])))
    return made


def stopped(cases):
    """What a crash may leave behind each changing call, each of it once. All of it is interrupted."""
    made = []
    for one in cases:
        rows = rows_of(one)
        for call in range(len(committed(one, Schedule())[0].calls)):
            disk, _ = committed(one, Schedule(stop=(call, 0)))
            for number, image in distinct_images(disk):
                assert rows.row(image) is not None, (one.name, call, number)
                made.append(CommitCase(one, "%s-stopped-%d-%d" % (one.name, call, number), Schedule(stop=(call, number))))
    return made


def all_cases():
    named = {one.name: one for one in small()}
    traded = [named[name] for name in ("swap", "link-retarget-trade", "two-files-replaced")]
    few = [one for one in small() if one.name not in ("rename-and-mode", "directory-removed")]
    # every fifth pair, as a program that is tried may print one mebibyte
    pairs = failing_twice(traded)[::5]
    return whole() + failing_once(small()) + failing_once(many() + [one for one in layered() if shows_steps(one)], (False,)) + pairs + failing_looks(traded) + stopped(few)


# ---- drawn ones

def drawn_schedule(rng, one):
    """Nothing fails; up to two calls do, and at times a look; or the commit is stopped. Where the order of the steps is free, nothing fails."""
    kind = rng.random() if shows_steps(one) else 0
    if kind < 0.15:
        return Schedule()
    calls = len(committed(one, Schedule())[0].calls)
    first = rng.randrange(calls)
    if kind < 0.4:
        disk, _ = committed(one, Schedule(stop=(first, 0)))
        return Schedule(stop=(first, rng.randrange(len(images(disk)))))
    fails = {first: rng.random() < 0.5}
    looks = [rng.randrange(6)] if rng.random() < 0.2 else []
    if kind < 0.7:
        fails[first + rng.randint(1, 12)] = rng.random() < 0.5
    return Schedule(fails, looks=looks)


def drawn(rng, count):
    """Commits of drawn changes, of which every third is of removals or of creations."""
    plans = plan_examples.drawn(rng, count - count // 3) + plan_draw.drawn(rng, count // 3)
    return [CommitCase(one, one.name, drawn_schedule(rng, one)) for one in plans]
