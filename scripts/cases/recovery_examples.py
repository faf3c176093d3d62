"""Cases of recoveries: what a crash may leave of small commits and of their recoveries is recovered and taken back; a marker stands at each number; calls
of the recovery fail, or it is stopped; and what no commit left."""
import random

from commit_examples import Schedule, small, stopped
from commit_table import committed, distinct_images, images, rows_of
from commits import DONE, PLAN, UNDONE, at, back_at, call_of, cuts
from disks import done
from examples import files
from interrupted import rest, same
from journals import journal
from recovery_table import RecoveryCase, recovered
from table import tree_rows
from trees import STAGING

SEED = 3
FAILING, TWISTED = 300, 200
WHOLE = ("rename-and-mode", "swap", "child-takes-parent-name", "made-parent", "hard-link-victim", "link-retarget-trade")
NAMES = ("x", "h01", "t3", "f9", "h7", "back-0", "at-9", "at-0", "new", "plan", "done", "undone")


# ---- what may stand

def left(one):
    """By name what a crash may leave behind each changing call of a commit, each tree once."""
    found = {}
    for stop in stopped([one]):
        disk, _ = committed(stop.case, stop.schedule)
        image = images(disk)[stop.schedule.stop[1]]
        found.setdefault(tree_rows(image), (stop.name, image))
    return found


def reached(one):
    """And what a crash may leave behind each changing call of a recovery of that, of a recovery of this, and so on."""
    found = left(one)
    waiting = list(found.values())
    while waiting:
        name, tree = waiting.pop(0)
        for back in (False, True):
            case = RecoveryCase(name, tree, back, Schedule())
            for call in range(len(ended(one, case))):
                there, _ = recovered(RecoveryCase(name, tree, back, Schedule(stop=(call, 0))))
                for number, image in distinct_images(there):
                    if tree_rows(image) not in found:
                        waiting.append(("%s-again-%d" % (one.name, len(found)), image))
                        found[tree_rows(image)] = waiting[-1]
    return found


def ended(one, case):
    """The calls of a recovery, which ends as it has to: with the old or the edited tree, in its direction."""
    rows, tree = rows_of(one), case.tree
    disk, end = recovered(case)
    is_old, is_new = same(disk.tree, rows.old), same(disk.tree, rows.new)
    goes_back = case.back or tree.stands(UNDONE) or any(name.startswith("back-") for name in names_of(tree))
    if tree.stands(DONE) or (tree.stands(PLAN) and not goes_back):
        assert is_new and end == ("edited",), case.name
    elif tree.stands(PLAN) or tree.stands(UNDONE):
        assert is_old and end == ("old",), case.name
    else:
        assert same(disk.tree, rest(tree)) and (is_old or is_new) and end == (("cleared",) if tree.stands(STAGING) else ("nothing",)), case.name
    assert not disk.pending, case.name
    return disk.calls


def names_of(tree):
    return tree.names_in(STAGING) if tree.stands(STAGING) else []


def both_ways(found):
    return [RecoveryCase(name + way, tree, way == "-back", Schedule()) for name, tree in found.values() for way in ("-forward", "-back")]


# ---- markers

def marked():
    """A marker at each number up to the end of nine steps, inside a group too. The steps before it are done, and where a group goes on, in a second case one
    more of it, or on the way back one less."""
    old = files("n0 n1 n2 n3 n4 n5 n6")
    steps = [("rename", ("n0",), ("n0.bak",)), ("rename", ("n1",), ("n1.bak",)), ("mkdir", ("d",)), ("rename", ("n2",), ("n2.bak",)),
             ("rename", ("n3",), ("d", "n3")), ("rename", ("n4",), ("x",)), ("mode", ("n5",), 0o644, 0o600),
             ("rename", ("n6",), ("n4",)), ("rename", ("n5",), ("n6",))]
    made = []
    for place in range(len(steps) + 1):
        following = min([cut for cut in cuts(steps) if cut > place], default=place)
        before = max([cut for cut in cuts(steps) if cut < place], default=0)
        for marker, others in ((at(place), range(following - 1, place, -1)), (back_at(place), range(before, place - 1))):
            for other in [None] + list(others)[:1]:
                tree = with_journal(steps_done(old, steps, [number for number in range(len(steps)) if (number < place) != (number == other)]), steps, marker)
                name = marker[-1] + ("" if other is None else "-and-%d" % other)
                made += [RecoveryCase(name + way, tree, way == "-back", Schedule()) for way in ("-forward", "-back")[:1 if marker == back_at(place) else 2]]
    return made


def steps_done(tree, steps, numbers):
    for number in numbers:
        tree = done(tree, call_of(steps[number]), None)
    return tree


def with_journal(tree, steps, marker):
    tree = tree.copy().add_dir(STAGING, 0o700)
    tree.add_file(PLAN, None, journal(steps), 0o600)
    return tree.add_file(marker, None, b"", 0o600)


# ---- failing and strange ones

def failing(rng, one):
    """A changing call of the recovery fails, or a look, or it is stopped behind a call."""
    disk, _ = recovered(one)
    call, kind = rng.randrange(len(disk.calls)), rng.random()
    schedule, name = Schedule({call: rng.random() < 0.5}), "call-%d" % call
    if kind < 0.3:
        there, _ = recovered(RecoveryCase("", one.tree, one.back, Schedule(stop=(call, 0))))
        schedule, name = Schedule(stop=(call, rng.randrange(len(images(there))))), "stopped-%d" % call
    elif kind < 0.5:
        look = rng.randrange(disk.looks)
        schedule, name = Schedule(looks=[look]), "look-%d" % look
    return RecoveryCase("%s-%s" % (one.name, name), one.tree, one.back, schedule)


def stops(one):
    """A recovery stopped behind each of its changing calls, each tree that may stand then."""
    made = []
    for call in range(len(recovered(one)[0].calls)):
        there, _ = recovered(RecoveryCase("", one.tree, one.back, Schedule(stop=(call, 0))))
        made += [RecoveryCase("%s-stopped-%d-%d" % (one.name, call, number), one.tree, one.back, Schedule(stop=(call, number)))
                 for number, _ in distinct_images(there)]
    return made


def twisted(rng, one):
    """Something more stands in the staging directory, something is gone, or a bit of the journal is another one."""
    tree, kind = one.tree.copy(), rng.random()
    bare = [path for path in tree.paths() if not tree.names_in(path)]
    journals = [path for path in bare if path in (PLAN, DONE, UNDONE) and tree.files[tree.nodes[path][1]][0]]
    added = [STAGING + (name,) for name in NAMES if tree.stands(STAGING) and not tree.stands(STAGING + (name,))]
    if kind < 0.4 and added:
        tree.add_file(rng.choice(added), max(tree.files, default=-1) + 1)
    elif kind < 0.75 or not journals:
        path = rng.choice(bare)
        del tree.nodes[path], tree.times[path]
    else:
        number = tree.nodes[rng.choice(journals)][1]
        data, mode = tree.files[number]
        place = rng.randrange(len(data))
        tree.files[number] = (data[:place] + bytes([data[place] ^ 1 << rng.randrange(8)]) + data[place + 1:], mode)
    return RecoveryCase(one.name + "-twisted", tree, one.back, Schedule())


def all_cases():
    rng = random.Random(SEED)
    whole = [case for one in small() if one.name in WHOLE for case in both_ways(reached(one))]
    every = [case for one in small() if one.name != "directory-removed" for case in both_ways(left(one))]
    return whole + marked() + [failing(rng, one) for one in rng.sample(every, FAILING)] + [twisted(rng, one) for one in rng.sample(every, TWISTED)]


def every_case():
    """Of each small commit all that may stand, recovered in both directions to the end and stopped behind each call, and each look and call failing."""
    cases = []
    for one in small():
        for case in both_ways(reached(one)):
            disk, _ = recovered(case)
            cases += [case] + stops(case)
            cases += [RecoveryCase("%s-look-%d" % (case.name, look), case.tree, case.back, Schedule(looks=[look])) for look in range(disk.looks)]
            cases += [RecoveryCase("%s-call-%d-%d" % (case.name, call, is_done), case.tree, case.back, Schedule({call: is_done}))
                      for call in range(len(disk.calls)) for is_done in (False, True)]
    return cases
