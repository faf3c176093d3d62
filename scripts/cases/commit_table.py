"""Cases of commits, the table that asks for them, and what must come. docs/CASES.md has the form of both texts."""
from commits import Commit, sorted_by_layer
from disks import Disk
from interrupted import Interrupted, same
from plan_table import answer, asked as asked_of_plan, fault_text
from plans import counts_of, edited_tree, holds, plan
from table import field, schedule_rows, tree_rows

# sub-lists of at most so many pending calls are all images
MANY_CALLS = 10


class CommitCase:
    """A case of a plan, and the schedule of the calls of its commit: a Schedule of program.py."""

    def __init__(self, case, name, schedule):
        self.case, self.name, self.schedule = case, name, schedule


def fresh_of(case):
    """The new entries, in the order of the lines."""
    return [("link", change.target) if change.what is None else change.what for change in case.changes if change.is_fresh()]


def committed(case, schedule):
    """The disk behind the commit of a case, and how it ended."""
    disk = Disk(case.tree, schedule.changes, schedule.looks, None if schedule.stop is None else schedule.stop[0])
    steps, _ = plan(case.tree, case.changes)
    held = [case.tree.is_dir(path) for _, path, _ in holds(case.tree, case.changes)]
    return disk, Commit(disk, steps, fresh_of(case), held).run()


# ---- crashes

def choices(count):
    """Which of so many pending calls are kept, as images number them."""
    if count <= MANY_CALLS:
        return [[place for place in range(count) if bits >> place & 1] for bits in range(1 << count)]
    every = list(range(count))
    return [every[:length] for length in range(count + 1)] + [every[:place] + every[place + 1:] for place in every]


def images(disk):
    """What a crash may leave now, by number: of each choice with the files whole, and then with them empty."""
    left = []
    for kept in choices(len(disk.pending)):
        calls = [disk.pending[place] for place in kept]
        left += [disk.image(calls), disk.image(calls, keeps_bytes=False)]
    return left


def distinct_images(disk):
    """The numbers of images that differ."""
    found = []
    for number, image in enumerate(images(disk)):
        if not any(same(image, other) for _, other in found):
            found.append((number, image))
    return found


def rows_of(case):
    """The table of what may stand for a case."""
    disk, _ = committed(case, NoSchedule())
    entries = entries_made(case)
    return Interrupted(case.tree, edited_tree_of(case, entries), sorted_by_layer(plan(case.tree, case.changes)[0]), entries)


class NoSchedule:
    changes, looks, stop = {}, (), None


def entries_made(case):
    """The new entries as they stand in the staging directory: nodes, and of files number, bytes and mode."""
    number, made = max(case.tree.files, default=-1) + 2, []
    for kind, *words in fresh_of(case):
        if kind == "link":
            made.append((("link", words[0]), None))
        elif kind == "same":
            node = case.tree.nodes[words[0]]
            made.append((node, case.tree.files[node[1]]))
        else:
            made.append((("file", number), (words[1], words[0])))
            number += 1
    return made


def edited_tree_of(case, entries):
    """The edited tree, with the numbers that a commit gives new files."""
    edited = edited_tree(case.tree, case.changes)
    fresh = [change for change in case.changes if change.is_fresh()]
    for change, (node, body) in zip(fresh, entries):
        if change.what is not None:
            edited.nodes[change.to] = node
            if body is not None:
                edited.files[node[1]] = body
    return edited


# ---- the texts

def asked(case):
    """The block of a case."""
    rows = asked_of_plan(case.case).split("\n")
    rows = ["case %s" % field(case.name)] + [row for row in rows[1:] if row and not row.startswith("plan ")]
    return "\n".join(rows) + "\n" + schedule_rows(case.schedule) + "commit\n\n"


def expected(case):
    """What must come of a case."""
    head, fault = "case %s\n" % field(case.name), answer(case.case)
    if fault is not None:
        return head + fault_text(fault)
    head += " ".join("%s %d" % count for count in counts_of(case.case.tree, case.case.changes)) + "\n"
    disk, end = committed(case.case, case.schedule)
    if case.schedule.stop is not None:
        return head + "stopped\n" + tree_rows(images(disk)[case.schedule.stop[1]]) + "durable\n"
    return head + " ".join(["ended"] + list(end)) + "\n" + tree_rows(disk.tree) + ("pending\n" if disk.pending else "durable\n")
