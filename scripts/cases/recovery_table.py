"""Cases of recoveries, the table that asks for them, and what must come. docs/CASES.md has the form of both texts."""
from commit_table import images
from disks import Disk
from recoveries import Recovery
from table import field, schedule_rows, tree_rows


class RecoveryCase:
    """A tree, whether what a commit left is taken back, and the schedule of the calls of the recovery."""

    def __init__(self, name, tree, back, schedule):
        self.name, self.tree, self.back, self.schedule = name, tree, back, schedule


def recovered(case):
    """The disk behind the recovery of a case, and how it ended."""
    schedule = case.schedule
    disk = Disk(case.tree, schedule.changes, schedule.looks, None if schedule.stop is None else schedule.stop[0])
    return disk, Recovery(disk, case.back).run()


def word(value):
    return field(value) if isinstance(value, str) else str(value)


def asked(case):
    """The block of a case."""
    return "case %s\n" % field(case.name) + tree_rows(case.tree) + schedule_rows(case.schedule) + "recover%s\n\n" % (" back" if case.back else "")


def expected(case):
    """What must come of a case."""
    disk, end = recovered(case)
    head = "case %s\n" % field(case.name)
    if case.schedule.stop is not None:
        return head + "stopped\n" + tree_rows(images(disk)[case.schedule.stop[1]]) + "durable\n"
    return head + " ".join(["ended"] + [word(value) for value in end]) + "\n" + tree_rows(disk.tree) + ("pending\n" if disk.pending else "durable\n")
