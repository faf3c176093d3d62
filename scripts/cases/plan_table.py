"""Cases of plans, the table that asks for them, and what must come. docs/CASES.md has the form of both texts."""
from edits import Fault
from plans import check, counts_of, edited_tree, holds, plan
from table import field, tree_rows
from texts import path_text


class PlanCase:
    """A tree, changes, and what is confirmed: a list of paths, or None for all."""

    def __init__(self, name, tree, changes, confirmed=()):
        self.name, self.tree, self.changes, self.confirmed = name, tree, changes, confirmed


def path_field(path):
    return "\\e" if path is None else field(path_text(path))


def shown_fields(was):
    kind, mode, target = was
    return "link %s" % field(target) if kind == "link" else "%s %o" % (kind, mode)


def change_row(change):
    if change.removes:
        return "remove %d %s %s\n" % (change.line, path_field(change.source), shown_fields(change.was))
    if change.source is None:
        kind, *words = change.what
        what = {"link": lambda target: field(target), "file": lambda mode, data: "%o %s" % (mode, field(data)), "same": path_field}[kind](*words)
        return "make %d %s %s %s\n" % (change.line, path_field(change.to), kind, what)
    target = "\\e" if change.target is None else field(change.target)
    mode = "\\e" if change.mode is None else "%o" % change.mode
    return "edit %d %s %s %s %s %s\n" % (
        change.line, path_field(change.source), shown_fields(change.was), path_field(change.to), target, mode)


def answer(case):
    """The fault of a case, or None."""
    try:
        check(case.tree, case.changes, case.confirmed is None, case.confirmed or ())
    except Fault as fault:
        return fault
    return None


def shows_steps(case):
    """Whether the steps are asked for, and not their numbers alone: where their order isn't free."""
    return answer(case) is None and plan(case.tree, case.changes)[1]


def asked(case):
    """The block of a case."""
    rows = ["case %s\n" % field(case.name), tree_rows(case.tree)]
    rows += [change_row(change) for change in case.changes]
    rows += ["confirm-all\n"] if case.confirmed is None else ["confirm %s\n" % path_field(path) for path in case.confirmed]
    return "".join(rows) + "plan %s tree\n\n" % ("steps" if shows_steps(case) else "numbers")


def fault_text(fault):
    words = ["refused:", fault.name]
    words += [] if fault.line is None else [str(fault.line)]
    words += [] if fault.other is None else [path_field(fault.other) if isinstance(fault.other, tuple) else str(fault.other)]
    return " ".join(words) + "\n"


def step_text(step):
    kind, *words = step
    return " ".join([kind] + [path_field(word) if isinstance(word, tuple) else "%o" % word for word in words]) + "\n"


def expected(case):
    """What must come of a case."""
    head, fault = "case %s\n" % field(case.name), answer(case)
    if fault is not None:
        return head + fault_text(fault)
    rows = [" ".join("%s %d" % count for count in counts_of(case.tree, case.changes)) + "\n"]
    steps, is_forced = plan(case.tree, case.changes)
    if is_forced:
        rows += [step_text(step) for step in steps]
    else:
        rows.append(" ".join("%s %d" % (kind, sum(step[0] == kind for step in steps)) for kind in ("mkdir", "rename", "mode")) + "\n")
    left = sorted("h%d" % number for number in range(len(holds(case.tree, case.changes))))
    return head + "".join(rows) + " ".join(["left"] + left) + "\n" + tree_rows(edited_tree(case.tree, case.changes))
