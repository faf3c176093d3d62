"""Cases, the table that asks for them, and what must come. docs/CASES.md has the form of both texts."""
from program import Run, Schedule
from texts import path_text


class Case:
    """A tree, inputs by name, and runs: each a list of words with the schedule of its calls. A run goes on with the tree that the one
    before it left, or with the image at which that one was stopped."""

    def __init__(self, name, tree, inputs, runs):
        self.name, self.tree, self.inputs, self.runs = name, tree, inputs, runs


def field(data):
    """A field: each byte as it is, or as `\\xHH`."""
    if isinstance(data, str):
        data = data.encode()
    return "".join(chr(byte) if 33 <= byte <= 126 and byte != 92 else "\\x%02x" % byte for byte in data) or "\\e"


def lines(data):
    """Bytes, each of their lines behind `|`."""
    return "".join("|%s\n" % ("" if line == b"" else field(line).replace("\\x20", " ")) for line in data.split(b"\n"))


def entry_row(tree, path):
    kind, value = tree.nodes[path]
    time, shown = tree.times[path], field(path_text(path))
    if kind == "dir":
        return "dir %o %d %s\n" % (value, time, shown)
    if kind == "link":
        return "link %d %s %s\n" % (time, shown, field(value))
    data, mode = tree.files[value]
    return "file %d %o %d %s %s\n" % (value, mode, time, shown, field(data))


def tree_rows(tree):
    return "".join(entry_row(tree, path) for path in tree.paths())


def schedule_rows(schedule):
    rows = ["fail-change %d %s\n" % (call, "done" if done else "not-done") for call, done in sorted(schedule.changes.items())]
    rows += ["fail-look %d\n" % call for call in schedule.looks]
    rows += ["fail-read %d\n" % call for call in schedule.reads]
    rows += ["fail-write %d\n" % call for call in schedule.writes]
    if schedule.stop is not None:
        rows.append("stop %d %d\n" % schedule.stop)
    return "".join(rows)


def asked(case):
    """The block of a case."""
    rows = ["case %s\n" % field(case.name), tree_rows(case.tree)]
    for name, data in case.inputs.items():
        rows.append("input %s\n" % field(name))
        if data:
            rows.append(lines(data))
    for words, schedule in case.runs:
        rows.append(schedule_rows(schedule))
        rows.append(" ".join(["run"] + [field(word) for word in words]) + "\n")
    return "".join(rows) + "\n"


def expected(case):
    """What must come of a case."""
    rows, tree = ["case %s\n" % field(case.name)], case.tree
    for words, schedule in case.runs:
        outcome = Run(tree, case.inputs, schedule).run(words)
        tree = outcome.tree
        if outcome.status is None:
            rows.append("stopped\n")
        else:
            rows.append("status %d\n" % outcome.status)
            rows.append(lines(outcome.text.encode()))
        if outcome.held is not None:
            rows.append("held %d\n" % outcome.held)
        rows.append(tree_rows(tree))
        rows.append("pending\n" if outcome.pending else "durable\n")
    return "".join(rows)


def one_run(name, tree, inputs, words, **schedule):
    return Case(name, tree, inputs, [(words.split(" ") if isinstance(words, str) else words, Schedule(**schedule))])
