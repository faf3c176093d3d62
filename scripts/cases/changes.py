"""Edits of small trees in a short form, `changes.txt`, asked by two buffers."""
import os

from examples import commit
from texts import escape, mode_text, path_text
from trees import Tree

LETTERS = {"file": "-", "dir": "d", "link": "l"}


def path_of(text):
    return tuple(text.split("/"))


def tree_of(text):
    """`d,PATH` is a directory, of mode 493 where no other one is behind it, `l,PATH,TARGET` a link, and `f,PATH,NUMBER,MODE` an empty file."""
    tree = Tree()
    for entry in text.split():
        kind, path, *values = entry.split(",")
        if kind == "d":
            tree.add_dir(path_of(path), int(values[0]) if values else 0o755)
        elif kind == "l":
            tree.add_link(path_of(path), values[0])
        else:
            tree.add_file(path_of(path), int(values[0]), b"", int(values[1]))
    return tree


def line_text(directory, name, kind, mode, target):
    shown = escape(name, kind == "link") + (" -> " + escape(target) if kind == "link" else "")
    return "  %s%s 1 u g 0 1970-01-01 00:00 %s\n" % (LETTERS[kind], mode_text(mode), shown)


def buffers_of(text):
    """The two buffers of edits `SOURCE,WAS,TO,TARGET,MODE`, with `-` for none; WAS is `dMODE`, `fMODE` or `lTARGET`. There is a section for
    each run of edits in one directory."""
    before, after, section = "dired 1", "dired 1", None
    for edit in text.split():
        source, was, to, target, mode = edit.split(",")
        source, kind = path_of(source), {"d": "dir", "f": "file", "l": "link"}[was[0]]
        if section != source[:-1]:
            section = source[:-1]
            header = "\n  %s:\n  total 0\n" % (escape(path_text(section)) if section else ".")
            before, after = before + header, after + header
        was_mode, was_target = (0o777, was[1:]) if kind == "link" else (int(was[1:]), "")
        new_name = source[-1] if to == "-" else path_text(("..",) * len(section) + path_of(to))
        before += line_text(section, source[-1], kind, was_mode, was_target)
        after += line_text(section, new_name, kind, was_mode if mode == "-" else int(mode), was_target if target == "-" else target)
    return before, after


def cases():
    """A commit for each row, with what is confirmed: `*` for all."""
    made = []
    with open(os.path.join(os.path.dirname(os.path.abspath(__file__)), "changes.txt")) as rows:
        for row in rows:
            if row.startswith("#"):
                continue
            tree, edits, confirmed = row.rstrip("\n").split("|")
            words = "commit --all B A" if confirmed == "*" else " ".join(["commit", "B", "A"] + confirmed.split())
            made.append(commit("changes %d" % (len(made) + 1), tree_of(tree), *buffers_of(edits), words=words))
    return made
