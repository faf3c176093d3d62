#!/usr/bin/env python3
"""Writes the table of examples of texts and what must be answered: text_examples.py as rows. docs/CASES.md has the form.

generate_texts.py TABLE EXPECTED
"""
import sys

import find_examples
import text_examples as given
from journals import journal
from setting_examples import SETTINGS
from table import field
from texts import escape, path_text

MAX_LINE = "  -rw-r--r-- 1 %s g 0 1970-01-01 00:00 a"


def fields(*words):
    return " ".join(word if isinstance(word, Plain) else field(word) if isinstance(word, (str, bytes)) else str(word) for word in words)


class Plain(str):
    """A word that stands as it is."""


def row(name, *words):
    return fields(Plain(name), *words)


def refused(why):
    return Plain("refused: %s" % why)


def long_names(*lengths):
    return "/".join("x" * length for length in lengths)


# ---- names

def names():
    for directory, text, path in given.RESOLVED:
        yield row("resolve", directory, text), fields(path)
    for directory, text, why in given.NOT_RESOLVED:
        yield row("resolve", directory, text), refused(why)
    for lengths, place in (([255], None), ([256], 0), ([1, 256], 2), ([255] * 16, None), ([255] * 15 + [254, 1], 4096)):
        text = long_names(*lengths)
        yield row("resolve", "", text), fields(text) if place is None else refused("too long at byte %d" % place)
    for text, in_link, line in given.ESCAPED + [("\té" * 1365, False, "\\té" * 1365)] + every_byte():
        yield row("escape-in-link" if in_link else "escape", text), fields(line)
        yield row("unescape", line), fields(text)
    for line, place in given.BAD_ESCAPES:
        yield row("unescape", line), refused("bad escape at byte %d" % place)


def every_byte():
    """Each character of ASCII but NUL, outside a link and in one."""
    return [(chr(byte), in_link, escape(chr(byte), in_link)) for byte in range(1, 128) for in_link in (False, True)]


# ---- lines

def lines():
    for minute, date in given.DATES:
        yield row("date", minute), fields("  -rw-r--r-- 1 u g 0 %s a" % date)
    for second, minute in given.MINUTES:
        yield row("minute", second), str(minute)
    for line, name, place in given.BAD_LINES + given.BAD_BYTES:
        yield row("line", line), "bad %s %d" % (name, place)
    for date, minute in given.READ_DATES:
        yield row("line", "  -rw-r--r-- 1 u g 0 %s a" % date), "\\x20 file 644 1 u g 0 %d a \\e" % minute
    for date in given.BAD_DATES:
        yield row("line", "  -rw-r--r-- 1 u g 0 %s a" % date), "bad Date 21"
    for line, shown in given.LINES:
        yield row("line", line), shown
    yield row("line", MAX_LINE % ("u" * 64)), "\\x20 file 644 1 %s g 0 0 a \\e" % ("u" * 64)
    yield row("line", MAX_LINE % ("u" * 65)), "bad Owner 15"
    for letters, order in given.ORDERS:
        yield row("order", letters, *[Plain(one) for one in given.ORDERED]), " ".join(order)
    for letters, switches in given.SWITCHES:
        yield row("switches", Plain(letters)), "all %s by-time %s by-size %s reverse %s" % tuple(str(letter in switches).lower() for letter in "AtSr")
    for letters in given.NO_SWITCHES:
        yield row("switches", Plain(letters)), "none"


def buffers():
    for before, after, asked in given.EDITS:
        yield row("edits", before, after), asked


# ---- regexps and commands

def regexps():
    numbers = dict(given.GROUPS)
    for text, pattern in given.REGEXPS:
        count = numbers.get(text, text.count("\\(") - text.count("\\(?:"))
        yield row("regexp", text), fields(pattern, Plain("groups"), count)
    for text, why in given.NO_REGEXPS:
        yield row("regexp", text), refused(why)
    for regexp, text, is_found in given.FOUND:
        yield row("found", regexp, text), "yes" if is_found else "no"
    for regexp, to, name, renamed in given.RENAMED:
        yield row("rename", regexp, to, name), "not found" if renamed is None else fields(renamed)
    for regexp, count, found in given.FOUND_OF:
        yield row("found-of", regexp, count), str(found)
    for regexp, to, count, renamed, last in given.RENAMED_OF:
        yield row("rename-of", regexp, to, count), fields(renamed, last)
    for to, groups, why in given.NO_TEMPLATES:
        yield row("template", to, groups), refused(why)


def every_quoted():
    """Each character of ASCII but NUL alone."""
    for byte in range(1, 128):
        name = chr(byte)
        plain = name.isalnum() or name in "_./,:=@%+"
        yield name, "./-" if name == "-" else "''\\'''" if name == "'" else name if plain else "'%s'" % name


def commands():
    for name, quoted in given.QUOTED + list(every_quoted()):
        yield row("quote", name), fields(quoted)
    for text, made in given.COMMANDS:
        yield row("commands", text, *given.NAMES), fields(*made)
    for text, names, why in given.NO_COMMANDS:
        yield row("commands", text, *names), refused(why)


# ---- journals

def bytes_of(text):
    """Hexadecimal digits, and text between `'`."""
    parts = text.split("'")
    return b"".join(part.encode() if number % 2 else bytes.fromhex(part) for number, part in enumerate(parts))


def step_of(text):
    kind, *words = text.split(" ")
    if kind == "M":
        return ("mode", tuple(words[0].split("/")), int(words[1], 8), int(words[2], 8))
    return ({"D": "mkdir", "R": "rename"}[kind],) + tuple(tuple(word.split("/")) for word in words)


def step_fields(step):
    kind, *words = step
    return [Plain(kind)] + [path_text(word) if isinstance(word, tuple) else Plain("%o" % word) for word in words]


def journals():
    for text, answer in given.JOURNALS:
        if answer.startswith("bad"):
            yield row("journal", bytes_of(text)), answer
            continue
        steps = [step_of(step) for step in answer.split(";") if step]
        words = [word for step in steps for word in step_fields(step)]
        yield row("journal", bytes_of(text)), fields(*words, Plain("written"), journal(steps))
    for length, answer in ((4095, None), (4096, "bad at 8")):
        path = "/".join(["a" * 100] * 41)[:length]
        data = b"WDJ1" + (1).to_bytes(4, "big") + b"D" + length.to_bytes(2, "big") + path.encode()
        step = ("mkdir", tuple(path.split("/")))
        yield row("journal", data), answer or fields(*step_fields(step), Plain("written"), journal([step]))
    for count, length, answer in given.LONG_JOURNALS:
        yield row("long-journal", count, length), answer


# ---- marks

def marks():
    for before, shown, after in given.TOGGLED:
        yield marked("marks", before), marked("marks", before)
        yield marked("toggle", shown), marked("marks", after)
    for before, moves, after in given.MOVED:
        yield marked("marks", before), marked("marks", before)
        yield marked("move", moves), marked("marks", after)
    for asked, answer in given.MARKS:
        yield asked, answer
    for backups, old, new, excess in given.EXCESS:
        yield marked("backups %d %d" % (old, new), backups), marked("excess", excess)


def marked(word, rest):
    return (word + " " + rest).rstrip()


def outside():
    yield from given.OUTSIDE


def settings():
    for text, answer, rest in SETTINGS:
        yield row("settings", text), answer
        for asked, answered in rest:
            yield asked, answered


# ---- predicates on files

def finds():
    for text, place in find_examples.FIND_WORDS:
        yield row("find-words", text), "ok" if place is None else refused("word %d" % place)
    for pattern, matched, others in find_examples.PATTERNS:
        yield from meets("-name " + pattern, [find_examples.File(name) for name in matched], [find_examples.File(name) for name in others])
    for text, files, others in find_examples.MET:
        yield from meets(text, files, others)
    for text, now, paths in find_examples.FOUND:
        yield row("find", text, now, *find_examples.TREE), fields(*paths)


def meets(text, files, others):
    for file in files + others:
        shown = (file.kind, Plain("%o" % file.mode), file.links, file.size, file.time)
        yield row("find-meets", text, file.now, file.name, *shown), "yes" if file in files else "no"


def main():
    if len(sys.argv) != 3:
        print(__doc__)
        return 2
    with open(sys.argv[1], "w") as asks, open(sys.argv[2], "w") as comes:
        asks.write("# Made by scripts/cases/generate_texts.py. docs/CASES.md has the form.\n\n")
        for part in (names, lines, buffers, regexps, commands, journals, marks, outside, settings, finds):
            asks.write("# %s\n" % part.__name__)
            for asked, answer in part():
                asks.write(asked + "\n")
                comes.write(answer + "\n")
    return 0


if __name__ == "__main__":
    sys.exit(main())
