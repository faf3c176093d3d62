"""A listing as printed and as edited: what is read of the one, and what the other asks for.

`read_buffer` gives a list of lines, each ("fixed", bytes) or ("entry", bytes, place of the name, directory, source, was), where `was` is what
the line shows: (kind, mode, target). `edits_of` gives the edits and the paths whose names were emptied.
"""
import re

from texts import MAX_TARGET_BYTES, Refused, is_date, read_mode, resolve, unescape, utf8


class BadBuffer(Exception):
    """BEFORE is no listing: at this line, for this cause."""

    def __init__(self, line, cause):
        super().__init__(line, cause)
        self.line, self.cause = line, cause


class Faulty(Exception):
    """A line of AFTER can't be taken, for this cause."""

    def __init__(self, line, cause):
        super().__init__(line, cause)
        self.line, self.cause = line, cause


class Edit:
    """What a line asks for: a new path, a new target or a new mode of its source, each None where it asks for none."""

    def __init__(self, line, source, was, to=None, target=None, mode=None):
        self.line, self.source, self.was, self.to, self.target, self.mode = line, source, was, to, target, mode

    def written(self):
        return self.source if self.to is None else self.to


def lines_of(data):
    """The lines of a text, whose last newline may be missing."""
    lines = data.split(b"\n")
    return lines[:-1] if lines[-1] == b"" else lines


class Field(Exception):
    """The first bad field of a line."""


def take_number(text, at, field, limit):
    """The place behind a number that stands behind one or more spaces. What stands behind its digits is the next field's."""
    found = re.compile(rb" +(0|[1-9][0-9]*)(?![0-9])").match(text, at)
    if not found or int(found.group(1)) > limit:
        raise Field(field)
    return found.end()


def take_owner(text, at, field):
    """The place behind a word that stands behind one or more spaces."""
    found = re.compile(rb" +([^ ]+)").match(text, at)
    if not found or len(found.group(1)) > 64 or not all(33 <= byte <= 126 for byte in found.group(1)):
        raise Field(field)
    return found.end()


def take_one_space(text, at, field):
    if text[at:at + 1] != b" ":
        raise Field(field)
    return at + 1


KINDS = {b"-": "file", b"d": "dir", b"l": "link"}


def read_name(text, directory):
    """The path that the text of a name gives from its directory."""
    return resolve(directory, unescape(utf8(text)))


def read_target(text):
    target = unescape(utf8(text))
    if not 1 <= len(target.encode()) <= MAX_TARGET_BYTES:
        raise Refused("no target")
    return target


def read_line(text, directory):
    """The place of the name, the source, and what a line shows. Raises Field at the first bad field from the left."""
    if not 32 <= text[0] <= 126:
        raise Field("Mark")
    at = take_one_space(text, 1, "Kind")
    kind = KINDS.get(text[at:at + 1])
    if kind is None:
        raise Field("Kind")
    mode = read_mode(text[at + 1:at + 10])
    if mode is None or (kind == "link" and text[at + 1:at + 10] != b"rwxrwxrwx"):
        raise Field("Mode")
    at = take_number(text, at + 10, "Links", (1 << 32) - 1)
    at = take_owner(text, at, "Owner")
    at = take_owner(text, at, "Group")
    at = take_number(text, at, "Size", (1 << 64) - 1)
    at = take_one_space(text, at, "Date")
    if not is_date(text[at:at + 16]):
        raise Field("Date")
    at = take_one_space(text, at + 16, "Name")
    name, arrow, target = text[at:], b"", b""
    if kind == "link":
        name, arrow, target = text[at:].partition(b" -> ")
        if not arrow:
            raise Field("Target")
    try:
        source = read_name(name, directory)
    except Refused:
        raise Field("Name")
    try:
        return at, source, (kind, mode, read_target(target) if kind == "link" else "")
    except Refused:
        raise Field("Target")


def read_header(text):
    """The directory of a header, and whether its section is hidden."""
    hidden = text.endswith(b": ...")
    if not text.startswith(b"  ") or not (hidden or text.endswith(b":")):
        raise Refused("no header")
    return resolve((), unescape(utf8(text[2:-5 if hidden else -1])), takes_root=True), hidden


def read_buffer(data):
    texts = lines_of(data)
    if texts[:1] != [b"dired 1"]:
        raise BadBuffer(1, "FirstLine")
    lines, due, directory = [("fixed", texts[0])], "header", ()
    for number, text in enumerate(texts[1:], 2):
        line = ("fixed", text)
        if due == "header":
            try:
                directory, hidden = read_header(text)
            except Refused:
                raise BadBuffer(number, "Header")
            due = "gap" if hidden else "total"
        elif due == "total":
            if not re.fullmatch(rb"  total [0-9]{1,18}", text):
                raise BadBuffer(number, "Total")
            due = "entry"
        elif text == b"":
            due = "header"
        elif due == "gap":
            raise BadBuffer(number, "Header")
        else:
            try:
                place, source, was = read_line(text, directory)
            except Field as field:
                raise BadBuffer(number, "Line %s" % field)
            line = ("entry", text, place, directory, source, was)
        lines.append(line)
    if due in ("header", "total"):
        raise BadBuffer(len(texts) + 1, due.capitalize())
    return lines


def edit_of_line(number, line, text):
    """The edit of a line with the text that it has now, and whether its name was emptied."""
    _, before, place, directory, source, was = line
    if len(text) < place or text[:3] + text[12:place] != before[:3] + before[12:place]:
        raise Faulty(number, "Fixed")
    kind, mode, target = was
    name, arrow, target_text = text[place:], b"", b""
    if kind == "link":
        name, arrow, target_text = text[place:].partition(b" -> ")
    edit = Edit(number, source, was)
    if name:
        try:
            path = read_name(name, directory)
        except Refused:
            raise Faulty(number, "BadName")
        edit.to = path if path != source else None
    new_mode = read_mode(text[3:12])
    if new_mode is None or (kind == "link" and text[3:12] != before[3:12]):
        raise Faulty(number, "BadMode")
    edit.mode = new_mode if new_mode != mode else None
    if kind == "link":
        try:
            new_target = read_target(target_text)
        except Refused:
            raise Faulty(number, "BadTarget")
        edit.target = new_target if new_target != target else None
    return edit, not name


def edits_of(lines, after):
    """The edits of an edited listing, and the paths whose names were emptied."""
    texts = lines_of(after)
    if len(texts) != len(lines):
        raise Faulty(min(len(texts), len(lines)) + 1, "LineCount")
    edits, emptied, sources = [], [], set()
    for number, (line, text) in enumerate(zip(lines, texts), 1):
        if line[0] == "fixed":
            if text != line[1]:
                raise Faulty(number, "Fixed")
            continue
        edit, is_emptied = edit_of_line(number, line, text)
        if edit.source in sources:
            raise Faulty(number, "Twice")
        sources.add(edit.source)
        if (edit.to, edit.target, edit.mode) != (None, None, None):
            edits.append(edit)
        if is_emptied:
            emptied.append(edit.source)
    return edits, emptied
