"""Names, paths, escapes, modes and dates, as texts have them.

A text is a `str`, as the program has it: a text that isn't UTF-8 is none. A path is a tuple of names from the root, which is `()`.
"""
import datetime

MAX_NAME_BYTES = 255
MAX_PATH_BYTES = 4095
MAX_TARGET_BYTES = 4095


class Refused(Exception):
    """A text isn't taken."""


def utf8(data):
    """The text of bytes."""
    try:
        return data.decode("utf-8")
    except UnicodeDecodeError:
        raise Refused("no UTF-8")


def path_text(path):
    return "/".join(path)


def path_bytes(path):
    return len(path_text(path).encode())


def path_order(path):
    """Paths are ordered as lists of names, and names by their bytes."""
    return tuple(name.encode() for name in path)


def is_above(upper, path):
    """Whether a path is strictly above another one."""
    return len(upper) < len(path) and path[:len(upper)] == upper


def ancestors(path):
    """The paths strictly above a path, the root first."""
    return [path[:length] for length in range(len(path))]


def escape(text, in_link=False):
    shown = []
    for char in text:
        code = ord(char)
        if char == "\\":
            shown.append("\\\\")
        elif char == "\n":
            shown.append("\\n")
        elif char == "\t":
            shown.append("\\t")
        elif code < 32 or code == 127 or (in_link and char == ">"):
            shown.append("\\%03o" % code)
        else:
            shown.append(char)
    return "".join(shown)


def unescape(text):
    plain, at = [], 0
    while at < len(text):
        char = text[at]
        if ord(char) < 32 or ord(char) == 127:
            raise Refused("a raw control byte")
        if char != "\\":
            plain.append(char)
            at += 1
            continue
        short = {"\\": "\\", "n": "\n", "t": "\t"}.get(text[at + 1:at + 2])
        if short is not None:
            plain.append(short)
            at += 2
            continue
        digits = text[at + 1:at + 4]
        if len(digits) != 3 or any(digit not in "01234567" for digit in digits) or not 1 <= int(digits, 8) <= 127:
            raise Refused("no escape")
        plain.append(chr(int(digits, 8)))
        at += 4
    return "".join(plain)


def resolve(directory, text, takes_root=False):
    """The path that a text names from a directory, by text alone."""
    if text == "" or text.startswith("/") or "\0" in text:
        raise Refused("no path")
    path = list(directory)
    for name in text.split("/"):
        if name in ("", "."):
            continue
        if name == "..":
            if not path:
                raise Refused("above the root")
            path.pop()
            continue
        if len(name.encode()) > MAX_NAME_BYTES:
            raise Refused("a long name")
        path.append(name)
    if path_bytes(path) > MAX_PATH_BYTES:
        raise Refused("a long path")
    if not path and not takes_root:
        raise Refused("the root")
    return tuple(path)


def mode_text(mode):
    letters = []
    for shift, special, letter in ((6, 0o4000, "s"), (3, 0o2000, "s"), (0, 0o1000, "t")):
        bits = mode >> shift & 7
        letters.append("r" if bits & 4 else "-")
        letters.append("w" if bits & 2 else "-")
        runs = bool(bits & 1)
        if mode & special:
            letters.append(letter if runs else letter.upper())
        else:
            letters.append("x" if runs else "-")
    return "".join(letters)


MODES = {mode_text(mode).encode(): mode for mode in range(0o10000)}


def read_mode(letters):
    """The mode that nine bytes show, or None."""
    return MODES.get(letters)


EPOCH = datetime.datetime(1970, 1, 1)
FIRST_SECOND = -62135596800
LAST_SECOND = 253370764799


def date_text(seconds):
    moment = EPOCH + datetime.timedelta(seconds=min(max(seconds, FIRST_SECOND), LAST_SECOND))
    return "%04d-%02d-%02d %02d:%02d" % (moment.year, moment.month, moment.day, moment.hour, moment.minute)


def is_date(text):
    """Whether 16 bytes are a real date of the years 1 to 9998."""
    pattern = "dddd-dd-dd dd:dd"
    if len(text) != len(pattern):
        return False
    for byte, wanted in zip(text.decode("latin-1"), pattern):
        if (byte not in "0123456789") if wanted == "d" else byte != wanted:
            return False
    year, month, day, hour, minutes = (int(text[a:b]) for a, b in ((0, 4), (5, 7), (8, 10), (11, 13), (14, 16)))
    if not 1 <= year <= 9998:
        return False
    try:
        datetime.datetime(year, month, day, hour, minutes)
    except ValueError:
        return False
    return True
