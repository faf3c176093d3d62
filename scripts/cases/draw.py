"""Cases that are drawn: random trees, edits of their listings, listings, and calls that fail."""
import buffers
import listing
from table import one_run
from texts import escape, mode_text, path_text
from trees import Tree

NAMES = ["a", "b", "c", "d", "e.txt", "k", "x y", "\u00e9", ".h", "n\n", "l>", "a -> b"]
TARGETS = ["a", "../b", "x -> y", "t\\t", "/gone"]
MODES = [0o644, 0o644, 0o600, 0o755, 0o4755, 0o1777, 0o2070, 0]
TIMES = [0, 0, 59, 86400, -1, 1760000000, 253370764800]


def draw_tree(rng):
    """A tree of at most six levels, in which some paths are hard links."""
    tree = Tree()
    numbers = []

    def grow(directory):
        names = rng.sample(NAMES, rng.choice((1, 2, 2, 3, 4) if directory else (2, 3, 4, 5)))
        for name in sorted(names, key=lambda name: name.encode()):
            path, kind, time = directory + (name,), rng.random(), rng.choice(TIMES)
            if kind < 0.45 and len(path) < 6 and len(tree.nodes) < 14:
                tree.add_dir(path, rng.choice(MODES), time)
                grow(path)
            elif kind < 0.6:
                tree.add_link(path, rng.choice(TARGETS), time)
            else:
                again = numbers and rng.random() < 0.3
                number = rng.choice(numbers) if again else len(numbers) * 3 + rng.choice((0, 1, 2))
                numbers.append(number)
                tree.add_file(path, number, b"z" * rng.choice((0, 0, 1, 12, 100)), rng.choice(MODES), time)

    grow(())
    return tree


def draw_dirs(rng, tree, most):
    dirs = [path for path in tree.paths() if tree.is_dir(path)]
    return rng.sample(dirs, min(len(dirs), rng.randint(0, most)))


def from_directory(directory, path):
    """The text of a path from a directory."""
    return path_text((("..",) * len(directory)) + path)


def draw_name(rng, tree, directory, source):
    """The text of a new name, escaped."""
    kind = rng.random()
    paths = tree.paths()
    other = rng.choice(paths)
    if kind < 0.34:
        return escape(rng.choice(NAMES + ["new", "z"]))
    if kind < 0.46:
        return escape(rng.choice([path for path in paths if path[:-1] == directory])[-1])
    if kind < 0.60:
        dirs = [path for path in paths if tree.is_dir(path)] + [()]
        return escape(from_directory(directory, rng.choice(dirs) + (rng.choice(NAMES + ["new"]),)))
    if kind < 0.68:
        return escape(from_directory(directory, other[:-1] + ("made", "new")[:rng.randint(1, 2)] + (source[-1],)))
    if kind < 0.76:
        return escape(from_directory(directory, other + (rng.choice(NAMES),)))
    if kind < 0.82:
        return escape(from_directory(directory, other))
    if kind < 0.84:
        return escape(from_directory(directory, (".wdired-commit", "h0")[:rng.randint(1, 2)]))
    if kind < 0.90:
        return ""
    if kind < 0.92:
        return rng.choice(["..", "/", "a\\", "\\101", "x" * 256, "../" * 7 + "a"])
    if kind < 0.94:
        return "/".join(["m" * 255] * 15)
    return escape(source[-1])


def edited_line(rng, tree, line, names_only):
    """A line of an entry with another name, target or mode."""
    _, text, place, directory, source, (kind, mode, target) = line
    name = draw_name(rng, tree, directory, source)
    if kind == "link":
        name = name.replace(">", "\\076")
    if not names_only and rng.random() < 0.35:
        if kind == "link":
            target = rng.choice(TARGETS)
        else:
            mode = rng.choice(MODES)
    letters = "rwxrwxrwx" if kind == "link" else mode_text(mode)
    shown = name + (" -> " + escape(target) if kind == "link" else "")
    return text[:3] + letters.encode() + text[12:place] + shown.encode()


def turned(rng, lines, texts, chosen):
    """Trades the names of lines of one directory."""
    directory = lines[chosen[0]][3]
    same = [number for number in chosen if lines[number][3] == directory and lines[number][5][0] != "link"]
    for number, other in zip(same, same[1:] + same[:1]):
        texts[number] = texts[number][:lines[number][2]] + lines[other][1][lines[other][2]:]


def damaged(rng, text):
    """A text with a few bytes replaced."""
    for _ in range(rng.randint(1, 2)):
        start = rng.randrange(len(text) + 1)
        end = min(len(text), start + rng.choice((0, 1, 1, 3)))
        piece = rng.choice((b"", b" ", b"\n", b"\\", b"x", b"/", b"..", b" -> ", b"\xff", b"-", b"0", b"\x00"))
        text = text[:start] + piece + text[end:]
    return text


def disturbed(rng, tree):
    """The tree after somebody else changed it."""
    tree = tree.copy()
    path = rng.choice(tree.paths())
    kind = rng.random()
    if kind < 0.4 and tree.kind(path) != "link":
        tree.set_mode(path, rng.choice(MODES))
    elif kind < 0.6 and tree.kind(path) == "link":
        tree.add_link(path, "other", tree.times[path])
    elif kind < 0.8:
        tree = tree.renamed(path, path[:-1] + ("gone",)) if path[:-1] + ("gone",) not in tree.nodes else tree
    else:
        tree.add_dir((".wdired-commit",), 0o700)
    return tree


def draw_after(rng, tree, before):
    """The listing as somebody edited it."""
    lines = buffers.read_buffer(before)
    texts = [line[1] for line in lines]
    entries = [number for number, line in enumerate(lines) if line[0] == "entry"]
    chosen = sorted(rng.sample(entries, min(len(entries), rng.choice((0, 1, 1, 1, 1, 2, 2, 3, 5)))))
    names_only = rng.random() < 0.6
    if len(chosen) > 1 and rng.random() < 0.3:
        turned(rng, lines, texts, chosen)
    else:
        for number in chosen:
            texts[number] = edited_line(rng, tree, lines[number], names_only)
    return b"\n".join(texts) + b"\n"


def draw_confirmed(rng, tree):
    kind = rng.random()
    if kind < 0.3:
        return ["--all"]
    return [path_text(path) for path in rng.sample(tree.paths(), 1)] if kind < 0.6 else []


def draw_edit(rng, name):
    """A commit of an edited listing."""
    tree = draw_tree(rng)
    switches = set(rng.choice(("", "", "Al", "A", "t", "ASr")))
    before = listing.listing_text(tree, draw_dirs(rng, tree, 3), switches).encode()
    if before.count(b"\n") < 4:
        switches, before = set(), listing.listing_text(tree, [], set()).encode()
    after = draw_after(rng, tree, before)
    if rng.random() < 0.06:
        before = damaged(rng, before)
    if rng.random() < 0.08:
        after = damaged(rng, after)
    if rng.random() < 0.1:
        tree = disturbed(rng, tree)
    schedule = {}
    kind = rng.random()
    if kind < 0.1:
        schedule["looks"] = [rng.randrange(20)]
    elif kind < 0.14:
        schedule["changes"] = {rng.randrange(3): rng.random() < 0.5}
    elif kind < 0.18:
        call = rng.randrange(3)
        schedule["stop"] = (call, rng.randrange(2))
    words = ["commit", "B", "A"] + draw_confirmed(rng, tree)
    return one_run(name, tree, {"B": before, "A": after}, words, **schedule)


def draw_listing(rng, name):
    """A listing with switches and directories."""
    tree = draw_tree(rng)
    flags = "".join(rng.sample("AltSr", rng.randint(0, 3)))
    words = ["list"] + (["-" + flags] if flags else [])
    for directory in draw_dirs(rng, tree, 3):
        words.append(path_text(directory))
    if rng.random() < 0.15:
        words.append(rng.choice((".", "nosuch", path_text(rng.choice(tree.paths())), "/", "..", "a/..")))
    schedule = {"looks": [rng.randrange(12)]} if rng.random() < 0.1 else {}
    return one_run(name, tree, {}, words, **schedule)


def drawn(rng, edits, listings):
    """So many of both."""
    return ([draw_edit(rng, "edit %d" % number) for number in range(1, edits + 1)]
            + [draw_listing(rng, "listing of tree %d" % number) for number in range(1, listings + 1)])
