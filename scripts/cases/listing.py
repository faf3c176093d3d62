"""What `list` prints of a tree."""
from texts import date_text, escape, mode_text, path_bytes, path_order, path_text, MAX_PATH_BYTES

LETTERS = {"file": "-", "dir": "d", "link": "l"}


def listed_names(tree, directory, all_names):
    """The names that are listed, by their bytes."""
    return [name for name in tree.names_in(directory)
            if (all_names or not name.startswith(".")) and path_bytes(directory + (name,)) <= MAX_PATH_BYTES]


def in_order(tree, directory, names, switches):
    """The names in the order of the switches, each name once."""
    paths = [directory + (name,) for name in names]
    if "S" in switches:
        paths.sort(key=lambda path: (-tree.size(path), path_order(path)))
    elif "t" in switches:
        paths.sort(key=lambda path: (-(tree.times[path] // 60), path_order(path)))
    else:
        paths.sort(key=path_order)
    if "r" in switches:
        paths.reverse()
    return paths


def header_text(directory):
    return "  %s:\n" % (escape(path_text(directory)) if directory else ".")


def section_text(tree, directory, paths):
    """The section of a directory, with these lines."""
    lines = []
    width = {"links": 0, "size": 0}
    for path in paths:
        width["links"] = max(width["links"], len(str(tree.links(path))))
        width["size"] = max(width["size"], len(str(tree.size(path))))
    for path in paths:
        kind = tree.kind(path)
        name = escape(path[-1], kind == "link")
        if kind == "link":
            name += " -> " + escape(tree.target(path))
        lines.append("  %s%s %*d u g %*d %s %s\n" % (
            LETTERS[kind], mode_text(tree.mode(path)), width["links"], tree.links(path),
            width["size"], tree.size(path), date_text(tree.times[path]), name))
    return header_text(directory) + "  total %d\n" % len(lines) + "".join(lines)


def listing_text(tree, directories, switches):
    """The text of the root's section and of those of the directories, each once, in the order of their paths. Without switches it is
    as with `-A`; with some, names that begin with a dot are listed only with `-A`."""
    all_names = not switches or "A" in switches
    sections = []
    for directory in sorted({()} | set(directories), key=path_order):
        names = listed_names(tree, directory, all_names)
        sections.append(section_text(tree, directory, in_order(tree, directory, names, switches)))
    return "dired 1\n" + "\n".join(sections)


def looks_of(tree, directories, switches):
    """The names of the looks of a listing, in their order, where none fails and each DIR is a directory."""
    all_names = not switches or "A" in switches
    looks = ["kind" for _ in directories]
    for directory in sorted({()} | set(directories), key=path_order):
        looks += ["names"] + ["meta" for _ in listed_names(tree, directory, all_names)]
    return looks
