"""Cases that were thought out: worked examples, one of each refusal, each call failing in turn."""
from listing import listing_text, looks_of
from program import Run, Schedule
from table import Case, one_run
from texts import resolve
from trees import Tree
from commits import PLAN, at, own
from journals import journal
import edits as rules
import buffers

LINE = "  -rw-r--r-- 1 u g 0 1970-01-01 00:00 "


def files(names, dirs=""):
    """A tree of directories and of empty files, each with a number of its own."""
    tree = Tree()
    for name in dirs.split():
        tree.add_dir(tuple(name.split("/")))
    for name in names.split():
        tree.add_file(tuple(name.split("/")))
    return tree


def printed(tree, directories="", switches=""):
    """What `list` prints."""
    return listing_text(tree, [tuple(name.split("/")) for name in directories.split()], set(switches))


def changed(text, *pairs):
    """The text with each first piece, which stands in it once, replaced by the second."""
    for old, new in pairs:
        assert text.count(old) == 1, (text, old)
        text = text.replace(old, new)
    return text


def commit(name, tree, before, after, words="commit B A", **schedule):
    """A commit of the buffers `B` and `A`, given as texts or as bytes."""
    inputs = {key: value.encode() if isinstance(value, str) else value for key, value in (("B", before), ("A", after))}
    return one_run(name, tree, inputs, words, **schedule)


def edit(name, tree, *pairs, words="commit B A", directories="", **schedule):
    """A commit of the printed listing in which pieces were replaced."""
    before = printed(tree, directories)
    return commit(name, tree, before, changed(before, *pairs), words, **schedule)


def buffer(*names):
    """A listing of the root that shows empty files of these names."""
    return "dired 1\n  .:\n  total %d\n" % len(names) + "".join(LINE + name + "\n" for name in names)


TWO = files("a b")
A_TO_C = (" a\n", " c\n")


def listed_tree():
    tree = Tree()
    tree.add_file(("a",), 1, b"twelve bytes", 0o4755, 60)
    tree.add_dir(("d",))
    tree.add_link(("l",), "a")
    return tree.add_file((".h",), 2)


def renames():
    """What is done: one new name, no edit, emptied names."""
    in_dir = files("a", "d")
    below = files("d/e/f d/g k", "d d/e")
    odd = Tree().add_file(("n\n\\\r",)).add_link(("a -> b",), "x")
    return [
        edit("one-rename", TWO, A_TO_C),
        edit("one-rename, everything confirmed", TWO, A_TO_C, words="commit --all B A k"),
        edit("no-edit", TWO),
        edit("emptied-name", TWO, (" a\n", " \n")),
        edit("emptied names and a new one", files("a b c"), (" a\n", " \n"), (" b\n", " \n"), (" c\n", " d\n")),
        edit("into a directory", in_dir, (" a\n", " d/a\n")),
        edit("out of a directory", below, (" f\n", " ../../f\n"), directories="d d/e"),
        edit("up by text", below, (" g\n", " ./e/.././h//\n"), directories="d d/e"),
        edit("a directory and all below it", below, (" d\n", " k2\n")),
        edit("a directory into another one", files("a/x b", "a a/y c"), (" a\n", " c/a\n")),
        edit("a link gets a new name", Tree().add_link(("l",), "gone/away"), (" l -> ", " m -> ")),
        edit("odd-names", odd, (" n\\n\\\\\\015\n", " plain\n")),
        edit("odd names come back", files("plain"), (" plain\n", " n\\n\\\\\\015\n")),
        edit("an arrow in a link's name", odd, (" a -\\076 b -> x", " c -\\076 d -> x")),
        edit("an arrow in a file's name", TWO, (" a\n", " a -> b\n")),
        edit("a space in front", TWO, (" a\n", "  a\n")),
        edit("letters beyond ASCII", TWO, (" a\n", " \u00e9\u4e2d\U0001f600\n")),
        edit("a name of 255 bytes", TWO, (" a\n", " " + "n" * 255 + "\n")),
        edit("a hard link", Tree().add_file(("a",), 3, b"x").add_file(("b",), 3, b"x"), (" a\n", " c\n")),
        commit("the same directory by another text", in_dir, printed(in_dir), changed(printed(in_dir), (" a\n", " d/../a\n"))),
        commit("no newline at the end", TWO, buffer("a", "b")[:-1], buffer("c", "b")[:-1]),
        commit("a newline at one end", TWO, buffer("a", "b")[:-1], buffer("c", "b")),
        commit("a marked line", TWO, buffer("a").replace("  -", "* -"), buffer("c").replace("  -", "* -")),
        commit("hidden sections", TWO, buffer("a") + "\n  d: ...\n\n  e: ...\n", buffer("c") + "\n  d: ...\n\n  e: ...\n"),
    ] + every_kind_of_line() + [
        commit("a listing from long ago", files("a"), buffer("a").replace("1970-01-01", "0001-01-01"),
               buffer("c").replace("1970-01-01", "0001-01-01")),
    ]


def every_kind_of_line():
    """Marks, escapes, wide columns, paths as names: each of three lines gets a new name, and is as it is shown."""
    tree = Tree().add_dir(("d",)).add_file(("d", "n\n\\\r"), None, b"", 0o4755).add_link(("d", "a -> b"), "../x")
    tree.add_dir(("d", " .")).add_dir(("d", " .", "b"), 0o1755)
    before = ("dired 1\n  a\\\\b/c: ...\n\n  d:\n  total 3\n* -rwsr-xr-x  1 u  g 12 1970-01-01 00:00 n\\n\\\\\\015\n"
              "  lrwxrwxrwx 12 uu g  1 1970-01-01 00:00 a -\\076 b -> ../x\n  drwxr-xr-t  1 u  gg 0 1970-01-01 00:00  ./b")
    names = ("n\\n\\\\\\015\n", "f\n"), ("a -\\076 b ->", "m ->"), (" ./b", "../e")
    return [commit("line %d of every kind" % number, tree, before, changed(before, pair)) for number, pair in enumerate(names, 1)]


def together():
    """Edits that are more than one new name: several at once, victims, directories to be made, modes and targets."""
    swap = (" a\n", " x\n"), (" b\n", " a\n"), (" x\n", " b\n")
    nested = files("a/x", "a")
    linked = Tree().add_link(("l",), "x").add_file(("m",))
    held = files("a k")
    two_paths = Tree().add_file(("a",), 7).add_file(("b",), 7)
    ring = files(" ".join("abcdefgpqr"))
    turned = dict(zip("abcdefgpqr", "bcdefgaqrs"))
    before = printed(ring)
    after = "".join(line[:-2] + turned[line[-2]] + "\n" if line.startswith("  -") else line for line in before.splitlines(True))
    made = files("x y")
    big = files("Makefile " + " ".join("lib/l%02d.h" % n for n in range(1, 19)) + " " + " ".join("src/m%02d.cc" % n for n in range(1,
                                                                                                                                   21)), "lib src")
    big.add_file(("build.log",), None, b"x" * 120)
    big_before = printed(big, "lib src", "Al")
    big_pairs = [(" m%02d.cc\n" % n, " m%02d.cpp\n" % n) for n in range(1, 21)] + [(" lib\n", " include\n")]
    big_after = changed(big_before, *big_pairs)
    for n in (1, 2):
        big_after = changed(big_after, ("  -rw-r--r-- 1 u g 0 1970-01-01 00:00 l%02d.h" % n,
                                        "  -rw-r----- 1 u g 0 1970-01-01 00:00 l%02d.h" % n))
    big.files[big.nodes[("build.log",)][1]] = (b"x" * 4096, 0o644)
    return [
        edit("swap", TWO, *swap),
        commit("cycle-and-chain", ring, before, after),
        edit("child-takes-parent-name", nested, (" a\n", " b\n"), (" x\n", " ../a\n"), directories="a"),
        edit("child-and-parent", nested, (" a\n", " b\n"), (" x\n", " y\n"), directories="a"),
        edit("made-parent", made, (" x\n", " new/deep/x\n")),
        edit("two names", TWO, (" a\n", " c\n"), (" b\n", " d\n")),
        edit("unlisted-victim, confirmed", held, (" a\n", " k\n"), words="commit B A k", directories=""),
        commit("unlisted-victim, confirmed by name", held, buffer("a"), buffer("k"), "commit B A ./k"),
        commit("unlisted-victim, everything confirmed", held, buffer("a"), buffer("k"), "commit --all B A"),
        commit("hard-link-victim", two_paths, buffer("a"), buffer("b"), "commit B A b"),
        edit("link-retarget-trade", linked, (" l -> x", " m -> y"), (" m\n", " l\n")),
        edit("a new target", linked, (" l -> x", " l -> a -> b")),
        edit("a new mode", TWO, ("-rw-r--r-- 1 u g 0 1970-01-01 00:00 a", "-rwSr-sr-T 1 u g 0 1970-01-01 00:00 a")),
        edit("a new name and a new mode", TWO, ("-rw-r--r-- 1 u g 0 1970-01-01 00:00 a", "-rw------- 1 u g 0 1970-01-01 00:00 c")),
        edit("a new mode for an emptied name", TWO, ("-rw-r--r-- 1 u g 0 1970-01-01 00:00 a",
                                                     "-rw------- 1 u g 0 1970-01-01 00:00 ")),
        edit("one mode for three paths of a file", Tree().add_file(("a",), 1).add_file(("b",), 1),
             ("-rw-r--r-- 2 u g 0 1970-01-01 00:00 a", "-rw------- 2 u g 0 1970-01-01 00:00 a"),
             ("-rw-r--r-- 2 u g 0 1970-01-01 00:00 b", "-rw------- 2 u g 0 1970-01-01 00:00 b")),
        commit("big-edit", big, big_before, big_after),
    ]


def refusals():
    """Each refusal of a commit, and which of two is told."""
    one = buffer("a")
    both = printed(TWO)
    name = " a\n"
    dirs = files("a", "d")
    linked = Tree().add_link(("l",), "x")
    nested = files("a/b/c/f x", "a a/b a/b/c")
    two_paths = Tree().add_file(("a",), 1).add_file(("b",), 1).add_file(("c",), 1)
    deep = "/".join(["n" * 255] * 15 + ["m" * 252])
    return [
        edit("two lines to one name", TWO, (name, " c\n"), (" b\n", " c\n")),
        edit("a line to the name of one that stays", TWO, (name, " b\n")),
        edit("into-itself", dirs, (" d\n", " d/b/d\n")),
        edit("made-parent-taken", TWO, (name, " new/deep/a\n"), (" b\n", " new\n")),
        edit("a directory to be made is taken by an earlier line", TWO, (name, " new\n"), (" b\n", " new/deep/b\n")),
        commit("unlisted-victim", files("a k"), one, buffer("k")),
        commit("unlisted-victim, another one confirmed", files("a k"), one, buffer("k"), "commit B A b"),
        commit("hard-link-victim, not confirmed", two_paths, buffer("a"), buffer("b")),
        commit("a victim with odd bytes", Tree().add_file(("a",)).add_file(("k\n",)), one, one.replace(name, " k\\n\n"),
               "commit B A"),
        commit("a directory at the new path", dirs, one, buffer("d"), "commit --all B A"),
        commit("below a file", files("a k"), one, buffer("k/x/y")),
        edit("below a link", Tree().add_file(("a",)).add_dir(("d",)).add_link(("d", "l"), "x"), (name, " d/l/x\n")),
        edit("below a directory that moves", nested, (" a\n", " z\n"), (" x\n", " a/b/c/x\n")),
        edit("into the staging directory", TWO, (name, " .wdired-commit\n")),
        edit("below the staging directory", TWO, (name, " .wdired-commit/h0\n")),
        commit("a path with a new name of 4,095 bytes", files("a"), one, buffer("/".join(["n" * 255] * 16))),
        commit("a path with a new name of 4,096 bytes", files("a"), one, buffer("/".join(["n" * 255] * 15 + ["n" * 254, "n"]))),
        edit("two modes for one file", two_paths, ("-rw-r--r-- 3 u g 0 1970-01-01 00:00 a", "-rw------- 3 u g 0 1970-01-01 00:00 a"),
             ("-rw-r--r-- 3 u g 0 1970-01-01 00:00 c", "-r-------- 3 u g 0 1970-01-01 00:00 c")),
        commit("stale before a clash", files("a b"), both, buffer("c", "c").replace("rw-r--r--", "rw-r--r--")),
        commit("stale-pending-recover", set_mode(TWO, "a", 0o600), both, buffer("c", "b")),
        commit("stale and a clash", set_mode(TWO, "b", 0o600), both, buffer("c", "c")),
        commit("gone", files("b"), both, buffer("c", "b")),
        commit("another kind", files("b", "a"), both, buffer("c", "b")),
        commit("another target", Tree().add_link(("l",), "y"), printed(linked), changed(printed(linked), (" l -> ", " m -> "))),
        commit("a fixed line that is stale is no fault", set_mode(TWO, "b", 0o600), both, buffer("c", "b")),
        commit("pending", files("a", ".wdired-commit"), one, buffer("k")),
        commit("pending and nothing to do", files("a", ".wdired-commit"), one, one),
        commit("pending and stale", files("b .wdired-commit"), one, buffer("k")),
        edit("a new place of 4,095 bytes", files("d/x y", "d"), (" d\n", " %s\n" % deep), (" x\n", " zz\n"), directories="d"),
        edit("a new place of 4,096 bytes", files("d/x y", "d"), (" d\n", " %s\n" % deep), (" x\n", " zzz\n"), directories="d"),
        edit("a new place of 4,096 bytes, and a mode", files("d/xyz y", "d"), (" d\n", " %s\n" % deep),
             ("-rw-r--r-- 1 u g 0 1970-01-01 00:00 xyz", "-rw------- 1 u g 0 1970-01-01 00:00 xyz"), directories="d"),
    ]


def set_mode(tree, name, mode):
    tree = tree.copy()
    tree.set_mode((name,), mode)
    return tree


def bad_before():
    """Lines that are none of a listing."""
    heads = [b"", b"dired 2\n  .:\n  total 0\n", b"dired 1\n", b"dired 1\n .:\n", b"dired 1\n  :\n", b"dired 1\n  ..:\n",
             b"dired 1\n  /a:\n",
             b"dired 1\n  a\\:\n", b"dired 1\n  .:", b"dired 1\n  .:\n  total 0", b"dired 1\n  a/..:\n  total 0\n",
             b"dired 1\n  .:\n  total \n",
             b"dired 1\n  .:\n  total 123456789012345678\n", b"dired 1\n  .:\n  total 1234567890123456789\n",
             b"dired 1\n  .:\n  total 0\n\n",
             b"dired 1\n  d: ...", b"dired 1\n  d: ...\n\n  e: ...\n", b"dired 1\n  d: ...\n  total 0\n",
             b"dired 1\n  \xff:\n  total 0\n",
             b"dired 1\n  .:\n  total 007\n", b"dired 1\n  . :\n  total 0\n", b"\n", b"dired 1\n\n"]
    good = b"  -rw-r--r-- 1 u g 0 1970-01-01 00:00 a"
    link = b"  lrwxrwxrwx 1 u g 0 1970-01-01 00:00 l -> x"
    texts = [good, link, good + b"\n ", good[:-1] + b".\nx", b"*" + good[1:], b"\x7f" + good[1:], b"\x1f" + good[1:],
             good[:1] + good[2:], b" " + good, b"", b" ", b"  ",
             b"  x" + good[3:], b"  d" + good[3:],
             good.replace(b"r-- ", b"r- "), good.replace(b"r-- ", b"r-X "), good.replace(b"r-- 1", b"r--   1"),
             good.replace(b"r-- 1", b"r--1"),
             good.replace(b" 1 u", b" 01 u"), good.replace(b" 1 u", b" 0 u"), good.replace(b" 1 u", b" 4294967295 u"),
             good.replace(b" 1 u", b" 4294967296 u"),
             good.replace(b" 1 u", b" x u"), good.replace(b" 1 u", b" 1u"), good.replace(b" 1 u", b" 1x u"),
             good.replace(b"0 1970", b"01970"), good.replace(b"0 1970", b"1x 1970"), good.replace(b" g ", b" g\x7f "), good.replace(b" u ", b"  " + b"o" * 64 + b" "),
             good.replace(b" u ", b" " + b"o" * 65 + b" "), good.replace(b" u ", b" \xc3\xa9 "),
             good.replace(b" g ", b" " + b"o" * 65 + b" "), good.replace(b" g ", b" \x7f "),
             good.replace(b" g 0 ", b" g 18446744073709551615 "),
             good.replace(b" g 0 ", b" g 18446744073709551616 "), good.replace(b" g 0 ", b" g 00 "),
             good.replace(b" g 0 ", b" g -1 "),
             good.replace(b"0 1970", b"0  1970"), good.replace(b"1970", b"0000"), good.replace(b"1970", b"9998"),
             good.replace(b"1970", b"9999"),
             good.replace(b"-01-01 ", b"-02-29 "), good.replace(b"1970-01-01 ", b"1972-02-29 "),
             good.replace(b"1970-01-01 ", b"1900-02-29 "),
             good.replace(b"00:00 ", b"24:00 "), good.replace(b"00:00 ", b"23:59 "), good.replace(b"00:00 ", b"00:60 "),
             good.replace(b"00:00 a", b"00:00a"),
             good[:-2], good[:-1], good[:-1] + b"..", good[:-1] + b"a\\", good[:-1] + b"a\\101", good[:-1] + b"a\\000",
             good[:-1] + b"\x00", good[:-1] + b"\xff",
             good[:-1] + b"/a", good[:-1] + b"../a", good[:-1] + b".", good[:-1] + b" a", good[:-1] + b"n" * 255,
             good[:-1] + b"n" * 256, good[:-1] + b"a\tb",
             link[:-5], link[:-1], link[:-1] + b"\\", link[:-1] + b"x" * 4095, link[:-1] + b"x" * 4096, link[:-1] + b"\xfe",
             link.replace(b"l -> x", b".. -> x"),
             link.replace(b"l -> x", b".. -> "), link.replace(b"l -> x", b"l -> x -> y"), link.replace(b"rwxrwxrwx", b"rwxrwxrw-"),
             good[:20], b"  -rw", b"  -rw-r--r--", b"  -rw-r--r-- 1"]
    data = heads + [b"dired 1\n  .:\n  total 1\n" + text + b"\n" for text in texts]
    # a commit that is as it was: what is read is then looked for in a tree where nothing stands
    return [commit("before %d" % number, files(""), text, text) for number, text in enumerate(data, 1)]


def bad_after():
    """Lines that can't be taken as they were edited."""
    tree = Tree().add_file(("a",)).add_link(("l",), "x").add_dir(("d",)).add_dir(("d", "e"))
    before = printed(tree, "d").encode()
    file_line, link_line, dir_line = before.splitlines()[3], before.splitlines()[5], before.splitlines()[9]
    assert file_line.endswith(b" a") and link_line.endswith(b"l -> x") and dir_line.endswith(b" e"), before
    at = len(file_line) - 1
    of_file = [file_line[:at] + name for name in
               [b"..", b"x/..", b"a\\", b"\x7f", b"\xff", b"/", b"c/../..", b".", b"n" * 255, b"n" * 256, b"a//b", b"./a", b"d/",
                b"d/x",
                b"d/../a", b"n\\n\\\\\\015", b"a\\076", b"\\101",
                b"\\1", b"a\x00b", b"a\nb", b" ", b"d/e/f/g"]]
    of_file += [file_line.replace(b" u ", b" v "), file_line.replace(b" u ", b" v ")[:at] + b"..", file_line.replace(b" u ", b"  u "),
                b"d" + file_line[1:], b"* " + file_line[2:],
                file_line[:at - 1], b"  -rw", b"", file_line.replace(b"00:00", b"00:01"),
                b"  -rw-r--rw- " + file_line[13:at] + b"/", b"  -rw-r--r-X " + file_line[13:at] + b"c",
                b"  -rw-r--r-X " + file_line[13:at] + b"..", b"  -rw-r--r-t " + file_line[13:], b"  drw-r--r-- " + file_line[13:]]
    start = link_line[:link_line.index(b"l -> x")]
    of_link = [start + text for text in
               [b"l -> \\170", b"l -> a -> b", b"m -> y", b" -> y", b"a -\\076 b -> x", b"l", b"..", b"", b"l -> ", b"l -> \\",
                b".. -> \\", b"l -> \xff", b"l -> a\x00", b"l -> " + b"x" * 4095, b"l -> " + b"x" * 4096,
                b"l ->  x", b"l  -> x"]]
    of_link += [start.replace(b"rwxrwxrwx", b"rwxrwxrw-") + b"l -> ", start.replace(b"rwxrwxrwx", b"rwxrwxrw-") + b"l -> x",
                start.replace(b"rwxrwxrwx", b"rwxrwxrw-") + b".. -> x"]
    of_dir = [dir_line[:-1] + name for name in [b"../x", b"x", b"../d/e", b"../../x", b"e/x", b"../a"]]
    texts = [before.replace(file_line, line, 1) for line in of_file]
    texts += [before.replace(link_line, line, 1) for line in of_link]
    texts += [before.replace(dir_line, line, 1) for line in of_dir]
    texts += [before.replace(b"  d:\n", b"  d/:\n"), before.replace(b"total 1\n", b"total 2\n"), before + b"\n", before + b"x\n",
              before[:-len(dir_line) - 1], b"", before[:-1], b"\n" + before,
              before.replace(b"dired 1", b"dired 2")]
    cases = [commit("after %d" % number, tree, before, text) for number, text in enumerate(texts, 1)]
    one = buffer("a", "b", "a")
    cases.append(commit("one path twice", TWO, one, one))
    cases.append(commit("one path twice, and a clash above", TWO, one, buffer("c", "..", "a")))
    return cases


def words():
    """The words of both commands."""
    inputs = {"B": printed(TWO).encode(), "A": buffer("c", "b").encode(), "-x": printed(TWO).encode(), "-": buffer("c", "b").encode(),
              "\n": b""}
    tried = ["", "commit", "commit B", "commits B A", "Commit B A", "commit B C", "commit C A", "commit B A K ./l/m",
             "commit --all B A", "commit B A k --all", "commit --all --all B A", "commit B A .",
             "commit B A /k", "commit B A ..", "commit -x B A", "commit -- -x A", "commit -- -x -y", "commit - A", "list /a",
             "list a/../b ./c", "commit B -", "commit --al B A",
             "commit --all=1 B A", "list --", "list -- -x", "list -l -- -A", "recover", "run s", "drill 1", "List"]
    cases = [one_run("words %d" % number, TWO, inputs, text) for number, text in enumerate(tried, 1)]
    for number, text in enumerate((["commit", "\n", "A"], ["commit", "B", "x\t\x7f\u00e9"], [], [""], ["commit", "B", "A", ""],
                                   ["list", ""]), 1):
        cases.append(one_run("odd words %d" % number, TWO, inputs, text))
    return cases


def listings():
    """Listings with their switches and directories."""
    tree = listed_tree()
    times = Tree()
    for number, time in enumerate((0, 59, 60, -1, -60, -61, 1760000000, -62135596800, -62135596801, 253370764799, 253370764800,
                                   (1 << 63) - 1, -(1 << 63))):
        times.add_file(("t%02d" % number,), None, b"x" * number, 0o644, time)
    wide = Tree()
    for number in range(12):
        wide.add_file(("n%d" % number,), 5, b"y" * 1000)
    wide.add_dir(("d",), 0o7777).add_dir(("e",), 0o7000).add_dir(("f",), 0)
    odd = Tree().add_file(("n\n\\\r",)).add_link(("a -> b",),
                                                 "x -> y").add_file(("\t\x01\x7f",)).add_file((" ",)).add_file(("\u00e9>",)).add_dir(("a\\b",)).add_dir(("a\\b", "c\n"))
    deep = files("a/b/c/x a-b/y", "a a/b a/b/c a-b a.b")
    cases = [
        (tree, ["list", "list -l", "list -A", "list -At", "list -Atr", "list -t", "list -S", "list -Sr . d x/../d", "list -St",
                "list -tS", "list -r", "list -r d", "list -AltSr", "list . d d", "list d nosuch /",
                "list d nosuch z", "list l", "list a", "list a/x", "list .h", "list -- -x", "list a/..", "list ..", "list -A -A",
                "list -h", "list --help", "list -", "list -lx"]),
        (times, ["list", "list -t", "list -tr", "list -S"]),
        (wide, ["list", "list -S d e f"]),
        (odd, ["list", ["list", "a\\b", "a\\b/c\n"], ["list", "a\\b/x\n"]]),
        (deep, ["list a/b/c a-b a.b a/b a", "list a.b a-b/ ./a//b", "list a/b/c"]),
        (Tree(), ["list", "list .", "list x"]),
    ]
    return [one_run("listing %d.%d" % (number, place), tree, {}, text)
            for number, (tree, tried) in enumerate(cases, 1) for place, text in enumerate(tried, 1)]


def drills():
    """Drills of each kind of group, which leave the tree of the run alone, and words that are none."""
    tried = ["drill %d" % groups for groups in (1, 2, 3, 4, 5, 7, 32)]
    tried += ["drill", "drill 0", "drill 01", "drill 20001", "drill 4294967297", "drill +1", "drill -- 1", "drill -- -1", "drill 1 1", "drill -1",
              "drill 1.", "drill x", "Drill 1"]
    return [one_run(text, TWO, {}, text) for text in tried] + [one_run("drill of an empty word", TWO, {}, ["drill", ""])]


def failing_looks():
    """Each look of a run fails in turn, and the one behind the last doesn't."""
    cases = []
    tree = listed_tree()
    for text in ("list", "list -l d .", "list -S d nosuch", "list d d"):
        for look in range(12):
            cases.append(one_run("look %d of %s" % (look, text), tree, {}, text, looks=[look]))
    deep = files("a/b/c/f x k", "a a/b a/b/c e")
    before = printed(deep, "a a/b a/b/c")
    for name, pairs in (("a rename", [(" x\n", " y\n")]), ("a new directory", [(" f\n", " ../../../n/m/f\n")]),
                        ("a victim", [(" f\n", " ../../../k\n"), (" x\n", " e/x\n")]),
                        ("a swap", [(" x\n", " q\n"), (" k\n", " x\n")])):
        after = changed(before, *pairs)
        edits, _ = buffers.edits_of(buffers.read_buffer(before.encode()), after.encode())
        for look in range(len(rules.looks_of(deep, edits)) + 1):
            cases.append(commit("look %d of %s" % (look, name), deep, before, after, looks=[look]))
    cases.append(commit("look 0 of a commit where one is unfinished", files("a", ".wdired-commit"), buffer("a"), buffer("b"),
                        looks=[0]))
    cases.append(commit("look 3 of a commit that is stale", files("b"), buffer("a"), buffer("b"), looks=[3]))
    return cases


# the changing calls of a commit of one new name
COMMIT_CALLS = 18


def failing_calls():
    """Each changing call fails in turn, done and not done; so do reads and writes."""
    before, after = printed(TWO), buffer("c", "b")
    cases = []
    for call in range(COMMIT_CALLS + 1):
        for done in (False, True):
            cases.append(commit("changing call %d fails%s" % (call, ", done" if done else ""), TWO, before, after,
                                changes={call: done}))
            if call < 2:
                cases.append(commit("nothing to do, changing call %d fails%s" % (call, ", done" if done else ""), TWO, before, before,
                                    changes={call: done}))
        cases.append(commit("changing call %d fails, and another one" % call, TWO, before, after, changes={call: False, call + 2: False}))
    for read in range(3):
        cases.append(commit("read %d fails" % read, TWO, before, after, reads=[read]))
    cases.append(commit("the read of what isn't there fails", TWO, before, after, "commit B C", reads=[1]))
    for write in range(2):
        cases.append(commit("failing-sink, write %d" % write, TWO, before, after, writes=[write]))
        cases.append(commit("failing-sink at a refusal, write %d" % write, TWO, before, buffer("c", "c"), writes=[write]))
        cases.append(one_run("failing-sink at a listing, write %d" % write, TWO, {}, "list", writes=[write]))
    cases.append(commit("a failed look and a failing sink", TWO, before, after, looks=[0], writes=[0]))
    return cases


def stopped():
    """A run that is stopped behind each of its changing calls, each image that may stand then, and a run on what stands."""
    before, after = printed(TWO).encode(), buffer("c", "b").encode()
    again = buffer("d", "b").encode()
    cases = []
    for call, changes in [(call, {}) for call in range(COMMIT_CALLS)] + [(8, {7: False}), (8, {7: True}), (12, {11: False}), (12, {11: True})]:
        stop = Run(TWO, {"B": before, "A": after}, Schedule(changes, stop=(call, 0)))
        stop.run("commit B A".split())
        for image in range(2 << len(stop.disk.pending)):
            back = ["--back"] if image & 1 else []
            runs = [("commit B A".split(), Schedule(changes, stop=(call, image))), (["recover"] + back, Schedule())]
            if image == 0:
                runs[1:1] = [("commit B A".split(), Schedule()), ("list".split(), Schedule())]
            behind = "".join(", call %d fails%s" % (failed, ", done" if done else "") for failed, done in changes.items())
            cases.append(Case("stopped behind call %d%s, image %d" % (call, behind, image), TWO, {"B": before, "A": after}, runs))
    runs = [("commit B A".split(), Schedule(changes={7: False})), ("commit A D".split(), Schedule()),
            ("commit A D".split(), Schedule(looks=[0])), ("commit A D".split(), Schedule())]
    cases.append(Case("runs one after another", TWO, {"B": before, "A": after, "D": again}, runs))
    return cases


# The journals of two files that trade names, of 97 bytes in version 2 and of 61 in version 1.
SWAP = journal([("rename", ("a",), own("t0")), ("rename", ("b",), ("a",)), ("rename", own("t0"), ("b",))])
SWAP_1 = (b"WDJ1\0\0\0\3R\0\1a\0\x11.wdired-commit/t0R\0\1b\0\1aR\0\x11.wdired-commit/t0\0\1b")


def recoveries():
    """What isn't of a commit is told and left; a recovery may fail and be called again."""
    staged = lambda *entries, names="a b": tree_with(*[(".wdired-commit/" + name, data) for name, data in entries], names=names)
    cases = [one_run("recover, %s" % name, tree, {}, words) for name, tree, words in (
        ("nothing", TWO, "recover"), ("nothing, back", TWO, "recover --back"),
        ("a word more", TWO, "recover a"), ("a flag twice", TWO, "recover --back --back"), ("a flag of one letter", TWO, "recover -b"),
        ("a file at its place", files(".wdired-commit"), "recover"),
        ("an empty directory", Tree().add_dir((".wdired-commit",)), "recover"),
        ("a foreign name", staged(("x", b"")), "recover"), ("a foreign name that is escaped", staged(("x\n", b"")), "recover"),
        ("no journal", staged(("at-0", b""), ("new", b"half")), "recover --back"),
        ("two journals", staged(("done", b""), ("plan", b"")), "recover"),
        ("no marker", staged(("plan", b"")), "recover"),
        ("a journal that is none", staged(("at-0", b""), ("plan", b"none")), "recover"),
        ("a sealed journal that is none", staged(("done", b"none")), "recover"))]
    cases += [one_run("recover of a swap, %s" % name, tree, {}, words) for name, tree, words in (
        ("two journals and a marker", staged(("plan", SWAP), ("done", SWAP), ("at-0", b"")), "recover"),
        ("no marker", staged(("plan", SWAP)), "recover"), ("two markers", staged(("plan", SWAP), ("at-0", b""), ("at-1", b"")), "recover"),
        ("a marker behind the end", staged(("plan", SWAP), ("at-4", b"")), "recover"),
        ("a marker with a zero", staged(("plan", SWAP), ("at-01", b"")), "recover"),
        ("an entry alone", staged(("t0", b"")), "recover"),
        ("a journal that is cut", staged(("plan", SWAP[:96]), ("at-0", b"")), "recover"),
        ("a byte behind the journal", staged(("plan", SWAP + b"x"), ("at-0", b"")), "recover"),
        ("a file is gone", staged(("plan", SWAP), ("at-0", b""), names="b"), "recover"),
        ("back, a file is gone", staged(("plan", SWAP), ("at-0", b""), names="b"), "recover --back"),
        ("forward", staged(("plan", SWAP), ("at-0", b"")), "recover"), ("back", staged(("plan", SWAP), ("at-0", b"")), "recover --back"),
        ("version 1, forward", staged(("plan", SWAP_1), ("at-0", b"")), "recover"),
        ("version 1, back", staged(("plan", SWAP_1), ("at-0", b"")), "recover --back"),
        ("version 1 at step 1, forward", staged(("plan", SWAP_1), ("t0", b"a"), ("at-1", b""), names="a"), "recover"),
        ("version 1 at step 1, back", staged(("plan", SWAP_1), ("t0", b"a"), ("at-1", b""), names="a"), "recover --back"),
        ("version 1, cut", staged(("plan", SWAP_1[:60]), ("at-0", b"")), "recover"))]
    aside = Tree().add_dir(("d",)).add_dir((".wdired-commit",), 0o700)
    aside.add_file(("d", "x"))
    aside.add_file(PLAN, None, journal([("rename", ("d",), own("h0"))]), 0o600)
    aside.add_file(at(0), None, b"", 0o600)
    cases.append(one_run("recover, a directory with a file was put aside", aside, {}, "recover"))
    before, after = printed(TWO).encode(), buffer("c", "b").encode()
    for call in range(8):
        for back in ([], ["--back"]):
            runs = [("commit B A".split(), Schedule(stop=(8, 0))), (["recover"] + back, Schedule(changes={call: False})),
                    (["recover"] + back, Schedule())]
            cases.append(Case("recover%s, changing call %d fails" % (", back" if back else "", call), TWO, {"B": before, "A": after}, runs))
    return cases


def tree_with(*bodies, names="a b"):
    """The files of these names, and these by path, with the directories above them."""
    tree = files(names)
    for path, data in bodies:
        directory, name = path.split("/")
        if not tree.stands((directory,)):
            tree.add_dir((directory,), 0o700)
        tree.add_file((directory, name), None, data, 0o600)
    return tree


def examples():
    return (renames() + together() + refusals() + bad_before() + bad_after() + words() + listings() + drills() + failing_looks() + failing_calls() + stopped() + recoveries())
