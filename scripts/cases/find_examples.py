"""Examples of predicates: texts with the first word at which they can't go on, files that meet them or not, and the files of a tree.
The answers follow from the rules by hand."""

# a text, and the word at which it can't go on, or None for a predicate
FIND_WORDS = [
    # no words
    ("", None), (" \t ", None), ("''", 1), ("'", 1),
    # conditions
    ("-type f", None), ("-type d", None), ("-type l", None), ("-type", 2), ("-type q", 2), ("-type ff", 2), ("-type ''", 2), ("-type F", 2),
    ("-name a", None), ("-name", 2), ("-name ''", None), ("-name -o", None), ("-name (", None), ("-name -name", None), ("-name [", None),
    ("-foo", 1), ("a", 1), ("-print", 1), ("-names a", 1), ("-nam a", 1), ("-name a b", 3), ("-name a -foo", 3),
    # quotes and blanks
    ("-name 'a b'", None), ("-name 'a", 2), ("-name a'", 2), ("-name a 'b", 3), ("'-name' a", None), ("-na'me' a", None), ("'-name a'", 1),
    ("-name a'b c'd'e'", None), ("-type q 'a", 2), ("-name a 'b c", 3), ("-name 'a b' 'c", 3), ("'(' -type f ')'", None), ("-name '\\''", 2),
    ("-name 'a'b", None), ("-name\ta", None), ("  -name  a  ", None), ("-name\na", 1), ("-name a\\ b", 3), ('-type "f"', 2), ("-type\u00a0f", 1),
    # numbers
    ("-size 1", None), ("-size +1", None), ("-size -1", None), ("-size 1c", None), ("-size +1c", None), ("-size -0c", None), ("-size", 2),
    ("-size c", 2), ("-size +", 2), ("-size -", 2), ("-size +c", 2), ("-size 1k", 2), ("-size 1cc", 2), ("-size c1", 2), ("-size ++1", 2),
    ("-size +-1", 2), ("-size 1.5", 2), ("-size 1+", 2), ("-size ''", 2), ("-size \u0663", 2), ("-size 0x1", 2),
    ("-size 999999999999999999", None), ("-size 1000000000000000000", 2), ("-size 000000000000000001", None), ("-size 0000000000000000001", 2),
    ("-size 999999999999999999c", None), ("-size +1000000000000000000c", 2), ("-size +999999999999999999c", None),
    ("-mtime 0", None), ("-mtime +7", None), ("-mtime -7", None), ("-mtime", 2), ("-mtime 1c", 2), ("-mtime a", 2),
    ("-links 1", None), ("-links +2", None), ("-links -2", None), ("-links 1c", 2), ("-links x", 2),
    ("-perm 644", None), ("-perm 0", None), ("-perm 7777", None), ("-perm 0000", None), ("-perm -222", None), ("-perm -7777", None),
    ("-perm", 2), ("-perm 8", 2), ("-perm 648", 2), ("-perm 10000", 2), ("-perm 00644", 2), ("-perm -", 2), ("-perm --222", 2), ("-perm +222", 2),
    ("-perm /222", 2), ("-perm u=rw", 2), ("-perm -10000", 2), ("-perm ''", 2),
    # brackets and operators
    ("(", 2), (")", 1), ("( )", 2), ("( -type f )", None), ("( -type f", 4), ("-type f )", 3), ("( -type f ) )", 5), ("(-type f)", 1),
    ("( ( -type f ) )", None), ("( ( -type f )", 6), ("( -type f -o )", 5), ("( -type f ) -type d", None), ("( -type f ) (", 6),
    ("!", 2), ("! -type f", None), ("! ! -type f", None), ("! ( -type f )", None), ("!-type f", 1), ("! )", 2), ("! -o", 2), ("! -type", 3),
    ("-type f !", 4), ("-type f ! -type d", None),
    ("-a", 1), ("-o", 1), ("-a -type f", 1), ("-type f -a", 4), ("-type f -o", 4), ("-type f -a -o", 4), ("-type f -o -o", 4), ("-type f -o )", 4),
    ("-type f -a -type d", None), ("-type f -type d", None), ("-type f -o -type d", None), ("-type f -type", 4), ("-type f -type q -foo", 4),
    ("-type f -o -type d -o", 7), ("-type f -o ! ( -type d -links 1 )", None), ("-type f -and -type d", 3), ("-type f , -type d", 3),
]


class File:
    """The last name and the fields of a file, and the moment of the find."""

    def __init__(self, name="a", kind="file", mode=0o644, links=1, size=0, time=0, now=0):
        self.name, self.kind, self.mode, self.links, self.size, self.time, self.now = name, kind, mode, links, size, time, now


# a pattern, the names that it matches, and names that it doesn't
PATTERNS = [
    ("a", ["a"], ["b", "ab", "ba"]),
    ("*", ["a", "abc", ".abc"], []),
    ("?", ["a", "\u00e9", ".", "["], ["ab"]),
    ("?b", ["ab", ".b"], ["b", "abb"]),
    ("a*", ["a", "ab", "a*"], ["ba"]),
    ("*a", ["a", "ba", ".a"], ["ab"]),
    ("a*b", ["ab", "axxb", "abb"], ["abc", "a", "b"]),
    ("*a*", ["a", "bab"], ["bb"]),
    ("**", ["a", "ab"], []),
    ("*?", ["a", "ab"], []),
    ("a*b*c", ["abc", "axbxc", "abbcc", "abcbc"], ["acb", "abcd"]),
    ("*.o", [".o", "a.o"], ["o", "a.oo"]),
    ("''", [], ["a"]),
    ("'*'", ["a", "*"], []),
    ("'a b'", ["a b"], ["a", "ab"]),
    ("a'b c'd", ["ab cd"], ["a b c d"]),
    # sets
    ("[abc]", ["a", "b", "c"], ["d", "ab", "[abc]"]),
    ("[a-c]", ["a", "b", "c"], ["d", "-"]),
    ("[!abc]", ["d", "!", "["], ["a", "b", "dd"]),
    ("[!a-c]", ["d", "-"], ["a", "b", "c"]),
    ("[^a]", ["^", "a"], ["b"]),
    ("[a!]", ["a", "!"], ["b"]),
    ("[a-]", ["a", "-"], ["b"]),
    ("[-a]", ["a", "-"], ["b"]),
    ("[]a]", ["]", "a"], ["[", "]a"]),
    ("[!]a]", ["b", "["], ["]", "a"]),
    ("[a-a]", ["a"], ["-", "b"]),
    ("[c-a]", [], ["a", "b", "c"]),
    ("[a-cx-z]", ["b", "y"], ["d", "-"]),
    ("[[a]", ["[", "a"], ["]"]),
    ("[*]", ["*"], ["a"]),
    ("[?]", ["?"], ["a"]),
    ("[\u00e9-\u00fc]", ["\u00f6"], ["e", "\u00fd"]),
    ("x[ab]y", ["xay", "xby"], ["xy", "xaby"]),
    ("[ab][cd]", ["ac", "bd"], ["ab", "a"]),
    ("[ab]*", ["a", "bxx"], ["c"]),
    # one that isn't closed is itself
    ("[", ["["], ["a"]),
    ("[a", ["[a"], ["a", "["]),
    ("[]", ["[]"], ["[", "]"]),
    ("[!]", ["[!]"], ["a", "!"]),
    ("[!a", ["[!a"], ["b"]),
    ("[]a", ["[]a"], ["a", "]"]),
    ("[a*", ["[a", "[ab"], ["a"]),
    ("[a?", ["[ab"], ["[a", "a"]),
    ("[a[b]", ["a", "[", "b"], ["[a[b]", "[ab"]),
    ("[ab]c[", ["ac[", "bc["], ["ac", "[ab]c["]),
    ("[[[", ["[[["], ["["]),
    ("]", ["]"], []),
    ("a]", ["a]"], ["a"]),
    # behind a backslash a character is that character
    ("\\*", ["*"], ["a", "\\*", "\\a"]),
    ("\\?", ["?"], ["a"]),
    ("\\a", ["a"], ["\\a"]),
    ("\\\\", ["\\"], ["\\\\"]),
    ("\\[a]", ["[a]"], ["a"]),
    ("[a\\]b]", ["a", "]", "b"], ["\\", "ab]"]),
    ("[\\!a]", ["!", "a"], ["b"]),
    ("[a\\-c]", ["a", "-", "c"], ["b"]),
    ("[\\a]", ["a"], ["\\"]),
    ("[a\\]", ["[a]"], ["a", "]", "[a\\]"]),
]

LEAST, MOST = -2 ** 63, 2 ** 63 - 1
ANY = [File(), File(kind="dir"), File(kind="link", mode=0o777, size=3), File(".hidden", mode=0, links=0)]

# a predicate, the files that meet it, and files that don't
MET = [
    ("", ANY, []),
    ("-type f", [File()], [File(kind="dir"), File(kind="link")]),
    ("-type d", [File(kind="dir")], [File(), File(kind="link")]),
    ("-type l", [File(kind="link")], [File(), File(kind="dir")]),
    # units of 512 bytes, rounded up
    ("-size 0", [File(size=0)], [File(size=1)]),
    ("-size 1", [File(size=1), File(size=512)], [File(size=0), File(size=513)]),
    ("-size 2", [File(size=513), File(size=1024)], [File(size=512), File(size=1025)]),
    ("-size +1", [File(size=513)], [File(size=512), File(size=0)]),
    ("-size -1", [File(size=0)], [File(size=1)]),
    ("-size 36028797018963968", [File(size=2 ** 64 - 1)], [File(size=2 ** 64 - 512)]),
    ("-size 513c", [File(size=513)], [File(size=512), File(size=514)]),
    ("-size +512c", [File(size=513)], [File(size=512)]),
    ("-size -512c", [File(size=511)], [File(size=512)]),
    ("-size +999999999999999999c", [File(size=10 ** 18)], [File(size=10 ** 18 - 1)]),
    # whole days, rounded down
    ("-mtime 0", [File(now=0), File(now=86399), File(time=5, now=86404)], [File(now=86400), File(time=1, now=0)]),
    ("-mtime 1", [File(now=86400), File(now=172799)], [File(now=86399), File(now=172800)]),
    ("-mtime +0", [File(now=86400)], [File(now=86399), File(time=1, now=0)]),
    ("-mtime +1", [File(now=172800)], [File(now=172799)]),
    ("-mtime -0", [File(time=1, now=0), File(time=200000, now=0)], [File(now=0)]),
    ("-mtime -1", [File(now=0), File(now=86399), File(time=1)], [File(now=86400)]),
    ("-mtime 106751991167300", [File(time=LEAST, now=MOST), File(time=-1, now=MOST), File(time=0, now=MOST)], [File(time=86400, now=MOST)]),
    ("-mtime -0", [File(time=MOST, now=LEAST)], []),
    # the twelve bits, or those that are asked for
    ("-perm 644", [File(mode=0o644)], [File(mode=0o664), File(mode=0o4644), File(mode=0o604)]),
    ("-perm 0", [File(mode=0)], [File(mode=1), File(mode=0o4000)]),
    ("-perm 4755", [File(mode=0o4755)], [File(mode=0o755)]),
    ("-perm -222", [File(mode=0o666), File(mode=0o7777)], [File(mode=0o644), File(mode=0)]),
    ("-perm -200", [File(mode=0o644)], [File(mode=0o444)]),
    ("-perm -0", [File(mode=0), File(mode=0o644)], []),
    ("-perm -4000", [File(mode=0o4755)], [File(mode=0o3777)]),
    ("-perm -7777", [File(mode=0o7777)], [File(mode=0o7776)]),
    ("-links 1", [File(links=1)], [File(links=2)]),
    ("-links +1", [File(links=2)], [File(links=1)]),
    ("-links -2", [File(links=1)], [File(links=2)]),
    # how the operators bind
    ("-name a -type f", [File()], [File("b"), File(kind="dir")]),
    ("-name a -a -type f", [File()], [File("b"), File(kind="dir")]),
    ("-name a -o -name b -type d", [File(), File("b", "dir")], [File("b"), File("c", "dir")]),
    ("-name b -type d -o -name a", [File(), File("b", "dir")], [File("b")]),
    ("( -name a -o -name b ) -type d", [File("b", "dir"), File("a", "dir")], [File(), File("c", "dir")]),
    ("-type d ( -name a -o -name b )", [File("b", "dir")], [File(), File("c", "dir")]),
    ("! -name a -type d", [File("b", "dir")], [File("b"), File("a", "dir"), File()]),
    ("! ( -name a -type d )", [File("b"), File(), File("b", "dir")], [File("a", "dir")]),
    ("! -name a -o -type f", [File(), File("b", "dir")], [File("a", "dir")]),
    ("! ( -name a -o -type f )", [File("b", "dir")], [File(), File("b")]),
    ("! ! -name a", [File()], [File("b")]),
    ("-type f ! -name a", [File("b")], [File(), File("b", "dir")]),
    ("-name a -o -name b -o -name c", [File(), File("b"), File("c")], [File("d")]),
    ("-name b -o -name a ! -type d -size -2", [File(), File("b", "dir", size=5000)], [File(size=1000), File(kind="dir")]),
]

# the entries of a tree, each a row of the tree's table, and predicates with the moment and the paths that are found
TREE = [
    "dir 755 0 d", "dir 700 0 d/e", "file 0 644 0 d/e/a.o 12", "file 1 600 86400 d/a.c x", "link 0 l d", "file 2 4755 0 a 123456789012",
    "file 2 4755 0 d/b 123456789012", "dir 755 0 d-x", "file 3 0 0 d.o \\e", "file 4 644 0 d-x/d y", "link 7 d/e/l nowhere",
]

FOUND = [
    # each directory before what stands in it, siblings by the bytes of their names
    ("", 0, ["a", "d", "d/a.c", "d/b", "d/e", "d/e/a.o", "d/e/l", "d-x", "d-x/d", "d.o", "l"]),
    ("-type d", 0, ["d", "d/e", "d-x"]),
    # the line of a link, and nothing below it
    ("-type l", 0, ["d/e/l", "l"]),
    # the last name counts; what stands in a directory is found whether or not the directory is
    ("-name d", 0, ["d", "d-x/d"]),
    ("-name '*.o' -type f", 0, ["d/e/a.o", "d.o"]),
    ("-type f -o -name d", 0, ["a", "d", "d/a.c", "d/b", "d/e/a.o", "d-x/d", "d.o"]),
    ("-links +1", 0, ["a", "d/b"]),
    ("-links 2 -perm -4000", 0, ["a", "d/b"]),
    ("-mtime 1", 86400, ["a", "d", "d/b", "d/e", "d/e/a.o", "d-x", "d-x/d", "d.o", "l"]),
    ("-mtime 0", 86400, ["d/a.c", "d/e/l"]),
    ("-size 12c", 0, ["a", "d/b"]),
    ("-size -1 ! -type d", 0, ["d.o"]),
    ("-size 0", 0, ["d", "d/e", "d-x", "d.o"]),
    ("-perm 0", 0, ["d.o"]),
    ("-name e -o -name l", 0, ["d/e", "d/e/l", "l"]),
    ("-name zz", 0, []),
]
