"""Examples of texts, and what comes of them. The answers follow from the rules by hand, and not from the program."""

# regexps, and their patterns as `regex` reads them
REGEXPS = [
    ('', ''),
    ('.', '.'),
    ('a*', '(?:a)*'),
    ('a+', '(?:a)+'),
    ('a?', '(?:a)?'),
    ('a*?', '(?:a)*?'),
    ('a+?', '(?:a)+?'),
    ('a??', '(?:a)??'),
    ('a\\{3\\}', '(?:a){3}'),
    ('a\\{0,255\\}', '(?:a){0,255}'),
    ('a\\{10,99\\}?', '(?:(?:a){10,99})?'),
    ('[abc]', '[abc]'),
    ('[a-z]', '[a-z]'),
    ('[^abc]', '[^abc]'),
    ('[]a-]', '[\\]a\\-]'),
    ('[^]]', '[^\\]]'),
    ('[\\]', '[\\\\]'),
    ('[a-]', '[a\\-]'),
    ('[-a]', '[\\-a]'),
    ('[a-c-e]', '[a-c\\-e]'),
    ('[[^a]', '[\\[\\^a]'),
    ('[:a]', '[:a]'),
    ('[é-ü日]', '[é-ü日]'),
    ("\\`a\\'", '\\Aa\\z'),
    ('\\(a\\)', '(a)'),
    ('\\(?:a\\|b\\)*', '(?:(?:a|b))*'),
    ('a\\|b', 'a|b'),
    ('\\w\\W\\b\\B', '\\w\\W\\b\\B'),
    ('\\.\\a\\é', '\\.aé'),
    ('a-b~c&d#', 'a\\-b\\~c\\&d\\#'),
    ('({|})', '\\(\\{\\|\\}\\)'),
    ('^a$', '(?m:^)a(?m:$)'),
    ('a^b', 'a\\^b'),
    ('a$b', 'a\\$b'),
    ('$', '(?m:$)'),
    ('^^', '(?m:^)\\^'),
    ('$$', '\\$(?m:$)'),
    ('\\(^a$\\)', '((?m:^)a(?m:$))'),
    ('\\(?:^a$\\|^b$\\)', '(?:(?m:^)a(?m:$)|(?m:^)b(?m:$))'),
    ('a$*', 'a(?:\\$)*'),
    ('*a', '\\*a'),
    ('+', '\\+'),
    ('?', '\\?'),
    ('**', '(?:\\*)*'),
    ('^*', '(?m:^)\\*'),
    ('^*+', '(?m:^)(?:\\*)+'),
    ('\\(*\\)', '(\\*)'),
    ('\\(?:+\\)', '(?:\\+)'),
    ('a\\|?', 'a|\\?'),
    ('a**', '(?:(?:a)*)*'),
    ('a*??', '(?:(?:a)*?)?'),
    ('\\(a\\)*\\{2\\}', '(?:(?:(a))*){2}'),
    ('\\|', '|'),
    ('\\(\\)', '()'),
    ('\\(\\(a*\\)+b\\)?', '(?:((?:((?:a)*))+b))?'),
    ('\\`*', '(?:\\A)*'),
]

# regexps, and how many numbered groups they have
GROUPS = [
    ('a', 0),
    ('\\(a\\)\\(?:b\\(c\\)\\)', 2),
    ('\\(?:a\\)', 0),
    ('\\(\\(\\(\\)\\)\\)[\\(]', 3),
]

# texts that are no regexps, and why; bytes count from 0
NO_REGEXPS = [
    ('\\(a', 'unclosed at byte 0'),
    ('é\\(a\\(b\\)', 'unclosed at byte 2'),
    ('\\(a\\)\\(b\\(', 'unclosed at byte 5'),
    ('[a', 'unclosed at byte 0'),
    ('a[]', 'unclosed at byte 1'),
    ('[^]', 'unclosed at byte 0'),
    ('\\([a', 'unclosed at byte 0'),
    ('\\(a\\)\\)', 'unopened at byte 5'),
    ('\\(\\)[\\)', 'unclosed at byte 4'),
    ('\\(a\\}', 'bad interval at byte 3'),
    ('a\\{256\\}', 'bad interval at byte 1'),
    ('a\\{3,2\\}', 'bad interval at byte 1'),
    ('a\\{,3\\}', 'bad interval at byte 1'),
    ('a\\{3,\\}', 'bad interval at byte 1'),
    ('a\\{03\\}', 'bad interval at byte 1'),
    ('a\\{3', 'bad interval at byte 1'),
    ('\\{3\\}', 'bad interval at byte 0'),
    ('^\\{3\\}', 'bad interval at byte 1'),
    ('é[z-a]', 'bad class at byte 3'),
    ('[az-a', 'bad class at byte 2'),
    ('[ü-é]', 'bad class at byte 1'),
    ('\\(a\\', 'trailing backslash'),
    ('é\\1', 'not in the profile at byte 2'),
    ('\\s-', 'not in the profile at byte 0'),
    ('a\\_<', 'not in the profile at byte 1'),
    ('\\(?a\\)', 'not in the profile at byte 0'),
    ('[[:alpha:]]', 'not in the profile at byte 1'),
    ('[A-[:x]', 'not in the profile at byte 3'),
]

# a regexp, a text, and whether it is found in it
FOUND = [
    ('^b$', 'a\nb\nc', True),
    ('\\`b', 'a\nb', False),
    ('\\`a', 'a\nb', True),
    ("a\\'", 'a\n', False),
    ("b\\'", 'a\nb', True),
    ('a.b', 'a\nb', False),
    ('\\bab\\B', 'x abc', True),
    ('\\(ab\\)\\{2\\}', 'xababx', True),
    ('[^a-c]', 'abc', False),
    ('[\\.]', '\\', True),
    ('', '', True),
]

# a regexp, a template, a name, and what becomes of it
RENAMED = [
    ('^.*$', 'x-\\&', 'a', 'x-a'),
    ('^x-\\(.*\\)$', '\\1', 'x-a', 'a'),
    ('a', 'b', 'aaa', 'baa'),
    ('b', 'x', 'a', None),
    ('', 'x', 'a', 'xa'),
    ('\\(a\\)\\|\\(b\\)', '[\\1\\2]', 'cb', 'c[b]'),
    ('é', '\\\\\\&\\\\', 'aéb', 'a\\é\\b'),
    ('a', '$0${1}', 'a', '$0${1}'),
    ('\\(a\\)\\(b\\)\\(?:c\\)\\(d\\)', '\\3\\2\\1', 'abcd', 'dba'),
    ('\\(1\\)\\(2\\)\\(3\\)\\(4\\)\\(5\\)\\(6\\)\\(7\\)\\(8\\)\\(9\\)', '\\9\\8\\7\\6\\5\\4\\10', '123456789', '98765410'),
]

# a regexp, and in how many of so many names, file0 and so on, it is found. One search serves them all.
FOUND_OF = [
    ('7$', 0, 0),
    ('7$', 8, 1),
    ('7$', 100000, 10000),
    ('^file[0-9]$', 1000, 10),
    ('x', 1000, 0),
    ('', 1000, 1000),
]

# a regexp, a template, how many of so many names, file0 and so on, are renamed, and the new name of the last of them
RENAMED_OF = [
    ('^file', 'x-\\&', 0, 0, ''),
    ('^file', 'x-\\&', 100000, 100000, 'x-file99999'),
    ('\\(.*\\)7$', '\\1x', 100000, 10000, 'file9999x'),
    ('^file\\([0-9]\\)\\([0-9]\\)$', '\\2-\\1', 1000, 90, '9-9'),
    ('\\(1\\)\\|0$', '[\\1]', 101, 29, 'file[1]00'),
    ('x', 'y', 1000, 0, ''),
]

# texts that are no templates where a regexp has so many groups, and why
NO_TEMPLATES = [
    ('\\1', 0, 'no such group at byte 0'),
    ('é\\1\\3', 2, 'no such group at byte 4'),
    ('\\9', 8, 'no such group at byte 0'),
    ('a\\', 9, 'bad backslash at byte 1'),
    ('\\0', 9, 'bad backslash at byte 0'),
    ('\\\\\\a', 9, 'bad backslash at byte 2'),
    ('\\&\\?\\1', 0, 'bad backslash at byte 2'),
]

# names, as they are quoted for `sh`
QUOTED = [
    ('', ''),
    ('a.b_c-d/e,f:g=h@i%j+k', 'a.b_c-d/e,f:g=h@i%j+k'),
    ('a b', "'a b'"),
    ('-v', './-v'),
    ('-', './-'),
    ('-a b', "'./-a b'"),
    ("it's", "'it'\\''s'"),
    ("'", "''\\'''"),
    ("''", "''\\'''\\'''"),
    ('a\nb', "'a\nb'"),
    ('a\tb', "'a\tb'"),
    ('$HOME', "'$HOME'"),
    ('`ls`', "'`ls`'"),
    ('~', "'~'"),
    ('*', "'*'"),
    ('a\\b', "'a\\b'"),
    ('Öl', "'Öl'"),
    ('日本', "'日本'"),
]

# texts, and the commands that they make of the names `-v`, `a b` and `it's`
COMMANDS = [
    ('grep -n x *', ("grep -n x ./-v 'a b' 'it'\\''s'",)),
    ('cat ?', ('cat ./-v', "cat 'a b'", "cat 'it'\\''s'")),
    ('cat `?`.bak', ('cat ./-v.bak', "cat 'a b'.bak", "cat 'it'\\''s'.bak")),
    ('ls a*b', ('ls a*b ./-v', "ls a*b 'a b'", "ls a*b 'it'\\''s'")),
    ('ls x?', ('ls x? ./-v', "ls x? 'a b'", "ls x? 'it'\\''s'")),
    ('*', ("./-v 'a b' 'it'\\''s'",)),
    (' * ', (" ./-v 'a b' 'it'\\''s' ",)),
    ('a\t*\tb', ("a\t./-v 'a b' 'it'\\''s'\tb",)),
    ('* x *', ("./-v 'a b' 'it'\\''s' x ./-v 'a b' 'it'\\''s'",)),
    ('a\n* b', ('a\n* b ./-v', "a\n* b 'a b'", "a\n* b 'it'\\''s'")),
    ('mv ? ?.o ?', ('mv ./-v ?.o ./-v', "mv 'a b' ?.o 'a b'", "mv 'it'\\''s' ?.o 'it'\\''s'")),
    ('?', ('./-v', "'a b'", "'it'\\''s'")),
    ('`?`?`', ('./-v?`', "'a b'?`", "'it'\\''s'?`")),
    ('``?` ??', ('`./-v ??', "`'a b' ??", "`'it'\\''s' ??")),
    ('? a* ** ?', ('./-v a* ** ./-v', "'a b' a* ** 'a b'", "'it'\\''s' a* ** 'it'\\''s'")),
    ('Ö *', ("Ö ./-v 'a b' 'it'\\''s'",)),
]

# a text, names, and why no command is made
NO_COMMANDS = [
    ('cat ? *', ('a',), 'both marks'),
    ('* `?`', ('a',), 'both marks'),
    ('', ('a',), 'empty command'),
    (' \t', ('a',), 'empty command'),
    (' \t', (), 'empty command'),
    ('cat', (), 'no files'),
    ('cat *', (), 'no files'),
    ('cat ? *', (), 'no files'),
]

# a directory, a text, and the path that it names from there
RESOLVED = [
    ('d', 'a', 'd/a'),
    ('', 'a', 'a'),
    ('d', '../a', 'a'),
    ('d', 'a//b', 'd/a/b'),
    ('d', './a', 'd/a'),
    ('d', 'a/', 'd/a'),
    ('d', '.', 'd'),
    ('d', 'a/..', 'd'),
    ('d', '...', 'd/...'),
    ('d', 'é/ü', 'd/é/ü'),
]

# the same where it names none, and why
NOT_RESOLVED = [
    ('d', '', 'empty'),
    ('', '', 'empty'),
    ('d', '/a', 'absolute'),
    ('', '..', 'above the root'),
    ('d', '..', 'the root'),
    ('d', '../..', 'above the root'),
    ('', 'a/..', 'the root'),
    ('d', 'a\x00b', 'NUL at byte 1'),
    ('d', 'b/\x00', 'NUL at byte 2'),
    ('', '../a\x00b', 'above the root'),
    ('', 'a\x00b/../..', 'NUL at byte 1'),
    ('', '/a\x00b', 'absolute'),
]

# a text, whether it stands in a link, and how it is written
ESCAPED = [
    ('', False, ''),
    ('>', True, '\\076'),
    ('n\n\\\r', False, 'n\\n\\\\\\015'),
    ('a -> b', True, 'a -\\076 b'),
    ('a -> b', False, 'a -> b'),
    ('é→\x7fü', True, 'é→\\177ü'),
]

# lines that aren't those of texts, and the first bad byte, from 0
BAD_ESCAPES = [
    ('\\8', 0),
    ('\\000', 0),
    ('\\400', 0),
    ('\\200', 0),
    ('\\12', 0),
    ('\\128', 0),
    ('\\N', 0),
    ('a\\', 1),
    ('\\\\\\', 2),
    ('ab\nc', 2),
    ('é\t', 2),
    ('\\n\x7f', 2),
    ('\\177\\q', 4),
    ('a\x01\\8', 1),
    ('\\8\x01', 0),
]

# minutes since 1970, and their dates
DATES = [
    (0, '1970-01-01 00:00'),
    (-1, '1969-12-31 23:59'),
    (59, '1970-01-01 00:59'),
    (1440, '1970-01-02 00:00'),
    (15863040, '2000-02-29 00:00'),
    (15864479, '2000-02-29 23:59'),
    (-1035593280, '0001-01-01 00:00'),
    (-1035593281, '0001-01-01 00:00'),
    (-9223372036854775808, '0001-01-01 00:00'),
    (4222846079, '9998-12-31 23:59'),
    (4222846080, '9998-12-31 23:59'),
    (9223372036854775807, '9998-12-31 23:59'),
]

# seconds since 1970, and their minutes
MINUTES = [
    (0, 0),
    (59, 0),
    (60, 1),
    (-1, -1),
    (-60, -1),
    (-61, -2),
    (-62135596800, -1035593280),
    (253370764799, 4222846079),
]

# texts that are no lines, the first bad field, and where it begins
BAD_LINES = [
    ('', 'Mark', 0),
    ('\t -rw-r--r-- 1 u g 0 1970-01-01 00:00 a', 'Mark', 0),
    (' ', 'Kind', 1),
    ('*-rw-r--r-- 1 u g 0 1970-01-01 00:00 a', 'Kind', 1),
    ('*  -rw-r--r-- 1 u g 0 1970-01-01 00:00 a', 'Kind', 3),
    ('  prw-r--r-- 1 u g 0 1970-01-01 00:00 a', 'Kind', 2),
    ('  -rw-r--r- 1 u g 0 1970-01-01 00:00 a', 'Mode', 3),
    ('  - rw-r--r-- 1 u g 0 1970-01-01 00:00 a', 'Mode', 3),
    ('  -rw-r--', 'Mode', 3),
    ('  lrwxr-xr-x 1 u g 0 1970-01-01 00:00 a -> b', 'Mode', 3),
    ('  -rw-r--r--1 u g 0 1970-01-01 00:00 a', 'Links', 12),
    ('  -rw-r--r--   01 u g 0 1970-01-01 00:00 a', 'Links', 15),
    ('  -rw-r--r-- -1 u g 0 1970-01-01 00:00 a', 'Links', 13),
    ('  -rw-r--r-- 4294967296 u g 0 1970-01-01 00:00 a', 'Links', 13),
    ('  -rw-r--r-- 1u g 0 1970-01-01 00:00 a', 'Owner', 14),
    ('  -rw-r--r-- 1  é g 0 1970-01-01 00:00 a', 'Owner', 16),
    ('  -rw-r--r-- 1 u', 'Group', 16),
    ('  -rw-r--r-- 1 u g\x7f 0 1970-01-01 00:00 a', 'Group', 17),
    ('  -rw-r--r-- 1 u g  00 1970-01-01 00:00 a', 'Size', 20),
    ('  -rw-r--r-- 1 u g 18446744073709551616 1970-01-01 00:00 a', 'Size', 19),
    ('  -rw-r--r-- 1 u g 0  1970-01-01 00:00 a', 'Date', 22),
    ('  -rw-r--r-- 1 u g 01970-01-01 00:00 a', 'Size', 19),
    ('  -rw-r--r-- 1 u g 0 1970-01-01 00:00', 'Name', 37),
    ('  -rw-r--r-- 1 u g 0 1970-01-01 00:00a', 'Name', 37),
    ('  -rw-r--r-- 1 u g 0 1970-01-01 00:00 ', 'Name', 38),
    ('  -rw-r--r-- 1 u g 0 1970-01-01 00:00 a\\q', 'Name', 38),
    ('  -rw-r--r-- 1 u g 0 1970-01-01 00:00 a\x00', 'Name', 38),
    ('  lrwxrwxrwx 1 u g 0 1970-01-01 00:00 a', 'Target', 39),
    ('  lrwxrwxrwx 1 u g 0 1970-01-01 00:00 a ->b', 'Target', 43),
    ('  lrwxrwxrwx 1 u g 0 1970-01-01 00:00  -> b', 'Name', 38),
    ('  lrwxrwxrwx 1 u g 0 1970-01-01 00:00 a -> ', 'Target', 43),
    ('  lrwxrwxrwx 1 u g 0 1970-01-01 00:00 a -> b\\', 'Target', 43),
]

# switches, and the order of the files of ORDERED
ORDERS = [
    ('-l', 'Babc'),
    ('-r', 'cbaB'),
    ('-S', 'Babc'),
    ('-Sr', 'cbaB'),
    ('-t', 'Bcab'),
    ('-tr', 'bacB'),
    ('-St', 'Babc'),
    ('-tS', 'Babc'),
]

# marks, the lines that are shown, and the marks behind a toggle
TOGGLED = [
    ('', 'a b', 'a=* b=*'),
    ('a=* b=D c=C', 'a b c d', 'b=D c=C d=*'),
    ('a=* b=*', 'a', 'b=*'),
    ('a=*', 'a a b b', 'b=*'),
    ('a=*', '', 'a=*'),
]

# marks, moves, and the marks behind them
MOVED = [
    ('a=1 b=2 c=3', 'a>b b>a', 'a=2 b=1 c=3'),
    ('a=1 b=2 c=3', 'a>b b>c c>d', 'b=1 c=2 d=3'),
    ('a=1 b=2', 'c>a', 'b=2'),
    ('a=1 b=2', 'a>d/a', 'b=2 d/a=1'),
    ('a=1', '', 'a=1'),
]

# backups, how many old and new ones are kept, and which are in excess
EXCESS = [
    ('f.~1~ f.~2~ f.~3~ f.~4~ f.~5~ f.~6~', 2, 2, 'f.~3~ f.~4~'),
    ('f.~10~ f.~2~ f.~9~ f.~300~', 1, 1, 'f.~9~ f.~10~'),
    ('f.~1~ f.~2~', 0, 0, 'f.~1~ f.~2~'),
    ('f.~1~ f.~2~ f.~3~', 3, 0, ''),
    ('f.~1~ f.~2~ f.~3~', 4000000000, 4000000000, ''),
    ('f.~1~ f.~1~ f.~2~', 1, 0, 'f.~2~'),
    ('f f~ f.~ f.~~ f.~0~ f.~01~ f.~1 f.~a~ f~1~ f.~1~', 0, 0, 'f.~1~'),
    ('f.~999999999999999999~ f.~1000000000000000000~', 0, 0, 'f.~999999999999999999~'),
    ('d/f.~1~ e/f.~1~ d/f.~2~ f.~3~ d/g.~4~', 1, 0, 'd/f.~2~'),
    ('d/.~1~ d.~1~ d/.~2~ .~7~ .~8~', 0, 1, '.~7~ d/.~1~'),
    ('f.~1~.~2~ f.~1~.~3~', 0, 1, 'f.~1~.~2~'),
]

# journals, as hexadecimal digits and between `'` text, and their steps or the first bad byte
JOURNALS = [
    ('', 'bad at 0'),
    ("'WDJ'", 'bad at 0'),
    ("'WDJ3' 00000000", 'bad at 0'),
    ("'WDJ1' 000000", 'bad at 4'),
    ("'WDJ2'", 'bad at 4'),
    ("'WDJ1' 00000000", ''),
    ("'WDJ2' 00000000", ''),
    ("'WDJ1' 00000000 00", 'bad at 8'),
    ("'WDJ1' ffffffff", 'bad at 8'),
    ("'WDJ2' ffffffff", 'bad at 8'),
    ("'WDJ1' 01000000 'D' 0001 'a'", 'bad at 12'),
    ('57444a31 00000003 52 0001 61 0011 2e7764697265642d636f6d6d69742f7430 52 0001 62 0001 61 52 0011 2e7764697265642d636f6d6d69742f7430 0001 62', 'R a .wdired-commit/t0;R b a;R .wdired-commit/t0 b;'),
    ('57444a31 00000003 52 0001 61 0011 2e7764697265642d636f6d6d69742f7430 52 0001 62 0001 61 52 0011 2e7764697265642d636f6d6d69742f7430 0001', 'bad at 38'),
    ('57444a31 00000003 52 0001 61 0011 2e7764697265642d636f6d6d69742f7430 52 0001 62 0001 61 52 0011 2e7764697265642d636f6d6d69742f7430 0001 62 78', 'bad at 61'),
    ('57444a32 00000003 52 00000000 00000001 61 00000000 00000011 2e7764697265642d636f6d6d69742f7430 52 00000000 00000001 62 00000000 00000001 61 52 00000000 00000011 2e7764697265642d636f6d6d69742f7430 00000000 00000001 62', 'R a .wdired-commit/t0;R b a;R .wdired-commit/t0 b;'),
    ('57444a32 00000003 52 00000000 00000001 61 00000000 00000011 2e7764697265642d636f6d6d69742f7430 52 00000000 00000001 62 00000000 00000001 61 52 00000000 00000011 2e7764697265642d636f6d6d69742f7430 00000000 00000001', 'bad at 62'),
    ('57444a32 00000003 52 00000000 00000001 61 00000000 00000011 2e7764697265642d636f6d6d69742f7430 52 00000000 00000001 62 00000000 00000001 61 52 00000000 00000011 2e7764697265642d636f6d6d69742f7430 00000000 00000001 62 78', 'bad at 97'),
    ('57444a32 00000003 44 00000000 00000003 6e6577 44 00000003 00000005 2f64656570 52 00000000 00000001 78 00000000 0000000a 6e65772f646565702f78', 'D new;D new/deep;R x new/deep/x;'),
    ('57444a32 00000003 44 00000000 00000003 6e6577 44 00000000 00000008 6e65772f64656570 52 00000000 00000001 78 00000000 0000000a 6e65772f646565702f78', 'bad at 20'),
    ("'WDJ2' 00000001 'D' 00000001 00000000", 'bad at 8'),
    ("'WDJ2' 00000002 'D' 00000000 00000001 'a' 'D' 00000002 00000001 'b'", 'bad at 18'),
    ("'WDJ2' 00000001 'R' 00000000 00000001 'x' 00000001 00000001 'y'", 'R x xy;'),
    ("'WDJ2' 00000001 'R' 00000000 00000001 'x' 00000000 00000002 'xy'", 'bad at 8'),
    ("'WDJ2' 00000002 'R' 00000000 00000001 'x' 00000000 00000001 'y' 'D' 00000001 00000001 'z'", 'R x y;D xz;'),
    ("'WDJ2' 00000002 'R' 00000000 00000001 'x' 00000000 00000001 'y' 'D' 00000000 00000002 'xz'", 'bad at 27'),
    ("'WDJ1' 00000001 'D' 0000", 'bad at 8'),
    ("'WDJ1' 00000001 'D' 0004 'a//b'", 'bad at 8'),
    ("'WDJ1' 00000001 'D' 0002 '/a'", 'bad at 8'),
    ("'WDJ1' 00000001 'D' 0002 'a/'", 'bad at 8'),
    ("'WDJ1' 00000001 'D' 0001 '.'", 'bad at 8'),
    ("'WDJ1' 00000001 'D' 0004 'a/..'", 'bad at 8'),
    ("'WDJ1' 00000001 'D' 0002 'a' 00", 'bad at 8'),
    ("'WDJ1' 00000001 'D' 0002 'a' ff", 'bad at 8'),
    ("'WDJ1' 00000001 'D' 0002 c3a9", 'D é;'),
    ("'WDJ1' 00000001 'X' 0001 'a'", 'bad at 8'),
    ("'WDJ1' 00000001 'D' 000e '.wdired-commit'", 'bad at 8'),
    ("'WDJ1' 00000001 'D' 0011 '.wdired-commit/t0'", 'bad at 8'),
    ("'WDJ1' 00000001 'M' 0011 '.wdired-commit/h0' 01a4 0180", 'bad at 8'),
    ("'WDJ1' 00000001 'R' 0001 'a' 000e '.wdired-commit'", 'bad at 8'),
    ("'WDJ1' 00000001 'R' 0012 '.wdired-commit/t01' 0001 'a'", 'bad at 8'),
    ("'WDJ1' 00000001 'R' 0001 'a' 001a '.wdired-commit/h4294967295'", 'R a .wdired-commit/h4294967295;'),
    ("'WDJ1' 00000001 'R' 0001 'a' 001a '.wdired-commit/t4294967296'", 'bad at 8'),
    ("'WDJ1' 00000001 'R' 0011 '.wdired-commit/x0' 0001 'a'", 'bad at 8'),
    ("'WDJ1' 00000001 'R' 0013 '.wdired-commit/f0/a' 0001 'a'", 'bad at 8'),
    ("'WDJ1' 00000001 'R' 0011 '.wdired-commit/f0' 0003 'd/k'", 'R .wdired-commit/f0 d/k;'),
    ("'WDJ1' 00000001 'R' 0001 'a' 0001 'a'", 'bad at 8'),
    ("'WDJ1' 00000001 'R' 0001 'a' 0003 'a/b'", 'bad at 8'),
    ("'WDJ1' 00000001 'R' 0003 'a/b' 0001 'a'", 'bad at 8'),
    ("'WDJ1' 00000001 'R' 0001 'a' 0002 'ab'", 'R a ab;'),
    ("'WDJ1' 00000001 'M' 0001 'a' 01a4 0fff", 'M a 644 7777;'),
    ("'WDJ1' 00000001 'M' 0001 'a' 01a4 01a4", 'bad at 8'),
    ("'WDJ1' 00000001 'M' 0001 'a' 01a4 1000", 'bad at 8'),
    ("'WDJ1' 00000001 'M' 0001 'a' 1000 01a4", 'bad at 8'),
    ("'WDJ1' 00000002 'D' 0001 'a' 'M' 0001 'a' 01a4 01", 'bad at 12'),
    ("'WDJ1' 00000003 'D' 0003 'new' 'D' 0008 'new/deep' 'R' 0001 'x' 000a 'new/deep/x'", 'D new;D new/deep;R x new/deep/x;'),
    ("'WDJ1' 00000002 'R' 0003 'd/a' 0003 'e/a' 'M' 0003 'd/b' 01a4 0180", 'R d/a e/a;M d/b 644 600;'),
]

# directories whose paths are the same: how many, of how many bytes, and what is read of their journal. Paths have 2 ** 28 bytes together at
# most: 65,552 of 4,095 bytes have less, and one more has more. The journal's head has 8 bytes, its first step 9 and the path's, and each other 9.
LONG_JOURNALS = [
    (3, 4095, 'steps 3'),
    (2, 4096, 'bad at 8'),
    (65553, 4095, 'bad at %d' % (8 + 9 + 4095 + 65551 * 9)),
]

# names of the files in COMMANDS
NAMES = ["-v", "a b", "it's"]

# files as their names, sizes and minutes
ORDERED = ["b,2,7", "a,3,8", "B,3,9", "c,1,9"]

# dates of lines, and their minutes
READ_DATES = [
    ("1970-01-01 00:00", 0),
    ("1969-12-31 23:59", -1),
    ("2000-02-29 00:00", 15_863_040),
    ("0001-01-01 00:00", -1_035_593_280),
    ("9998-12-31 23:59", 4_222_846_079),
]

BAD_DATES = [
    "1900-02-29 00:00", "2001-02-29 00:00", "2000-02-30 00:00", "2001-04-31 00:00", "0000-12-31 23:59", "9999-01-01 00:00",
    "2001-00-01 00:00", "2001-13-01 00:00", "2001-01-00 00:00", "2001-01-32 00:00", "2001-01-01 24:00", "2001-01-01 00:60",
    "2001-01-01T00:00", "2001/01/01 00:00", "2001-01-01  0:00", "2001-01-01 0000",
]

# the same of bytes that aren't UTF-8
BAD_BYTES = [
    (b"  -rw-r--r-- 1 u g 0 1970-01-01 00:00 \xff", "Name", 38),
    (b"  lrwxrwxrwx 1 u g 0 1970-01-01 00:00 a -> \xff", "Target", 43),
    (b"  -rw-r--r-- 1 \xff g 0 1970-01-01 00:00 a", "Owner", 15),
]

# lines, and what they show: mark, kind, mode, links, owner, group, size, minute, name and target
LINES = [
    ("  -rw-r--r-- 1 u g 0 1970-01-01 00:00 a", "\\x20 file 644 1 u g 0 0 a \\e"),
    ("D -rw-r--r--   1  u    g     0 1970-01-01 00:00 a", "D file 644 1 u g 0 0 a \\e"),
    ("~ -rw-r--r-- 1 u g 0 1970-01-01 00:00  a ", "~ file 644 1 u g 0 0 \\x20a\\x20 \\e"),
    ("  -rw-r--r-- 1 u g 18446744073709551615 1970-01-01 00:00 n\\n\\\\\\015 -> x",
     "\\x20 file 644 1 u g 18446744073709551615 0 n\\x0a\\x5c\\x0d\\x20->\\x20x \\e"),
    ("  lrwxrwxrwx 1 u g 1 1970-01-01 00:00 a -\\076 ->  b -> c", "\\x20 link 777 1 u g 1 0 a\\x20-> \\x20b\\x20->\\x20c"),
    ("* drwxrwxrwt 1 u g 1 1970-01-01 00:00 t", "* dir 1777 1 u g 1 0 t \\e"),
    ("  -rw-r--r-- 4294967295 u g 0 1970-01-01 00:00 a", "\\x20 file 644 4294967295 u g 0 0 a \\e"),
    ("  -rw-r--r-- 0 u g 0 1970-01-01 00:00 a", "\\x20 file 644 0 u g 0 0 a \\e"),
    ("  -rwsr-Sr-t 1 u g 0 1970-01-01 00:00 b", "\\x20 file 7745 1 u g 0 0 b \\e"),
]

# switches, and those of `A`, `t`, `S` and `r` among them
SWITCHES = [("-l", ""), ("-lll", ""), ("-AltSr", "AtSr"), ("-t", "t"), ("-S", "S"), ("-r", "r"), ("-A", "A")]

NO_SWITCHES = ["\\e", "-", "l", "--l", "-a", "-lA-", "-s", "-T"]

# changes of marks one after the other, and the marks behind each
MARKS = [
    ("marks a=1", "marks a=1"),
    ("save", "marks a=1"),
    ("mark b 2", "marks a=1 b=2"),
    ("save", "marks a=1 b=2"),
    ("unmark-all", "marks"),
    ("undo", "marks a=1 b=2"),
    ("undo", "marks a=1"),
    ("undo", "refused: nothing to undo"),
    ("mark b 000", "refused: no mark"),
    ("mark b 032", "refused: no mark"),
    ("mark b 127", "refused: no mark"),
    ("mark b 200", "refused: no mark"),
    ("unmark-those 032", "refused: no mark"),
    ("change 127 1", "refused: no mark"),
    ("change 1 032", "refused: no mark"),
    ("mark b 033", "marks a=1 b=!"),
    ("mark b 126", "marks a=1 b=~"),
    ("unmark-those ~", "marks a=1"),
    ("marks a=1 b=2 c=1 d=3", "marks a=1 b=2 c=1 d=3"),
    ("change 1 3", "marks a=3 b=2 c=3 d=3"),
    ("unmark-those 2", "marks a=3 c=3 d=3"),
    ("unmark d", "marks a=3 c=3"),
]

# a buffer as printed and as edited, and what it asks for: lines, new paths, targets and modes, and emptied names
EDITS = [
    ("dired 1\n  .:\n  total 2\n  -rw-r--r-- 1 u g 0 1970-01-01 00:00 a\n  lrwxrwxrwx 1 u g 1 1970-01-01 00:00 l -> x\n\n"
     "  d:\n  total 1\n  drwxr-xr-x 1 u g 0 1970-01-01 00:00 e",
     "dired 1\n  .:\n  total 2\n  -rwsr-Sr-t 1 u g 0 1970-01-01 00:00 b\n  lrwxrwxrwx 1 u g 1 1970-01-01 00:00 m -> a -> b\n\n"
     "  d:\n  total 1\n  drwxr-xr-x 1 u g 0 1970-01-01 00:00 \n",
     "line 4 a to b mode 7745 line 5 l to m target a\\x20->\\x20b emptied d/e"),
]

# calls of objects in memory, of which some fail, and what they answer and keep
OUTSIDE = [
    ("shelf 1,5 a=one,b=\\e,a=two a:3 b:9 b:0 a:2 c:9 a:3 a:3", "read one failed read \\e too-large absent failed read one"),
    ("sink 2 ab \\e c de", "taken taken failed taken short 0 abde"),
    ("shell 1 3 ls rm\\x20x \\e", "3 failed 3 short 0 ran ls \\e"),
    ("patterns 1 a* b ( b", "a* refused refused b"),
]
