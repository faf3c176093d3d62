"""Examples of settings: the text, what is answered to it, and rows that ask its rules. The answers follow from the rules by hand: faults
are tested by kind (keys, types, regexps), each over the keys in the order of their bytes and then over the guesses."""

GUESSES = '[[guess]]\nregexp = "\\\\.c$"\ncommand = "cc"\n[[guess]]\nregexp = "\\\\.[ch]$"\ncommand = "wc"\n'

SETTINGS = [
    ("", "kept 2 2", [("omitted a.o plain", "no"), ("guess a.c", "none"), ("omitted-of 1000", "0")]),
    # one search serves many names, file0 and so on: every tenth ends with a 7, and every hundredth with 42 besides
    ('omit_regexp = "7$"', "kept 2 2", [("omitted-of 0", "0"), ("omitted-of 8", "1"), ("omitted-of 100000", "10000")]),
    ('omit_regexp = "7$"\nomit_extensions = ["42"]', "kept 2 2", [("omitted-of 100000", "11000")]),
    ('omit_extensions = [".o", ""]', "kept 2 2", [
        ("omitted a.o plain", "yes"), ("omitted a.c plain", "no"), ("omitted .o plain", "yes"), ("omitted o plain", "no"),
        ("omitted a.o marked", "no")]),
    ('omit_regexp = "^#\\\\|~$"', "kept 2 2", [
        ("omitted \\x23a plain", "yes"), ("omitted a~ plain", "yes"), ("omitted a~b plain", "no"), ("omitted a~ marked", "no")]),
    ('omit_regexp = "a"\nomit_extensions = ["b"]', "kept 2 2", [("omitted xax plain", "yes"), ("omitted xb plain", "yes"), ("omitted bx plain", "no")]),
    ("kept_old = 0\nkept_new = 1000000", "kept 0 1000000", []),
    ("kept_new = 0\nkept_old = 1000000", "kept 1000000 0", []),
    ("kept_new = 7", "kept 2 7", []),
    (GUESSES, "kept 2 2", [
        ("guess a.c", "cc"), ("guess a.c b.c", "cc"), ("guess a.c b.h", "wc"), ("guess a.h", "wc"), ("guess a.c b.o", "none"), ("guess a.o", "none"),
        ("guess b.o a.c", "none"), ("guess b.h a.c", "wc"), ("guess", "cc")]),
    ("guess = []", "kept 2 2", [("guess a.c", "none")]),
    ("omit_extensions = []", "kept 2 2", [("omitted a.o plain", "no")]),
    # each fault
    ("a", "refused: no TOML", []),
    ("a = 1\na = 2", "refused: no TOML", []),
    # a table may be 80 deep for the reader of TOML, and so may a list
    ("a = %s1%s" % (70 * "[", 70 * "]"), "refused: unknown key a", []),
    ("a = %s1%s" % (200 * "[", 200 * "]"), "refused: no TOML", []),
    ("a = %s1%s" % (200 * "{b = ", 200 * "}"), "refused: no TOML", []),
    ("depth = 1", "refused: unknown key depth", []),
    ("kept_old = 1000001", "refused: wrong type kept_old", []),
    ("kept_old = -1", "refused: wrong type kept_old", []),
    ("kept_new = 1000001", "refused: wrong type kept_new", []),
    ("kept_new = 9223372036854775807", "refused: wrong type kept_new", []),
    ("kept_new = true", "refused: wrong type kept_new", []),
    ('kept_new = "2"', "refused: wrong type kept_new", []),
    ("kept_new = 1.0", "refused: wrong type kept_new", []),
    ('omit_extensions = "o"', "refused: wrong type omit_extensions", []),
    ("omit_extensions = [1]", "refused: wrong type omit_extensions", []),
    ("omit_regexp = []", "refused: wrong type omit_regexp", []),
    ("[omit_regexp]", "refused: wrong type omit_regexp", []),
    ("guess = 1", "refused: wrong type guess", []),
    ("[guess]", "refused: wrong type guess", []),
    ('guess = {regexp = "a", command = "b"}', "refused: wrong type guess", []),
    ('[omit_extensions]\na = "o"', "refused: wrong type omit_extensions", []),
    ("[kept_old]", "refused: wrong type kept_old", []),
    ("guess = [1]", "refused: wrong type guess", []),
    ('guess = [{regexp = "a"}]', "refused: wrong type guess.command", []),
    ('guess = [{command = "a"}]', "refused: wrong type guess.regexp", []),
    ('guess = [{regexp = "a", command = 1}]', "refused: wrong type guess.command", []),
    ('guess = [{regexp = "a", command = "b", c = 1}]', "refused: unknown key guess.c", []),
    ('omit_regexp = "\\\\("', "refused: bad regexp omit_regexp, unclosed at byte 0", []),
    ('guess = [{regexp = "[a", command = "b"}]', "refused: bad regexp guess.regexp, unclosed at byte 0", []),
    # the first of two faults
    ("z = 1\na", "refused: no TOML", []),
    ("kept_old = -1\na", "refused: no TOML", []),
    ('guess = [{}]', "refused: wrong type guess.command", []),
    ('kept_old = -1\nguess = [{regexp = "a", command = "b", c = 1}]', "refused: unknown key guess.c", []),
    ('guess = [{regexp = "a", command = "b", z = 1}, {regexp = "a", command = "b", a = 1}]', "refused: unknown key guess.z", []),
    ('guess = [{regexp = "[a", command = "b"}, {regexp = "\\\\(", command = "b"}]', "refused: bad regexp guess.regexp, unclosed at byte 0", []),
    ('omit_regexp = "\\\\("\nguess = [{regexp = 1, command = "b"}]', "refused: wrong type guess.regexp", []),
    ("kept_old = -1\nz = 1", "refused: unknown key z", []),
    ('omit_regexp = "\\\\("\nz = 1', "refused: unknown key z", []),
    ('omit_regexp = "\\\\("\na', "refused: no TOML", []),
    ("z = 1\na = 1", "refused: unknown key a", []),
    ('a = 1\nguess = [{regexp = "a", command = "b", c = 1}]', "refused: unknown key a", []),
    ("omit_regexp = 1\nkept_old = -1", "refused: wrong type kept_old", []),
    ('guess = [{regexp = 1, command = "b"}]\nomit_regexp = 1', "refused: wrong type omit_regexp", []),
    ('omit_regexp = "\\\\("\nkept_old = -1', "refused: wrong type kept_old", []),
    ('guess = [{regexp = "[a", command = "b"}, 1]', "refused: wrong type guess", []),
    ('guess = [{regexp = "[a", command = "b"}]\nomit_regexp = "b\\\\("', "refused: bad regexp omit_regexp, unclosed at byte 1", []),
]
