#!/usr/bin/env python3
"""Writes the table of cases and what must come of it, by a model of the rules that is independent of the program.

generate.py TABLE EXPECTED [--drawn COUNT SEED]

Without --drawn: the cases that were thought out, 500 edits and 200 listings, always the same. With it: COUNT further cases, five edits to two
listings.
"""
import random
import sys

import changes
import draw
import examples
from table import asked, expected

SEED = 1


def cases_of(words):
    if words:
        count, seed = int(words[1]), int(words[2])
        listings = count * 2 // 7
        return draw.drawn(random.Random(seed), count - listings, listings)
    return examples.examples() + changes.cases() + draw.drawn(random.Random(SEED), 500, 200)


def main():
    table, text, words = sys.argv[1], sys.argv[2], sys.argv[3:]
    if words and (words[0] != "--drawn" or len(words) != 3):
        print(__doc__)
        return 2
    with open(table, "w") as asks, open(text, "w") as comes:
        asks.write("# Made by scripts/cases/generate.py. docs/CASES.md has the form.\n\n")
        for case in cases_of(words):
            asks.write(asked(case))
            comes.write(expected(case))
    return 0


if __name__ == "__main__":
    sys.exit(main())
