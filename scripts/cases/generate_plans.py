#!/usr/bin/env python3
"""Writes the table of cases of plans and what must come of it, by a model of the rules that is independent of the program.

generate_plans.py TABLE EXPECTED [--drawn COUNT SEED]

Without --drawn: the cases that were thought out, 300 drawn ones, and 300 drawn ones of removals or creations alone, always the same. With it:
COUNT further cases, of which every third is of removals or creations.
"""
import random
import sys

import plan_draw
import plan_examples
from plan_table import asked, expected

SEED = 2
DRAWN = 300


def cases_of(words):
    if words:
        count, rng = int(words[1]), random.Random(int(words[2]))
        return plan_examples.drawn(rng, count - count // 3) + plan_draw.drawn(rng, count // 3)
    thought_out = plan_examples.worked() + plan_examples.each_rule()
    rng = random.Random(SEED)
    return thought_out + plan_examples.drawn(rng, DRAWN) + plan_draw.drawn(rng, DRAWN)


def write(cases, asks, comes):
    asks.write("# Made by scripts/cases/generate_plans.py. docs/CASES.md has the form.\n\n")
    for case in cases:
        asks.write(asked(case))
        comes.write(expected(case))


def main():
    table, text, words = sys.argv[1], sys.argv[2], sys.argv[3:]
    if words and (words[0] != "--drawn" or len(words) != 3):
        print(__doc__)
        return 2
    with open(table, "w") as asks, open(text, "w") as comes:
        write(cases_of(words), asks, comes)
    return 0


if __name__ == "__main__":
    sys.exit(main())
