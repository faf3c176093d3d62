#!/usr/bin/env python3
"""Writes the table of every recovery of what small commits leave and what must come of it, by a model of the rules that is independent of the program.

generate_recoveries.py TABLE EXPECTED [--drawn COUNT SEED]

Whatever may stand of a commit that was stopped, and of its recoveries that were stopped, is recovered in both directions: to the end, stopped behind each
changing call, and with each look and each changing call failing. With --drawn: COUNT of these cases, drawn.
"""
import random
import sys

from recovery_examples import every_case
from recovery_table import asked, expected


def main():
    table, text, *words = sys.argv[1:]
    if words and (words[0] != "--drawn" or len(words) != 3):
        print(__doc__)
        return 2
    cases = every_case()
    if words:
        cases = random.Random(int(words[2])).sample(cases, min(int(words[1]), len(cases)))
    with open(table, "w") as asks, open(text, "w") as comes:
        for case in cases:
            asks.write(asked(case))
            comes.write(expected(case))
    return 0


if __name__ == "__main__":
    sys.exit(main())
