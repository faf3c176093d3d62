#!/usr/bin/env python3
"""Writes the table of cases of plans, commits and recoveries and what must come of it, by a model of the rules that is independent of the program.

generate_commits.py TABLE EXPECTED [--drawn COUNT SEED]

Without --drawn: those of generate_plans.py, and the cases of commits and of recoveries, always the same. With it: COUNT drawn commits.
"""
import random
import sys

import commit_examples
import commit_table
import generate_plans
import recovery_examples
import recovery_table


def main():
    table, text, words = sys.argv[1], sys.argv[2], sys.argv[3:]
    if words and (words[0] != "--drawn" or len(words) != 3):
        print(__doc__)
        return 2
    drawn = commit_examples.drawn(random.Random(int(words[2])), int(words[1])) if words else None
    with open(table, "w") as asks, open(text, "w") as comes:
        if not words:
            generate_plans.write(generate_plans.cases_of([]), asks, comes)
        asks.write("# Made by scripts/cases/generate_commits.py. docs/CASES.md has the form.\n\n")
        for case in drawn or commit_examples.all_cases():
            asks.write(commit_table.asked(case))
            comes.write(commit_table.expected(case))
        for case in [] if words else recovery_examples.all_cases():
            asks.write(recovery_table.asked(case))
            comes.write(recovery_table.expected(case))
    return 0


if __name__ == "__main__":
    sys.exit(main())
