#!/usr/bin/env bash
# Draws predicates, has the files of a tree that meet them found by the built program of text cases, and compares them with what GNU
# `find` finds in a real tree of the same entries.
# real-find.sh [PROGRAM] [COUNT] [SEED]
set -eu
here=$(dirname "$(readlink -f "$0")")
program=${1:-$here/../crates/text_cases/out/text_cases}
[ -x "$program" ] || { echo "real-find: skipped, no program at $program"; exit 0; }
find . -version 2> /dev/null | grep -q GNU || { echo "real-find: skipped, no GNU find"; exit 0; }
python3 "$here/drawn_finds.py" "$program" "${2:-1000}" "${3:-1}"
