#!/usr/bin/env bash
# A folder of 49,990 and of 99,980 empty files: the time of `list`, which looks at each and formats its line, and of `commit` of the
# listing without an edit, which reads each line back, beside `ls -lA`.
# lines.sh [PROGRAM]
set -eu
. "$(dirname "$(readlink -f "$0")")/timing.sh"

in_tree() { (cd "$work/tree" && "$@"); }

for files in 49990 99980; do
    rm -rf "$work/tree"; mkdir "$work/tree"
    in_tree bash -c "seq -f 'file%06.0f' 1 $files | xargs touch"
    in_tree "$program" list > "$work/before"
    a=$(least in_tree "$program" list); b=$(least in_tree "$program" commit ../before ../before)
    c=$(least in_tree env LC_ALL=C ls -lA --time-style=long-iso)
    awk -v f="$files" -v a="$a" -v b="$b" -v c="$c" 'BEGIN { printf "%d files: list %s ms, commit without an edit %s ms, ls -lA %s ms, ratio of both %.1f\n", f, a, b, c, (a + b) / c }'
done
