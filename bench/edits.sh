#!/usr/bin/env bash
# The time of `commit` on buffers of 199,990 and of 399,980 lines beside `cat BEFORE AFTER | md5sum`, in an empty folder:
# unchanged, with each name changed, with each mode changed (of the second more than there may be), and with a bad name on the
# last line. Each ends before it changes anything.
# edits.sh [PROGRAM]
set -eu
. "$(dirname "$(readlink -f "$0")")/timing.sh"
mkdir "$work/empty"

commit() { cd "$work/empty"; "$program" commit ../before "../$1" || true; cd - > /dev/null; }
digest() { cat "$work/before" "$work/$1" | md5sum; }

for lines in 199990 399980; do
    awk -v n="$lines" 'BEGIN { print "dired 1"; print "  .:"; print "  total " n
        for (i = 1; i <= n; i++) printf "  -rw-r--r-- 1 user group 0 2026-01-01 00:00 file%06d\n", i }' > "$work/before"
    cp "$work/before" "$work/unchanged"
    sed 's/ file/ other/' "$work/before" > "$work/renamed"
    sed 's/^  -rw-r--r--/  -rw-------/' "$work/before" > "$work/modes"
    sed '$s/$/\\/' "$work/before" > "$work/faulty"
    for after in unchanged renamed modes faulty; do
        a=$(least commit "$after"); b=$(least digest "$after")
        awk -v l="$lines" -v t="$after" -v a="$a" -v b="$b" 'BEGIN { printf "%d lines, %s: commit %s ms, cat | md5sum %s ms, ratio %.1f\n", l, t, a, b, a / b }'
    done
done
