#!/usr/bin/env bash
# One edited name in a listing of 99,990 and of 199,980 lines: the time of `commit` beside `cat BEFORE AFTER | md5sum`.
# one-name.sh [PROGRAM]
set -eu
. "$(dirname "$(readlink -f "$0")")/timing.sh"
mkdir "$work/tree"

commit() { cd "$work/tree"; : > zz; rm -f zy; chmod 644 zz; "$program" commit ../before ../after; cd - > /dev/null; }
digest() { cat "$work/before" "$work/after" | md5sum; }

: > "$work/tree/zz"; chmod 644 "$work/tree/zz"
for lines in 99990 199980; do
    awk -v n="$lines" 'BEGIN { print "dired 1"; print "  .:"; print "  total " n
        for (i = 1; i < n; i++) printf "  -rw-r--r-- 1 user group 0 2026-01-01 00:00 file%06d\n", i
        print "  -rw-r--r-- 1 user group 0 2026-01-01 00:00 zz" }' > "$work/before"
    sed 's/ zz$/ zy/' "$work/before" > "$work/after"
    a=$(least commit); b=$(least digest)
    awk -v l="$lines" -v a="$a" -v b="$b" 'BEGIN { printf "%d lines: commit %s ms, cat | md5sum %s ms, ratio %.1f\n", l, a, b, a / b }'
done
