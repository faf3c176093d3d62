#!/usr/bin/env bash
# `list` of 1,000 and of 10,000 files beside `ls -lA` of the same folder, the programs that it starts, and `commit` of one rename in
# the larger folder.
# listing.sh [PROGRAM]
set -eu
. "$(dirname "$(readlink -f "$0")")/timing.sh"
list() { "$program" list; }
host_list() { LC_ALL=C TZ=UTC ls -lA --time-style=long-iso; }
commit() { "$program" commit ../before ../after; }

for files in 1000 10000; do
    rm -rf "$work/tree"; mkdir "$work/tree"; cd "$work/tree"
    seq -f 'file%06.0f' "$files" | xargs touch
    a=$(least list); b=$(least host_list)
    awk -v n="$files" -v a="$a" -v b="$b" 'BEGIN { printf "%d files: list %s ms, ls -lA %s ms, ratio %.1f\n", n, a, b, a / b }'
    "$program" list > "$work/before"
    if command -v strace > /dev/null 2>&1 && strace -f -qq -o "$work/trace" -e trace=execve "$program" list > "$work/printed"; then
        awk -v n="$files" '/execve\("[^"]*\/stat"/ { stats++ } /execve\("[^"]*\/sync"/ { syncs++ }
            END { printf "%d files: %d stat and %d sync started, %.4f programs per entry\n", n, stats, syncs, (stats + syncs) / n }' "$work/trace"
    else
        echo "listing: skipped, no strace: the programs that are started"
    fi
done

sed 's/ file000001$/ renamed/' "$work/before" > "$work/after"
prepare() { [ ! -e renamed ] || mv renamed file000001; }
a=$(least commit)
printf '10000 files: commit of one rename %s ms\n' "$a"
