#!/usr/bin/env bash
# Folders of 131,072 and of 262,144 empty files: the time of `list`, and of the check of a listing in which each name is another one, in the
# same directory and below one that has to be made, but for the last, which would replace a file: so each check is whole and nothing is changed.
# check.sh [PROGRAM]
set -eu
. "$(dirname "$(readlink -f "$0")")/timing.sh"

in_tree() { (cd "$work/tree" && "$@" || true); }

for files in 131072 262144; do
    rm -rf "$work/tree"; mkdir "$work/tree"
    in_tree bash -c "seq -f 'file%06.0f' 1 $files | xargs touch"
    in_tree "$program" list > "$work/before"
    sed 's/ file/ other/; $s/ other.*/ taken/' "$work/before" > "$work/here"
    sed 's/ file/ new\/deep\/file/; $s/ new.*/ taken/' "$work/before" > "$work/below"
    : > "$work/tree/taken"
    a=$(least in_tree "$program" list); b=$(least in_tree "$program" commit ../before ../here); c=$(least in_tree "$program" commit ../before ../below)
    awk -v f="$files" -v a="$a" -v b="$b" -v c="$c" 'BEGIN { printf "%d files: list %s ms, check of other names %s ms, of new directories %s ms\n", f, a, b, c }'
done
