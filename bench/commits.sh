#!/usr/bin/env bash
# Commits of 100, 1,000 and 10,000 names with another suffix, 1,000 swaps, a cycle of 1,000 and 1,000 moves into new directories: the renames,
# the syncs and the programs started of each, and its time beside that of its peers that are here, which sync nothing: `rename` (util-linux, and
# Perl's), `mmv`, `qmv` (renameutils) and `vidir` (moreutils). Behind each stands how many times as long the commit takes. Last a program that makes the
# same calls as three of them.
# commits.sh [PROGRAM]
set -eu
. "$(dirname "$(readlink -f "$0")")/timing.sh"
export LC_ALL=C
in_tree() { (cd "$work/tree" && "$@"); }
has() { command -v "$1" > /dev/null 2>&1; }

# What changes the name at the end of a line of a listing, or of a numbered name of vidir.
suffix() { sed 's/\.txt$/.md/'; }
swap() { sed 's/\(^\|[ /]\)a\([0-9]*\)\.txt$/\1b\2.txt/; t; s/\(^\|[ /]\)b\([0-9]*\)\.txt$/\1a\2.txt/'; }
cycle() { awk -v n="$files" 'match($0, /a[0-9]+\.txt$/) { i = substr($0, RSTART + 1, 6) % n + 1; $0 = substr($0, 1, RSTART) sprintf("%06d.txt", i) } { print }'; }
below() { sed 's/a\([0-9]*\.txt\)$/d\1\/a\1/'; }

# A folder of so many files a000001.txt.., and as many b000001.txt.. where that is asked for: made FILES [b]
made() {
    rm -rf "$work/tree"; mkdir "$work/tree"
    in_tree bash -c "seq -f 'a%06.0f.txt' 1 $1 | xargs touch"
    [ -z "${2:-}" ] || in_tree bash -c "seq -f 'b%06.0f.txt' 1 $1 | xargs touch"
    sync -f "$work"
}
prepare() { made "$files" "$second"; }

# What a commit asks of the host: counted
counted() {
    prepare
    in_tree strace -f -qq -o ../log -e trace=rename,renameat,renameat2,mkdir,fsync,syncfs,execve "$program" commit ../before ../after > /dev/null
    awk '/ rename/ { r++ } / mkdir/ { m++ } / fsync/ { f++ } / syncfs/ { s++ } / execve.* = 0/ { e++ }
        END { printf "%d renames, %d mkdir, %d fsync, %d syncfs, %d programs started", r, m, f, s, e - 1 }' "$work/log"
}

# Adds to a line the time of a command, where it is here: peer NAME WORDS..
peer() {
    local name=$1 taken; shift
    has "$1" || return 0
    taken=$(least in_tree renames "$@" < /dev/null)
    line="$line; $name $taken ms ($(awk -v a="$own" -v b="$taken" 'BEGIN { printf "%.1f", a / b }'))"
}
# Runs a command on all names, but for those that take none of them.
renames() {
    case $1 in
        vidir) "$@" ;;
        mmv) mmv '*.txt' '#1.md' ;;
        *) "$@" ./*.txt ;;
    esac 2> /dev/null
}

# bench NAME FILES EDIT [b]
bench() {
    local name=$1 edit=$3 line own
    files=$2; second=${4:-}
    prepare
    in_tree "$program" list > "$work/before"
    "$edit" < "$work/before" > "$work/after"
    own=$(least in_tree "$program" commit ../before ../after)
    line="$name: $own ms"
    ! has strace || line="$line, $(counted)"
    if [ "$edit" = suffix ]; then
        peer rename.ul rename.ul .txt .md
        peer file-rename file-rename 's/\.txt$/.md/'
        peer mmv mmv
    fi
    export -f "${edit?}"
    printf '#!/bin/bash\nfiles=%s\n%s\n%s < "$1" > "$1.new"\ncp "$1.new" "$1"\n' "$files" "$(declare -f "$edit")" "$edit" > "$work/editor"
    chmod 755 "$work/editor"
    export EDITOR="$work/editor" VISUAL="$work/editor"
    [ "$edit" = below ] || peer qmv qmv --format=do -e "$work/editor"
    peer vidir vidir .
    echo "$line"
}

bench '100 suffixes' 100 suffix
bench '1,000 suffixes' 1000 suffix
bench '10,000 suffixes' 10000 suffix
bench '1,000 swaps' 1000 swap b
bench 'a cycle of 1,000' 1000 cycle
bench '1,000 moves into new directories' 1000 below

# ---- the same calls

again() { in_tree python3 "$top/bench/same-calls.py" ../calls; }
least_again() { for _ in 1 2 3 4 5; do prepare; again; done | sort -n | head -1; }

# same NAME FILES EDIT [b]
same() {
    local name=$1 edit=$3 own others
    files=$2; second=${4:-}
    prepare
    in_tree "$program" list > "$work/before"
    "$edit" < "$work/before" > "$work/after"
    in_tree strace -qq -s 100000000 -o ../calls -e trace=file,desc,process "$program" commit ../before ../after > /dev/null
    own=$(least in_tree "$program" commit ../before ../after)
    others=$(least_again)
    awk -v name="$name" -v a="$own" -v b="$others" 'BEGIN { printf "%s: %s ms; the same calls by a program that does nothing else: %s ms (%.1f)\n", name, a, b, a / b }'
}
if has strace && has python3; then
    same '10,000 suffixes' 10000 suffix
    same '1,000 swaps' 1000 swap b
    same '1,000 moves into new directories' 1000 below
fi
