#!/usr/bin/env bash
# In a throw-away folder: an edit of many names, the same edit killed in the middle, and its recovery forward and back.
# demo.sh PROGRAM
set -eu
program=$(readlink -f "$1")
work=$(mktemp -d)
trap 'rm -rf "$work"' EXIT

# A folder of 60 photos, its listing, and an edit by which each two of them trade names and the last one moves.
fresh() {
    rm -rf "$work/photos"
    mkdir "$work/photos"
    for n in $(seq 101 160); do echo "picture $n" > "$work/photos/img_$n.jpg"; done
    (cd "$work/photos" && "$program" list) > "$work/before"
    awk '/img_1[0-9][0-9]/ { n = substr($0, length($0) - 6, 3) + 0
            other = n % 2 ? n + 1 : n - 1
            name = n == 160 ? "best/of/img_159.jpg" : "img_" other ".jpg"
            $0 = substr($0, 1, length($0) - 11) name } { print }' "$work/before" > "$work/after"
}

# What stands under three of the names, and in the staging directory.
shown() {
    for name in img_101.jpg img_102.jpg best/of/img_159.jpg; do
        [ ! -e "$work/photos/$name" ] || echo "$name: $(cat "$work/photos/$name")"
    done
    [ ! -e "$work/photos/.wdired-commit" ] || (cd "$work/photos" && ls -A .wdired-commit)
}

# Kills a commit behind its first steps, unless it has ended before.
kill_one() {
    fresh
    (cd "$work/photos" && exec "$program" commit ../before ../after) > "$work/told" 2>&1 &
    local commit=$!
    until ls "$work"/photos/.wdired-commit/at-[1-9]* > "$work/markers" 2>&1; do
        kill -0 "$commit" 2> "$work/gone" || break
    done
    kill -9 "$commit" 2> "$work/gone" || true
    wait "$commit" 2> "$work/gone" || true
    ls "$work"/photos/.wdired-commit/at-[1-9]* > "$work/markers" 2>&1
}

# Kills a commit in the middle.
killed() {
    for _ in $(seq 50); do
        if kill_one; then return; fi
    done
    echo 'the commit ended before it could be killed'
    exit 1
}

fresh
printf -- '--- two lines of 60, before and after\n'; sed -n '4,5p' "$work/before"; sed -n '4,5p' "$work/after"
printf -- '--- dired commit\n'; (cd "$work/photos" && "$program" commit ../before ../after); shown
killed
printf -- '--- the same edit, killed in the middle\n'; shown
printf -- '--- dired recover\n'; (cd "$work/photos" && "$program" recover); shown
killed
printf -- '--- and killed again\n'; shown
printf -- '--- dired recover --back\n'; (cd "$work/photos" && "$program" recover --back); shown
