#!/usr/bin/env bash
# Lists real folders with the built program, and compares each listing with what `lstat` (by python3) and `ls` say of the folder.
# A case whose tool is missing is skipped, and says so.
# real-listing.sh [PROGRAM]
set -u
export TZ=UTC LC_ALL=C
here=$(dirname "$(readlink -f "$0")")
built=$(readlink -f "${1:-$here/../crates/dired_cli/out/dired_cli}")
[ -x "$built" ] || { echo "real-listing: no program at $built"; exit 1; }
work=$(mktemp -d)
trap 'chmod -R u+rwx "$work"; rm -rf "$work"' EXIT
# Where this runs as root, permissions are tried as another user, who must reach the program and the folder.
chmod 755 "$work"
program="$work/dired"
install -m 755 "$built" "$program"
failed=0
fail() { failed=1; printf 'FAILED %s\n' "$*"; }
skip() { printf 'real-listing: skipped, no %s: %s\n' "$1" "$2"; }
has() { command -v "$1" > /dev/null 2>&1; }

fresh() { rm -rf "$work/tree"; mkdir -m 755 "$work/tree"; cd "$work/tree" || exit 1; }
# What stands in the folder: type, mode, inode, size, path and target of each entry.
shown() { find "$work/tree" -printf '%y %m %i %s %p %l\n' 2> /dev/null | sort; }

# The command that runs a program without root's rights, or nothing where there is none.
unprivileged() {
    if [ "$(id -u)" != 0 ]; then echo env
    elif has setpriv; then echo setpriv --reuid=65534 --regid=65534 --clear-groups
    elif has runuser && id nobody > /dev/null 2>&1; then echo runuser -u nobody --
    fi
}

# Runs the program in the folder; its status and output must be these, and the folder must stay:
# run NAME STATUS OUTPUT WORDS..
by=
run() {
    local name=$1 status=$2 output=$3 before got; shift 3
    before=$(shown)
    $by "$program" "$@" > "$work/printed" 2> "$work/errors"; got=$?
    printf '%s' "$output" > "$work/wanted"
    if [ "$got" != "$status" ] || ! cmp -s "$work/printed" "$work/wanted" || [ -s "$work/errors" ]; then
        fail "$name: status $got, wanted $status; printed:"
        head -c 2000 "$work/printed"; head -c 2000 "$work/errors"
    fi
    [ "$(shown)" = "$before" ] || fail "$name: the folder changed"
}

# The listing of the directories must be the one that python3 writes: lists NAME DIR..
lists() {
    local name=$1 got; shift
    has python3 || { skip python3 "$name"; return; }
    python3 "$here/listing-by-lstat.py" "$@" > "$work/wanted" || { fail "$name: python3"; return; }
    "$program" list "$@" > "$work/printed" 2> "$work/errors"; got=$?
    if [ "$got" != 0 ] || ! cmp -s "$work/printed" "$work/wanted" || [ -s "$work/errors" ]; then
        fail "$name: status $got; wanted and printed:"
        diff "$work/wanted" "$work/printed" | head -40; head -c 2000 "$work/errors"
    fi
}

# Field by field and line by line as `ls` has it, where names have neither blanks nor escapes. `ls` shows an access list by a byte
# behind the mode, and lists pipes and sockets.
as_ls() {
    # shellcheck disable=SC2012
    ls -lA --time-style=long-iso | sed -n 's/^\([-dl].........\)[.+@]*/\1/p' | awk '{ $1 = $1; print }' > "$work/wanted"
    "$program" list | sed -n '4,$s/^  //p' | awk '{ $1 = $1; print }' > "$work/printed"
    cmp -s "$work/wanted" "$work/printed" || { fail "$1: as ls has it and as printed:"; diff "$work/wanted" "$work/printed" | head -40; }
}

fresh; run 'an empty folder' 0 $'dired 1\n  .:\n  total 0\n' list

# ---- fields

fresh
for mode in 0 644 755 4755 4644 2755 2645 1644 1755 6777 7777; do : > "f$mode"; chmod "$mode" "f$mode"; done
for mode in 700 755 1777 2775 1770; do mkdir "d$mode"; chmod "$mode" "d$mode"; done
: > Upper; : > lower; : > _; : > ./10; : > ./9; : > .hidden; : > 'name~'
printf 'hello' > five; ln five five.again; ln five d755/five
head -c 123456 /dev/zero > large; truncate -s 5G sparse 2> /dev/null || rm -f sparse
ln -s five to_file; ln -s d755 to_dir; ln -s nothing to_nothing; ln -s /etc/passwd absolute; ln -s ../five d755/up
touch -d '1969-12-31 23:59:30' before_1970; touch -d '1960-02-29 12:00' leap; touch -d '2037-06-01 00:00:59' later
touch -h -d '2001-02-03 04:05:06' to_file
[ "$(id -u)" != 0 ] || { : > nobodys; chown 54321:54322 nobodys; : > another; chown 54321:0 another; }
lists 'fields'; lists 'fields of a directory' d755; as_ls 'fields'
lists 'directories in the order of their paths, each once' d755 d1777 ./d755 d700/../d755 .

# ---- names

fresh
mkdir 'a dir'; : > 'a dir/-x'
for name in plain 'a space' ' first' 'last ' $'new\nline' $'tab\there' $'return\r' $'bell\a' $'delete\x7f' 'back\slash' 'back\nslash' \
    -dash -- "quo'te" 'dou"ble' 'a -> b' 'née' '日本' '*' '?' '[x]' '#' '~' '%U' '$HOME' '`ls`' ... '.wdired' "$(printf '%0255d' 0)"; do
    : > "./$name"
done
ln -s 'a -> b' 'c -> d'; ln -s $'new\nline' 'to a new line'; ln -s 'née' link
lists 'names'; lists 'names in a directory with a space' 'a dir'

# A path of 4,000 bytes: nineteen names of 200 bytes, and one of 181.
fresh
deep=$(printf '%0200d/' $(seq 19))$(printf '%0181d' 0)
mkdir -p "$deep"; : > "$deep/x"; ln -s x "$deep/l"
[ "$(id -u)" != 0 ] || chown 1:1 "$deep/x"
lists 'a long path' "$deep"

# ---- links are not followed

fresh; mkdir -p d/e; : > d/e/x; ln -s d l; ln -s e d/l; ln -s nothing n; : > f
run 'a link to a directory' 6 $'dired: no such input: l\n' list l
run 'a link in the middle' 6 $'dired: no such input: d/l/x\n' list d/l/x
run 'below a link' 6 $'dired: no such input: l/e\n' list l/e
run 'a link to nothing' 6 $'dired: no such input: n\n' list n
run 'a file' 6 $'dired: no such input: f\n' list f
run 'below a file' 6 $'dired: no such input: f/x\n' list f/x
run 'nothing' 6 $'dired: no such input: nosuch\n' list d nosuch

# ---- what no tree has

fresh; : > a; : > $'bad\xff'
run 'a name that is no UTF-8' 4 $'dired: names failed; nothing was decided\n' list
fresh; mkdir d; : > d/$'\xc3'
run 'a name that is no UTF-8 in a directory' 4 $'dired: names failed; nothing was decided\n' list d
lists 'beside a directory with such a name'
fresh; : > a; ln -s $'bad\xff' l
run 'a target that is no UTF-8' 4 $'dired: meta failed; nothing was decided\n' list
if has mkfifo; then
    fresh; : > a; : > z; mkfifo pipe; ln -s pipe to_pipe
    lists 'a pipe'; as_ls 'a pipe'
    run 'a pipe as directory' 4 $'dired: kind failed; nothing was decided\n' list pipe
else skip mkfifo 'a pipe'; fi
if has python3; then
    fresh; : > a; python3 -c 'import socket; socket.socket(socket.AF_UNIX).bind("socket")'
    lists 'a socket'; as_ls 'a socket'
else skip python3 'a socket'; fi

# ---- permissions

by=$(unprivileged)
if [ -n "$by" ] && $by "$program" list > /dev/null 2>&1; then
    fresh; mkdir d; : > d/x; chmod 0 d
    run 'a directory that may not be read' 4 $'dired: names failed; nothing was decided\n' list d
    run 'below it' 4 $'dired: kind failed; nothing was decided\n' list d/x
    chmod 644 d
    run 'a directory that may not be searched' 4 $'dired: names failed; nothing was decided\n' list d
    chmod 755 d; : > x; chmod 644 x; "$program" list > "$work/before"; cp "$work/before" "$work/after"; chmod 0 "$work/before"; chmod 644 "$work/after"
    run 'an unreadable BEFORE' 3 $'dired: cannot read ../before\n' commit ../before ../after
    chmod 644 "$work/before"; chmod 0 "$work/after"
    run 'an unreadable AFTER' 3 $'dired: cannot read ../after\n' commit ../before ../after
    rm -f "$work/before" "$work/after"
else skip 'user without rights' 'permissions'; fi
by=

# ---- the output

fresh; for i in $(seq 2000); do : > "$(printf 'a_name_that_makes_the_listing_longer_than_a_pipe_holds_%04d' "$i")"; done
before=$(shown)
"$program" list >&- 2> "$work/errors"; got=$?
[ "$got" = 5 ] || fail "a closed output: status $got"
"$program" list 2> "$work/errors" | head -1 > "$work/printed"; got=${PIPESTATUS[0]}
{ [ "$got" = 5 ] && [ "$(cat "$work/printed")" = 'dired 1' ]; } || fail "a reader that goes: status $got"
if [ -e /dev/full ]; then
    "$program" list > /dev/full 2> "$work/errors"; got=$?
    [ "$got" = 5 ] || fail "a full disk: status $got"
else skip /dev/full 'a full disk'; fi
[ "$(shown)" = "$before" ] || fail 'the output: the folder changed'

[ "$failed" = 0 ] && echo 'real-listing: all as it should be'
exit "$failed"
