#!/usr/bin/env bash
# Makes every call of the tree of the host on real files, as root and as another user, and looks at what each answers, leaves and
# asks of the host. A case whose tool, right or file system is missing is skipped, and says so.
# real-tree.sh [PROGRAM [DIRED]]
set -u
export LC_ALL=C
top=$(dirname "$(readlink -f "$0")")/..
built=$(readlink -f "${1:-$top/crates/tree_calls/out/tree_calls}")
dired=${2:-$top/crates/dired_cli/out/dired_cli}
[ -x "$built" ] || { echo "real-tree: skipped, no program at $built"; exit 0; }
work=$(mktemp -d)
other=
away=
trap 'chmod -R u+rwx "$work"; rm -rf "$work" $other' EXIT
# Where this runs as root, calls are also made as another user, who must reach the program and the folder.
chmod 755 "$work"
program="$work/calls"
install -m 755 "$built" "$program"
failed=0
fail() { failed=1; printf 'FAILED %s\n' "$*"; }
skip() { printf 'real-tree: skipped, no %s: %s\n' "$1" "$2"; }
has() { command -v "$1" > /dev/null 2>&1; }

# The command that runs a program without root's rights, or nothing where there is none.
unprivileged() {
    if [ "$(id -u)" != 0 ]; then echo env
    elif has setpriv; then echo setpriv --reuid=65534 --regid=65534 --clear-groups
    elif has runuser && id nobody > /dev/null 2>&1; then echo runuser -u nobody --
    fi
}

# A new folder of the user who makes the calls.
by=
mask=022
tree="$work/tree"
fresh() {
    chmod -R u+rwx "$tree" 2> /dev/null
    rm -rf "$tree"; mkdir -m 755 "$tree"
    [ -z "$by" ] || [ "$(id -u)" != 0 ] || chown 65534:65534 "$tree"
    cd "$tree" || exit 1
}

# Each line of the input is a call and what it must answer, behind ` => `: calls NAME < LINES
calls() {
    local got
    cat > "$work/lines"
    sed 's/ =>.*//' "$work/lines" > "$work/in"
    sed 's/ => */: /; s/: $/:/' "$work/lines" > "$work/wanted"
    (umask "$mask"; exec $by "$program" < "$work/in" > "$work/printed" 2> "$work/errors"); got=$?
    if [ "$got" != 0 ] || ! cmp -s "$work/printed" "$work/wanted" || [ -s "$work/errors" ]; then
        fail "$1: status $got; wanted and printed:"
        diff "$work/wanted" "$work/printed" | head -20; head -c 2000 "$work/errors"
    fi
}

# What stands in the folder must be this: type, mode, links, path and target of each entry: stands NAME < LINES
stands() {
    find . -mindepth 1 -printf '%y %m %n %P %l\n' | sed 's/ $//; s/^\(l\|d\) \([0-7]*\) [0-9]* /\1 \2 - /' | sort -k4 > "$work/found"
    sort -k4 > "$work/wanted"
    cmp -s "$work/found" "$work/wanted" || { fail "$1: what stands, wanted and found:"; diff "$work/wanted" "$work/found" | head -20; }
}

# ---- every call, for this user and mask

every_call() {
    local who="$1"
    fresh
    calls "what is made, $who" <<'L'
make_dir d 755 => done
make_dir s 2775 => done
make_dir s/below 755 => done
make_dir t 1777 => done
make_dir u 4750 => done
make_dir all 7777 => done
make_dir blind 300 => done
make_dir shut 0 => done
make_dir d 755 => failed
make_dir x/y 755 => failed
make_dir . 755 => failed
make_dir over 10000 => failed
make_link l d => done
make_link l d => failed
make_link nowhere gone => done
make_link d/l ../d => done
make_link x/l d => failed
make_link . d => failed
make_dir nowhere 755 => failed
make_dir l/in 755 => failed
write_file d/f 644 hello => done
write_file d/f 644 again => failed
write_file d/empty 600 => done
write_file d/readonly 400 text => done
write_file d/none 0 text => done
write_file d/user 4755 text => done
write_file d/group 2755 text => done
write_file l/f 644 text => failed
write_file nowhere 644 text => failed
write_file x/f 644 text => failed
write_file d/f/x 644 text => failed
write_file . 644 text => failed
write_file over 10000 text => failed
make_hard d/g d/f => done
make_hard d/g d/f => failed
make_hard d/h l => failed
make_hard d/h d => failed
make_hard d/h nothing => failed
make_hard d/h l/f => failed
make_hard l/h d/f => failed
read d/f 5 => 5 bytes
read d/f 4 => too large
read d/empty 0 => 0 bytes
read l/f 9 => failed
read l 9 => failed
read d 9 => failed
read . 9 => failed
read nothing 9 => failed
sync => done
L
    stands "what is made, $who" <<'L'
d 755 - d
d 2775 - s
d 755 - s/below
d 1777 - t
d 4750 - u
d 7777 - all
d 300 - blind
d 0 - shut
l 777 - l d
l 777 - nowhere gone
l 777 - d/l ../d
f 644 2 d/f
f 600 1 d/empty
f 400 1 d/readonly
f 0 1 d/none
f 4755 1 d/user
f 2755 1 d/group
f 644 2 d/g
L
    calls "modes, moves and removals, $who" <<'L'
set_mode d/f 600 => done
mode d/g => 600
set_mode d/f 4711 => done
set_mode d/none 640 => done
set_mode d/readonly 0 => done
set_mode blind 1300 => done
set_mode l 755 => failed
set_mode nothing 755 => failed
set_mode l/f 644 => failed
set_mode d/f 10000 => failed
mode d/f => 4711
mode l => failed
sync => done
rename d/g blind/g => done
sync => done
rename d e => done
kind e/f => file
kind d/f => nothing
kind l => link
rename e e/x => failed
rename e e => failed
rename e l => failed
rename e blind => failed
rename e x/y => failed
rename e l/x => failed
rename . y => failed
rename nothing y => failed
rename e/l m => done
is_empty s => false
is_empty s/below => true
is_empty e/f => failed
remove e => failed
remove nothing => failed
remove l/f => failed
remove . => failed
remove l => done
remove nowhere => done
remove m => done
remove e/none => done
remove_dir e => failed
remove_dir e/f => failed
remove_dir . => failed
remove_dir nothing => failed
remove_dir s => failed
remove_dir s/below => done
remove_dir s => done
remove_dir t => done
remove_dir u => done
remove_dir all => done
remove_dir shut => done
remove blind/g => done
remove_dir blind => done
sync => done
sync => done
names . => e
names e => empty f group readonly user
L
    stands "modes, moves and removals, $who" <<'L'
d 755 - e
f 4711 1 e/f
f 600 1 e/empty
f 0 1 e/readonly
f 4755 1 e/user
f 2755 1 e/group
L
}

every_call 'as the caller'
mask=077; every_call 'as the caller, mask 077'; mask=022
unprivileged=$(unprivileged)
if [ "$unprivileged" != env ] && [ -n "$unprivileged" ]; then
    by=$unprivileged
    every_call 'as another user'
    mask=077; every_call 'as another user, mask 077'; mask=022
    by=
elif [ -z "$unprivileged" ]; then skip 'user without rights' 'every call as another user'; fi

# ---- what only a user without rights meets

if [ -n "$unprivileged" ]; then
    by=$unprivileged
    fresh; mkdir shut; : > shut/f; chmod 0 shut; : > foreign; mkdir foreign_dir; : > foreign_dir/f
    [ "$(id -u)" != 0 ] || chown 65534:65534 shut
    if [ "$(id -u)" = 0 ]; then
        calls 'without rights' <<'L'
kind shut/f => failed
read shut/f 9 => failed
rename foreign_dir/f g => failed
rename foreign shut/g => failed
make_dir foreign_dir/x 755 => failed
remove foreign_dir/f => failed
set_mode foreign 600 => failed
mode foreign => 644
sync => done
L
    else skip root "another user's files"; fi
    # A working directory that can't be read is no tree.
    for mode in 300 0; do
        fresh; : > f; chmod "$mode" "$tree"
        $by "$program" < /dev/null > "$work/printed" 2> "$work/errors"; got=$?
        [ "$got" = 40 ] || fail "a working directory of mode $mode: status $got"
        chmod 755 "$tree"
    done
    # Where no program can be started, the first sync fails, and each later one does: the first may have told of a lost write.
    fresh
    printf 'make_dir d 755\nsync\nmake_dir d/e 755\nrename d f\nsync\nkind f/e\n' > "$work/in"
    (ulimit -u 0 && exec $by "$program" < "$work/in" > "$work/printed" 2> "$work/errors")
    [ "$(sed 's/.*: //' "$work/printed" | paste -sd' ')" = 'done failed done done failed directory' ] ||
        { fail 'a sync that failed'; cat "$work/printed" "$work/errors"; }
    # The set-group bit is taken away where the group is another one: the call fails, and the old mode stands.
    fresh; printf text > f; mkdir d; chmod 640 f; chmod 750 d
    if [ "$(id -u)" = 0 ] && chown 65534:0 f d; then
        calls 'a set-group bit that the host takes away' <<'L'
set_mode f 2755 => failed
set_mode d 2755 => failed
mode f => 640
mode d => 750
set_mode f 4750 => done
sync => done
L
    else skip root 'a set-group bit that the host takes away'; fi
    # Directories made in one with the set-group bit get it from the host, and lose it again where it wasn't asked for.
    fresh
    calls 'in a directory with the set-group bit' <<'L'
make_dir s 2755 => done
make_dir s/d 755 => done
mode s/d => 755
make_dir s/e 2711 => done
mode s/e => 2711
L
    by=
fi

# ---- reminders of directories whose mode is still to be set

# What a killed run left is done by the first sync, or before the next such directory is made.
fresh; mkdir staging made left; chmod 2700 made left; : > left/f; : > file; : > staging/f8
# A link in the staging directory, and what stands at its target behind the sync: heeded TARGET MODE
heeded() {
    ln -s "$1" staging/f9
    calls "a reminder of $1" <<L
leave_reminders staging/f9 755 => done
kind staging/f9 => link
sync => done
kind staging/f9 => nothing
L
    [ ! -e "$1" ] || [ "$(stat -c %a "$1")" = "$2" ] || fail "a reminder of $1: $(stat -c %a "$1") in place of $2"
}
heeded made 755
heeded left 2700
chmod 600 file; heeded file 600
heeded nothing 0
heeded ../tree 755; chmod 2700 made; heeded "$work/tree/made" 2700
ln -s made link; heeded link 777; heeded link/x 0
[ "$(stat -c %a made)" = 2700 ] || fail "a reminder of a link: $(stat -c %a made) where it leads"
ln -s made staging/f9
calls 'the call that makes the next one' <<'L'
make_dir s 2755 => done
leave_reminders staging/f9 755 => done
make_dir s/d 755 => done
kind staging/f9 => nothing
mode made => 755
mode s/d => 755
leave_reminders . 755 => failed
leave_reminders ../x 755 => failed
L
# None is left where the directory of reminders doesn't stand, and what isn't a link is no reminder.
calls 'no reminder' <<'L'
leave_reminders nothing/f9 755 => done
make_dir s/e 755 => done
mode s/e => 755
sync => done
leave_reminders staging/f8 755 => done
sync => done
kind staging/f8 => file
L
if has strace && strace -qq -o "$work/trace" true 2> /dev/null; then
    # The calls that make a directory s/d: made_by MASK WANTED
    made_by() {
        fresh; mkdir staging; mkdir s
        [ -z "$3" ] || chmod "$3" s
        printf 'leave_reminders staging/f9 755\nmake_dir s/d 755\n' > "$work/in"
        (umask "$1"; exec strace -qq -o "$work/trace" -e trace=symlink,symlinkat,mkdir,mkdirat,chmod,fchmod,fchmodat,unlink,unlinkat \
            "$program" < "$work/in" > "$work/printed" 2> "$work/errors")
        sed 's/(.*//; s/at$//; s/^fchmod$/chmod/' "$work/trace" | paste -sd' ' > "$work/asked"
        [ "$(cat "$work/asked")" = "$2" ] || fail "a directory in one of mode $3, mask $1: $(cat "$work/asked")"
        [ "$(stat -c %a s/d)" = 755 ] || fail "a directory in one of mode $3, mask $1: $(stat -c %a s/d)"
    }
    made_by 022 'mkdir' 755
    made_by 0 'mkdir' 755
    made_by 022 'symlink mkdir chmod unlink' 2755
    made_by 077 'symlink mkdir chmod unlink' 755
    made_by 007 'symlink mkdir chmod unlink' 755
    # Killed at each of these calls, or with each of them failing: the next run's sync leaves nothing, or the directory with its mode.
    for place in symlink mkdir fchmod unlink; do
        fresh; mkdir staging; mkdir -m 2755 s; chmod 2755 s
        printf 'leave_reminders staging/f9 755\nmake_dir s/d 755\n' > "$work/in"
        strace -qq -o "$work/trace" -e trace="?$place,?${place}at" -e inject="?$place,?${place}at:signal=KILL" "$program" < "$work/in" > "$work/printed" 2> "$work/errors"
        printf 'leave_reminders staging/f9 755\nsync\n' | "$program" > "$work/printed"
        [ "$(sed 's/.*: //' "$work/printed" | paste -sd' ')" = 'done done' ] || { fail "killed at $place: the sync failed"; cat "$work/printed"; }
        [ -z "$(ls -A staging)" ] || fail "killed at $place: a reminder stands"
        [ ! -e s/d ] || [ "$(stat -c %a s/d)" = 755 ] || fail "killed at $place: $(stat -c %a s/d)"
        fresh; mkdir staging; mkdir -m 2755 s; chmod 2755 s
        strace -qq -o "$work/trace" -e trace="?$place,?${place}at" -e inject="?$place,?${place}at:error=EIO:when=1" "$program" < "$work/in" > "$work/printed" 2> "$work/errors"
        wanted=failed
        [ $place != unlink ] || wanted='done'
        [ "$(sed -n 's/^make_dir.*: //p' "$work/printed")" = $wanted ] || { fail "$place fails once"; cat "$work/printed"; }
        [ -z "$(ls -A staging)" ] || fail "$place fails once: a reminder stands"
        if [ $wanted = done ]; then [ "$(stat -c %a s/d)" = 755 ]; else [ ! -e s/d ]; fi || fail "$place fails once: what stands at s/d"
    done
    # Where the reminder can't be removed, the directory is taken back.
    fresh; mkdir staging; mkdir -m 2755 s; chmod 2755 s
    strace -qq -o "$work/trace" -e trace='?unlink,?unlinkat' -e inject='?unlink,?unlinkat:error=EIO' "$program" < "$work/in" > "$work/printed" 2> "$work/errors"
    grep -q 'make_dir.*failed' "$work/printed" && [ ! -e s/d ] && [ -L staging/f9 ] || fail 'a reminder that stays'
else skip strace 'the calls that make a directory'; fi

# ---- entries of other kinds

fresh; : > f; mkdir d
if has mkfifo && mkfifo pipe; then
    [ "$(id -u)" != 0 ] || mknod device c 1 3 2> /dev/null || true
    for name in pipe device; do
        [ -e "$name" ] || { skip "$name" 'a device'; continue; }
        calls "a $name" <<L
kind $name => failed
mode $name => failed
meta $name => failed
read $name 9 => failed
is_empty $name => failed
rename $name g => failed
rename f $name => failed
make_dir $name 755 => failed
make_link $name f => failed
make_hard g $name => failed
write_file $name 644 text => failed
set_mode $name 644 => failed
remove $name => failed
remove_dir $name => failed
kind $name/x => nothing
L
        [ -e "$name" ] || fail "a $name: it is gone"
    done
    calls 'beside a pipe' <<'L'
names . => d f
rename d/pipe g => failed
L
    mv pipe d/pipe
    calls 'a directory with a pipe alone' <<'L'
names d =>
is_empty d => false
remove_dir d => failed
rename d e => done
sync => done
L
else skip mkfifo 'a pipe'; fi

# ---- programs of a stranger

fresh
for name in stat sync sh; do printf '#!/bin/sh\necho ran >> "%s/ran"\n' "$work" > "$name"; chmod 755 "$name"; done
mkdir d; for name in stat sync; do cp "$name" d/; done
saved=$PATH
PATH=.::$PATH:$tree/d calls 'a PATH with the folder in front' <<'L'
names d => stat sync
rename d/stat d/x => done
sync => done
rename d/x d/stat => done
sync => done
L
printf 'meta d/stat\nmeta .\nsync\n' | PATH=.::$PATH "$program" > "$work/printed"
grep -q failed "$work/printed" && fail 'the fields under a PATH with the folder in front'
printf 'meta d/stat\nsync\nsync\n' | env -i PATH=/nothing "$program" > "$work/printed"
grep -q failed "$work/printed" && fail 'a PATH that leads nowhere'
printf 'meta d/stat\nsync\nsync\n' | env -i "$program" > "$work/printed"
grep -q failed "$work/printed" && fail 'no PATH'
PATH=$saved
[ ! -e "$work/ran" ] || fail 'a program of the folder was run'
# Names that a program could take for an option.
fresh; : > ./-f; mkdir ./--help; [ "$(id -u)" != 0 ] || chown 54321:54322 ./-f ./--help
printf 'meta -f\nmeta --help\n' | "$program" > "$work/printed"
[ "$(id -u)" != 0 ] || [ "$(grep -c ' 54321 54322 ' "$work/printed")" = 2 ] || fail 'names that look like options'
grep -q failed "$work/printed" && fail 'names that look like options'

# ---- a chain of a thousand directories

fresh
chain=$(printf 'dd/%.0s' $(seq 1000)); chain=${chain%/}
{
    path=
    for _ in $(seq 1000); do path=${path:+$path/}dd; echo "make_dir $path 755"; done
    echo "write_file $chain/f 644 text"; echo sync
    echo "rename $chain/f $chain/g"; echo sync
    echo "meta $chain/g"
    echo "remove $chain/g"
    while [ -n "$path" ]; do echo "remove_dir $path"; case $path in */*) path=${path%/*} ;; *) path= ;; esac; done
    echo sync
} > "$work/in"
start=$(date +%s%N)
"$program" < "$work/in" > "$work/printed"; got=$?
took=$((($(date +%s%N) - start) / 1000000))
{ [ "$got" = 0 ] && [ "$(grep -c ': done$' "$work/printed")" = 2006 ] && [ -z "$(ls -A)" ]; } ||
    { fail "a chain of a thousand directories: status $got, $(grep -c ': done$' "$work/printed") done"; grep -v ': done$' "$work/printed" | cut -c1-100 | head -5; }
printf 'real-tree: a chain of a thousand directories made, synced and taken away in %s ms\n' "$took"

# ---- other devices

there=/dev/shm
if [ -w "$there" ] && [ "$(stat -c %d "$there")" != "$(stat -c %d /)" ]; then
    other=$(mktemp -d "$there/real-tree.XXXXXX")
    away=${other#/}
    cd / || exit 1
    calls 'a folder on another device' <<L
make_dir $away/d 2711 => done
write_file $away/d/f 640 text => done
make_hard $away/d/g $away/d/f => done
make_link $away/l d/f => done
sync => done
rename $away/d/f $away/f => done
rename $away/d $away/e => done
set_mode $away/f 4600 => done
sync => done
rename $away/f ${work#/}/f => failed
rename $away/f ${work#/}/tree/f => failed
make_hard ${work#/}/tree/f $away/f => failed
sync => done
read $away/e/g 4 => 4 bytes
names $away => e f l
remove $away/f => done
sync => done
L
    printf 'meta %s\n' "$away/e/g" "$away/l" "$away/e" "$away/e/g" "${program#/}" > "$work/in"
    "$program" < "$work/in" | sed 's/.*: //' | awk '{ print $7 }' > "$work/printed"
    awk 'NR <= 4 { if (length($1) != 19 || $1 < "9223372036854775808") exit 1; seen[NR] = $1 "" }
        END { if (seen[1] != seen[4] || seen[1] == seen[2] || seen[2] == seen[3] || seen[1] == seen[3]) exit 1 }' "$work/printed" ||
        { fail 'numbers of files on another device'; cat "$work/printed"; }
    [ "$(sed -n 5p "$work/printed")" = "$(stat -c %i "$program")" ] || [ "$(stat -c %d "$program")" != "$(stat -c %d /)" ] || fail 'the number of a file on the root'
    cd "$work" || exit 1
else skip "$there on a device of its own" 'a folder on another device'; fi
if [ -x "$dired" ]; then
    (cd / && "$dired" list > "$work/printed" 2> "$work/errors"); got=$?
    [ "$got" = 0 ] || fail "the listing of /, with its mount points: status $got"
    for name in /*; do
        if [ -d "$name" ] && [ ! -L "$name" ]; then
            case $name in *[!A-Za-z0-9/._-]*) continue ;; esac
            grep -q " ${name#/}\$" "$work/printed" || fail "the listing of /: no $name"
        fi
    done
else skip "program at $dired" 'the listing of /'; fi
overlay=
for dir in / /tmp /var/tmp "$HOME" /run "$top"; do
    if [ -w "$dir" ] && [ "$(stat -f -c %T "$dir" 2> /dev/null)" = overlayfs ]; then overlay=$dir; break; fi
done
if [ -n "$overlay" ]; then
    tree=$(mktemp -d "$overlay/real-tree.XXXXXX"); other="$other $tree"
    every_call 'on an overlay'
    tree="$work/tree"
else skip 'overlay file system' 'every call on an overlay'; fi

# ---- what is asked of the host

# The calls of the host that the calls of the tree make: traced NAME < CALLS
traced() {
    cat > "$work/in"
    $by strace -f -qq -y -o "$work/trace" -e trace=fsync,rename,renameat,renameat2,execve,mkdir,openat,statx,newfstatat,lstat "$program" < "$work/in" > "$work/printed" 2> "$work/errors"
    grep -q failed "$work/printed" && fail "$1: a call failed"
    # From the first rename on.
    sed -n '/rename/,$p' "$work/trace" > "$work/behind"
}
counted() { grep -c "$1" "$2"; }
fresh
if has strace && strace -qq -o "$work/trace" true 2> /dev/null; then
    case $(stat -f -c %T .) in ext2/ext3 | xfs | btrfs | f2fs | tmpfs) known=1 ;; *) known= ;; esac
    chmod 777 "$work"
    fresh; mkdir d e; : > d/f
    traced 'the open' < /dev/null
    [ "$(counted execve "$work/trace")" = 1 ] && [ "$(counted fsync "$work/trace")" = 0 ] || fail 'the open starts a program or syncs'
    if [ -n "$known" ]; then
        traced 'a rename across two directories' <<'L'
sync
rename d/f e/f
sync
L
        grep execve "$work/trace" | grep -q '"sync", "-f", "\."' || fail 'the first sync is no whole one'
        [ "$(counted execve "$work/behind")" = 0 ] || fail 'a rename: a program was started'
        [ "$(counted 'fsync(' "$work/behind")" = 2 ] && grep -q 'fsync([0-9]*<.*/d>' "$work/behind" && grep -q 'fsync([0-9]*<.*/e>' "$work/behind" ||
            { fail 'a rename: the parents were not synced'; cat "$work/behind"; }
        mv e/f d/f
        traced 'notes move with a rename' <<'L'
sync
make_dir d/x 700
rename d g
rename g/f g/h
sync
L
        { [ "$(counted execve "$work/behind")" = 0 ] && grep -q 'fsync([0-9]*<.*/g>' "$work/behind" && grep -q 'fsync([0-9]*<.*/g/x>' "$work/behind"; } ||
            { fail 'notes move with a rename'; cat "$work/behind"; }
        fresh; mkdir d; : > a
        { echo sync; echo 'rename a b'; for i in $(seq 60); do echo "make_dir d/$i 755"; done; echo sync; } | traced 'sixty directories'
        [ "$(counted execve "$work/behind")" = 0 ] && [ "$(counted 'fsync(' "$work/behind")" = 62 ] || fail "sixty directories: $(counted 'fsync(' "$work/behind") synced"
        { echo sync; echo 'rename b a'; for i in $(seq 61 130); do echo "make_dir d/$i 755"; done; echo sync; } | traced 'seventy directories'
        [ "$(counted 'execve(.*"sync", "-f", "\."' "$work/behind")" = 1 ] && [ "$(counted 'fsync(' "$work/behind")" = 0 ] || fail 'seventy directories: not one whole sync'
        if [ -n "$unprivileged" ] && $unprivileged strace -qq -o /dev/null true 2> /dev/null; then
            rm -f "$work/trace"; by=$unprivileged
            fresh; $by mkdir d; $by touch d/f; $by mkdir -m 300 blind
            traced 'into a directory that may not be read' <<'L'
sync
rename d/f blind/f
sync
L
            [ "$(counted 'execve(.*"sync", "-f", "\."' "$work/behind")" = 1 ] || { fail 'into a directory that may not be read: no whole sync'; cat "$work/behind"; }
            by=
        else skip 'trace of another user' 'a sync of a directory that may not be read'; fi
    else skip 'file system that is known' 'the syncs of directories'; fi
    chmod 755 "$work"; rm -f "$work/trace"
    # What was touched on another device is synced there, and where all was touched, its whole file system too.
    if [ -n "$away" ] && [ "$(stat -f -c %T /)" = ext2/ext3 ] && [ "$(stat -f -c %T "$there")" = tmpfs ]; then
        mkdir -p "/$away/x"; : > "/$away/a"
        cd / || exit 1
        traced 'a rename on another device' <<L
kind $away/a
sync
rename $away/a $away/x/b
sync
L
        cd "$work" || exit 1
        grep -q "execve(.*\"sync\", \"-f\", \"./${there##*/}\"" "$work/trace" || fail 'the first sync leaves another file system out'
        [ "$(counted 'fsync(' "$work/behind")" = 2 ] && [ "$(counted 'execve(.*"sync"' "$work/behind")" = 0 ] && grep -q "fsync([0-9]*</$away/x>" "$work/behind" ||
            { fail 'a rename on another device'; cat "$work/behind"; }
    else skip 'known device of its own' 'a sync on another device'; fi
    # One look of the host for each entry of a directory that was just looked at.
    fresh; mkdir -p a/b/c; for i in $(seq 100); do : > "a/b/c/$i"; done
    for i in $(seq 100); do echo "kind a/b/c/$i"; done | strace -qq -o "$work/trace" -e trace=statx,newfstatat,lstat "$program" > "$work/printed"
    looks=$(counted '"a' "$work/trace")
    [ "$looks" = 103 ] || fail "a hundred looks in one directory: $looks looks of the host, wanted 103"
    for i in $(seq 3000); do : > "a/$i"; done
    echo 'is_empty a' | strace -qq -o "$work/trace" -e trace=getdents64 "$program" > "$work/printed"
    [ "$(counted getdents64 "$work/trace")" = 1 ] || fail 'whether a directory is empty: more than its first names were read'
else skip strace 'what is asked of the host'; fi

[ "$failed" = 0 ] && echo 'real-tree: all as it should be'
exit "$failed"
