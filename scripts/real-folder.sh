#!/usr/bin/env bash
# Runs the built program on real folders, and compares what it answers, prints and leaves with what it should.
# real-folder.sh [PROGRAM]
set -u
top=$(dirname "$(readlink -f "$0")")/..
program=$(readlink -f "${1:-$top/crates/dired_cli/out/dired_cli}")
[ -x "$program" ] || { echo "real-folder: no program at $program"; exit 1; }
work=$(mktemp -d)
trap 'rm -rf "$work"' EXIT
failed=0

# A fresh folder with the files a and b, its listing in before, and a copy of it in after.
fresh() {
    rm -rf "${work:?}"/*
    mkdir "$work/tree"
    printf 'first\n' > "$work/tree/a"
    printf 'second\n' > "$work/tree/b"
    chmod 644 "$work"/tree/*
    (cd "$work/tree" && "$program" list > "$work/before")
    cp "$work/before" "$work/after"
}

# The names in the folder with the inode and the bytes of each.
shown() { (cd "$work/tree" && for f in $(find . -mindepth 1 -maxdepth 1 -printf "%f\n" | sort); do printf '%s %s %s\n' "$f" "$(stat -c %i "$f")" "$(md5sum < "$f")"; done); }

# Runs the program in the folder, with at most `limit` KiB of memory where that is set; its status and output must be these: run NAME STATUS OUTPUT WORDS..
limit=
run() {
    local name=$1 status=$2 output=$3; shift 3
    (cd "$work/tree" && { [ -z "$limit" ] || ulimit -v "$limit"; } && "$program" "$@" > "$work/printed" 2> "$work/errors"); local got=$?
    printf '%s' "$output" > "$work/wanted"
    if [ "$got" != "$status" ] || ! cmp -s "$work/printed" "$work/wanted" || [ -s "$work/errors" ]; then
        failed=1
        printf 'FAILED %s: status %s, wanted %s; printed:\n' "$name" "$got" "$status"
        cat "$work/printed" "$work/errors"
    fi
}
unchanged() { [ "$(shown)" = "$2" ] || { failed=1; echo "FAILED $1: the folder changed"; }; }

done_one=$'renamed 1, retargeted 0, modes 0, replaced 0, made 0, flagged 0\n'
done_none=$'renamed 0, retargeted 0, modes 0, replaced 0, made 0, flagged 0\n'

fresh; sed -i 's/ a$/ c/' "$work/after"; before=$(shown)
run 'one name' 0 "$done_one" commit ../before ../after
unchanged 'one name' "$(printf '%s\n' "$before" | sed 's/^a /c /' | sort)"

fresh; sed -i 's/ a$/ née x/' "$work/after"
run 'a name with a space and a letter beyond ASCII' 0 "$done_one" commit ../before ../after
[ "$(cat "$work/tree/née x")" = first ] || { failed=1; echo 'FAILED: the new name'; }

fresh; mkdir "$work/tree/d"; ln -s a "$work/tree/l"; : > "$work/tree/d/x"; (cd "$work/tree" && "$program" list d > ../before)
sed 's/ d$/ e/' "$work/before" > "$work/after"; run 'a directory' 0 "$done_one" commit ../before ../after
[ -e "$work/tree/e/x" ] || { failed=1; echo 'FAILED: a directory'; }
fresh; ln -s a "$work/tree/l"; (cd "$work/tree" && "$program" list > ../before)
sed 's/ l -> a$/ m -> a/' "$work/before" > "$work/after"; run 'a link' 0 "$done_one" commit ../before ../after
[ "$(readlink "$work/tree/m")" = a ] || { failed=1; echo 'FAILED: a link'; }
fresh; mkdir "$work/tree/d"; : > "$work/tree/d/x"; (cd "$work/tree" && "$program" list d > ../before)
sed 's/ x$/ n\\n\\\\\\015/' "$work/before" > "$work/after"; run 'an escaped name in a directory below' 0 "$done_one" commit ../before ../after
[ -e "$work/tree/d/n"$'\n\\\r' ] || { failed=1; echo 'FAILED: an escaped name'; ls -b "$work/tree/d"; }

# what done_one is, with other numbers
counts() { printf 'renamed %s, retargeted %s, modes %s, replaced %s, made %s, flagged 0\n' "$@"; }
nl=$'\n'
fresh; sed '4s/ a$/ b/; 5s/ b$/ a/' "$work/before" > "$work/after"
run 'two names change places' 0 "$(counts 2 0 0 0 0)$nl" commit ../before ../after
[ "$(cat "$work/tree/b")" = first ] && [ "$(cat "$work/tree/a")" = second ] || { failed=1; echo 'FAILED: two names change places'; }
fresh; sed 's/ a$/ b/' "$work/before" > "$work/after"
run 'a name that is taken, confirmed' 0 "$(counts 1 0 0 1 0)$nl" commit ../before ../after b
[ "$(ls -A "$work/tree")" = b ] && [ "$(cat "$work/tree/b")" = first ] || { failed=1; echo 'FAILED: a name that is taken'; }
fresh; sed 's/ a$/ x\/y\/c/' "$work/before" > "$work/after"
run 'directories to be made' 0 "$(counts 1 0 0 0 2)$nl" commit ../before ../after
[ "$(cat "$work/tree/x/y/c")" = first ] || { failed=1; echo 'FAILED: directories to be made'; }
fresh; sed '4s/ a$/ c/; 4s/^  -rw-r--r--/  -rw-r-----/' "$work/before" > "$work/after"
run 'a mode edited besides' 0 "$(counts 1 0 1 0 0)$nl" commit ../before ../after
[ "$(stat -c %a "$work/tree/c")" = 640 ] || { failed=1; echo 'FAILED: a mode edited besides'; }
fresh; ln -s a "$work/tree/l"; (cd "$work/tree" && "$program" list > ../before)
sed 's/ l -> a$/ l -> b/' "$work/before" > "$work/after"; run 'another target' 0 "$(counts 0 1 0 0 0)$nl" commit ../before ../after
[ "$(readlink "$work/tree/l")" = b ] && [ ! -e "$work/tree/.wdired-commit" ] || { failed=1; echo 'FAILED: another target'; }

fresh; before=$(shown); run 'no edit' 0 "$done_none" commit ../before ../after; unchanged 'no edit' "$before"
fresh; printf '%s' "$(cat "$work/before")" > "$work/after"
run 'AFTER without its last newline' 0 "$done_none" commit ../before ../after
fresh; before=$(shown)
run 'too few words' 1 $'dired: usage: list, commit, run, recover or drill\n' commit ../before
run 'no words' 1 $'dired: usage: list, commit, run, recover or drill\n'
run 'no such AFTER' 6 $'dired: no such input: ../nothing\n' commit ../before ../nothing
run 'no such BEFORE' 6 $'dired: no such input: no\\nline\n' commit $'no\nline' ../after
run 'an input that is a directory' 3 $'dired: cannot read .\n' commit . ../after
printf '' > "$work/empty"; run 'an empty BEFORE' 7 $'dired: ../empty, line 1: FirstLine\n' commit ../empty ../after
printf '' > "$work/empty"; run 'an empty AFTER' 8 $'dired: line 1: LineCount\n' commit ../before ../empty
printf 'dired 1\n  .:\n  total 0\n' > "$work/none"; run 'no files' 0 "$done_none" commit ../none ../none
sed 's/ b$/ \xff/' "$work/before" > "$work/bytes"
run 'a BEFORE that is no UTF-8' 7 $'dired: ../bytes, line 5: Line Name\n' commit ../bytes ../bytes
run 'an AFTER that is no UTF-8' 8 $'dired: line 5: BadName\n' commit ../before ../bytes
head -c 67108865 /dev/zero > "$work/large"
run 'too large' 18 $'dired: too large: BufferBytes 67108865\n' commit ../large ../after
rm "$work/large"
sed 's/ a$/ b/' "$work/before" > "$work/after"
run 'a name that is taken' 9 $'dired: line 4: b would be replaced\n' commit ../before ../after
run 'a name that is taken, another one confirmed' 9 $'dired: line 4: b would be replaced\n' commit ../before ../after a
sed 's/ a$/ .wdired-commit/' "$work/before" > "$work/after"
run 'the name of the staging directory' 8 $'dired: line 4: Reserved\n' commit ../before ../after
sed 's/ a$/ c/; s/ b$/ c/' "$work/before" > "$work/after"
run 'two names for one' 8 $'dired: line 4: TwoToOne 5\n' commit ../before ../after
sed 's/ a$/ b\/c/' "$work/before" > "$work/after"
run 'a file as a directory' 8 $'dired: line 4: ParentNotDirectory b\n' commit ../before ../after
sed 's/ a$/ c\/d\/a/; s/ b$/ c/' "$work/before" > "$work/after"
run 'a directory to be made is taken' 8 $'dired: line 4: a directory to be made is taken by line 5\n' commit ../before ../after
sed 's/ a$/ c/; s/ 1 / 2 /' "$work/before" > "$work/after"
run 'a link count edited' 8 $'dired: line 4: Fixed\n' commit ../before ../after
sed 's/^  -rw-r--r--/  -rw-r--r-?/' "$work/before" > "$work/after"
run 'letters that are no mode' 8 $'dired: line 4: BadMode\n' commit ../before ../after
sed 's/ a$/ /' "$work/before" > "$work/after"
run 'an emptied name' 0 $'flagged a\n'"${done_none%0*}"$'1\n' commit ../before ../after
sed '4s/ a$/ b/' "$work/before" > "$work/twice"
run 'a line that stands twice' 8 $'dired: line 5: Twice\n' commit ../twice ../twice
sed 's/^dired 1/dired 2/' "$work/before" > "$work/second"
run 'another first line' 7 $'dired: ../second, line 1: FirstLine\n' commit ../second ../after
sed 's/^  -rw-r--r--/  -rw-r--r-/' "$work/before" > "$work/eight"
run 'eight mode letters' 7 $'dired: ../eight, line 4: Line Mode\n' commit ../eight ../after
sed 's/ a$/ c/' "$work/before" > "$work/after"
run 'a path that is confirmed by the root' 1 $'dired: usage: list, commit, run, recover or drill\n' commit ../before ../after .
{ printf 'dired 1\n  .:\n  total 0\n'; yes '' | head -n 399998; } > "$work/many"
run 'too many lines' 18 $'dired: too large: BufferLines 400001\n' commit ../many ../many
# so many lines of files that aren't there: they are counted before the tree is looked at
lines() { awk -v n="$1" 'BEGIN { print "dired 1"; print "  .:"; print "  total " n
    for (i = 1; i <= n; i++) printf "  -rw-r--r-- 1 user group 0 2026-01-01 00:00 f%06d\n", i }'; }
lines 262145 > "$work/many"; sed 's/ f/ g/' "$work/many" > "$work/others"
run 'too many edits' 18 $'dired: too large: Edits 262145\n' commit ../many ../others
sed '4s/ g0/ f0/' "$work/others" > "$work/fewer"
run 'as many edits as there may be' 10 $'dired: line 5: the file is not as shown\n' commit ../many ../fewer
limit=40000; run 'no memory for so many' 2 $'dired: out of memory\n' commit ../many ../fewer; limit=
rm "$work/many" "$work/others" "$work/fewer"
unchanged 'refusals' "$before"

# Moved below fifteen directories that are missing, a file counts its old path of 5 bytes, its new one of 3,845 twice, and those of the directories, which have
# 30,705: 38,400 bytes each, of which 1,747 are within 67,108,864.
fresh; rm "$work"/tree/[ab]; seq -f "$work/tree/f%04.0f" 1 1748 | xargs touch; chmod 644 "$work"/tree/*; (cd "$work/tree" && "$program" list > ../before)
below=$(for _ in $(seq 15); do printf '%255s/' '' | tr ' ' d; done)
sed "s|f\([0-9]*\)\$|${below}f\1|" "$work/before" > "$work/after"; before=$(ls -lA --full-time "$work/tree")
run 'too many bytes of paths' 18 $'dired: too large: PathBytes 67123200\n' commit ../before ../after
[ "$before" = "$(ls -lA --full-time "$work/tree")" ] || { failed=1; echo 'FAILED: too many bytes of paths: the folder changed'; }
sed -i '4s|d*/||g' "$work/after"
run 'as many bytes of paths as there may be' 0 "${done_one/1, retargeted 0, modes 0, replaced 0, made 0/1747, retargeted 0, modes 0, replaced 0, made 15}" commit ../before ../after
[ "$(find "$work/tree/${below}" -type f | wc -l)" = 1747 ] || { failed=1; echo 'FAILED: as many bytes of paths as there may be'; }

fresh; mkdir "$work/tree/d"; (cd "$work/tree" && "$program" list d > ../before); sed 's/ a$/ d\/e/' "$work/before" > "$work/after"
run 'into another directory' 0 "$done_one" commit ../before ../after
[ "$(cat "$work/tree/d/e")" = first ] || { failed=1; echo 'FAILED: into another directory'; }
fresh; mkdir "$work/tree/d"; (cd "$work/tree" && "$program" list > ../before); before=$(ls -lAR --full-time "$work/tree")
sed 's/ d$/ d\/e\/f/' "$work/before" > "$work/after"
run 'a directory below itself' 8 $'dired: line 6: MovedParent 6\n' commit ../before ../after
sed 's/ a$/ d/' "$work/before" > "$work/after"
run 'a directory at the new name' 8 $'dired: line 4: TargetIsDirectory d\n' commit --all ../before ../after
[ "$(ls -lAR --full-time "$work/tree")" = "$before" ] || { failed=1; echo 'FAILED: a directory at the new name'; }
fresh; ln "$work/tree/a" "$work/tree/k"; (cd "$work/tree" && "$program" list > ../before)
sed '4s/^  -rw-r--r--/  -rw-------/; 6s/^  -rw-r--r--/  -r--------/' "$work/before" > "$work/after"
run 'two modes for one file' 8 $'dired: line 4: ModeClash 6\n' commit ../before ../after
fresh; : > "$work/tree/n"$'\n'; sed 's/ a$/ n\\n/' "$work/before" > "$work/after"
run 'a taken name with a newline' 9 $'dired: line 4: n\\n would be replaced\n' commit ../before ../after
fresh; mkdir "$work/tree/.wdired-commit"; sed -i 's/ a$/ c/' "$work/after"; chmod 600 "$work/tree/a"
run 'an unfinished commit before a stale line' 11 $'dired: an unfinished commit stands; run recover\n' commit ../before ../after
run 'an unfinished commit, no edit' 11 $'dired: an unfinished commit stands; run recover\n' commit ../before ../before

fresh; sed -i 's/ a$/ c/' "$work/after"; chmod 600 "$work/tree/a"; before=$(shown)
run 'a stale line' 10 $'dired: line 4: the file is not as shown\n' commit ../before ../after
unchanged 'a stale line' "$before"
fresh; sed -i 's/ a$/ c/' "$work/after"; rm "$work/tree/a"; ln -s b "$work/tree/a"
run 'a link in place of the file' 10 $'dired: line 4: the file is not as shown\n' commit ../before ../after
fresh; sed -i 's/ a$/ c/' "$work/after"; rm "$work/tree/a"; mkfifo "$work/tree/a"
run 'a pipe in place of the file' 4 $'dired: kind failed; nothing was decided\n' commit ../before ../after
fresh; sed -i 's/ a$/ c/' "$work/after"
(cd "$work/tree" && "$program" commit - ../after < ../before) > "$work/printed"; got=$?
{ [ "$got" = 0 ] && [ "$(cat "$work/printed")$(printf '\n')" = "${done_one%$'\n'}" ]; } || { failed=1; echo "FAILED BEFORE on standard input: status $got"; }
fresh; sed -i 's/ a$/ c/' "$work/after"
(cd "$work/tree" && "$program" commit ../before ../after >&-); got=$?
{ [ "$got" = 5 ] && [ -e "$work/tree/c" ]; } || { failed=1; echo "FAILED a closed output: status $got"; }

[ "$failed" = 0 ] && echo 'real-folder: all as it should be'
exit "$failed"
