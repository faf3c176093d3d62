#!/usr/bin/env bash
# Runs scripts/wdired with editors that are scripts, on real folders, and compares what it tells and leaves with what it should.
# real-wdired.sh [PROGRAM]
set -u
top=$(readlink -f "$(dirname "$(readlink -f "$0")")/..")
program=$(readlink -f "${1:-$top/crates/dired_cli/out/dired_cli}")
[ -x "$program" ] || { echo "real-wdired: no program at $program"; exit 1; }
work=$(mktemp -d)
trap 'rm -rf "$work"' EXIT
mkdir "$work/temporary"
export TMPDIR=$work/temporary DIRED=$program
unset VISUAL
failed=0

fail() { failed=1; echo "FAILED $1: $2"; }

# A fresh folder with the files a, b and k.
fresh() {
    chmod -R u+w "$work/tree" 2> /dev/null
    rm -rf "$work/tree" "$work/temporary"
    mkdir "$work/tree" "$work/temporary"
    for name in a b k; do echo "$name" > "$work/tree/$name"; done
}

# An editor that runs each of these sed scripts in its turn: editor SED..
editor() {
    rm -f "$work"/turn.* "$work/turn"
    local turn=0
    for script in "$@"; do turn=$((turn + 1)); printf '%s\n' "$script" > "$work/turn.$turn"; done
    cat > "$work/editor" <<END
#!/bin/sh
for file in "\$@"; do :; done
turn=\$((\$(cat "$work/turn" 2> /dev/null || echo 0) + 1))
echo "\$turn" > "$work/turn"
printf '%s\n' "\$*" >> "$work/opened"
sed -i -f "$work/turn.\$turn" "\$file"
END
    chmod +x "$work/editor"
    rm -f "$work/opened"
    export EDITOR=$work/editor
}

# Runs wdired with these answers: run NAME STATUS ANSWERS WORDS..
run() {
    local name=$1 status=$2 answers=$3; shift 3
    (cd "$work/tree" && printf '%b' "$answers" | "$top/scripts/wdired" "$@" > "$work/printed" 2> "$work/told"); local got=$?
    [ "$got" = "$status" ] || { fail "$name" "status $got, wanted $status"; cat "$work/printed" "$work/told"; }
}
tells() { grep -qF -- "$2" "$work/told" "$work/printed" || { fail "$1" "\`$2' isn't told"; cat "$work/told" "$work/printed"; }; }
stands() { [ "$(cd "$work/tree" && for f in *; do printf '%s=%s ' "$f" "$(cat "$f")"; done)" = "$2 " ] || { fail "$1" "$(ls -A "$work/tree")"; }; }
kept() { ls "$work"/temporary/*/tree.dired > /dev/null 2>&1 || fail "$1" 'the edited listing is gone'; }
clean() { [ -z "$(ls -A "$work/temporary")" ] || fail "$1" 'files are left behind'; }

fresh; editor 's/ a$/ c/'; run 'one name' 0 ''; stands 'one name' 'b=b c=a k=k'; clean 'one name'; tells 'one name' 'renamed 1'
fresh; editor 's/ a$/ x/; s/ b$/ a/; s/ x$/ b/'; run 'two names' 0 ''; stands 'two names' 'a=b b=a k=k'
fresh; editor ''; run 'no edit' 0 ''; stands 'no edit' 'a=a b=b k=k'; tells 'no edit' 'nothing was edited'; clean 'no edit'
fresh; mkdir "$work/tree/d"; editor ''; run 'a directory that is listed' 0 '' -t d; rmdir "$work/tree/d"
fresh; editor ''; run 'no such directory' 6 '' nosuch; tells 'no such directory' 'no such input: nosuch'; clean 'no such directory'

fresh; editor 's/ 1 / 2 /' 's/ 2 / 1 /; s/ a$/ c/'; run 'edited again' 0 'e\n'; tells 'edited again' 'line 4: Fixed'; stands 'edited again' 'b=b c=a k=k'
fresh; editor 's/ 1 / 2 /'; run 'left' 8 'l\n'; stands 'left' 'a=a b=b k=k'; kept 'left'; tells 'left' 'is kept as'
fresh; editor 's/ a$/ c/; $d'; run 'a line removed' 8 ''; kept 'a line removed'; tells 'a line removed' 'LineCount'

fresh; editor 's/ a$/ k/'; run 'a file replaced' 0 'r\n'; tells 'a file replaced' 'k would be replaced'; stands 'a file replaced' 'b=b k=a'
fresh; editor '/ k$/d; s/ a$/ k/'; run 'a line that is gone' 8 'l\n'
fresh; editor 's/ a$/ k/'; run 'not replaced' 9 'l\n'; stands 'not replaced' 'a=a b=b k=k'; kept 'not replaced'
fresh; editor 's/ a$/ k/' 's/ k$/ c/'; run 'edited again, not replaced' 8 'e\nl\n'; stands 'edited again, not replaced' 'a=a b=b k=k'
fresh; (cd "$work/tree" && echo l > l); editor 's/ a$/ k/; s/ b$/ l/'; run 'all replaced' 0 'a\n'; stands 'all replaced' 'k=a l=b'
fresh; (cd "$work/tree" && echo l > 'x \y'); editor 's/ a$/ x \\\\y/'; run 'an odd name replaced' 0 'r\n'; tells 'an odd name replaced' 'x \\y would be replaced'
[ "$(cat "$work/tree/x \\y")" = a ] || fail 'an odd name replaced' 'it stands otherwise'

# What an editor may spoil: the file is named, and nothing is changed.
untouched() { stands "$1" 'a=a b=b k=k'; }
fresh; editor 's/$/\r/'; run 'line ends of DOS' 1 'l\n'; tells 'line ends of DOS' '/tree.dired was saved with line ends of DOS'; untouched 'line ends of DOS'; kept 'line ends of DOS'
fresh; editor 's/ a$/ c/; s/$/\r/'; run 'line ends of DOS taken away' 0 't\n'; stands 'line ends of DOS taken away' 'b=b c=a k=k'; clean 'line ends of DOS taken away'
fresh; editor 's/ a$/ c/; 4s/$/\r/' 's/\r$//'; run 'one line end of DOS' 0 'e\n'; stands 'one line end of DOS' 'b=b c=a k=k'
fresh; editor 'd'; run 'an empty file' 1 'l\n'; tells 'an empty file' '/tree.dired is empty'; untouched 'an empty file'; clean 'an empty file'
fresh; editor 'd' 's/ a$/ c/'; run 'an empty file, begun again' 0 's\n'; stands 'an empty file, begun again' 'b=b c=a k=k'
# shellcheck disable=SC2016
fresh; editor ''; printf 'rm "$file"\n' >> "$work/editor"; run 'a file that is gone' 1 'l\n'; tells 'a file that is gone' '/tree.dired is empty'; untouched 'a file that is gone'; clean 'a file that is gone'
last_newline() { printf 'head -c -1 "$file" > "%s/cut"; cp "%s/cut" "$file"\n' "$work" "$work" >> "$work/editor"; }
fresh; editor ''; last_newline; run 'the last newline alone' 0 ''; tells 'the last newline alone' 'nothing was edited'; clean 'the last newline alone'
fresh; editor 's/ k$/ c/'; last_newline; run 'an edit without the last newline' 0 ''; stands 'an edit without the last newline' 'a=a b=b c=k'
blanks() { fresh; echo c > "$work/tree/c "; echo d > "$work/tree/d "; }
kept_blanks() { [ -e "$work/tree/c " ] && [ -e "$work/tree/d " ] || fail "$1" 'renamed'; }
blanks; editor 's/ *$//'; run 'blanks stripped' 1 'l\n'; tells 'blanks stripped' 'line 6 of '; tells 'blanks stripped' '/tree.dired lost the blanks at its end'; kept_blanks 'blanks stripped'; kept 'blanks stripped'
blanks; editor 's/ d $/ d/'; run 'blanks stripped in one line' 1 'l\n'; tells 'blanks stripped in one line' 'line 7 of '; kept_blanks 'blanks stripped in one line'
blanks; editor 's/ d $/ d/'; run 'blanks stripped as was meant' 0 'c\n'; [ -e "$work/tree/c " ] && [ -e "$work/tree/d" ] || fail 'blanks stripped as was meant' "$(ls "$work/tree")"
blanks; editor 's/ *$//' 's/ \([cd]\)$/ \1 /; s/ a$/ e/'; run 'blanks put back' 0 'e\n'; kept_blanks 'blanks put back'; [ -e "$work/tree/e" ] || fail 'blanks put back' 'not renamed'
fresh; editor '1s/^/\xef\xbb\xbf/'; run 'a byte order mark' 8 'l\n'; tells 'a byte order mark' 'line 1: Fixed'; tells 'a byte order mark' 'byte order mark'; untouched 'a byte order mark'
fresh; editor ''; printf 'echo >> "$file"\n' >> "$work/editor"; run 'an empty line behind' 8 'l\n'; tells 'an empty line behind' 'LineCount'; tells 'an empty line behind' 'more or fewer lines'
fresh; editor 's/ a$/ c\x5cq/'; run 'a name that is none' 8 'l\n'; tells 'a name that is none' 'this is no name'
fresh; editor 's/ a$/ c/; s/ b$/ c/'; run 'two names in one' 8 'l\n'; tells 'two names in one' 'line 5 has the same new path'
fresh; editor '4s/rw-r--r--/rw-r--r-q/'; chmod 644 "$work"/tree/*; run 'letters that are no mode' 8 'l\n'; tells 'letters that are no mode' 'are no mode'
fresh; export EDITOR=$work/nothing; run 'no editor' 1 ''; tells 'no editor' "no editor \`$work/nothing'"; untouched 'no editor'; clean 'no editor'
fresh; editor ''; sed -i '1s|.*|#!/nothing/at/all|' "$work/editor"; run 'an editor that does not start' 1 ''; tells 'an editor that does not start' 'could not be started on '; untouched 'an editor that does not start'; clean 'an editor that does not start'
fresh; export EDITOR=false; run 'an editor that fails' 1 ''; tells 'an editor that fails' 'ended with 1, so '; clean 'an editor that fails'
fresh; editor 's/ a$/ c/'; echo 'exit 3' >> "$work/editor"; run 'an editor that fails behind an edit' 1 ''; tells 'an editor that fails behind an edit' '/tree.dired was not committed'; untouched 'an editor that fails behind an edit'; kept 'an editor that fails behind an edit'
fresh; editor 's/ a$/ c/'; run 'an editor with words' 0 ''; EDITOR="$EDITOR -w"; fresh; rm -f "$work/turn"; run 'an editor with words' 0 ''; grep -q -- '-w .*dired$' "$work/opened" || fail 'an editor with words' "$(cat "$work/opened")"
fresh; editor 's/ a$/ c/'; export VISUAL=$EDITOR EDITOR=false; run 'VISUAL first' 0 ''; unset VISUAL; stands 'VISUAL first' 'b=b c=a k=k'

# The folder changes while it is edited.
fresh; editor 's/ a$/ c/'; printf 'mv "%s/tree/a" "%s/tree/z"\n' "$work" "$work" >> "$work/editor"; run 'changed meanwhile' 10 ''; tells 'changed meanwhile' 'not as shown'; kept 'changed meanwhile'

# Something stands at the staging directory: a commit that was stopped in its first calls, which recovery clears.
fresh; mkdir "$work/tree/.wdired-commit"; editor 's/ a$/ c/'; run 'recovered first' 0 'r\n'; tells 'recovered first' 'recovered: cleared'; stands 'recovered first' 'b=b c=a k=k'
fresh; mkdir "$work/tree/.wdired-commit"; editor 's/ a$/ c/'; run 'not recovered' 11 'l\n'; stands 'not recovered' 'a=a b=b k=k'

# Ctrl-C at a question.
fresh; editor 's/ 1 / 2 /'
mkfifo "$work/answers"
(cd "$work/tree" && exec "$top/scripts/wdired" < "$work/answers" > "$work/printed" 2> "$work/told") & waiting=$!
exec 8> "$work/answers"
for _ in $(seq 100); do grep -q 'or \[l\]eave' "$work/told" 2> /dev/null && break; sleep 0.1; done
kill -INT "$waiting"; wait "$waiting"
exec 8>&-
tells 'Ctrl-C' 'is kept as'

[ "$failed" = 0 ] && echo 'real-wdired: all as it should be'
exit "$failed"
