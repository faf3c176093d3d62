#!/usr/bin/env bash
# Runs each block of commands of README.md as it stands, in a fresh folder of its own, and compares what comes with the lines behind `# `.
# real-readme.sh [PROGRAM]
set -u
top=$(dirname "$(dirname "$(readlink -f "$0")")")
program=$(readlink -f "${1:-$top/crates/dired_cli/out/dired_cli}")
[ -x "$program" ] || { echo "real-readme: no program at $program"; exit 1; }
work=$(mktemp -d)
trap 'rm -rf "$work"' EXIT
mkdir "$work/bin"
ln -s "$program" "$work/bin/dired"
ln -s "$top/scripts/wdired" "$work/bin/wdired"
export PATH=$work/bin:$PATH
unset VISUAL EDITOR DIRED
umask 022
failed=0 tried=0 skipped=

blocks=$(grep -c '^```sh$' "$top/README.md")
for number in $(seq "$blocks"); do
    awk -v wanted="$number" '/^```sh$/ { count++; within = count == wanted; next } /^```/ { within = 0 } within' "$top/README.md" > "$work/block"
    if grep -q '^strace' "$work/block" && ! command -v strace > /dev/null; then
        skipped=', but one without strace'
        continue
    fi
    mkdir "$work/fresh"
    (cd "$work/fresh" && bash ../block > "$work/printed" 2> "$work/errors" < /dev/null)
    sed -n 's/^# //p' "$work/block" > "$work/wanted"
    if ! cmp -s "$work/wanted" "$work/printed"; then
        failed=1
        echo "FAILED block $number: $(sed -n 1p "$work/block")"
        diff "$work/wanted" "$work/printed"
        cat "$work/errors"
    fi
    tried=$((tried + 1))
    rm -rf "$work/fresh"
done

[ "$tried" -gt 0 ] || { echo 'real-readme: README.md has no block of commands'; exit 1; }
[ "$failed" = 0 ] && echo "real-readme: $tried blocks are as README.md shows them$skipped"
exit "$failed"
