#!/usr/bin/env bash
# Has the built program recover what is larger or stranger than a commit of a test leaves: names that aren't UTF-8 in the staging directory, 100,000 names in
# it, and a journal of the greatest size that is read. What it answers and leaves must be as said here.
# real-recover.sh [PROGRAM]
set -u
export LC_ALL=C
top=$(dirname "$(readlink -f "$0")")/..
program=$(readlink -f "${1:-$top/crates/dired_cli/out/dired_cli}")
[ -x "$program" ] || { echo "real-recover: skipped, no program at $program"; exit 0; }
work=$(mktemp -d)
trap 'rm -rf "$work"' EXIT
tree="$work/tree" staging="$work/tree/.wdired-commit"
failed=0
fail() { failed=1; printf 'FAILED %s\n' "$*"; }
skip() { printf 'real-recover: skipped, %s\n' "$*"; }

# A folder with the file a and an empty staging directory. What a script makes has the modes of a commit.
umask 077
fresh() { rm -rf "$tree"; mkdir -p "$staging"; echo first > "$tree/a"; }
# What stands: type, mode, inode, links, size and path of each entry, in their order.
shown() { find "$tree" -mindepth 1 -printf '%y %m %i %n %s %P\n' | sort; }

# Runs the program in the folder; its status and output must be these: run NAME STATUS OUTPUT WORDS..
run() {
    local name=$1 status=$2 output=$3 got; shift 3
    (cd "$tree" && "$program" "$@" > "$work/printed" 2> "$work/errors"); got=$?
    printf '%s\n' "$output" > "$work/wanted"
    if [ "$got" != "$status" ] || ! cmp -s "$work/printed" "$work/wanted" || [ -s "$work/errors" ]; then
        fail "$name: status $got, wanted $status; printed:"
        head -c 2000 "$work/printed"; head -c 2000 "$work/errors"
    fi
}
# Runs it both ways, and nothing may have changed: refused NAME STATUS OUTPUT
refused() {
    shown > "$work/before"
    run "$1" "$2" "$3" recover
    run "$1, back" "$2" "$3" recover --back
    shown > "$work/after"
    cmp -s "$work/before" "$work/after" || { fail "$1: what stands changed:"; diff "$work/before" "$work/after" | head -5; }
}
# Runs it, and nothing may stand then but what stood beside the staging directory: recovered NAME OUTPUT WORDS..
recovered() {
    local name=$1 output=$2; shift 2
    shown | grep -v ' \.wdired-commit' > "$work/before"
    run "$name" 0 "$output" "$@"
    shown > "$work/after"
    cmp -s "$work/before" "$work/after" || { fail "$name: what stands then:"; diff "$work/before" "$work/after" | head -5; }
}

# ---- names

fresh; : > "$staging/at-0"; : > "$staging/"$'\xff'
refused 'a name that is not UTF-8' 4 'dired: names failed; nothing was decided'
fresh; printf 'WDJ2\0\0\0\0' > "$staging/plan"; : > "$staging/at-0"; : > "$staging/t1"$'\xc3'
refused 'a name that is not UTF-8 beside a journal' 4 'dired: names failed; nothing was decided'

# f0 to f99997, or h0 and so on, in the staging directory: made LETTER
made() { (cd "$staging" && seq -f "$1%.0f" 0 99997 | xargs touch); }

fresh; made f; : > "$staging/at-0"; : > "$staging/new"
recovered '100,000 names without a journal' 'recovered: cleared' recover
fresh; made f; : > "$staging/at-0"; : > "$staging/z"
refused '100,000 names, and the last is of no commit' 16 'dired: not of this program: z'
fresh; made h; printf 'WDJ2\0\0\0\0' > "$staging/done"; : > "$staging/at-0"
recovered '100,000 names behind a seal' 'recovered: edited' recover --back
fresh; made f; printf 'WDJ1\0\0\0\0' > "$staging/undone"; : > "$staging/back-0"
recovered '100,000 names at the end of a way back' 'recovered: old' recover

# ---- the greatest journal

# A journal of version 1 of so many bytes, of directories whose paths are as long as they may be, but for the last two; prints how many there are.
greatest() { python3 - "$1" "$2" <<'P'
import sys
name, size = sys.argv[1], int(sys.argv[2])
path = b"/".join([b"d" * 255] * 16)
step = lambda length: b"D" + length.to_bytes(2, "big") + path[:length]
whole = (size - 8) // (3 + len(path)) - 1
rest = size - 8 - whole * (3 + len(path)) - 6
with open(name, "wb") as out:
    out.write(b"WDJ1" + (whole + 2).to_bytes(4, "big"))
    for _ in range(whole):
        out.write(step(len(path)))
    out.write(step(1000) + step(rest - 1000))
print(whole + 2)
P
}

most=1073741824
free=$(awk '/^MemAvailable/ { print int($2 / 1048576) }' /proc/meminfo)
disk=$(df -Pk "$work" | awk 'NR == 2 { print int($4 / 1048576) }')
if ! command -v python3 > /dev/null 2>&1; then skip 'no python3: the greatest journal'
elif [ "${free:-0}" -lt 6 ] || [ "$disk" -lt 3 ]; then skip "$free GiB of memory and $disk of the disk: the greatest journal"
else
    fresh; steps=$(greatest "$staging/done" $most); : > "$staging/at-$steps"
    [ "$(stat -c %s "$staging/done")" = $most ] || fail 'the greatest journal has another size'
    recovered 'the greatest journal' 'recovered: edited' recover
    fresh; steps=$(greatest "$staging/done" $most); : > "$staging/at-$((steps + 1))"
    refused 'the greatest journal, and a marker behind its end' 16 "dired: not of this program: at-$((steps + 1))"
    mv "$staging/at-$((steps + 1))" "$staging/at-$steps"; printf x >> "$staging/done"
    refused 'a journal of a byte more' 15 "dired: journal unreadable at byte $most"
fi

[ "$failed" = 0 ] && echo 'real-recover: passed'
exit "$failed"
