#!/usr/bin/env bash
# A rename with its sync by the tree of the host, beside `rename` and an fsync of its directory in Python: at most twice as long.
# sync.sh [PROGRAM]
set -eu
top=$(dirname "$(readlink -f "$0")")/..
program=$(readlink -f "${1:-$top/crates/tree_calls/out/tree_calls}")
[ -x "$program" ] || { echo "sync: skipped, no program at $program"; exit 0; }
command -v python3 > /dev/null 2>&1 || { echo 'sync: skipped, no python3'; exit 0; }
work=$(mktemp -d)
trap 'rm -rf "$work"' EXIT
turns=400
mkdir -p "$work/tree/d" "$work/tree/e"; cd "$work/tree"
: > d/a
sync -f .

# The calls of so many turns, behind the first sync, which writes the whole file system: calls TURNS FROM TO
calls() {
    echo sync
    for _ in $(seq $(($1 / 2))); do printf 'rename %s %s\nsync\nrename %s %s\nsync\n' "$2" "$3" "$3" "$2"; done
}
calls 0 d/a d/b > "$work/none"
calls $turns d/a d/b > "$work/one"
calls $turns d/a e/a > "$work/two"

# The nanoseconds that the program takes for a file of calls.
timed() {
    local start end
    start=$(date +%s%N); "$program" < "$1" > "$work/printed"; end=$(date +%s%N)
    ! grep -q failed "$work/printed" || { echo "sync: a call failed"; exit 1; }
    echo $((end - start))
}
cat > "$work/loop.py" <<'P'
import os, sys, time
turns, old, new = int(sys.argv[1]), sys.argv[2], sys.argv[3]
def sync(path):
    f = os.open(path, os.O_RDONLY | os.O_DIRECTORY | os.O_NOFOLLOW)
    os.fsync(f)
    os.close(f)
start = time.monotonic_ns()
for i in range(turns):
    os.rename(*((new, old) if i % 2 else (old, new)))
    for path in sorted({os.path.dirname(old), os.path.dirname(new)}):
        sync(path)
print(time.monotonic_ns() - start)
P

least() { if [ "$1" -lt "$2" ]; then echo "$1"; else echo "$2"; fi; }
big=999999999999; none=$big; one=$big; two=$big; python_one=$big; python_two=$big
for _ in 1 2 3 4 5; do
    none=$(least "$none" "$(timed "$work/none")")
    one=$(least "$one" "$(timed "$work/one")")
    python_one=$(least "$python_one" "$(python3 "$work/loop.py" $turns d/a d/b)")
    two=$(least "$two" "$(timed "$work/two")")
    python_two=$(least "$python_two" "$(python3 "$work/loop.py" $turns d/a e/a)")
done
awk -v turns=$turns -v none="$none" -v one="$one" -v two="$two" -v pone="$python_one" -v ptwo="$python_two" 'BEGIN {
    a = (one - none) / turns / 1000; b = (two - none) / turns / 1000; c = pone / turns / 1000; d = ptwo / turns / 1000
    printf "a rename in one directory and its sync %.0f us, Python %.0f us, ratio %.2f\n", a, c, a / c
    printf "a rename across two directories and its sync %.0f us, Python %.0f us, ratio %.2f\n", b, d, b / d
    exit !(a <= 2 * c && b <= 2 * d)
}'
