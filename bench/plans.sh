#!/usr/bin/env bash
# Plans of 131,072 and of 262,144 edits: the time that a check of a table of one case takes and what its plan adds, and the most memory
# beside the bytes of the paths. And a plan of 400 directories, one in the other, with 21 renames in each.
# plans.sh [PROGRAM]
set -eu
top=$(dirname "$(readlink -f "$0")")/..
program=$(readlink -f "${1:-$top/crates/commit_cases/out/commit_cases}")
[ -x "$program" ] || { echo "plans: skipped, no program at $program"; exit 0; }
. "$top/bench/timing.sh" "$program"

table() { awk -v shape="$1" -v count="$2" -v row="$3" -f "$top/bench/plan-table.awk"; }
run() { "$program" < "$work/$1"; }

# The most kilobytes that the program holds on a table.
most() { python3 -c 'import resource, subprocess, sys
subprocess.run([sys.argv[1]], stdin=open(sys.argv[2]), stdout=subprocess.DEVNULL, check=True)
print(resource.getrusage(resource.RUSAGE_CHILDREN).ru_maxrss)' "$program" "$work/$1"; }

measure() {
    table "$1" "$2" check > "$work/check"; table "$1" "$2" 'plan numbers' > "$work/plan"
    local a b m bytes
    a=$(least run check); b=$(least run plan); m=$(most plan)
    bytes=$(awk '$1 == "edit" { bytes += length($3) + length($6) } END { print bytes }' "$work/plan")
    awk -v s="$1" -v n="$2" -v a="$a" -v b="$b" -v m="$m" -v p="$bytes" 'BEGIN {
        printf "%s of %d: check %s ms, plan %.1f ms more; %d kB of memory, %.1f times the bytes of the paths\n", s, n, a, b - a, m, m * 1024 / p }'
}

for shape in suffix cycle swaps chain; do
    for count in ${COUNTS:-131072 262144}; do measure "$shape" "$count"; done
done
for depth in ${DEPTHS:-200 400}; do measure nested "$depth"; done
