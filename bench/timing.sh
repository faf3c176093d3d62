# shellcheck shell=bash disable=SC2034
# Sourced by the benches: their program, which is their first argument, a folder of their own, and what times a command.
top=$(dirname "$(readlink -f "$0")")/..
program=$(readlink -f "${1:-$top/crates/dired_cli/out/dired_cli}")
work=$(mktemp -d)
trap 'rm -rf "$work"' EXIT

# Made before each run of what is timed; a bench may say what.
prepare() { :; }

# The milliseconds that a command takes, the least of five runs.
least() {
    local best=0 start end
    for _ in 1 2 3 4 5; do
        prepare; start=$(date +%s%N); "$@" > /dev/null; end=$(date +%s%N)
        [ "$best" != 0 ] && [ $((end - start)) -ge "$best" ] || best=$((end - start))
    done
    awk -v n="$best" 'BEGIN { printf "%.1f", n / 1000000 }'
}
