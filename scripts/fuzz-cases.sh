#!/usr/bin/env bash
# Draws cases and compares what the built program makes of them with what the model says.
# fuzz-cases.sh GENERATOR PROGRAM [COUNT] [SEED], where the generator is one of scripts/cases/
set -eu
here=$(dirname "$(readlink -f "$0")")
generator=$1
program=$(readlink -f "$2")
count=${3:-10000}
seed=${4:-$RANDOM}
work=$(mktemp -d)
trap 'rm -rf "$work"' EXIT
python3 "$here/cases/$generator" "$work/table" "$work/expected" --drawn "$count" "$seed"
"$program" < "$work/table" > "$work/found"
if ! diff "$work/expected" "$work/found" > "$work/differences"; then
    head -40 "$work/differences"
    echo "FAILED: of $count cases of $generator of seed $seed not all are as the model says"
    exit 1
fi
echo "fuzz: $count cases of $generator of seed $seed are as the model says"
