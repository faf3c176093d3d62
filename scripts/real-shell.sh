#!/usr/bin/env bash
# Has names quoted by the built program of text cases, hands them to `sh`, and compares byte for byte what arrives there.
# real-shell.sh [PROGRAM] [COUNT] [SEED]
set -eu
here=$(dirname "$(readlink -f "$0")")
program=${1:-$here/../crates/text_cases/out/text_cases}
[ -x "$program" ] || { echo "real-shell: skipped, no program at $program"; exit 0; }
python3 "$here/quoted_names.py" "$program" "${2:-1000}" "${3:-1}"
