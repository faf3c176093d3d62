#!/usr/bin/env bash
# Asks bash, zsh and fish what they complete for dired and wdired; a shell that isn't here is left out.
set -u
top=$(dirname "$(dirname "$(readlink -f "$0")")")
work=$(mktemp -d)
trap 'rm -rf "$work"' EXIT
mkdir -p "$work/tree/photos" "$work/bin"
: > "$work/tree/before"; : > "$work/tree/after"
# Names of programs are completed for those that are there.
for name in dired wdired; do printf '#!/bin/sh\n' > "$work/bin/$name"; chmod 755 "$work/bin/$name"; done
export PATH=$work/bin:$PATH HOME=$work
export work
failed=0
tried=

# Called by the name of the shell.
# What bash has for the last of these words.
in_bash() {
    (cd "$work/tree" && bash --norc -c '. "$0"; compopt() { :; }
        COMP_WORDS=("$@"); COMP_CWORD=$(($# - 1)); "_$1"; printf "%s\n" "${COMPREPLY[@]}"' "$top/completions/dired.bash" "$@")
}
# What fish has for the last of these words, without descriptions.
in_fish() { (cd "$work/tree" && fish -N -c "source '$top/completions/dired.fish'; complete -C '$*'" | cut -f1); }
# What zsh shows behind these words, at a terminal of its own.
in_zsh() {
    (cd "$work/tree" && zsh -f -c '
        zmodload zsh/zpty
        zpty shell zsh -f -i
        zpty -w shell "fpath=($1 \$fpath); autoload -U compinit; compinit -u -d \$work/dump; unsetopt zle_bracketed_paste; PS1=; LISTMAX=0; stty cols 200; print RE\"\"ADY"
        zpty -r shell line "*READY*"
        zpty -n -w shell "$2"$'"'\t\t'"'
        sleep 0.4
        while zpty -r -t shell line; do print -rn -- "$line"; done
        zpty -d shell' zsh "$top/completions" "$*" | tr '\r\a' '\n' | sed 's/\x1b\[[0-9;?]*[A-Za-z]//g' | tr -s ' ' '\n')
}

# offers SHELL WORDS.. : WANTED..: each wanted word is offered, a directory with or without its slash.
offers() {
    local shell=$1 words=() offered word; shift
    while [ "$1" != : ]; do words+=("$1"); shift; done
    shift
    offered=$("in_$shell" "${words[@]}")
    for word in "$@"; do
        printf '%s\n' "$offered" | sed 's|/$||' | grep -qxF -- "$word" || { failed=1; printf 'FAILED %s: %s offers no %s, but\n%s\n' "$shell" "${words[*]}" "$word" "$offered"; }
    done
}
refrains() {
    local shell=$1 word=$2; shift 2
    if "in_$shell" "$@" | sed 's|/$||' | grep -qxF -- "$word"; then failed=1; echo "FAILED $shell: $* offers $word"; fi
}

for shell in bash zsh fish; do
    command -v "$shell" > /dev/null || continue
    tried="$tried $shell"
    offers "$shell" dired '' : list commit recover
    offers "$shell" dired list '' : photos
    refrains "$shell" before dired list ''
    offers "$shell" dired list - : -A -l -t -S -r
    offers "$shell" dired commit '' : before after
    offers "$shell" dired commit before '' : before after
    offers "$shell" wdired '' : photos
    refrains "$shell" before wdired ''
    offers "$shell" wdired - : -A -l -t -S -r
done
for shell in bash fish; do
    command -v "$shell" > /dev/null || continue
    offers "$shell" dired commit -- : --all
    offers "$shell" dired recover -- : --back
done

[ "$failed" = 0 ] && echo "real-completions: all as it should be in$tried"
exit "$failed"
