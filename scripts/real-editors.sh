#!/usr/bin/env bash
# Edits a listing in Vim and Emacs with the files in editors/: names, modes and targets change, fixed columns and lines don't.
# An editor that isn't here is left out.
set -u
top=$(dirname "$(dirname "$(readlink -f "$0")")")
work=$(mktemp -d)
trap 'rm -rf "$work"' EXIT
export HOME=$work
failed=0
tried=
cat > "$work/before" <<'END_OF_LISTING'
dired 1
  .:
  total 3
  -rw-r--r-- 1 ann users 6 2026-11-30 22:05 img_0001.jpg
  -rw-r--r-- 1 ann users 5 2026-11-30 22:05 img_0002.jpg
  lrwxrwxrwx 1 ann users 12 2026-11-30 22:05 best -> img_0001.jpg
END_OF_LISTING

# wants NAME [SED]: the edited listing is the one from before, edited by this script.
wants() {
    sed "${2:-}" "$work/before" > "$work/wanted"
    cmp -s "$work/wanted" "$work/edited.dired" || { failed=1; echo "FAILED $1:"; diff "$work/wanted" "$work/edited.dired"; }
}

# vim_types KEYS: as `printf %b` has them; the file is written behind them.
vim_types() {
    cp "$work/before" "$work/edited.dired"
    printf '%b' "$1:wq\r" > "$work/keys"
    TERM=dumb timeout 20 vim -u NONE -N -i NONE -n --not-a-term --cmd "set runtimepath^=$top/editors/vim | filetype plugin on | syntax on" \
        -s "$work/keys" "$work/edited.dired" > "$work/said" 2>&1 < /dev/null
}
in_vim() { vim_types "$2"; wants "Vim, $1" "${3:-}"; }

if command -v vim > /dev/null && vim --version | grep -q '+eval'; then
    tried="$tried Vim"
    in_vim 'a name' ':4\r:call search("img")\rcwbeach\e' '4s/img_0001/beach/'
    in_vim 'all names' ':%s/img_/photo-/g\r' 's/img_/photo-/g'
    in_vim 'a mode' ':4\r04|r-' '4s/-rw-/--w-/'
    in_vim 'a target' ':6\r$Fiistart_\e' '6s/ img/ start_img/'
    in_vim 'an owner by a command' ':%s/ann/bob/\r'
    in_vim 'text typed into a date' ':4\r30|iabc\e'
    in_vim 'text typed over a date' ':4\r30|Rabc\e'
    in_vim 'a backspace at the name' ':4\r45|i\bx\e' '4s/ img/ ximg/'
    in_vim 'a line deleted' ':4\r$dd'
    in_vim 'a line begun' ':4\r$onew\e'
    in_vim 'a line broken' ':4\r:call search("img")\riab\rcd\e' '4s/img/abcdimg/'
    in_vim 'lines joined' ':4\r$J'
    in_vim 'the blank in front of a name' ':4\r:call search("img")\rX'
fi

# emacs_does FORMS: in the listing as its mode has it; refusals are passed over, and the buffer is saved.
emacs_does() {
    cp "$work/before" "$work/edited.dired"
    timeout 60 emacs -Q --batch -L "$top/editors/emacs" -l dired-listing --eval "
        (progn (find-file \"$work/edited.dired\")
               (unless (eq major-mode 'dired-listing-mode) (kill-emacs 3))
               (goto-char (point-min))
               (condition-case refusal (progn $1) (text-read-only (princ \"refused\")))
               (setq make-backup-files nil)
               (set-buffer-modified-p t)
               (save-buffer))" > "$work/said" 2> "$work/errors" || { failed=1; echo "FAILED Emacs"; cat "$work/errors"; }
}
in_emacs() { emacs_does "$2"; wants "Emacs, $1" "${3:-}"; }
refused_in_emacs() { emacs_does "$2"; wants "Emacs, $1"; grep -q refused "$work/said" || { failed=1; echo "FAILED Emacs, $1: isn't refused"; }; }

if command -v emacs > /dev/null; then
    tried="$tried Emacs"
    in_emacs 'a name' '(search-forward "img_0001") (replace-match "beach")' '4s/img_0001/beach/'
    in_emacs 'all names' '(while (re-search-forward "img_" nil t) (replace-match "photo-"))' 's/img_/photo-/g'
    in_emacs 'text in front of a name' '(search-forward "img") (goto-char (match-beginning 0)) (insert "x")' '4s/ img/ ximg/'
    in_emacs 'a mode' '(search-forward "rw-r") (replace-match "-w-r" t t)' '4s/-rw-/--w-/'
    in_emacs 'a target' '(search-forward "-> img") (replace-match "-> start")' '6s/-> img/-> start/'
    in_emacs 'blanks at the ends' "(add-hook 'before-save-hook 'delete-trailing-whitespace) (dired-listing-mode) (search-forward \".jpg\") (insert \" \")" '4s/$/ /'
    refused_in_emacs 'an owner' '(search-forward "ann") (replace-match "bob")'
    refused_in_emacs 'a date' '(search-forward "2026") (insert "x")'
    refused_in_emacs 'a line deleted' '(forward-line 3) (delete-region (point) (line-beginning-position 2))'
    refused_in_emacs 'lines joined' '(forward-line 3) (end-of-line) (delete-char 1)'
    refused_in_emacs 'a line in front' '(insert "x")'
    refused_in_emacs 'the blank in front of a name' '(search-forward "img") (goto-char (match-beginning 0)) (delete-char -1)'
fi

[ "$failed" = 0 ] && echo "real-editors: all as it should be in${tried:- none}"
exit "$failed"
