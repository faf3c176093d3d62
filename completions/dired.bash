# Completion of dired and wdired for bash.
_dired() {
    local word=${COMP_WORDS[COMP_CWORD]} command=${COMP_WORDS[1]}
    COMPREPLY=()
    if [ "$COMP_CWORD" -eq 1 ]; then
        mapfile -t COMPREPLY < <(compgen -W 'list commit recover drill' -- "$word")
        return
    fi
    case $command in
        list)
            if [[ $word == -* ]]; then
                mapfile -t COMPREPLY < <(compgen -W '-A -l -t -S -r' -- "$word")
            else
                compopt -o filenames
                mapfile -t COMPREPLY < <(compgen -d -- "$word")
            fi ;;
        commit)
            if [[ $word == -* ]]; then
                mapfile -t COMPREPLY < <(compgen -W '--all' -- "$word")
            else
                compopt -o filenames
                mapfile -t COMPREPLY < <(compgen -f -- "$word")
            fi ;;
        recover) mapfile -t COMPREPLY < <(compgen -W '--back' -- "$word") ;;
    esac
}
_wdired() {
    local word=${COMP_WORDS[COMP_CWORD]}
    if [[ $word == -* ]]; then
        mapfile -t COMPREPLY < <(compgen -W '-A -l -t -S -r' -- "$word")
    else
        compopt -o filenames
        mapfile -t COMPREPLY < <(compgen -d -- "$word")
    fi
}
complete -F _dired dired
complete -F _wdired wdired
