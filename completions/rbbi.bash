# Completion of rbbi for bash: source this file, or put it as `rbbi` into
# ~/.local/share/bash-completion/completions.
_rbbi() {
    local word=${COMP_WORDS[COMP_CWORD]} options
    COMPREPLY=()
    if [ "$COMP_CWORD" -eq 1 ]; then
        COMPREPLY=($(compgen -W 'check compile same upgrade breaks run conform tally demo' -- "$word"))
        return
    fi
    case ${COMP_WORDS[1]} in
    check | compile | same) options='--prop --ignore-dictionary' ;;
    breaks | run) options='--prop --ignore-dictionary --table --units --suppress --tailor' ;;
    conform | tally) options='--prop --ignore-dictionary --table' ;;
    upgrade) options= ;;
    *) return ;;
    esac
    if [ "${COMP_WORDS[COMP_CWORD - 1]}" = --units ]; then
        COMPREPLY=($(compgen -W 'chars utf8 utf16' -- "$word"))
        return
    fi
    case $word in
    --*) COMPREPLY=($(compgen -W "$options" -- "$word")) ;;
    =) compopt -o filenames && COMPREPLY=($(compgen -f)) ;;
    *) compopt -o filenames && COMPREPLY=($(compgen -f -- "$word")) ;;
    esac
}
complete -F _rbbi rbbi
