# Completion of segment for bash: source this file, or put it as `segment` into
# ~/.local/share/bash-completion/completions.
_segment() {
    local word=${COMP_WORDS[COMP_CWORD]} before=${COMP_WORDS[COMP_CWORD - 1]}
    COMPREPLY=()
    # bash parts words at = too.
    if [ "$word" = = ]; then
        word=
    elif [ "$before" = = ]; then
        before=${COMP_WORDS[COMP_CWORD - 2]}
    fi
    case $before in
    -b | --by) COMPREPLY=($(compgen -W 'grapheme word sentence line
        line-strict line-normal line-loose line-cj line-normal-cj line-loose-cj' -- "$word")) ;;
    -f | --format) COMPREPLY=($(compgen -W 'text json plain marked lines' -- "$word")) ;;
    -u | --units) COMPREPLY=($(compgen -W 'chars utf8 utf16' -- "$word")) ;;
    --color) COMPREPLY=($(compgen -W 'auto always never' -- "$word")) ;;
    -o | --only | --mark | --width | --why) ;;
    --suppress) compopt -o filenames && COMPREPLY=($(compgen -W 'en de' -f -- "$word")) ;;
    *)
        case $word in
        -*)
            COMPREPLY=($(compgen -W '--by --rules --table --check --lint --why --prop
                --ignore-dictionary --format --mark --width --null --count --units --only --only-words --suppress
                --tailor --lossy --no-filename --explain --color --help --version' -- "$word"))
            ;;
        *) compopt -o filenames && COMPREPLY=($(compgen -f -- "$word")) ;;
        esac
        ;;
    esac
}
complete -F _segment segment
