# Completion of xm23 for bash.
_xm23() {
    local word=${COMP_WORDS[COMP_CWORD]} before=${COMP_WORDS[COMP_CWORD - 1]} options=
    COMPREPLY=()
    compopt -o filenames 2> /dev/null
    if [ "$COMP_CWORD" -eq 1 ]; then
        mapfile -t COMPREPLY < <(compgen -W 'run mark report back events sound line copies asm dis paper check stack card --help --version' -- "$word")
        return
    fi
    case ${COMP_WORDS[1]} in
        run) options='-l -n --help' ;;
        mark) options='-j -o -0 -L -s --help' ;;
        back) options='-a -n -w --help' ;;
        events) options='-c --help' ;;
        asm) options='-l -o -s --help' ;;
        copies) options='-L -o --help' ;;
        report) options='-s -a -o --help' ;;
        dis | paper | card) options='-o --help' ;;
        sound | line | check | stack) options='--help' ;;
    esac
    if [[ $before == -[ajsnw] ]]; then
        return
    elif [ "$before" = -o ] && [ "${COMP_WORDS[1]}" = mark ]; then
        mapfile -t COMPREPLY < <(compgen -d -- "$word")
    elif [[ $word == -* ]]; then
        mapfile -t COMPREPLY < <(compgen -W "$options" -- "$word")
    else
        mapfile -t COMPREPLY < <(compgen -f -- "$word")
    fi
}
complete -F _xm23 xm23
