# Completes the words of bsi in bash.

_bsi() {
    local word=${COMP_WORDS[COMP_CWORD]} before=${COMP_WORDS[COMP_CWORD - 1]} words=
    COMPREPLY=()
    if [ "$COMP_CWORD" -eq 1 ]; then
        words='script files check save schema add ask show help'
    elif [[ ${COMP_WORDS[1]} == @(files|check) && $before != --schema && $before != --asks ]]; then
        case $word in
            -*)
                words='--schema --asks'
                ;;
            *)
                compopt -o filenames 2>/dev/null
                mapfile -t COMPREPLY < <(compgen -f -X '!*.csv' -- "$word"; compgen -d -- "$word")
                return
                ;;
        esac
    elif [[ ${COMP_WORDS[1]} == save && $word == -* ]]; then
        words='--force --strict --schema --to --delimiter --decimal --dates --null --columns --round'
    elif [[ ${COMP_WORDS[1]} == schema && $word == -* ]]; then
        words='--delimiter --decimal --dates --null --columns --round'
    elif [[ ${COMP_WORDS[1]} == add && $word == -* ]]; then
        words='--so-far --strict'
    elif [[ ${COMP_WORDS[1]} == ask && $word == -* ]]; then
        words='--so-far --asks'
    elif [[ ${COMP_WORDS[1]} == @(files|check|save|schema|add|ask|show) ]]; then
        compopt -o filenames 2>/dev/null
        mapfile -t COMPREPLY < <(compgen -f -- "$word")
        return
    fi
    mapfile -t COMPREPLY < <(compgen -W "$words" -- "$word")
}

complete -F _bsi bsi
