# Completes the words of aclctl-rehearse in bash: options, folders, and behind -- a command.

_aclctl_rehearse() {
    local current=$2 option=$3 at
    for ((at = 1; at < COMP_CWORD; at++)); do
        if [[ ${COMP_WORDS[at]} == -- ]]; then
            if ((at == COMP_CWORD - 1)); then
                mapfile -t COMPREPLY < <(compgen -c -- "$current")
            else
                mapfile -t COMPREPLY < <(compgen -f -- "$current")
                compopt -o filenames 2>/dev/null
            fi
            return
        fi
    done
    if [[ $option == --depth ]]; then
        COMPREPLY=()
    elif [[ $current == -* && $option != --accounts && $option != --room ]]; then
        mapfile -t COMPREPLY < <(compgen -W '--accounts --apply --depth --help --new --room' -- "$current")
    else
        mapfile -t COMPREPLY < <(compgen -f -- "$current")
        compopt -o filenames 2>/dev/null
    fi
}

complete -F _aclctl_rehearse aclctl-rehearse
