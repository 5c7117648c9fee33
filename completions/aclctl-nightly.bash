# Completes the words of aclctl-nightly in bash: options, folders and files.

_aclctl_nightly() {
    local current=$2 option=$3
    if [[ $option == --keep ]]; then
        COMPREPLY=()
    elif [[ $current == -* && $option != --accounts && $option != --state ]]; then
        mapfile -t COMPREPLY < <(compgen -W '--accounts --help --keep --quiet --state' -- "$current")
    else
        mapfile -t COMPREPLY < <(compgen -f -- "$current")
        compopt -o filenames 2>/dev/null
    fi
}

complete -F _aclctl_nightly aclctl-nightly
