# Completes the words of aclctl-report in bash: options, and files.

_aclctl_report() {
    local current=$2 option=$3
    if [[ $current == -* && $option != --accounts && $option != --before && $option != --owners ]]; then
        mapfile -t COMPREPLY < <(compgen -W '--accounts --before --help --owners' -- "$current")
    else
        mapfile -t COMPREPLY < <(compgen -f -- "$current")
        compopt -o filenames 2>/dev/null
    fi
}

complete -F _aclctl_report aclctl-report
