# Completes the words of aclctl-table in bash: options, and files.

_aclctl_table() {
    local current=$2 option=$3
    if [[ $option == --perms || $option == --summary ]]; then
        COMPREPLY=()
    elif [[ $current == -* && $option != --listing && $option != --before ]]; then
        mapfile -t COMPREPLY < <(compgen -W '--before --csv --delete --help --jsonl --listing --no-via --perms --summary --via' -- "$current")
    else
        mapfile -t COMPREPLY < <(compgen -f -- "$current")
        compopt -o filenames 2>/dev/null
    fi
}

complete -F _aclctl_table aclctl-table
