# Completes the words of aclctl in bash: commands, their options, styles of lists, and files.

# The options of a command.
_aclctl_options() {
    case $1 in
        decide) echo --nfs4 --owner --group --uid --gids --perms --help ;;
        explain) echo --owner --group --uid --gids --perms --help ;;
        compare) echo --owner --group --help ;;
        run) echo --setup --journal --max-errors --help ;;
        who) echo --accounts --domain --perms --letters --delete --reach --via --draft --user --help ;;
        why) echo --accounts --domain --user --perms --delete --draft --help ;;
        impact) echo --accounts --accounts-after --domain --reach --draft --all --user --text --exit-code --help ;;
        restore) echo --help ;;
        translate) echo --accounts --domain --form --attributes --print0 --help ;;
        next) echo --user --mode --umask --dir --dirs-only --accounts --domain --help ;;
        list | accounts | dump) echo --setup --help ;;
        lint) echo --accounts --domain --exit-code --setup --help ;;
    esac
}

# The commands.
_aclctl_commands='who why impact restore translate next decide explain compare run list accounts dump lint help --version'

# What stands at a place of a command, from 0, options not counted: a style, a file, a command, or else
# a text.
_aclctl_kind() {
    case $1:$2 in
        explain:0 | compare:[02]) echo style ;;
        run:* | lint:* | who:0 | why:0 | impact:[01] | restore:[01] | translate:0 | next:0 | list:0 | dump:0) echo file ;;
        help:0) echo command ;;
    esac
}

# Sets `words` to the words of the line up to the one that is completed. Bash cuts words at = and :
# and @, too; here they are whole.
_aclctl_words() {
    local rest=$COMP_LINE piece
    words=()
    for piece in "${COMP_WORDS[@]:0:COMP_CWORD+1}"; do
        if [[ ${#words[@]} -eq 0 || $rest == [[:space:]]* ]]; then
            words+=("$piece")
        else
            words[-1]+=$piece
        fi
        rest=${rest#*"$piece"}
    done
}

# Completes the files whose names begin so. Of what is written bash replaces only the last piece.
_aclctl_files() {
    local written=$1 piece=$2
    mapfile -t COMPREPLY < <(compgen -f -- "$written")
    COMPREPLY=("${COMPREPLY[@]#"${written%"$piece"}"}")
    compopt -o filenames 2>/dev/null
}

# Completes one of these words.
_aclctl_choose() {
    mapfile -t COMPREPLY < <(compgen -W "$1" -- "$2")
}

# Sets `place` to how many words before the last are no option's, `option` to an option whose value
# the last word is, if it is one's, and `is_ended` if a word -- ends the options.
_aclctl_place() {
    local word
    place=0 option='' is_ended=''
    for word in "${words[@]:2:${#words[@]}-3}"; do
        if [[ -n $option ]]; then
            option=''
        elif [[ -n $is_ended || $word != -?* ]]; then
            place=$((place + 1))
        elif [[ $word == -- ]]; then
            is_ended=yes
        elif [[ ! $word =~ =|^--(nfs4|journal|letters|reach|via|draft|all|text|exit-code|attributes|print0|dir|dirs-only|help)$ ]]; then
            option=$word
        fi
    done
    if [[ -z $option && -z $is_ended && ${words[-1]} == --*=* ]]; then
        option=${words[-1]%%=*}
    fi
}

_aclctl() {
    local -a words
    local current place option is_ended kind
    COMPREPLY=()
    _aclctl_words
    current=${words[-1]}
    if [[ ${#words[@]} -eq 2 ]]; then
        _aclctl_choose "$_aclctl_commands" "$current"
        return
    fi
    _aclctl_place
    kind=$(_aclctl_kind "${words[1]}" "$place")
    if [[ $option =~ ^--(accounts|accounts-after|setup)$ ]]; then
        _aclctl_files "${current#"$option="}" "$2"
    elif [[ $option == --form ]]; then
        _aclctl_choose 'nfs4 freebsd' "${current#"$option="}"
    elif [[ -n $option ]]; then
        return
    elif [[ -z $is_ended && ( $current == -* || -z $current$kind ) ]]; then
        _aclctl_choose "$(_aclctl_options "${words[1]}")" "$current"
    elif [[ $kind == command ]]; then
        _aclctl_choose "$_aclctl_commands" "$current"
    elif [[ $kind == style ]]; then
        _aclctl_choose 'posix nfs4' "$current"
    elif [[ $kind == file ]]; then
        _aclctl_files "$current" "$2"
    fi
}

complete -F _aclctl aclctl
