# Completion of verifactu's words for bash.

# The words that may stand at place $1 of a command, $2; files are said as FILE.
_verifactu_words() {
    case $2:$1 in
        :*) echo 'chain day serve many drain guard audit link list check statement export matches generate follow migrate help --agency --help --version' ;;
        generate:*) ;;
        help:1) echo 'chain day serve many drain guard audit link list check statement export matches generate follow migrate' ;;
        *:1 | follow:2 | migrate:2 | guard:3 | many:3 | many:5 | many:7 | many:9 | many:11 | many:13 | many:15) echo FILE ;;
        link:3) echo 'real test' ;;
        list:2) echo 'all waiting refused' ;;
        check:2) echo '1 2 4 8 16' ;;
    esac
}

_verifactu() {
    local place=$COMP_CWORD first=1 words current=${COMP_WORDS[COMP_CWORD]}
    COMPREPLY=()
    # The two files of --agency stand ahead of the command.
    if [ "${COMP_WORDS[1]}" = --agency ] && [ "$place" -gt 1 ]; then
        first=4
    fi
    if [ "$first" = 4 ] && [ "$place" -lt 4 ]; then
        words=FILE
    elif [ "$place" -eq "$first" ]; then
        words=$(_verifactu_words 0 '')
        [ "$first" = 1 ] || words='day serve drain guard'
    else
        words=$(_verifactu_words $((place - first)) "${COMP_WORDS[first]}")
    fi
    if [ "$words" = FILE ]; then
        compopt -o filenames 2>/dev/null
        mapfile -t COMPREPLY < <(compgen -f -- "$current")
    else
        mapfile -t COMPREPLY < <(compgen -W "$words" -- "$current")
    fi
}
complete -F _verifactu verifactu
