# Completion of cartheron in bash: commands, the options that a command takes, and files.
_cartheron() {
    local word=${COMP_WORDS[COMP_CWORD]} before=${COMP_WORDS[COMP_CWORD - 1]} options='-o --help'
    COMPREPLY=()
    if [ "$COMP_CWORD" -eq 1 ]; then
        mapfile -t COMPREPLY < <(compgen -W 'plan show site picture rewrite check --help --version' -- "$word")
    elif [ "$before" != -o ] && [[ $word == -?* ]]; then
        case ${COMP_WORDS[1]} in show | site | check) options="--json $options" ;; esac
        mapfile -t COMPREPLY < <(compgen -W "$options" -- "$word")
    else
        compopt -o filenames 2>/dev/null || :
        mapfile -t COMPREPLY < <(compgen -f -- "$word")
    fi
}
complete -F _cartheron cartheron
