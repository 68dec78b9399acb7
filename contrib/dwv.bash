# Completion of dwv in bash. `make install` puts it where bash-completion finds it; or source it in ~/.bashrc.

# Completes the commands and --json. For each other word COMPREPLY stays empty, and then bash completes names of files.
_dwv() {
    local word=${COMP_WORDS[COMP_CWORD]}
    COMPREPLY=()
    if [ "$COMP_CWORD" -eq 1 ]; then
        mapfile -t COMPREPLY < <(compgen -W 'check show types size' -- "$word")
    elif [ "${COMP_WORDS[1]}" = check ] && [[ $word == -* ]]; then
        mapfile -t COMPREPLY < <(compgen -W --json -- "$word")
    fi
}

complete -o bashdefault -o default -F _dwv dwv

# The same for dwv-addr.
_dwv_addr() {
    local word=${COMP_WORDS[COMP_CWORD]}
    COMPREPLY=()
    if [ "$COMP_CWORD" -eq 1 ]; then
        mapfile -t COMPREPLY < <(compgen -W 'check find' -- "$word")
    elif [[ $word == -* ]]; then
        mapfile -t COMPREPLY < <(compgen -W --json -- "$word")
    fi
}

complete -o bashdefault -o default -F _dwv_addr dwv-addr

# Completes the options of the scripts. For each other word bash completes names of files.
_dwv_script() {
    local word=${COMP_WORDS[COMP_CWORD]} options='--help'
    COMPREPLY=()
    case ${COMP_WORDS[0]##*/} in
        dwv-c-header) options='--all --assert --debuginfod --help --limit -o --version' ;;
        dwv-check) options='--allow --debuginfod --every --explain --files-from --help --ignore --jobs --json --junit'
            options+=' --log --memory --merge -o --resume --sarif --seconds --summary --unprepared --version' ;;
        dwv-explain) options='--debuginfod --help --html --json --version' ;;
    esac
    if [[ $word == -* ]]; then
        mapfile -t COMPREPLY < <(compgen -W "$options" -- "$word")
    fi
}

complete -o bashdefault -o default -F _dwv_script dwv-c-header dwv-check dwv-explain
