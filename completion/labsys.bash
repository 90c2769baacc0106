# Completion of labsys for bash.
_labsys() {
    local word=${COMP_WORDS[COMP_CWORD]}
    COMPREPLY=()
    if [ "$COMP_CWORD" -eq 1 ]; then
        mapfile -t COMPREPLY < <(compgen -W "play sched view check gen drill upgrade least never select lineage --help --version" -- "$word")
    elif [ "$COMP_CWORD" -eq 2 ] && [[ ${COMP_WORDS[1]} = play || ${COMP_WORDS[1]} = sched ]]; then
        compopt -o filenames
        mapfile -t COMPREPLY < <(compgen -f -- "$word")
    fi
}
# Elsewhere, as in `labsys check < FILE`, the names of files are completed.
complete -o default -F _labsys labsys
