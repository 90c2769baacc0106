# Completion of labask for bash.
_labask() {
    local word=${COMP_WORDS[COMP_CWORD]} before=${COMP_WORDS[COMP_CWORD - 1]} question='' options at
    COMPREPLY=()
    for ((at = 1; at < COMP_CWORD; at++)); do
        case ${COMP_WORDS[at]} in
        --labsys) at=$((at + 1)) ;;
        -*) ;;
        *)
            question=${COMP_WORDS[at]}
            break
            ;;
        esac
    done
    case $question in
    '') options="--labsys --help --version" ;;
    check) options="--all --least" ;;
    who) options="--process --ever --calls --depth --states --jobs --dask --time --quiet" ;;
    why) options="--against --process --jobs --time --quiet" ;;
    flow) options="--without --scripts --depth --states --jobs --dask --time --quiet" ;;
    never) options="--jobs --dask --time --quiet" ;;
    cuts) options="--flow --keep --apply --depth --states --jobs --dask --time --quiet" ;;
    orders) options="--rule --states --orders --jobs --dask --time --quiet" ;;
    page) options="--output --label --jobs" ;;
    serve) options="--port --time" ;;
    test) options="--world --tap --junit --scripts --depth --states --jobs --dask --time --quiet" ;;
    diff) options="--flows --depth --states --jobs --dask --time --quiet" ;;
    lint) options="--jobs --dask --time --quiet" ;;
    label) options="--lattice" ;;
    shell) options="--why" ;;
    watch) options="--page --rules --times --jobs" ;;
    fmt) options="--check" ;;
    fuzz) options="--against --map --no-place --out-only --seconds --worlds --seed --calls --most --cases --jobs --dask --quiet" ;;
    shrink) options="--against --map --no-place --out-only --case --jobs --time --quiet" ;;
    case) options="--note" ;;
    world) options="--bytes --proc --labels --root-user" ;;
    trace) options="--directory --as --start --umask" ;;
    esac
    case $before in
    --scripts) [ "$question" = flow ] || return ;; # of test it has a value, the name of a directory
    --json | --help | --version | --all | --least | --ever | --calls | --quiet | --tap | --flows | --check | --lattice | --why) ;;
    --*) return ;; # its value, which may be the name of a file
    esac
    if [ -z "$question" ]; then
        mapfile -t COMPREPLY < <(compgen -W "check who why flow never cuts orders test diff lint label shell watch fmt fuzz shrink case page serve world trace $options" -- "$word")
    elif [[ $word = -* ]]; then
        mapfile -t COMPREPLY < <(compgen -W "$options --json --labsys --help" -- "$word")
    elif [ "$question" = world ]; then
        compopt -o filenames
        mapfile -t COMPREPLY < <(compgen -d -- "$word")
    fi
}
# Elsewhere the names of files are completed.
complete -o default -F _labask labask
