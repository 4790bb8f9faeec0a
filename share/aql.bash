# Completion for bash of the words of aql, and of files behind aql-readvals. ./install puts it where bash-completion looks for it.
_aql() {
    local word=${COMP_WORDS[COMP_CWORD]} before=${COMP_WORDS[COMP_CWORD - 1]} given each
    COMPREPLY=()
    case $before in
        --workers) mapfile -t COMPREPLY < <(compgen -W "1 2 4 8 16 32 64" -- "$word") ;;
        --budget) mapfile -t COMPREPLY < <(compgen -W "10000000 50000000" -- "$word") ;;
        --sample) mapfile -t COMPREPLY < <(compgen -W "10 1000 100000 1000000" -- "$word") ;;
        *)
            # A word stands at most once.
            given=" ${COMP_WORDS[*]:1:COMP_CWORD-1} "
            for each in --workers --budget --plan --sample --motion --graph; do
                [[ $given == *" $each "* || $each != "$word"* ]] || COMPREPLY+=("$each")
            done
            ;;
    esac
}
complete -F _aql aql
complete -f aql-readvals
