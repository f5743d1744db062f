# Completions of `replay` for bash. Made by completions/generate: don't edit.

_replay() {
    local word current=${COMP_WORDS[COMP_CWORD]} command='' wanted='' ended='' place=0
    COMPREPLY=()
    for word in "${COMP_WORDS[@]:1:COMP_CWORD-1}"; do
        if [[ $wanted ]]; then
            # In --option=value, bash takes = for a word.
            [[ $word == = ]] || wanted=''
        elif [[ ! $ended && $word == -- ]]; then
            ended=yes
        elif [[ ! $ended && $word == -?* ]]; then
            case "$command $word" in
                ' --capacity') wanted=OTHER ;;
                ' --window') wanted=OTHER ;;
                ' --limit') wanted=OTHER ;;
                ' --resolvers') wanted=OTHER ;;
                ' --split-points') wanted=FILE ;;
                ' --only') wanted='committed conflict tooold' ;;
                ' --versions') wanted=OTHER ;;
                ' --check') wanted=FILE ;;
                ' --replies') wanted=FILE ;;
                ' -o' | ' --output') wanted=FILE ;;
                ' --summary-to') wanted=FILE ;;
                ' --top') wanted=OTHER ;;
                *) ;;
            esac
        else
            place=$((place + 1))
        fi
    done
    [[ $current != = ]] || current=''
    if [[ $wanted ]]; then
        :
    elif [[ ! $ended && $current == -* ]]; then
        case $command in
            '') wanted='--capacity --window --limit --report-all --resolvers --split-points --frames --json --quiet --only --versions --explain --summary --check --stream --replies -o --output --summary-to --top --verbose -h --help -V --version' ;;
            *) wanted=OTHER ;;
        esac
    else
        case "$command $place" in
            ' '*) wanted=FILE ;;
            *) wanted=OTHER ;;
        esac
    fi
    [[ $wanted != FILE ]] || return 0
    compopt +o bashdefault +o default 2> /dev/null
    [[ $wanted == OTHER ]] || mapfile -t COMPREPLY < <(compgen -W "$wanted" -- "$current")
}
complete -o bashdefault -o default -F _replay replay
