# Completions of `batches` for bash. Made by completions/generate: don't edit.

_batches() {
    local word current=${COMP_WORDS[COMP_CWORD]} command='' wanted='' ended='' place=0
    COMPREPLY=()
    for word in "${COMP_WORDS[@]:1:COMP_CWORD-1}"; do
        if [[ $wanted ]]; then
            # In --option=value, bash takes = for a word.
            [[ $word == = ]] || wanted=''
        elif [[ ! $ended && $word == -- ]]; then
            ended=yes
        elif [[ ! $ended && $word == -?* ]]; then
            case "$command $word" in
                'opening --version') wanted=OTHER ;;
                'split-points --resolvers') wanted=OTHER ;;
                'clip --split-points') wanted=FILE ;;
                'clip --shard') wanted=OTHER ;;
                'report --replies') wanted=FILE ;;
                'report -o' | 'report --output') wanted=FILE ;;
                *) ;;
            esac
        elif [[ ! $command && ! $ended ]]; then
            command=$word
        else
            place=$((place + 1))
        fi
    done
    [[ $current != = ]] || current=''
    if [[ $wanted ]]; then
        :
    elif [[ ! $ended && $current == -* ]]; then
        case $command in
            '') wanted='-h --help -V --version' ;;
            encode) wanted='--replies -h --help' ;;
            decode) wanted='--replies -h --help' ;;
            show) wanted='--replies --full -h --help' ;;
            opening) wanted='--version -h --help' ;;
            stats) wanted='--json -h --help' ;;
            split-points) wanted='--resolvers -h --help' ;;
            clip) wanted='--split-points --shard -h --help' ;;
            report) wanted='--replies -o --output -h --help' ;;
            *) wanted=OTHER ;;
        esac
    else
        case "$command $place" in
            'encode 0') wanted=FILE ;;
            'decode 0') wanted=FILE ;;
            'show 0') wanted=FILE ;;
            'stats '*) wanted=FILE ;;
            'split-points '*) wanted=FILE ;;
            'clip 0') wanted=FILE ;;
            'report '*) wanted=FILE ;;
            ' 0' | 'help 0') wanted='encode decode show opening stats split-points clip report help' ;;
            *) wanted=OTHER ;;
        esac
    fi
    [[ $wanted != FILE ]] || return 0
    compopt +o bashdefault +o default 2> /dev/null
    [[ $wanted == OTHER ]] || mapfile -t COMPREPLY < <(compgen -W "$wanted" -- "$current")
}
complete -o bashdefault -o default -F _batches batches
