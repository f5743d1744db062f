# Completions of `workload` for fish. Made by completions/generate: don't edit.

function __workload_place --description 'The command, and how many arguments of it precede the cursor'
    set --local command ''
    set --local count 0
    set --local is options
    for word in (commandline --tokenize --current-process --cut-at-cursor)[2..]
        switch "$is $command $word"
            case 'value *'
                set is options
            case 'options * --'
                set is arguments
            case 'options * -'
                set count (math $count + 1)
            case 'options * -*'
            case '*'
                set count (math $count + 1)
        end
    end
    echo "$command $count"
end

complete --command workload --short-option h --long-option help --description 'Print help'
complete --command workload --short-option V --long-option version --description 'Print version'
complete --command workload --no-files
complete --command workload --condition "string match --quiet ' 0' (__workload_place)" --arguments 'skiplisttest points'
