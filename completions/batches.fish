# Completions of `batches` for fish. Made by completions/generate: don't edit.

function __batches_place --description 'The command, and how many arguments of it precede the cursor'
    set --local command ''
    set --local count 0
    set --local is options
    for word in (commandline --tokenize --current-process --cut-at-cursor)[2..]
        switch "$is $command $word"
            case 'options opening --version' 'options split-points --resolvers' 'options clip --split-points' 'options clip --shard' 'options report --replies' 'options report -o' 'options report --output'
                set is value
            case 'value *'
                set is options
            case 'options * --'
                set is arguments
            case 'options * -'
                set count (math $count + 1)
            case 'options * -*'
            case 'options  *'
                set command $word
            case '*'
                set count (math $count + 1)
        end
    end
    echo "$command $count"
end

complete --command batches --condition "string match --quiet ' 0' (__batches_place)" --no-files
complete --command batches --condition "string match --quiet ' 0' (__batches_place)" --arguments encode --description 'Reads JSON, one batch per line, and writes frames'
complete --command batches --condition "string match --quiet ' 0' (__batches_place)" --arguments decode --description 'Reads frames and writes JSON, one batch per line'
complete --command batches --condition "string match --quiet ' 0' (__batches_place)" --arguments show --description 'Reads frames and prints them as a table for people'
complete --command batches --condition "string match --quiet ' 0' (__batches_place)" --arguments opening --description 'Writes the frame of the batch that starts a chain at a version'
complete --command batches --condition "string match --quiet ' 0' (__batches_place)" --arguments stats --description 'Reads frames of batches and prints what they add up to'
complete --command batches --condition "string match --quiet ' 0' (__batches_place)" --arguments split-points --description 'Reads frames of batches, prints keys that split their ranges evenly, one per line'
complete --command batches --condition "string match --quiet ' 0' (__batches_place)" --arguments clip --description 'Reads frames of batches and writes those of one resolver\'s shard'
complete --command batches --condition "string match --quiet ' 0' (__batches_place)" --arguments report --description 'Reads frames of batches and of their replies and writes a page of HTML'
complete --command batches --condition "string match --quiet ' 0' (__batches_place)" --arguments help --description 'Print help, or that of a command'
complete --command batches --condition "string match --quiet 'help 0' (__batches_place)" --no-files --arguments 'encode decode show opening stats split-points clip report help'
complete --command batches --condition "string match --quiet ' *' (__batches_place)" --short-option h --long-option help --description 'Print help'
complete --command batches --condition "string match --quiet ' *' (__batches_place)" --short-option V --long-option version --description 'Print version'
complete --command batches --condition "string match --quiet 'encode *' (__batches_place)" --long-option replies --description 'The frames are those of replies, and not of batches'
complete --command batches --condition "string match --quiet 'encode *' (__batches_place)" --short-option h --long-option help --description 'Print help'
complete --command batches --condition "string match --quiet 'encode *' (__batches_place)" --no-files
complete --command batches --condition "string match --quiet 'encode 0' (__batches_place)" --force-files
complete --command batches --condition "string match --quiet 'decode *' (__batches_place)" --long-option replies --description 'The frames are those of replies, and not of batches'
complete --command batches --condition "string match --quiet 'decode *' (__batches_place)" --short-option h --long-option help --description 'Print help'
complete --command batches --condition "string match --quiet 'decode *' (__batches_place)" --no-files
complete --command batches --condition "string match --quiet 'decode 0' (__batches_place)" --force-files
complete --command batches --condition "string match --quiet 'show *' (__batches_place)" --long-option replies --description 'The frames are those of replies, and not of batches'
complete --command batches --condition "string match --quiet 'show *' (__batches_place)" --long-option full --description 'Prints wide keys whole, and doesn\'t cut them'
complete --command batches --condition "string match --quiet 'show *' (__batches_place)" --short-option h --long-option help --description 'Print help'
complete --command batches --condition "string match --quiet 'show *' (__batches_place)" --no-files
complete --command batches --condition "string match --quiet 'show 0' (__batches_place)" --force-files
complete --command batches --condition "string match --quiet 'opening *' (__batches_place)" --long-option version --exclusive --description 'The version of the batch: every read below it conflicts'
complete --command batches --condition "string match --quiet 'opening *' (__batches_place)" --short-option h --long-option help --description 'Print help'
complete --command batches --condition "string match --quiet 'opening *' (__batches_place)" --no-files
complete --command batches --condition "string match --quiet 'stats *' (__batches_place)" --long-option json --description 'Prints one object of JSON'
complete --command batches --condition "string match --quiet 'stats *' (__batches_place)" --short-option h --long-option help --description 'Print help'
complete --command batches --condition "string match --quiet 'split-points *' (__batches_place)" --long-option resolvers --exclusive --description 'How many resolvers share the keys, from 1 to 64'
complete --command batches --condition "string match --quiet 'split-points *' (__batches_place)" --short-option h --long-option help --description 'Print help'
complete --command batches --condition "string match --quiet 'clip *' (__batches_place)" --long-option split-points --require-parameter --force-files --description 'The file of the split points, one key per line'
complete --command batches --condition "string match --quiet 'clip *' (__batches_place)" --long-option shard --exclusive --description 'The number of the shard, from 0'
complete --command batches --condition "string match --quiet 'clip *' (__batches_place)" --short-option h --long-option help --description 'Print help'
complete --command batches --condition "string match --quiet 'clip *' (__batches_place)" --no-files
complete --command batches --condition "string match --quiet 'clip 0' (__batches_place)" --force-files
complete --command batches --condition "string match --quiet 'report *' (__batches_place)" --long-option replies --require-parameter --force-files --description 'A file of the frames of replies; once for each'
complete --command batches --condition "string match --quiet 'report *' (__batches_place)" --short-option o --long-option output --require-parameter --force-files --description 'The file to write; standard output where none is given'
complete --command batches --condition "string match --quiet 'report *' (__batches_place)" --short-option h --long-option help --description 'Print help'
