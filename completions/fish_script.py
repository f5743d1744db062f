"""Writes the completions of a program for fish.

fish completes files unless a line with --no-files applies. What applies may depend on the command
and on the number of arguments before the cursor. A function of the script prints both.
"""

from __future__ import annotations

from collections.abc import Iterator

from help_text import Command, Option, Value

BEGIN = """\
# Completions of `{name}` for fish. Made by completions/generate: don't edit.
"""
FUNCTION = """
function __{name}_place --description 'The command, and how many arguments of it precede the cursor'
    set --local command ''
    set --local count 0
    set --local is options
    for word in (commandline --tokenize --current-process --cut-at-cursor)[2..]
        switch "$is $command $word"
{values}\
            case 'value *'
                set is options
            case 'options * --'
                set is arguments
            case 'options * -'
                set count (math $count + 1)
            case 'options * -*'
{command}\
            case '*'
                set count (math $count + 1)
        end
    end
    echo "$command $count"
end
"""
VALUES = """\
            case {options}
                set is value
"""
COMMAND = """\
            case 'options  *'
                set command $word
"""


def quoted(text: str) -> str:
    """A word of the shell."""
    return "'" + text.replace("\\", "\\\\").replace("'", "\\'") + "'"


def taken(value: Value) -> str:
    """What completes an option's value."""
    if value.words:
        return f" --exclusive --arguments {quoted(' '.join(value.words))}"
    return " --require-parameter --force-files" if value.is_file else " --exclusive"


def named(name: str) -> str:
    is_long = name.startswith("--")
    return f"--long-option {name[2:]}" if is_long else f"--short-option {name[1:]}"


def option(each: Option) -> str:
    names = " ".join(named(name) for name in each.names)
    return f"{names}{taken(each.value) if each.value else ''} --description {quoted(each.help)}"


def place(program: Command, pattern: str) -> str:
    """The condition that the command, a space and the place match a pattern."""
    return f"--condition \"string match --quiet '{pattern}' (__{program.name}_place)\" "


def takes_files(command: Command) -> bool:
    """Whether the command takes any number of files, and nothing else."""
    return [(each.value.is_file, each.is_repeated) for each in command.arguments] == [(True, True)]


def lines(program: Command, command: Command, name: str) -> Iterator[str]:
    """The lines for the options and the arguments of a command."""
    within = place(program, f"{name} *") if program.commands else ""
    for each in command.options:
        yield within + option(each)
    if takes_files(command) or command.commands:
        return
    yield within + "--no-files"
    for number, argument in enumerate(command.arguments):
        here = place(program, f"{name} *" if argument.is_repeated else f"{name} {number}")
        if argument.value.words:
            yield here + f"--arguments {quoted(' '.join(argument.value.words))}"
        elif argument.value.is_file:
            yield here + "--force-files"


def commands(program: Command) -> Iterator[str]:
    """The lines for the names of the commands."""
    if not program.commands:
        return
    first = place(program, " 0")
    yield first + "--no-files"
    for each in program.commands:
        yield first + f"--arguments {each.name} --description {quoted(each.about)}"
    yield first + "--arguments help --description 'Print help, or that of a command'"
    names = " ".join([*(each.name for each in program.commands), "help"])
    yield place(program, "help 0") + f"--no-files --arguments {quoted(names)}"


def function(program: Command, every: list[tuple[str, Command]]) -> str:
    """The function that prints the place of the cursor."""
    options = [
        quoted(f"options {name} {spelled}")
        for name, command in every
        for each in command.options
        if each.value
        for spelled in each.names
    ]
    values = VALUES.format(options=" ".join(options)) if options else ""
    command = COMMAND if program.commands else ""
    return FUNCTION.format(name=program.name, values=values, command=command)


def script(program: Command) -> str:
    """Returns the text of the file."""
    every = [("", program)] + [(command.name, command) for command in program.commands]
    found = list(commands(program))
    found += [line for name, command in every for line in lines(program, command, name)]
    text = BEGIN.format(name=program.name)
    if any("_place)" in line for line in found):
        text += function(program, every)
    return text + "\n" + "".join(f"complete --command {program.name} {line}\n" for line in found)
