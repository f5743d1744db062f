"""Writes the completions of a program for bash.

The script walks over the words before the cursor. What it wants at the cursor is FILE, which
readline completes, OTHER, which nothing completes, or a list of words.
"""

from __future__ import annotations

from collections.abc import Iterator

from help_text import Command, Value

BEGIN = """\
# Completions of `{name}` for bash. Made by completions/generate: don't edit.

_{name}() {{
    local word current=${{COMP_WORDS[COMP_CWORD]}} command='' wanted='' ended='' place=0
    COMPREPLY=()
    for word in "${{COMP_WORDS[@]:1:COMP_CWORD-1}}"; do
        if [[ $wanted ]]; then
            # In --option=value, bash takes = for a word.
            [[ $word == = ]] || wanted=''
        elif [[ ! $ended && $word == -- ]]; then
            ended=yes
        elif [[ ! $ended && $word == -?* ]]; then
            case "$command $word" in
"""
AFTER_VALUES = """\
                *) ;;
            esac
{command}        else
            place=$((place + 1))
        fi
    done
    [[ $current != = ]] || current=''
    if [[ $wanted ]]; then
        :
    elif [[ ! $ended && $current == -* ]]; then
        case $command in
"""
COMMAND = """\
        elif [[ ! $command && ! $ended ]]; then
            command=$word
"""
AFTER_OPTIONS = """\
            *) wanted=OTHER ;;
        esac
    else
        case "$command $place" in
"""
END = """\
            *) wanted=OTHER ;;
        esac
    fi
    [[ $wanted != FILE ]] || return 0
    compopt +o bashdefault +o default 2> /dev/null
    [[ $wanted == OTHER ]] || mapfile -t COMPREPLY < <(compgen -W "$wanted" -- "$current")
}}
complete -o bashdefault -o default -F _{name} {name}
"""


def wanted(value: Value) -> str:
    if value.words:
        return f"'{' '.join(value.words)}'"
    return "FILE" if value.is_file else "OTHER"


def values(name: str, command: Command) -> Iterator[str]:
    """The options that take a value."""
    for option in command.options:
        if option.value:
            patterns = " | ".join(f"'{name} {each}'" for each in option.names)
            yield f"                {patterns}) wanted={wanted(option.value)} ;;\n"


def options(name: str, command: Command) -> str:
    names = " ".join(each for option in command.options for each in option.names)
    return f"            {name or repr(name)}) wanted='{names}' ;;\n"


def arguments(name: str, command: Command) -> Iterator[str]:
    for place, argument in enumerate(command.arguments):
        pattern = f"'{name} '*" if argument.is_repeated else f"'{name} {place}'"
        yield f"            {pattern}) wanted={wanted(argument.value)} ;;\n"


def script(program: Command) -> str:
    """Returns the text of the file."""
    every = [("", program)] + [(command.name, command) for command in program.commands]
    parts = [BEGIN.format(name=program.name)]
    parts += [line for name, command in every for line in values(name, command)]
    parts.append(AFTER_VALUES.format(command=COMMAND if program.commands else ""))
    parts += [options(name, command) for name, command in every]
    parts.append(AFTER_OPTIONS)
    parts += [line for name, command in every for line in arguments(name, command)]
    if program.commands:
        names = " ".join(command.name for command in program.commands)
        parts.append(f"            ' 0' | 'help 0') wanted='{names} help' ;;\n")
    parts.append(END.format(name=program.name))
    return "".join(parts)
