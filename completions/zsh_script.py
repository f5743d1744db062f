"""Writes the completions of a program for zsh, as specifications of its function `_arguments`."""

from __future__ import annotations

import re
from collections.abc import Iterator

from help_text import Argument, Command, Option, Value

BEGIN = """\
#compdef {name}
# Completions of `{name}` for zsh. Made by completions/generate: don't edit.

_{name}() {{
"""
# What follows the function makes the file work both if zsh loads it and if a user sources it.
END = """\
}}

if [[ $funcstack[1] == _{name} ]]; then
    _{name} "$@"
else
    compdef _{name} {name}
fi
"""
COMMANDS = """\
    local curcontext=$curcontext ret=1 state state_descr line
    typeset -A opt_args
    local -a commands=(
{described}\
        'help:Print help, or that of a command'
    )
    _arguments -C -S : \\
"""
STATES = """\
        ': :->command' \\
        '*:: :->arguments' && ret=0
    case $state in
        command)
            _describe -t commands command commands && ret=0
            ;;
        arguments)
            case $words[1] in
"""
HELP = """\
                help)
                    ((CURRENT == 2)) && _describe -t commands command commands && ret=0
                    ;;
            esac
            ;;
    esac
    return ret
"""


def quoted(text: str) -> str:
    """A word of the shell."""
    return "'" + text.replace("'", "'\\''") + "'"


def escaped(text: str) -> str:
    """A text in which `_arguments` and `_describe` take no character for one of theirs."""
    return re.sub(r"([\\:\[\]])", r"\\\1", text)


def action(value: Value, nothing: str) -> str:
    """The name of a value, and how it is completed."""
    if value.words:
        return f":{escaped(value.name)}:({' '.join(value.words)})"
    return f":{escaped(value.name)}:{'_files' if value.is_file else nothing}"


def option(each: Option) -> str:
    """The specification of an option. Nothing is completed after help or the version."""
    text, names = escaped(each.help), " ".join(each.names)
    if each.is_repeated:
        before = "*"
    elif not each.value and each.names[-1] in ("--help", "--version"):
        before = "(- : *)"
    else:
        before = f"({names})" if len(each.names) > 1 else ""
    if each.value:
        spelled = tuple(name + ("=" if name.startswith("--") else "+") for name in each.names)
        after = action(each.value, nothing=" ")
    else:
        spelled, after = each.names, ""
    if len(spelled) == 1:
        return quoted(before + spelled[0] + f"[{text}]{after}")
    return quoted(before) + "{" + ",".join(spelled) + "}" + quoted(f"[{text}]{after}")


def argument(each: Argument) -> str:
    """The specification of an argument. Beside the message of a space, zsh inserts no option."""
    return quoted(("*" if each.is_repeated else "") + action(each.value, nothing="{}"))


def specifications(command: Command) -> list[str]:
    options = [option(each) for each in command.options]
    return options + [argument(each) for each in command.arguments]


def arguments(command: Command, indent: str) -> Iterator[str]:
    """The call of `_arguments` for a command."""
    yield f"{indent}_arguments -S : \\\n"
    yield " \\\n".join(f"{indent}    {each}" for each in specifications(command))


def script(program: Command) -> str:
    """Returns the text of the file."""
    begin, end = BEGIN.format(name=program.name), END.format(name=program.name)
    if not program.commands:
        return begin + "".join(arguments(program, "    ")) + "\n" + end
    described = (quoted(f"{each.name}:{escaped(each.about)}") for each in program.commands)
    parts = [begin, COMMANDS.format(described="".join(f"        {each}\n" for each in described))]
    parts += [f"        {each} \\\n" for each in specifications(program)]
    parts.append(STATES)
    for command in program.commands:
        call = "".join(arguments(command, " " * 20))
        parts.append(f"{' ' * 16}{command.name})\n{call} && ret=0\n{' ' * 20};;\n")
    return "".join([*parts, HELP, end])
