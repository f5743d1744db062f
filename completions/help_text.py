"""Reads the commands, options and arguments of a program from what it prints for `--help`.

The proved programs print the long form of clap. Those of the Cargo edition print a table without
headings. Both give the same definition.
"""

from __future__ import annotations

import re
import subprocess
from collections.abc import Iterator
from dataclasses import dataclass, replace
from pathlib import Path

OPTION = re.compile(r"(-\w|--[\w-]+)(?:, (--[\w-]+))?(?:[ =]<([^>]+)>)?(?:\.\.\.)?(?:\s+(.*))?")
ARGUMENT = re.compile(r"(?:<([^>]+)>|\[([A-Z][^\]]*)\])(\.\.\.)?(?:\s+(.*))?")
COMMAND = re.compile(r"([a-z][\w-]*)(?:\s+(.*))?")
FORMS = (OPTION, ARGUMENT, COMMAND)
# Words that a value may be: `a or b`, `How it ends: a, b or c`, or clap's own list.
CHOICE = re.compile(r"(?:.*: )?((?:[a-z][\w-]*, )*[a-z][\w-]* or [a-z][\w-]*)")
POSSIBLE = re.compile(r" *\[possible values: ([^\]]*)\]")
DEFAULT = re.compile(r" *\[default: [^\]]*\]")
# The help of an option that may be repeated: `once per FILE`, `once for each`.
REPEATED = re.compile(r"\bonce (?:a|per|for)\b")
# A name of one letter, or of two as in A..B, is that of a number.
NUMBER = re.compile(r"[A-Z](?:\.\.[A-Z])?")
# The names of a row, as its form finds them, and its text.
Row = tuple[re.Match[str], str]


class Unreadable(Exception):
    """The help has a line or a form that this module doesn't know."""


@dataclass(frozen=True)
class Value:
    """What an option takes, or what an argument is."""

    name: str
    words: tuple[str, ...]
    is_file: bool


@dataclass(frozen=True)
class Option:
    """An option with its names, the short one first. Without a value it is a switch."""

    names: tuple[str, ...]
    value: Value | None
    is_repeated: bool
    help: str


@dataclass(frozen=True)
class Argument:
    """An argument without a name. Only the last of a command may be repeated."""

    value: Value
    is_repeated: bool


@dataclass(frozen=True)
class Command:
    """A program, or one of its commands."""

    name: str
    about: str
    options: tuple[Option, ...]
    arguments: tuple[Argument, ...]
    commands: tuple[Command, ...] = ()


def value_of(name: str, text: str) -> Value:
    """Returns what the value is, by its name and its help."""
    possible = POSSIBLE.search(text)
    choice = CHOICE.fullmatch(DEFAULT.sub("", text))
    if possible:
        words = possible[1].split(", ")
    elif choice:
        words = re.split(", | or ", choice[1])
    else:
        words = []
    is_number = NUMBER.fullmatch(name) or text.startswith("How many")
    return Value(name, tuple(words), not words and not is_number)


def option_of(found: re.Match[str], text: str) -> Option:
    names = tuple(name for name in found.group(1, 2) if name)
    text = re.sub(r" \(see .*\)$", "", text)
    value = value_of(found[3], text) if found[3] else None
    return Option(names, value, bool(REPEATED.search(text)), POSSIBLE.sub("", text))


def argument_of(found: re.Match[str], text: str) -> Argument:
    return Argument(value_of(found[1] or found[2], text), bool(found[3]))


def is_heading(line: str) -> bool:
    return line.endswith(":") and not line.startswith("Example")


def rows_of(lines: list[str]) -> Iterator[tuple[str, str]]:
    """Returns the first line of each row, and the lines below it as one text."""
    row: list[str] = []
    for line in lines:
        text = line.strip()
        indent = len(line) - len(line.lstrip())
        if not text or indent == 0 and is_heading(text):
            continue
        if indent == 2 or indent == 6 and text.startswith("--"):
            if row:
                yield row[0], " ".join(row[1:])
            row = [text]
        elif indent == 0:
            break
        elif row:
            row.append(text)
        else:
            raise Unreadable(line)
    if row:
        yield row[0], " ".join(row[1:])


def rows_by_form(table: list[str]) -> dict[re.Pattern[str], list[Row]]:
    """Returns the rows of options, of arguments and of commands."""
    rows: dict[re.Pattern[str], list[Row]] = {form: [] for form in FORMS}
    for head, below in rows_of(table):
        found = next(filter(None, (form.fullmatch(head) for form in FORMS)), None)
        if found is None:
            raise Unreadable(head)
        text = " ".join(part for part in (found.groups()[-1], below) if part)
        rows[found.re].append((found, text))
    return rows


def parse(name: str, text: str) -> Command:
    """Reads a help. The commands that it lists have only a name and a text."""
    about, usage, table = text.partition("\nUsage: ")
    rows = rows_by_form(table.splitlines()[1:])
    options = tuple(option_of(*row) for row in rows[OPTION])
    arguments = tuple(argument_of(*row) for row in rows[ARGUMENT])
    listed = (Command(found[1], text, (), ()) for found, text in rows[COMMAND])
    commands = tuple(command for command in listed if command.name != "help")
    if not usage or not any("--help" in option.names for option in options):
        raise Unreadable("no help")
    if any(argument.is_repeated for argument in arguments[:-1]):
        raise Unreadable("an argument follows one that may be repeated")
    return Command(name, " ".join(about.split()), options, arguments, commands)


def printed(*words: str | Path) -> str:
    ran = subprocess.run([*words, "--help"], check=True, stdout=subprocess.PIPE, timeout=60)
    return ran.stdout.decode()


def read(path: Path) -> Command:
    """Runs a program for its help, and for that of each of its commands."""
    program = parse(path.name, printed(path))
    commands = [
        replace(parse(listed.name, printed(path, listed.name)), about=listed.about)
        for listed in program.commands
    ]
    if any(command.commands for command in commands):
        raise Unreadable("a command has commands")
    if program.commands and program.arguments:
        raise Unreadable("commands, and arguments without one")
    return replace(program, commands=tuple(commands))
