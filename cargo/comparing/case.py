"""What is run on both builds."""

import re
from dataclasses import dataclass, field
from enum import Enum

# How full a resolver was, in a summary.
OCCUPANCY = re.compile(
    rb'(resolver: held at most |"most_held":)\d+(, boundaries |,"boundaries":)\d+'
    rb'(, at most |,"most_boundaries":)\d+'
)


class Text(Enum):
    """How the text of a run is compared."""

    EXACT = "exact"
    # Help, and what `clap` says of a wrong command line: which of the two streams is empty is
    # compared, and whether it is an error.
    OF_CLAP = "of clap"


@dataclass(frozen=True)
class Outcome:
    """What a program printed and returned."""

    status: int
    out: bytes
    err: bytes


def hidden(text: bytes) -> bytes:
    """Returns a text without how full a resolver was."""
    return OCCUPANCY.sub(rb"\1*\2*\3*", text)


@dataclass(frozen=True)
class Run:
    """A command line. File names in it are relative to the case's folder."""

    program: str
    args: tuple[str | bytes, ...]
    stdin: bytes = b""
    # The file that is standard input, instead of a pipe.
    stdin_file: str | None = None
    text: Text = Text.EXACT
    # Whether standard output takes no bytes.
    is_full: bool = False
    # What is known beforehand, by a worked row or by the rules.
    expected: Outcome | None = None
    # A part of standard error.
    says: bytes = b""
    # How full the resolver was isn't compared. The schedule decides it if several proxies share the
    # resolver, and the rules don't say how many boundaries it has.
    hides_occupancy: bool = False


@dataclass(frozen=True)
class Case:
    """Command lines over the same files. A name that ends in a slash is that of an empty folder."""

    name: str
    feature: str
    files: dict[str, bytes]
    runs: tuple[Run, ...] = field(default=())
    # Further names of files, as hard links and as symbolic ones.
    hard_links: dict[str, str] = field(default_factory=dict)
    symbolic_links: dict[str, str] = field(default_factory=dict)
