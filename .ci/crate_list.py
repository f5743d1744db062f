"""The crates of crates.txt, for the scripts beside it. `.ci/test_scripts.py` has the tests."""
from __future__ import annotations

import dataclasses
import re
from typing import Iterable, Mapping


@dataclasses.dataclass(frozen=True)
class Crate:
    """A line of crates.txt: a crate, and the libraries that it uses."""

    name: str
    is_static: bool
    uses: tuple[str, ...]


def parse_crates(text: str) -> dict[str, Crate]:
    """Reads crates.txt."""
    lines = re.findall(r"^(\w+)([^:#\n]*):([^#\n]*)", text, re.M)
    return {
        name: Crate(name, "staticlib" in words.split(), tuple(uses.split()))
        for name, words, uses in lines
    }


def with_those_below(names: Iterable[str], listed: Mapping[str, Crate]) -> set[str]:
    """Returns the crates and every crate of the repository below them."""
    found: set[str] = set()
    waiting = list(names)
    while waiting:
        name = waiting.pop()
        if name in listed and name not in found:
            found.add(name)
            waiting.extend(listed[name].uses)
    return found
