"""A line of code has at most 100 characters."""

import re
import subprocess
import unittest
from pathlib import Path

TOP = Path(__file__).resolve().parent.parent
MOST = 100
SUFFIXES = (".rt", ".rs", ".py", ".c", ".h", ".cpp", ".hpp", ".go")
NAMES = ("Makefile", "CMakeLists.txt")
# `rattle fmt` keeps an attribute, and an import of one name, on one line.
KEPT = re.compile(r"\s*(#\[tactic\(|ghost use )")


def is_code(file: Path) -> bool:
    """Returns whether a file is code by its suffix or name, or a script by its first line."""
    if file.suffix in SUFFIXES or file.name in NAMES:
        return True
    with file.open("rb") as opened:
        return opened.read(2) == b"#!"


def long_lines(file: Path) -> list[int]:
    """Returns the numbers of the lines that are too long."""
    lines = enumerate(file.read_text().split("\n"), 1)
    is_kept = KEPT.match if file.suffix == ".rt" else lambda line: None
    return [number for number, line in lines if len(line) > MOST and not is_kept(line)]


class Lines(unittest.TestCase):
    """All tracked code, of the checkout as it is."""

    def test_no_line_is_too_long(self) -> None:
        listed = subprocess.run(
            ["git", "ls-files", "-z"], cwd=TOP, check=True, stdout=subprocess.PIPE
        ).stdout.decode()
        names = [name for name in listed.split("\0") if name and (TOP / name).is_file()]
        found = {name: long_lines(TOP / name) for name in names if is_code(TOP / name)}
        self.assertLessEqual({".ci/run", "cargo/erase.py", "include/archcaraway.h"}, found.keys())
        self.assertEqual({name for name, lines in found.items() if lines}, set())


if __name__ == "__main__":
    unittest.main()
