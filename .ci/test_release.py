"""The release is the same number wherever it is written."""
from __future__ import annotations

import pathlib
import re
import unittest

TOP = pathlib.Path(__file__).resolve().parent.parent
HEADER = TOP / "include" / "archcaraway.h"

# Each file that states the release, and the text before it.
PLACES = {
    "cargo/erase.py": r'^VERSION = "',
    "bindings/python/pyproject.toml": r'^version = "',
    "crates/replay_arguments/src/arguments/command.rt": r'^const VERSION: &str = "',
    "crates/batches_arguments/src/command.rt": r'^ *\.version\("',
    "crates/workload_program/src/command.rt": r'^ *\.version\("',
    "docs/batches.1": r'^\.TH .*"batches ',
    "docs/replay.1": r'^\.TH .*"replay ',
}


def macro(name: str) -> str:
    found = re.search(rf"^#define ARCHCARAWAY_VERSION_{name} (.*)$", HEADER.read_text(), re.M)
    assert found is not None, name
    return found[1]


class Release(unittest.TestCase):
    def setUp(self) -> None:
        self.release = macro("TEXT").strip('"')

    def test_macros(self) -> None:
        self.assertEqual(self.release, ".".join(map(macro, ("MAJOR", "MINOR", "PATCH"))))

    def test_places(self) -> None:
        for place, before in PLACES.items():
            found = re.search(before + r"(\d+\.\d+\.\d+)", (TOP / place).read_text(), re.M)
            self.assertEqual(self.release, found and found[1], place)

    def test_changelog(self) -> None:
        self.assertRegex(
            (TOP / "CHANGELOG.md").read_text(), rf"(?m)^## {re.escape(self.release)}, \d{{4}}-"
        )


if __name__ == "__main__":
    unittest.main()
