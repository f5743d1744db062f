"""Tests of the length of pages, and that a long one begins with its contents."""

import subprocess
import unittest
from pathlib import Path

TOP = Path(__file__).resolve().parent.parent
MOST, LONG, FRONT = 199, 150, 20
MOST_OF_A_RECORD = 60


def tracked(*patterns: str) -> list[Path]:
    """Returns the files of the repository that match."""
    listed = subprocess.run(
        ["git", "ls-files", "-z", *patterns], cwd=TOP, check=True, stdout=subprocess.PIPE
    ).stdout.decode()
    return [TOP / name for name in listed.split("\0") if name and (TOP / name).is_file()]


class Pages(unittest.TestCase):
    """The README, the pages of docs/ and of the crates, and the decision records.

    The changelog may be longer.
    """

    PAGES = tracked("docs/*.md", "crates/*/README.md", "CONTRIBUTING.md", "*/README.md")

    def test_no_page_is_too_long(self) -> None:
        for page in self.PAGES:
            with self.subTest(page=str(page.relative_to(TOP))):
                self.assertLessEqual(len(page.read_text().splitlines()), MOST)

    def test_a_long_page_begins_with_its_contents(self) -> None:
        for page in self.PAGES:
            lines = page.read_text().splitlines()
            if len(lines) > LONG:
                with self.subTest(page=str(page.relative_to(TOP))):
                    self.assertGreaterEqual("\n".join(lines[:FRONT]).count("](#"), 3)

    def test_the_readme_is_short(self) -> None:
        self.assertLessEqual(len((TOP / "README.md").read_text().splitlines()), 150)

    def test_a_record_is_short(self) -> None:
        for record in tracked("docs/decisions/0*.md"):
            with self.subTest(record=record.name):
                self.assertLessEqual(len(record.read_text().splitlines()), MOST_OF_A_RECORD)

    def test_each_crate_has_a_page(self) -> None:
        crates = {path.parent for path in tracked("crates/*/src/lib.rt", "crates/*/src/main.rt")}
        for crate in sorted(crate.parent for crate in crates):
            with self.subTest(crate=crate.name):
                self.assertTrue((crate / "README.md").is_file())


if __name__ == "__main__":
    unittest.main()
