"""Tests of completions/help_text.py: the forms of help, and what a value is."""
from __future__ import annotations

import pathlib
import sys
import unittest

sys.path.insert(0, str(pathlib.Path(__file__).resolve().parent.parent / "completions"))

import bash_script
import fish_script
import help_text
import zsh_script
from help_text import Argument, Command, Option, Value

NUMBER = Value("N", (), False)
PAGE = Value("PAGE", (), True)
ORDER = Value("ORDER", ("rising", "falling", "as-given"), False)
FILE = Value("FILE", (), True)
TOOL = Command(
    "tool",
    "Sorts things",
    (
        Option(("--most",), NUMBER, False, "Things, from 1 to 9 [default: 5]"),
        Option(("-o", "--output"), PAGE, False, "It's the [page]: written"),
        Option(("--order",), ORDER, True, "The order, once per FILE: rising, falling or as-given"),
        Option(("--all",), None, False, "Sorts all"),
        Option(("-h", "--help"), None, False, "Print help"),
    ),
    (Argument(FILE, True),),
)
LONG = """\
Sorts things

Usage: tool [OPTIONS] <FILE>...

Arguments:
  <FILE>...
          The files

Options:
      --most <N>
          Things, from 1 to 9
          
          [default: 5]

  -o, --output <PAGE>
          It's the [page]: written

      --order <ORDER>
          The order, once per FILE: rising, falling or as-given

      --all
          Sorts all

  -h, --help
          Print help (see a summary with '-h')

Example:
  tool --all examples/things
"""
SHORT = """\
Sorts things

Usage: tool [OPTIONS] <FILE>...

Arguments:
  <FILE>...  The files

Options:
      --most <N>       Things, from 1 to 9 [default: 5]
  -o, --output <PAGE>  It's the [page]: written
      --order <ORDER>  The order, once per FILE: rising, falling or as-given
      --all            Sorts all
  -h, --help           Print help (see more with '--help')
"""
TABLE = """\
Sorts things

Usage: tool [OPTIONS] <FILE>...

  --most <N>             Things, from 1 to 9 [default: 5]
  -o, --output <PAGE>    It's the [page]: written
  --order <ORDER>        The order, once per FILE: rising, falling or as-given
  --all                  Sorts all
  <FILE>...              The files
  -h, --help             Print help

Example:
  tool --all examples/things

This is the help of the unproved edition. The proved programs print a longer one.
"""
COMMANDS = """\
Does things

Usage: tool [OPTIONS] <COMMAND>

Commands:
  sort-all  Sorts: all
  count     Counts
  help      Print this message or the help of the given subcommand(s)

Options:
  -h, --help  Print help
"""


class Help(unittest.TestCase):
    def test_forms(self) -> None:
        for text in (LONG, SHORT, TABLE):
            self.assertEqual(help_text.parse("tool", text), TOOL)

    def test_commands(self) -> None:
        for text in (COMMANDS, COMMANDS.replace("Commands:\n", "").replace("Options:\n", "")):
            found = help_text.parse("tool", text)
            listed = [(command.name, command.about) for command in found.commands]
            self.assertEqual(listed, [("sort-all", "Sorts: all"), ("count", "Counts")])
            self.assertEqual(found.arguments, ())

    def test_values(self) -> None:
        rows = [
            ("N", "The number", (), False),
            ("A..B", "The versions", (), False),
            ("BATCHES", "How many batches, 1 to 9", (), False),
            ("SHAPE", "points or ranges", ("points", "ranges"), False),
            ("WORD", "Prints these: a, b or c-d [default: a]", ("a", "b", "c-d"), False),
            ("WORD", "The words [possible values: a, b]", ("a", "b"), False),
            ("FILE", "Files, from 1 to 64; - is standard input", (), True),
            ("FILE", "The file to read; standard input where none is given, or -", (), True),
            ("OUT", "The file", (), True),
        ]
        for name, text, words, is_file in rows:
            self.assertEqual(help_text.value_of(name, text), Value(name, words, is_file), text)

    def test_unreadable(self) -> None:
        for text in (
            "",
            "Usage: tool\n",
            SHORT.replace("  -h, --help ", "  -h "),
            SHORT.replace("      --all", "  ?"),
            TABLE.replace("  --most", "          deep\n  --most"),
            SHORT.replace("\nOptions:", "  <OTHER>    Another\n\nOptions:"),
        ):
            with self.assertRaises(help_text.Unreadable, msg=text):
                help_text.parse("tool", text)


class Scripts(unittest.TestCase):
    """Texts that a shell could take for its own signs."""

    def test_quotes(self) -> None:
        self.assertIn(r"'[It'\''s the \[page\]\: written]:PAGE:_files'", zsh_script.script(TOOL))
        self.assertIn(r"--description 'It\'s the [page]: written'", fish_script.script(TOOL))

    def test_values(self) -> None:
        self.assertIn("' -o' | ' --output') wanted=FILE ;;", bash_script.script(TOOL))
        self.assertIn("' --order') wanted='rising falling as-given' ;;", bash_script.script(TOOL))
        self.assertIn(":ORDER:(rising falling as-given)'", zsh_script.script(TOOL))
        self.assertIn("--exclusive --arguments 'rising falling as-given'", fish_script.script(TOOL))

    def test_repeated(self) -> None:
        found = zsh_script.script(TOOL)
        self.assertIn("'*--order=[", found)
        self.assertIn("'--most=[", found)
        self.assertIn("'(-o --output)'{-o+,--output=}'[", found)


if __name__ == "__main__":
    unittest.main()
