"""What a reader of the library for C meets stays small.

That is the packages, C++ headers, examples and the first page.
"""
from __future__ import annotations

import ast
import pathlib
import re
import unittest

TOP = pathlib.Path(__file__).resolve().parent.parent
MOST = 400
SPLIT_POINTS = 100  # lines of code in the file for split points, which come on top


def python_lines(text: str) -> int:
    """Counts lines that are neither empty nor a comment nor documentation."""
    documentation: set[int] = set()
    for node in ast.walk(ast.parse(text)):
        if (
            isinstance(node, ast.Expr)
            and isinstance(node.value, ast.Constant)
            and isinstance(node.value.value, str)
        ):
            documentation.update(range(node.lineno, (node.end_lineno or node.lineno) + 1))
    lines = enumerate(text.splitlines(), 1)
    return sum(
        number not in documentation and not re.match(r"\s*(#|$)", line) for number, line in lines
    )


def go_lines(text: str) -> int:
    """Counts lines that are neither empty nor a comment.

    The C code before `import "C"` is code too.
    """
    return sum(not re.match(r"\s*(//|/\*$|\*/$|$)", line) for line in text.splitlines())


class Packages(unittest.TestCase):
    def test_counts(self) -> None:
        self.assertEqual(
            python_lines(
                '"""Text.\n\nMore."""\n\n# Why.\nA = 1\n"""Of A."""\n\n\ndef f():\n'
                '    """Returns."""\n    return """\na"""\n'
            ),
            4,
        )
        self.assertEqual(
            go_lines('// Text.\npackage p\n\n/*\n// C.\n#include <x.h>\n*/\nimport "C"\n'), 3
        )

    def test_python(self) -> None:
        lines = {
            file.name: python_lines(file.read_text())
            for file in (TOP / "bindings/python/archcaraway").glob("*.py")
        }
        self.assertLessEqual(lines.pop("_shards.py"), SPLIT_POINTS)
        self.assertLessEqual(sum(lines.values()), MOST)

    def test_go(self) -> None:
        files = [
            file
            for file in (TOP / "bindings/go").glob("*.go")
            if not file.name.endswith("_test.go")
        ]
        lines = {file.name: go_lines(file.read_text()) for file in files}
        self.assertLessEqual(lines.pop("shards.go"), SPLIT_POINTS)
        self.assertLessEqual(sum(lines.values()), MOST)


class Files(unittest.TestCase):
    """Complete lines of files, with comments."""

    def assert_few(self, *paths: str, most: int = MOST) -> None:
        lines = [line for path in paths for line in (TOP / path).read_text().splitlines()]
        self.assertLessEqual(len(lines), most, paths)

    def test_headers(self) -> None:
        for path in ("archcaraway.h", "archcaraway_batches.h", "archcaraway_shards.h",
                     "archcaraway.hpp", "archcaraway_frames.hpp", "archcaraway_shards.hpp"):
            self.assert_few(f"include/{path}")

    def test_replays(self) -> None:
        for path in ("examples/c/replay.c", "examples/cpp/replay.cpp", "examples/python/replay.py",
                     "bindings/go/cmd/replay/main.go", "cargo/archcaraway/examples/replay.rs"):
            self.assert_few(path)

    def test_cluster(self) -> None:
        self.assert_few("examples/cluster/resolver.c", "examples/cluster/proxy.py")

    def test_page(self) -> None:
        self.assert_few("docs/EMBEDDING.md", most=199)


if __name__ == "__main__":
    unittest.main()
