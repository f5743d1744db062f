"""Tests of `.ci/links`."""

import importlib.machinery
import importlib.util
import sys
import tempfile
import unittest
from pathlib import Path
from types import ModuleType

sys.dont_write_bytecode = True


def load(name: str) -> ModuleType:
    """Loads a script of this folder that has no suffix."""
    loader = importlib.machinery.SourceFileLoader(name, str(Path(__file__).resolve().parent / name))
    spec = importlib.util.spec_from_loader(name, loader)
    assert spec is not None
    module = importlib.util.module_from_spec(spec)
    loader.exec_module(module)
    return module


LINKS = load("links")

TEXT = """# Set or core?

## `Frames` and [more](x.md)

## Twice

## Twice

[over
two lines](#set-or-core) and [gone](#no) but `[a](#span)`, ``[b](#span)``

```
[c](#fence)
```

[d]: other.md
"""


class Links(unittest.TestCase):
    def setUp(self) -> None:
        folder = tempfile.TemporaryDirectory()
        self.addCleanup(folder.cleanup)
        self.file = Path(folder.name).resolve() / "page.md"
        self.file.write_text(TEXT)

    def test_anchors(self) -> None:
        self.assertEqual(
            LINKS.anchors(self.file), {"set-or-core", "frames-and-more", "twice", "twice-1"}
        )

    def test_links(self) -> None:
        found = [(3, "x.md"), (10, "#set-or-core"), (10, "#no"), (16, "other.md")]
        self.assertEqual(LINKS.links(self.file), found)

    def test_faults(self) -> None:
        top = LINKS.TOP
        cases = {
            "README.md": None,
            "docs": None,
            "docs/WIRE.md#faults": None,
            "docs/WIRE.md#no-such": "no such heading",
            "docs/NONE.md": "no such file",
            "../elsewhere": "outside the repository",
        }
        for target, said in cases.items():
            self.assertEqual(LINKS.fault(top / "README.md", target), said, target)


if __name__ == "__main__":
    unittest.main()
