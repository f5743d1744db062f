"""Splits Rattle source into tokens, each clause or ghost one token, so that nothing is lost."""

import re
from collections.abc import Iterator
from dataclasses import dataclass
from pathlib import Path


class Refused(Exception):
    """Source that the eraser does not know, with its file and line."""

    def __init__(self, file: Path, line: int, reason: str) -> None:
        super().__init__(f"{file}:{line}: {reason}")


@dataclass
class Token:
    kind: str
    text: str
    line: int
    # What it is removed as, or None while it stays.
    removed: str | None = None

    @property
    def is_code(self) -> bool:
        return self.kind not in ("space", "doc", "comment")


# The comment lines just above a clause or a ghost are part of it.
ABOVE = r"(?:(?<=\n)[ \t]*//(?![/!])[^\n]*\n)*[ \t]*"
PATTERNS = {
    "clause": ABOVE + r"(?:requires|ensures|invariant|measure)\*?\s*(?:\w+\s*)?(?=\{)",
    "use": ABOVE + r"ghost\s+use\s[^;]*;",
    "ghost": ABOVE + r"(?:pub\s+)?ghost\s+\w+",
    "space": r"\n|[^\S\n]+",
    "doc": r"//[/!][^\n]*",
    "comment": r"//[^\n]*",
    "string": r'b?r(?P<marks>#*)".*?"(?P=marks)|[bc]?"(?:\\.|[^"\\])*"',
    "char": r"b?'(?:\\(?:x[0-9a-fA-F]{2}|u\{[0-9a-fA-F]+\}|.)|[^'\\])'",
    "lifetime": r"'[A-Za-z_]\w*",
    "number": r"\d\w*(?:\.\d\w*)?",
    "word": r"[A-Za-z_]\w*",
    "mark": r"::|/(?!\*)|[{}()\[\]<>;:,.#!?&|+\-*%^=@$~]",
}
TOKEN = re.compile("|".join(f"(?P<{kind}>{text})" for kind, text in PATTERNS.items()), re.DOTALL)

# A brace, or a text whose braces don't count.
BRACE = re.compile(r'"[^"]*"|[{}]')
# The type, the value or the proof of a ghost.
PART = re.compile(r"\s*(?:[:=]|by)\s*(?=\{)")
END = re.compile(r"\s*[,;]")


def tokens_of(text: str, file: Path) -> Iterator[Token]:
    """Returns all tokens of a source. Joined again, their texts are the source."""
    index, line = 0, 1
    while match := TOKEN.match(text, index):
        kind, end = match.lastgroup, match.end()
        try:
            if kind in ("clause", "ghost"):
                end = after_braces(text, end) if kind == "clause" else after_member(text, end)
        except ValueError as error:
            raise Refused(file, line + match[0].count("\n"), str(error)) from None
        token = Token("ghost" if kind == "use" else kind, text[index:end], line)
        yield token
        index, line = end, line + token.text.count("\n")
    if index < len(text):
        raise Refused(file, line, f"no token begins with {text[index]!r}")


def after_braces(text: str, start: int) -> int:
    """Returns the index after the brace that closes the one at `start`."""
    depth = 0
    for match in BRACE.finditer(text, start):
        depth += {"{": 1, "}": -1}.get(match[0], 0)
        if depth == 0:
            return match.end()
    raise ValueError("a brace that is never closed")


def after_member(text: str, start: int) -> int:
    """Returns the index after a ghost member, whose name ends at `start`."""
    end = start
    while match := PART.match(text, end):
        end = after_braces(text, match.end())
    if end == start:
        raise ValueError("a ghost that is neither a use nor a member")
    last = END.match(text, end)
    return last.end() if last else end
