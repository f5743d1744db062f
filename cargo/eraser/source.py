"""A source as a list of tokens, of which some are removed and some replaced."""

import re
from bisect import bisect_left
from dataclasses import dataclass
from itertools import accumulate
from pathlib import Path

from .tokens import Refused, Token, tokens_of

# How a text is laid out as rustfmt would, in which each removed token is a NUL.
LAYOUT = (
    (r"(?m)^[ \0]*\0[ \0]*\n", ""),
    (r" *\0[ \0]*(?=[(),>;\]\n])|(?<=[(<\[])[ \0]*\0 *", ""),
    (r" [ \0]*\0[ \0]*|\0[ \0]* [ \0]*", " "),
    (r"\0", ""),
    # The brace or the semicolon after a head that has lost its clauses.
    (r"(?<=[^;{},\n])\n+ *\{\n", " {\n"),
    (r"\n+ *;\n", ";\n"),
    # Blank lines.
    (r"\{\n\n+", "{\n"),
    (r"\n{3,}", "\n\n"),
    (r"\A\n+|\n+\Z", ""),
)


def shown(token: Token) -> str:
    """Returns a token as patterns see it: each string, clause and ghost is the same as others."""
    return {"string": '""', "clause": "‹clause›", "ghost": "‹ghost›"}.get(token.kind, token.text)


class Code:
    """Tokens as one text, a space between them."""

    def __init__(self, tokens: list[Token], indices: list[int]) -> None:
        texts = [shown(tokens[index]) for index in indices]
        self.text = " ".join(texts)
        self.indices = indices
        self.starts = list(accumulate((len(text) + 1 for text in texts), initial=0))

    def index(self, place: int) -> int:
        """Returns the index of the token at a place of the text."""
        return self.indices[bisect_left(self.starts, place)]

    def span(self, start: int, end: int) -> tuple[int, int]:
        """Returns the indices of the first and the last token between two places."""
        return self.index(start), self.indices[bisect_left(self.starts, end) - 1]


@dataclass
class Source:
    """One file."""

    file: Path
    tokens: list[Token]

    @classmethod
    def read(cls, file: Path) -> "Source":
        tokens = list(tokens_of(file.read_text(), file))
        for token in tokens:
            token.removed = token.kind if token.kind in ("clause", "ghost") else None
        return cls(file, tokens)

    def refuse(self, index: int, reason: str) -> Refused:
        return Refused(self.file, self.tokens[index].line, reason)

    def code(self) -> Code:
        """Returns the code that rustc will see."""
        numbered = enumerate(self.tokens)
        left = [index for index, token in numbered if token.is_code and token.removed is None]
        return Code(self.tokens, left)

    def remove(self, first: int, last: int, reason: str) -> None:
        """Removes the tokens from `first` to `last`, comments between them too."""
        for token in self.tokens[first : last + 1]:
            token.removed = None if token.kind == "space" else reason

    def result(self) -> str:
        """Returns the text that is left."""
        text = "".join("\0" if token.removed else token.text for token in self.tokens)
        for pattern, replacement in LAYOUT:
            text = re.sub(pattern, replacement, text)
        return text + "\n"
