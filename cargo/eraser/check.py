"""Checks that an erased source has lost nothing but ghosts, by what is left, not by the rules."""

import re
from itertools import groupby

from .source import Source, shown
from .tokens import Token, tokens_of

# What may be removed for a reason: the code of each run of tokens.
SHAPES = {
    "clause": r"‹clause›( ‹clause›)*",
    "ghost": r"‹ghost›( ‹ghost›)*",
    "tactic": r"(# !? ?\[ tactic \( .*? \) \] ?)+",
    "derive": r"# \[ derive \( Drop ,? ?\) \]|Drop ,|, Drop",
    "model": r"use std :: marker :: Model ;|(impl [^{]*Model for [^{]* \{( ‹ghost›)* \} ?)+",
    "bound": r": Drop|Drop \+|\+ Drop",
    "test": r"# \[ cfg \( test \) \] mod \w+ \{.*\}",
    "signature": (
        r"< W : fmt :: Write >|< R : Eprint >|, _rt : & R|rt : HostRuntime|(self \. )?rt ,"
    ),
    "error": r'use thiserror :: Error ;|, Error|# \[ error \( "" \) \]',
}

REPLACED = re.compile(
    r"std>rattle_std|(\w+)>rattle_std::\1(_in)?|Box>rattle_std::boxed|from_raw>from_raw!"
    r"|prove>debug_assert|(?P<method>to_vec|sort_by_key)>(?P=method)_with|W>'_"
    r"|\{>\{\n    let rt = HostRuntime::new\(\);|\}>\}\n\nimpl .*",
    re.DOTALL,
)


def check(source: Source, output: str) -> None:
    """Raises `Refused` unless the output is the file without ghosts."""
    original = list(tokens_of(source.file.read_text(), source.file))
    if len(original) != len(source.tokens):
        raise source.refuse(0, "the tokens of the file were not kept together")
    check_removed(source, original)
    for index, (old, new) in enumerate(zip(original, source.tokens)):
        if old.text != new.text and not REPLACED.fullmatch(f"{old.text}>{new.text}"):
            raise source.refuse(index, f"'{old.text}' became '{new.text}'")
    kept = "".join(token.text for token in source.tokens if token.removed is None)
    if solid(source, kept) != solid(source, output):
        raise source.refuse(0, "the output is not what was kept of the file")


def check_removed(source: Source, original: list[Token]) -> None:
    indices = [index for index, token in enumerate(original) if token.is_code]
    for reason, run in groupby(indices, key=lambda index: source.tokens[index].removed):
        removed = list(run)
        text = " ".join(shown(original[index]) for index in removed)
        if reason is not None and not re.fullmatch(SHAPES[reason], text, re.DOTALL):
            raise source.refuse(removed[0], f"code was removed as '{reason}' that is none: {text}")


def solid(source: Source, text: str) -> list[str]:
    """Returns the tokens of a text but spaces."""
    return [token.text for token in tokens_of(text, source.file) if token.kind != "space"]
