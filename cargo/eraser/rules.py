"""The rules by which a source becomes plain Rust, as patterns over its code."""

import re

from .errors import write_errors
from .source import Source
from .tokens import after_braces

# What is removed: the groups of these patterns, each for a reason that `check` knows.
REMOVED = (
    ("tactic", r"(# (?:! )?\[ tactic \( .*? \) \])"),
    # In Rust each value may be dropped.
    ("derive", r"(# \[ derive \( Drop (?:, )?\) \])"),
    ("derive", r"# \[ derive \( (?:\w+ , )*(Drop ,) \w"),
    ("derive", r"# \[ derive \( (?:\w+ , )*\w+ (, Drop) (?:, )?\)"),
    ("bound", r"(\+ Drop)\b"),
    ("bound", r"(?<!\+ )\b(Drop \+)"),
    ("bound", r"(: Drop)\b(?! \+)"),
    ("model", r"(use std :: marker :: Model ;)"),
    ("model", r"(impl (?:< [^{]* > )?Model for [^{]* \{ \})"),
    # The signatures of `fmt`, `report` and `main`, and of opening and creating a file, are Rust's.
    ("signature", r"fn fmt (< W : fmt :: Write >)"),
    ("signature", r"fn report (< R : Eprint >) \( self (, _rt : & R) \)"),
    ("signature", r"fn main \( (rt : HostRuntime) \)"),
    ("signature", r"\bFile :: (?:open|create) \( ((?:self \. )?rt ,)"),
)

# The tests of the gate, up to the brace that ends them.
TESTS = re.compile(r"# \[ cfg \( test \) \] mod \w+ \{")

# What is replaced: the first token of the group.
REPLACED = (
    (r"fn fmt < W : fmt :: Write > \( .*? Formatter < (W) >", "'_"),
    (r"fn main \( rt : HostRuntime \) [^{;]*(\{)", r"{\n    let rt = HostRuntime::new();"),
    (r"(?<!:: )(?<!\. )\b(std) ::", "rattle_std"),
    (r"\b(prove) !", "debug_assert"),
    # What takes an allocator gets a name that Rust's own has not.
    (r"\b(format|vec) ! [(\[{] in\b", r"rattle_std::\1_in"),
    (r"\. (to_vec|sort_by_key) \( alloc\b", r"\1_with"),
    # The unsafe call is the caller's.
    (r"\b(Box) :: from_raw \(", "rattle_std::boxed"),
    (r"\bBox :: (from_raw) \(", "from_raw!"),
)

ATTRIBUTES = "inline|repr|unsafe|default|must_use|cold|non_exhaustive|derive|error"
MACROS = "assert|assert_eq|assert_ne|debug_assert|matches|unreachable|write|writeln"
KEYWORDS = "if|while|match|return|in|else|break"
STD = (
    "alloc|array|cell|cmp|collections|convert|env|error|fmt|fs|hash|io|iter|marker|mem|num|ops"
    "|os|process|rt|slice|snapshot|str|sync|thread|time"
)

# What is refused: the groups of these patterns, once the rules above are applied.
REFUSED = (
    ("an attribute that the eraser does not know", rf"# (?:! )?\[ (?!(?:{ATTRIBUTES})\b)(\w+)"),
    (
        "a macro that the eraser does not know",
        rf"(?<!\S)(?!(?:{MACROS}|{KEYWORDS})\b)(\w+) ! [(\[{{]",
    ),
    ("a module of std that the eraser does not know", rf"rattle_std :: (?!(?:{STD})\b)(\w+)"),
    (
        "a module of std that the eraser does not know",
        rf"rattle_std :: \{{ [^}}]*?\b(?!(?:{STD})\b)(\w+)",
    ),
    ("a Drop that is neither derived nor a bound", r"\b(Drop)\b"),
    (
        "a form that the eraser does not know",
        r"\b(ghost|requires|ensures|Model|final|async|macro_rules)\b",
    ),
)


def apply(source: Source, kit: frozenset[str], real: frozenset[str]) -> None:
    """Turns a source into plain Rust, whose crate uses the crates `kit` of the toolchain. Those in
    `real` are crates of crates.io, the others modules of `rattle_std`."""
    refused = REFUSED
    if "thiserror" not in real:
        write_errors(source)
        refused += (
            ("an Error that is not derived last on an enum", r"derive \( [^)]*\b(Error)\b"),
        )
    code = source.code()
    for reason, pattern in REMOVED:
        for match in re.finditer(pattern, code.text):
            for group in range(1, match.re.groups + 1):
                source.remove(*code.span(*match.span(group)), reason)
    for match in TESTS.finditer(code.text):
        source.remove(*code.span(match.start(), after_braces(code.text, match.end() - 1)), "test")
    stand_ins = "|".join(sorted(kit - real)) or "(?!)"
    paths = (rf"(?<!:: )(?<!\. )\b({stand_ins}) ::", r"rattle_std::\1")
    for pattern, text in (*REPLACED, paths):
        for match in re.finditer(pattern, code.text):
            source.tokens[code.index(match.start(1))].text = match.expand(text)
    code = source.code()
    for reason, pattern in refused:
        if match := re.search(pattern, code.text):
            raise source.refuse(code.index(match.start(1)), f"{reason}: {match[1]}")
