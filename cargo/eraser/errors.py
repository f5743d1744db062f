"""The derive of `thiserror`, written out, for builds without crates.io."""

import re

from .source import Code, Source

ENUM = re.compile(
    r"# \[ derive \( (?:\w+ , )*\w+ (?P<derive>, Error) \) \] (?:# \[ [^]]* \] )*"
    r"(?:pub (?:\( crate \) )?)?enum (?P<name>\w+) \{ (?P<variants>[^}]*)(?P<end>\})"
)
VARIANT = re.compile(
    r'(?P<attribute># \[ error \( (?P<text>"") \) \]) '
    r"(?P<name>\w+)(?: \( (?P<types>[^)]*?)(?: ,)? \))?(?: = \w+)?(?: ,)? ?"
)
IMPLS = """}}

impl std::fmt::Display for {name} {{
    fn fmt(&self, f: &mut std::fmt::Formatter<'_>) -> std::fmt::Result {{
        match self {{
{arms}        }}
    }}
}}

impl std::error::Error for {name} {{}}"""


def write_errors(source: Source) -> None:
    """Replaces each derive of `Error` on an enum by impls of `Display` and `Error`."""
    code = source.code()
    for use in re.finditer("use thiserror :: Error ;", code.text):
        source.remove(*code.span(*use.span()), "error")
    for enum in ENUM.finditer(code.text):
        source.remove(*code.span(*enum.span("derive")), "error")
        arms = arms_of(source, code, *enum.span("variants"))
        end = source.tokens[code.index(enum.start("end"))]
        end.text = IMPLS.format(name=enum["name"], arms=arms)


def arms_of(source: Source, code: Code, at: int, end: int) -> str:
    """Returns a match arm per variant, from its attribute `error`, which is removed."""
    arms = ""
    while at < end:
        variant = VARIANT.match(code.text, at, end)
        if variant is None:
            raise source.refuse(code.index(at), "a variant without an error attribute")
        source.remove(*code.span(*variant.span("attribute")), "error")
        text = source.tokens[code.index(variant.start("text"))].text
        count = len(variant["types"].split(" , ")) if variant["types"] else 0
        values = ", ".join(f"value{number}" for number in range(count))
        fields, given = (f"({values})", f", {values}") if count else ("", "")
        arms += f"            Self::{variant['name']}{fields} => write!(f, {text}{given}),\n"
        at = variant.end()
    return arms
