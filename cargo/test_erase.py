"""Tests of the eraser: what it removes, what it keeps, and what it refuses."""

import tempfile
import unittest
from pathlib import Path

import erase
from eraser.check import SHAPES, check
from eraser.source import Source
from eraser.tokens import Refused, tokens_of

ALL_REAL = frozenset(erase.REAL_CRATES)


def erased(text: str, kit: tuple[str, ...] = (), real: frozenset[str] = frozenset()) -> str:
    """Returns the erased text without the lines of the prelude."""
    with tempfile.TemporaryDirectory() as folder:
        file = Path(folder) / "given.rt"
        file.write_text(text)
        output = erase.erased(file, frozenset(kit), real)
    return output.replace("#[allow(unused_imports)]\nuse rattle_std::prelude::*;\n\n", "")


class Kept(unittest.TestCase):
    def test_every_source_is_its_tokens(self) -> None:
        for file in (erase.TOP / "crates").rglob("src/**/*.rt"):
            text = file.read_text()
            self.assertEqual("".join(token.text for token in tokens_of(text, file)), text, file)

    def test_function_loses_its_clauses_alone(self) -> None:
        text = """//! Docs.

/// Adds.
fn add(a: u8, b: u8) -> u8
    requires fits { a + b < 256 }

    // A comment of a clause.
    ensures* sum { result ≡ a + b }
{
    // A comment of the body.
    prove!(a < 255);
    a + b
}
"""
        self.assertEqual(
            erased(text),
            """//! Docs.

/// Adds.
fn add(a: u8, b: u8) -> u8 {
    // A comment of the body.
    debug_assert!(a < 255);
    a + b
}
""",
        )

    def test_struct_loses_ghosts_models_and_drop(self) -> None:
        text = """ghost use A.b.{◌≡◌};
use std::alloc::Global;
use std::marker::Model;

#[derive(Clone, Drop, Debug)]
pub struct Held<T: Drop + Send> {
    pub item: T,
    // A comment of a ghost.
    pub ghost small: { item < 3 } by { Small-prop item },
    count: u64,
}

impl<T> Model for Held<T> {
    ghost Value = { ℕ };

    ghost view = { λ h. h.count };
}
"""
        self.assertEqual(
            erased(text),
            """use rattle_std::alloc::Global;

#[derive(Clone, Debug)]
pub struct Held<T: Send> {
    pub item: T,
    count: u64,
}
""",
        )

    def test_texts_and_characters_are_no_ghosts(self) -> None:
        text = 'const A: &str = "ensures {";\nconst B: char = \'{\';\n// requires {\n'
        self.assertEqual(erased(text), text)

    def test_loop_loses_its_invariant(self) -> None:
        text = (
            "fn f() {\n    for i in 0..3\n        invariant sum { s ≡ i }\n    {\n        g(i);\n"
            "    }\n}\n"
        )
        self.assertEqual(erased(text), "fn f() {\n    for i in 0..3 {\n        g(i);\n    }\n}\n")

    def test_error_is_written_out_or_kept(self) -> None:
        text = (
            'use thiserror::Error;\n\n#[derive(Debug, Error)]\npub enum Fault {\n    #[error("1 '
            'Memory")]\n    Memory,\n    #[error("line {0}: {1}")]\n    Line(u64, u8),\n}\n'
        )
        written = erased(text, ("thiserror",))
        self.assertIn('Self::Memory => write!(f, "1 Memory"),', written)
        self.assertIn(
            'Self::Line(value0, value1) => write!(f, "line {0}: {1}", value0, value1),', written
        )
        self.assertIn("impl std::error::Error for Fault {}", written)
        self.assertNotIn("thiserror", written)
        self.assertEqual(erased(text, ("thiserror",), ALL_REAL), text)

    def test_crates_of_the_kit_are_stand_ins_or_real(self) -> None:
        text = "use itoa::Buffer;\nuse crate::itoa::Other;\n"
        self.assertEqual(
            erased(text, ("itoa",)), "use rattle_std::itoa::Buffer;\nuse crate::itoa::Other;\n"
        )
        self.assertEqual(erased(text, ("itoa",), ALL_REAL), text)
        self.assertEqual(erased(text), text)

    def test_main_makes_its_handle(self) -> None:
        self.assertEqual(
            erased("fn main(rt: HostRuntime) -> u8 {\n    0\n}\n"),
            "fn main() -> u8 {\n    let rt = HostRuntime::new();\n    0\n}\n",
        )

    def test_tests_of_the_gate_are_left_out(self) -> None:
        module = "#[cfg(test)]\nmod tests {\n    use super::*;\n\n    fn g() {}\n}\n"
        self.assertEqual(erased(f"fn f() {{}}\n\n{module}"), "fn f() {}\n")
        self.assertEqual(erased(f"{module}\nfn f() {{}}\n"), "fn f() {}\n")

    def test_file_is_opened_without_the_handle(self) -> None:
        text = "fn f() {\n    File::open(rt, name);\n    File::open(self.rt, name);\n}\n"
        expected = "fn f() {\n    File::open(name);\n    File::open(name);\n}\n"
        self.assertEqual(erased(text), expected)

    def test_unsafe_call_is_the_callers(self) -> None:
        text = "fn f() {\n    unsafe { Box::from_raw(alloc, at) }\n}\n"
        expected = "fn f() {\n    unsafe { rattle_std::boxed::from_raw!(alloc, at) }\n}\n"
        self.assertEqual(erased(text), expected)

    def test_signatures_are_those_of_rust(self) -> None:
        text = """impl fmt::Display for A {
    fn fmt<W: fmt::Write>(&self, f: &mut fmt::Formatter<W>) -> fmt::Result {
        Ok(())
    }
}

impl Termination for A {
    fn report<R: Eprint>(self, _rt: &R) -> ExitCode {
        self.code()
    }
}
"""
        expected = text.replace("<W: fmt::Write>", "").replace("<W>", "<'_>")
        expected = expected.replace("<R: Eprint>(self, _rt: &R)", "(self)")
        self.assertEqual(erased(text), expected)

    def test_bounds_and_derives_of_drop_in_each_place(self) -> None:
        for given, expected in [
            ("T: Drop", "T"),
            ("T: Drop + Copy", "T: Copy"),
            ("T: Copy + Drop", "T: Copy"),
            ("T: Copy + Drop + Send", "T: Copy + Send"),
            ("T: Drop, U: Drop", "T, U"),
        ]:
            self.assertEqual(erased(f"fn f<{given}>() {{}}\n"), f"fn f<{expected}>() {{}}\n")
        for given, expected in [
            ("Drop, Debug", "Debug"),
            ("Debug, Drop", "Debug"),
            ("Clone, Drop, Debug", "Clone, Debug"),
        ]:
            item = "\nstruct A;\n"
            self.assertEqual(erased(f"#[derive({given})]{item}"), f"#[derive({expected})]{item}")
        self.assertEqual(erased("#[derive(Drop)]\nstruct A;\n"), "struct A;\n")


class Refusals(unittest.TestCase):
    def refused(self, text: str, line: int, reason: str) -> None:
        with self.assertRaisesRegex(Refused, rf"given\.rt:{line}: .*{reason}"):
            erased(text)

    def test_forms_that_are_not_known(self) -> None:
        cases = [
            ("#[track_caller]\nfn f() {}\n", 1, "attribute.*track_caller"),
            ("fn f() {\n    println!(rt; \"x\");\n}\n", 2, "macro.*println"),
            ("use std::net::TcpStream;\n", 1, "module of std.*net"),
            ("use std::{env, net};\n", 1, "module of std.*net"),
            ("fn f()\n    requires { a < b\n{}\n", 2, "never closed"),
            ("\nghost fn f() {}\n", 2, "neither a use nor a member"),
            ("impl Drop for A {\n    fn drop(self) {}\n}\n", 1, "Drop"),
            ("final fn f() {}\n", 1, "final"),
            ("macro_rules! m {\n    () => {};\n}\n", 1, "macro_rules"),
            ("#[cfg(unix)]\nfn f() {}\n", 1, "cfg"),
            ("fn f() { 'ß }\n", 1, "no token"),
            ("fn f() {}\n/* block */\n", 2, "no token"),
            ("#[cfg(test)]\nmod tests;\n", 1, "cfg"),
            ("impl Model for A {\n    fn f() {}\n}\n", 1, "Model"),
            ("#[derive(Error, Debug)]\npub enum F {}\n", 1, "Error"),
            (
                "use thiserror::Error;\n#[derive(Debug, Error)]\npub enum F {\n    A,\n}\n",
                4,
                "without an error",
            ),
        ]
        for text, line, reason in cases:
            with self.subTest(text=text):
                self.refused(text, line, reason)

    def test_nothing_is_written_if_a_file_is_refused(self) -> None:
        with tempfile.TemporaryDirectory() as folder:
            top = Path(folder)
            (top / "crates" / "replay" / "src").mkdir(parents=True)
            (top / "crates" / "replay" / "src" / "main.rt").write_text("fn main() { odd!() }\n")
            (top / "crates.txt").write_text("replay:\n")
            before = erase.TOP
            erase.TOP = top
            try:
                with self.assertRaises(Refused):
                    erase.write_workspace(top / "out", frozenset(), [])
            finally:
                erase.TOP = before
            self.assertFalse((top / "out").exists())


class Checks(unittest.TestCase):
    def source(self, text: str) -> Source:
        self.file = Path(self.enterContext(tempfile.TemporaryDirectory())) / "given.rt"
        self.file.write_text(text)
        return Source.read(self.file)

    def test_code_that_a_rule_would_drop_is_missed(self) -> None:
        for reason in SHAPES:
            source = self.source("fn f() { g(1); }\n")
            first = [token.text for token in source.tokens].index("g")
            source.remove(first, first + 1, reason)
            with self.subTest(reason=reason), self.assertRaisesRegex(Refused, "code was removed"):
                check(source, source.result())

    def test_code_that_a_rule_would_change_is_missed(self) -> None:
        source = self.source("fn f(a: u8) -> bool { a < 1 }\n")
        next(token for token in source.tokens if token.text == "<").text = ">"
        with self.assertRaisesRegex(Refused, "'<' became '>'"):
            check(source, source.result())

    def test_lines_that_the_layout_would_drop_are_missed(self) -> None:
        source = self.source('fn f() {}\nfn g() { "a  b" }\n')
        for output in ("fn f() {}\n", 'fn f() {}\nfn g() { "a b" }\n'):
            with self.assertRaisesRegex(Refused, "not what was kept"):
                check(source, output)


if __name__ == "__main__":
    unittest.main()
