"""Tests of the pure parts of the scripts beside it: `python3 -m unittest discover -s .ci`."""
from __future__ import annotations

import importlib.machinery
import importlib.util
import pathlib
import sys
import tempfile
import types
import unittest
from unittest import mock

import crate_list
import gate_costs
from crate_list import Crate
from gate_costs import Change, Cost, Job, Row

HERE = pathlib.Path(__file__).resolve().parent


def load(name: str) -> types.ModuleType:
    """Loads a script whose name is no name of a module."""
    loader = importlib.machinery.SourceFileLoader(name.replace("-", "_"), str(HERE / name))
    spec = importlib.util.spec_from_loader(loader.name, loader)
    assert spec is not None
    module = importlib.util.module_from_spec(spec)
    sys.modules[loader.name] = module
    loader.exec_module(module)
    return module


contract_lines = load("contract-lines")
gate_times = load("gate-times")
item_times = load("item-times")
more_edits = load("more-edits")


class ContractLines(unittest.TestCase):
    """Which lines of a source are contract, and which are body."""

    SOURCE = """\
impl Ring {
    /// Returns the item.
    pub fn take(&mut self, at: usize) -> Option<u8>
        requires inside { at < self.old.len }
        ensures taken { IfSome result
            (λ item. item ≡ self.old.first) }
    {
        // Why.
        let item = self.items[at];

        Some(item)
    }

    fn len(&self) -> usize {
        self.items.len()
    }

    fn law()
        ensures law { Law }
    {}
}
""".splitlines()

    def test_clauses(self) -> None:
        self.assertEqual(len(list(contract_lines.clauses(self.SOURCE))), 4)

    def test_bodies(self) -> None:
        self.assertEqual(contract_lines.body_lines(self.SOURCE), 3)

    SPECS = """\
pub record Outer (a b : List T)
    : Type 0 where
  -- what it says
  pub one : a ≡ b
  pub two :
      a ≡ []

module _ {T : Type 0} where
  pub record Inner : Type 0 where
    pub first : Nat

  abbrev pub none : List T
  none = []
"""

    def test_records(self) -> None:
        with tempfile.TemporaryDirectory() as folder:
            path = pathlib.Path(folder) / "Ring.antt"
            path.write_text(self.SPECS)
            fields = contract_lines.record_fields([path])
        self.assertEqual(fields, {"Outer": 3, "Inner": 1})


class Classify(unittest.TestCase):
    """Which crate and kind of work a command line is for."""

    def kind(self, line: str, folder: str = "checkout/crates/wire") -> Job | None:
        return gate_costs.classify(line.split(), folder)

    def test_proofs(self) -> None:
        for line in (
            "kit/bin/rattle build --crate-name wire src/lib.rt --jobs 1 --statements",
            "kit/bin/rattle check --crate-name wire src/lib.rt --incremental out/incremental",
            "rattle build --crate-name wire --backend llvm -o out/wire.o",
        ):
            self.assertEqual(self.kind(line), Job("wire", "proof"), line)

    def test_tests(self) -> None:
        line = "kit/bin/rattle build --crate-name codec_tests --test src/lib.rt --backend llvm"
        self.assertEqual(self.kind(line), Job("codec_tests", "tests"))

    def test_edits(self) -> None:
        line = "kit/bin/rattle check --crate-name wire src/lib.rt --jobs 1"
        for more in ("", " --incremental temporary/rt-edits-3054-y/2"):
            found = self.kind(line + more, "temporary/rt-edit-3054-abc")
            self.assertEqual(found, Job("wire", "edits"))

    def test_others(self) -> None:
        for line in (
            "",
            "kit/bin/rattle",
            "kit/bin/rattle fmt --check src/lib.rt",
            "kit/bin/rattle check --crate-name",
            "kit/bin/rattle check src/lib.rt",
            "python3 bin/rt check --crate-name wire",
            "kit/bin/rattle-link --crate-name wire",
        ):
            self.assertIsNone(self.kind(line), line)


class Processes(unittest.TestCase):
    """What is read of /proc."""

    def test_stat(self) -> None:
        fields = "R 40 41 41 0 -1 4194304 9 0 0 0 {} {} 0 0 20 0 1 0 77 1000".format(
            3 * gate_times.TICKS_PER_SECOND, gate_times.TICKS_PER_SECOND
        )
        for name in ("(rattle)", "(a b) (c))"):
            found = gate_times.parse_stat(f"42 {name} {fields}")
            self.assertEqual(found, gate_times.Process(42, 40, 77, 4.0))

    def test_descendants(self) -> None:
        parents = {1: 0, 10: 1, 11: 10, 12: 11, 13: 11, 20: 1, 21: 20}
        every = [gate_times.Process(number, parent, 0, 0.0) for number, parent in parents.items()]
        found = [process.number for process in gate_times.descendants(10, reversed(every))]
        self.assertEqual(sorted(found), [10, 11, 12, 13])
        self.assertEqual(found[0], 10)
        self.assertEqual(gate_times.descendants(9, every), [])

    def test_options(self) -> None:
        asked, command = gate_times.options(["--budget", "200", "--", "rt", "ci", "--", "--append"])
        self.assertEqual(command, ["rt", "ci", "--", "--append"])
        self.assertEqual((asked.budget, asked.append), (200.0, False))


def row(crate: str, proof: int, tests: int = 0, edits: int = 0, date: str = "2026-01-01") -> Row:
    return Row(date, "0123abcd", "kit-1", 4, 60, crate, proof, tests, edits)


class Table(unittest.TestCase):
    """The table of measurements."""

    def test_round_trip(self) -> None:
        rows = [row("wire", 3, 2, 1), row("lane", 5)]
        text = gate_costs.format_rows(rows, with_header=True)
        self.assertEqual(
            text,
            "date,commit,kit,processors,wall_clock_seconds,"
            "crate,proof_seconds,tests_seconds,edits_seconds\n"
            "2026-01-01,0123abcd,kit-1,4,60,wire,3,2,1\n"
            "2026-01-01,0123abcd,kit-1,4,60,lane,5,0,0\n",
        )
        self.assertEqual(gate_costs.parse_table(text), rows)
        more = gate_costs.format_rows(rows, with_header=False)
        self.assertEqual(gate_costs.parse_table(text + more), rows + rows)

    def test_refused(self) -> None:
        header = gate_costs.format_rows([], with_header=True)
        for text in ("a,b\n1,2\n", header + "2026-01-01,c,k,4,60,wire,3,2\n"):
            with self.assertRaises((KeyError, ValueError)):
                gate_costs.parse_table(text)
        self.assertEqual(gate_costs.parse_table(header), [])

    def test_last_row_of_crate_counts(self) -> None:
        rows = [row("wire", 9), row("lane", 5, 1), row("wire", 3, 2, 1, "2026-02-01")]
        self.assertEqual(gate_costs.landed(rows), {"wire": Cost(3, 2, 1), "lane": Cost(5, 1, 0)})


class Comparison(unittest.TestCase):
    """A measurement beside the table."""

    before = {"wire": Cost(60, 60, 60), "lane": Cost(120), "chain": Cost(30), "keys": Cost(90)}

    def test_add_up(self) -> None:
        jobs = [("a", "proof", 1.0), ("a", "edits", 2.0), ("b", "tests", 4.0), ("a", "proof", 8.0)]
        found = gate_costs.add_up((Job(crate, kind), seconds) for crate, kind, seconds in jobs)
        self.assertEqual(found, {"a": Cost(9, 0, 2), "b": Cost(0, 4, 0)})

    def test_greatest_growth_first(self) -> None:
        now = {"chain": Cost(20), "wire": Cost(100, 60, 80), "lane": Cost(121), "new": Cost(5)}
        found = gate_costs.changes(now, self.before)
        self.assertEqual([change.crate for change in found], ["wire", "new", "lane", "chain"])
        self.assertEqual(found[0], Change("wire", 180, 240))
        self.assertEqual(found[0].growth, 60)

    def test_kept_crates_are_not_compared(self) -> None:
        # Only the edits of `keys` were tried, so its proof is kept from an earlier run.
        now = {"lane": Cost(180), "keys": Cost(0, 0, 7)}
        self.assertEqual([c.crate for c in gate_costs.changes(now, self.before)], ["lane"])
        self.assertEqual(gate_costs.full_seconds(now, self.before), 180 + 180 + 30 + 90)
        lines = gate_costs.comparison(now, self.before, "gate.csv")
        self.assertEqual(
            lines,
            [
                "crates proved in this run: 1, 3.0 minutes (gate.csv: 2.0)",
                "crates not proved in this run, so not compared: 3;"
                " with their figures from gate.csv, 8.0 minutes in all",
            ],
        )

    def test_every_crate_proved(self) -> None:
        lines = gate_costs.comparison(self.before, self.before, "gate.csv")
        self.assertEqual(lines, ["crates proved in this run: 4, 7.0 minutes (gate.csv: 7.0)"])

    def test_warning_only_above_budget(self) -> None:
        now = {f"c{n}": Cost(60 + n) for n in range(7)}
        before = {crate: Cost(60) for crate in now}
        self.assertEqual(gate_costs.warning(now, before, 7.4), [])
        self.assertEqual(gate_costs.warning(now, before, None), [])
        lines = gate_costs.warning(now, before, 7.0)
        self.assertIn("warning: 7.3 processor minutes, above the budget of 7;", lines[0])
        self.assertEqual(lines[1], "  c6: from 60 to 66 seconds")
        self.assertEqual(len(lines), 1 + gate_costs.CRATES_IN_WARNING)
        self.assertEqual(gate_costs.warning({}, before, 6.0)[1:], ["  none"])

    def test_report(self) -> None:
        lines = gate_costs.report({"lane": Cost(1.6), "wire": Cost(60, 20, 40)}, 61.2, 4)
        self.assertEqual(
            lines,
            [
                "processor seconds      proof    tests    edits      all",
                "wire                      60       20       40      120",
                "lane                       2        0        0        2",
                "all                       62       20       40      122",
                "61 seconds of wall-clock time on 4 processors, 2.0 processor minutes",
            ],
        )


SAID = """\
rt: keys: 1 of its 3 must-fail edits were tried by an earlier run on this machine
fn keys::order::compare: proved
rt: must-fail keys/tie.edit: refused, as it must be: src/tie.rt:3:1: error: ensures sorted
rt: must-fail keys/run.edit: refused, as it must be (only because a proof file names what the \
edit took away): proofs/A.antt:1:1: error: `x` is not in scope
rt: must-fail keys/pass.edit: NOT REFUSED: the crate is still proved with this edit
rt: must-fail wire/form.edit: BAD EDIT: it did not reach the prover; the first lines:
src/form.rt:1:1: error[E1]: no such name
rt: must-fail wire/last.edit: NOT TRIED: its check was killed
rt: a line of something else
4 passed, 2 failed (keys wire and the crates below alone: not the gate)
"""
# What `rt ci keys` prints where `rt ci` takes no names.
USAGE = """\
usage: rt new FOLDER [start|start_io]   makes a crate from a template
       rt check|verdict|lib|run|test [NAME] [rattle's flags] [-- the program's arguments]
"""


class MoreEdits(unittest.TestCase):
    """What `rt` prints of edits, and what is copied."""

    def test_results(self) -> None:
        found = more_edits.parse_results(SAID)
        self.assertEqual(
            [(result.edit, result.verdict, result.shows_little) for result in found],
            [
                ("keys/tie", "refused", False),
                ("keys/run", "refused", True),
                ("keys/pass", "NOT REFUSED", False),
                ("wire/form", "BAD EDIT", False),
                ("wire/last", "NOT TRIED", False),
            ],
        )
        self.assertEqual(found[0].reason, ": src/tie.rt:3:1: error: ensures sorted")
        self.assertTrue(found[3].reason.endswith("\n  src/form.rt:1:1: error[E1]: no such name"))
        self.assertEqual(found[4].reason, ": its check was killed")

    def test_summary(self) -> None:
        found = more_edits.parse_results(SAID)
        self.assertEqual(
            more_edits.summary(found),
            "5 edits: 2 refused, 1 not refused, 1 bad, 1 not tried;"
            " 1 of the refused only for a name or by a limit",
        )
        self.assertEqual(
            more_edits.summary(found[:1]), "1 edits: 1 refused, 0 not refused, 0 bad"
        )

    def test_paths_to_copy(self) -> None:
        with tempfile.TemporaryDirectory() as folder:
            crates = pathlib.Path(folder)
            for part in ("keys/src", "keys/out", "wire/must-fail", "wire/src", "wire/specs"):
                (crates / part).mkdir(parents=True)
            self.assertEqual(
                more_edits.paths_to_copy(crates),
                [
                    "crates.txt",
                    "HANDLES",
                    "crates/keys/src",
                    "crates/wire/specs",
                    "crates/wire/src",
                ],
            )

    def test_kept_paths(self) -> None:
        with tempfile.TemporaryDirectory() as folder:
            crates = pathlib.Path(folder)
            for part in ("keys/out/rlib", "keys/out/incremental", "keys/out/c", "wire/out/rlib"):
                (crates / part).mkdir(parents=True)
            self.assertEqual(
                more_edits.kept_paths(crates, ["wire", "lost", "keys"]),
                ["crates/keys/out/incremental", "crates/keys/out/rlib", "crates/wire/out/rlib"],
            )

    def test_begun(self) -> None:
        self.assertTrue(more_edits.has_begun(SAID))
        self.assertTrue(more_edits.has_begun("rt: crates.txt names no crate\n0 passed, 1 failed\n"))
        self.assertTrue(more_edits.has_begun(SAID.splitlines()[2]))
        self.assertFalse(more_edits.has_begun(USAGE))
        self.assertFalse(more_edits.has_begun(""))

    def tried(self, *answers: tuple[int, str]) -> tuple[list[str], list[str], tuple[int, str]]:
        """Tries the edits of `wire` with these answers of `rt`.

        Returns the commands, the paths of kept work that were copied, and the result.
        """
        commands: list[str] = []
        copied: list[str] = []
        waiting = list(answers)

        def run_rt(words: list[str], _: pathlib.Path) -> tuple[int, str]:
            commands.append(" ".join(words))
            return waiting.pop(0)

        listed = crate_list.parse_crates("keys:\nhex:\nwire: keys json\n")
        with (
            mock.patch.object(more_edits, "run_rt", run_rt),
            mock.patch.object(more_edits, "make_copy"),
            mock.patch.object(more_edits, "kept_paths", lambda _, names: sorted(names)),
            mock.patch.object(more_edits, "copy_paths", lambda paths, _: copied.extend(paths)),
        ):
            found = more_edits.try_edits(["wire"], listed)
        return commands, copied, found

    def test_ci_with_names(self) -> None:
        found = self.tried((1, SAID))
        self.assertEqual(found, (["ci wire"], [], (1, SAID)))

    def test_ci_without_names(self) -> None:
        said = "rt: must-fail wire/form.edit: refused, as it must be\n"
        found = self.tried((2, USAGE), (0, said))
        self.assertEqual(found, (["ci wire", "must-fail wire"], ["keys"], (0, said)))

    def test_edit_without_result(self) -> None:
        edits = ["keys/lost", "keys/tie"]
        found = more_edits.complete(more_edits.parse_results(SAID), edits)
        self.assertEqual([result.edit for result in found], edits)
        self.assertEqual([result.verdict for result in found], ["NOT TRIED", "refused"])


class CrateList(unittest.TestCase):
    """What is read of crates.txt."""

    text = "# all: these\nkeys: thiserror\nchain:\nwire: keys hex\nreplay may=1: wire # x: y\n"

    def test_crates(self) -> None:
        listed = crate_list.parse_crates(self.text + "c_library staticlib: chain\n")
        self.assertEqual(list(listed), ["keys", "chain", "wire", "replay", "c_library"])
        self.assertEqual(listed["replay"], Crate("replay", False, ("wire",)))
        self.assertEqual(listed["chain"].uses, ())
        self.assertTrue(listed["c_library"].is_static)

    def test_crates_below(self) -> None:
        listed = crate_list.parse_crates(self.text)
        found = crate_list.with_those_below(["replay"], listed)
        self.assertEqual(found, {"replay", "wire", "keys"})


class ItemTimes(unittest.TestCase):
    """How the prover is called for one crate, and what its times come to."""

    listed = crate_list.parse_crates("low: hex\nhigh: low hex\nc_library staticlib: low\n")

    def words(self, crate: str, tests: bool = False) -> str:
        kit = pathlib.Path("kit")
        found = item_times.arguments(self.listed[crate], self.listed, kit, "src/lib.rt", tests)
        return " ".join(found)

    def test_arguments(self) -> None:
        self.assertEqual(
            self.words("high"),
            "check --progress --crate-name high src/lib.rt --extern std=kit/rlibs/std.rlib"
            " --extern low=../low/out/rlib/low.rlib --extern hex=kit/rlibs/hex.rlib"
            " -L dependency=kit/rlibs -L dependency=../low/out/rlib"
            " --antt-project kit/rattle/logic/antt-project.json --logic-built kit/logic_built",
        )
        self.assertTrue(self.words("high", tests=True).endswith(" --test"))
        self.assertTrue(self.words("c_library").endswith(" --crate-type staticlib"))

    def test_times_are_differences(self) -> None:
        found = list(item_times.items_of([("a::first", 9.0), ("a::b", 9.5), ("a::c", 12.5)]))
        self.assertEqual([item.seconds for item in found], [9.0, 0.5, 3.0])
        self.assertEqual(
            item_times.report(found, 2),
            [
                "    9.0 a::first (first)",
                "    3.0 a::c",
                "   12.5 processor seconds for 3 functions",
            ],
        )
        self.assertEqual(item_times.report([], 2), ["    0.0 processor seconds for 0 functions"])

    def test_line_of_a_function(self) -> None:
        match = item_times.CHECKED.fullmatch("checked boundaries::walk::change_leaf, 7 of 80")
        self.assertEqual(match[1] if match else None, "boundaries::walk::change_leaf")
        self.assertIsNone(item_times.CHECKED.fullmatch("fn boundaries::walk::change_leaf: proved"))


if __name__ == "__main__":
    unittest.main()
