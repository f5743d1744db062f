"""Tests of the checker on small histories, written by hand."""

import json
import subprocess
import sys
import tempfile
import unittest
from pathlib import Path

from check import ACCOUNTS, BALANCE, CHECKS, Graph, Members, read_history

History = list[Members]


def transaction(
    name: str, begin: int, end: int | None, outcome: str = "committed", **members: object
) -> History:
    """Returns the lines of a transaction, of which the second is missing if it has no end."""
    call = {"id": name, "begin": begin, **members}
    return [call] if end is None else [call, {"id": name, "end": end, "outcome": outcome}]


def anomalies(workload: str, *transactions: History) -> list[str]:
    lines = [json.dumps(line) for lines in transactions for line in lines]
    return list(CHECKS[workload](read_history(lines)))


def append(
    name: str,
    begin: int,
    end: int | None,
    read: dict[str, list[int]],
    appended: dict[str, int] | None = None,
    outcome: str = "committed",
) -> History:
    return transaction(name, begin, end, outcome, read=read, append=appended or {})


def all_lists(**read: list[int]) -> History:
    return transaction("9", 900, 901, read=read, append={}, final=True)


class Appends(unittest.TestCase):
    def test_one_at_a_time(self) -> None:
        found = anomalies(
            "appends",
            append("1", 0, 10, {"a": []}, {"a": 1}),
            append("2", 11, 20, {"a": [1], "b": []}, {"b": 2}),
            append("3", 12, 19, {"a": [1], "b": []}),
            all_lists(a=[1], b=[2]),
        )
        self.assertEqual(found, [])

    def test_write_skew(self) -> None:
        """Each reads both lists and appends to one, at the same time."""
        found = anomalies(
            "appends",
            append("1", 0, 10, {"a": [], "b": []}, {"a": 1}),
            append("2", 0, 10, {"a": [], "b": []}, {"b": 2}),
            all_lists(a=[1], b=[2]),
        )
        expected = "cycle: 1 misses the write of 2 misses the write of the first"
        self.assertEqual(found, [expected])

    def test_real_time(self) -> None:
        """A transaction begins after another has ended, and doesn't read what that wrote."""
        late = append("2", 11, 20, {"a": []})
        first = append("1", 0, 10, {"a": []}, {"a": 1})
        end = all_lists(a=[1])
        expected = "cycle: 1 ends before 2 misses the write of the first"
        self.assertEqual(anomalies("appends", first, late, end), [expected])
        at_once = append("2", 10, 20, {"a": []})
        self.assertEqual(anomalies("appends", first, at_once, end), [])

    def test_three(self) -> None:
        found = anomalies(
            "appends",
            append("1", 0, 10, {"a": [], "b": []}, {"a": 1}),
            append("2", 0, 10, {"b": [], "c": []}, {"b": 2}),
            append("3", 0, 10, {"c": [], "a": [1]}, {"c": 3}),
            all_lists(a=[1], b=[2], c=[3]),
        )
        misses = "misses the write of"
        expected = f"cycle: 1 {misses} 2 {misses} 3 {misses} the first"
        self.assertEqual(found, [])
        found = anomalies(
            "appends",
            append("1", 0, 10, {"a": [], "b": []}, {"a": 1}),
            append("2", 0, 10, {"b": [], "c": []}, {"b": 2}),
            append("3", 0, 10, {"c": [], "a": []}, {"c": 3}),
            all_lists(a=[1], b=[2], c=[3]),
        )
        self.assertEqual(found, [expected])

    def test_lost_update(self) -> None:
        found = anomalies(
            "appends",
            append("1", 0, 10, {"a": []}, {"a": 1}),
            append("2", 0, 10, {"a": []}, {"a": 2}),
            all_lists(a=[2]),
        )
        self.assertEqual(found, ["1 has appended 1 to a, and it is lost"])

    def test_values_that_cannot_be(self) -> None:
        conflict = append("1", 0, 10, {}, {"a": 1}, "conflict")
        self.assertEqual(anomalies("appends", conflict, all_lists(a=[])), [])
        found = anomalies("appends", conflict, all_lists(a=[1]))
        self.assertEqual(found, ["1 is in a, and 1 wasn't committed"])
        found = anomalies("appends", append("1", 0, 10, {}, {"a": 1}), all_lists(a=[1, 1]))
        self.assertEqual(found, ["1 is in a twice"])
        found = anomalies("appends", all_lists(a=[7]))
        self.assertEqual(found, ["7 is in a, and nobody has appended it"])

    def test_two_orders(self) -> None:
        found = anomalies(
            "appends",
            append("1", 0, 10, {}, {"a": 1}),
            append("2", 0, 10, {}, {"a": 2}),
            append("3", 0, 10, {"a": [2]}),
            all_lists(a=[1, 2]),
        )
        self.assertIn("3 reads what is no beginning of another read of a", found)

    def test_outcome_that_is_not_known(self) -> None:
        cut = append("1", 0, None, {"a": [], "b": []}, {"a": 1})
        self.assertEqual(anomalies("appends", cut, all_lists(a=[])), [])
        self.assertEqual(anomalies("appends", cut, all_lists(a=[1])), [])
        # If its write is there, it counts as committed.
        other = append("2", 0, 10, {"a": [], "b": []}, {"b": 2})
        found = anomalies("appends", cut, other, all_lists(a=[1], b=[2]))
        self.assertEqual(found, ["cycle: 1 misses the write of 2 misses the write of the first"])
        self.assertEqual(anomalies("appends", cut, other, all_lists(b=[2])), [])

    def test_no_end(self) -> None:
        self.assertEqual(anomalies("appends"), ["nothing was read at the end"])


class Skew(unittest.TestCase):
    def test_both_off(self) -> None:
        def reads(x: str, y: str) -> History:
            return transaction("1", 0, 1, "conflict", switches={"p/x": x, "p/y": y})

        end = transaction("9", 9, 9, switches={"p/x": "on", "p/y": "off"}, final=True)
        self.assertEqual(anomalies("skew", reads("on", "off"), end), [])
        self.assertEqual(anomalies("skew", reads("off", "on"), end), [])
        found = ["1 reads both switches of p off"]
        self.assertEqual(anomalies("skew", reads("off", "off"), end), found)


class Transfers(unittest.TestCase):
    accounts = {f"a{number}": BALANCE for number in range(ACCOUNTS)}

    def transfer(self, name: str, end: int | None, outcome: str = "committed") -> History:
        return transaction(name, 0, end, outcome, **{"from": "a0", "to": "a1", "amount": 5})

    def end(self, clients: dict[str, int], moved: int) -> History:
        accounts = self.accounts | {"a0": BALANCE - moved, "a1": BALANCE + moved}
        return transaction("9", 9, 9, accounts=accounts, clients=clients, final=True)

    def test_sums(self) -> None:
        self.assertEqual(anomalies("transfers", self.end({}, 0)), [])
        audit = transaction("2", 0, 1, accounts=self.accounts | {"a3": BALANCE + 1})
        found = anomalies("transfers", audit, self.end({}, 0))
        self.assertEqual(found, ["2 reads accounts of 6401 together"])
        audit = transaction("2", 0, 1, accounts=self.accounts | {"a3": -1, "a4": 2 * BALANCE + 1})
        found = anomalies("transfers", audit, self.end({}, 0))
        self.assertEqual(found, ["2 reads -1 in a3"])

    def test_balances(self) -> None:
        one = self.transfer("0.1.1", 2)
        conflict = self.transfer("0.1.2", 3, "conflict")
        self.assertEqual(anomalies("transfers", one, conflict, self.end({"client/0.1": 1}, 5)), [])
        found = anomalies("transfers", one, conflict, self.end({"client/0.1": 1}, 10))
        self.assertEqual(len(found), 2)
        found = anomalies("transfers", one, self.end({}, 0))
        self.assertIn("0.1.1 is lost: the last transfer of its client is 0", found)

    def test_outcome_that_is_not_known(self) -> None:
        cut = self.transfer("0.1.4", None)
        self.assertEqual(anomalies("transfers", cut, self.end({}, 0)), [])
        self.assertEqual(anomalies("transfers", cut, self.end({"client/0.1": 4}, 5)), [])
        self.assertEqual(len(anomalies("transfers", cut, self.end({"client/0.1": 4}, 0))), 2)


class Parts(unittest.TestCase):
    def test_components(self) -> None:
        graph = Graph(6)
        for before, after in ((0, 1), (1, 2), (2, 0), (2, 3), (3, 4), (4, 3), (4, 5)):
            graph.add(before, after, "edge")
        components = sorted(sorted(component) for component in graph.components())
        self.assertEqual(components, [[0, 1, 2], [3, 4]])
        self.assertEqual(graph.cycle([2, 0, 1]), [0, 1, 2, 0])

    def test_lines_that_are_cut(self) -> None:
        lines = [
            '{"id": "1", "begin": 1}',
            "",
            '{"id": "2", "be',
            '{"id": "1", "end": 3, "outcome": "conflict"}',
        ]
        history = read_history(lines)
        self.assertEqual([(each.id, each.outcome) for each in history], [("1", "conflict")])

    def test_command(self) -> None:
        with tempfile.NamedTemporaryFile("w") as file:
            switches = {"p/x": "off", "p/y": "off"}
            file.write(json.dumps({"id": "1", "begin": 1, "switches": switches}))
            file.flush()
            command = [sys.executable, str(Path(__file__).parent / "check.py"), "skew", file.name]
            done = subprocess.run(command, capture_output=True, text=True)
        self.assertEqual(done.returncode, 1)
        counts = "skew: 0 committed, 0 conflict, 0 too old, 1 unknown; 2 anomalies"
        self.assertIn(counts, done.stdout)


if __name__ == "__main__":
    unittest.main()
