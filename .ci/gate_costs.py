"""What the prover's work costs per crate: the table of `.ci/gate-times`, and its comparison.

Nothing here runs a command or looks at a process. `.ci/test_scripts.py` has the tests.
"""
from __future__ import annotations

import collections
import csv
import dataclasses
import io
import os
from typing import Iterable, Mapping, Sequence

KINDS = ("proof", "tests", "edits")
CRATES_IN_WARNING = 5


@dataclasses.dataclass(frozen=True)
class Job:
    """The crate and the kind of work that a process of the prover is for."""

    crate: str
    kind: str


@dataclasses.dataclass(frozen=True)
class Cost:
    """The processor seconds of a crate, per kind of work."""

    proof: float = 0.0
    tests: float = 0.0
    edits: float = 0.0

    @property
    def total(self) -> float:
        return self.proof + self.tests + self.edits

    def plus(self, kind: str, seconds: float) -> Cost:
        return dataclasses.replace(self, **{kind: getattr(self, kind) + seconds})


@dataclasses.dataclass(frozen=True)
class Row:
    """A row of the table: what one crate cost in one measurement."""

    date: str
    commit: str
    kit: str
    processors: int
    wall_clock_seconds: int
    crate: str
    proof_seconds: int
    tests_seconds: int
    edits_seconds: int


@dataclasses.dataclass(frozen=True)
class Change:
    """The cost of a crate by the table and in this run, in processor seconds."""

    crate: str
    before: float
    now: float

    @property
    def growth(self) -> float:
        return self.now - self.before


COLUMNS = [field.name for field in dataclasses.fields(Row)]


def classify(arguments: Sequence[str], folder: str) -> Job | None:
    """Returns what a process works on, or None unless it is a check or a build by the prover.

    `rt` checks each edit in a temporary folder of its own.
    """
    is_prover = os.path.basename(arguments[0]) == "rattle" if arguments else False
    if not is_prover or arguments[1:2] not in (["build"], ["check"]):
        return None
    if "--crate-name" not in arguments[:-1]:
        return None
    crate = arguments[arguments.index("--crate-name") + 1]
    if os.path.basename(folder).startswith("rt-edit-"):
        return Job(crate, "edits")
    return Job(crate, "tests" if "--test" in arguments else "proof")


def add_up(jobs: Iterable[tuple[Job, float]]) -> dict[str, Cost]:
    """Returns the cost of each crate, from the jobs and their seconds."""
    costs: dict[str, Cost] = collections.defaultdict(Cost)
    for job, seconds in jobs:
        costs[job.crate] = costs[job.crate].plus(job.kind, seconds)
    return dict(costs)


# The table.


def parse_table(text: str) -> list[Row]:
    """Reads the table. Raises ValueError or KeyError if the text is no table."""
    rows = []
    for record in csv.DictReader(io.StringIO(text)):
        # A missing value is None.
        words = [record[name] or "" for name in COLUMNS]
        date, commit, kit, processors, wall_clock, crate, *seconds = words
        proof, tests, edits = (int(word) for word in seconds)
        rows.append(
            Row(date, commit, kit, int(processors), int(wall_clock), crate, proof, tests, edits)
        )
    return rows


def format_rows(rows: Iterable[Row], with_header: bool) -> str:
    """Returns the rows as lines of the table."""
    written = io.StringIO()
    writer = csv.writer(written, lineterminator="\n")
    if with_header:
        writer.writerow(COLUMNS)
    writer.writerows(dataclasses.astuple(row) for row in rows)
    return written.getvalue()


def landed(rows: Iterable[Row]) -> dict[str, Cost]:
    """Returns the cost of each crate by its last row."""
    return {r.crate: Cost(r.proof_seconds, r.tests_seconds, r.edits_seconds) for r in rows}


# The comparison and the report.


def proved(costs: Mapping[str, Cost]) -> dict[str, Cost]:
    """Returns the crates of which a proof took time in this run."""
    return {crate: cost for crate, cost in costs.items() if cost.proof > 0}


def changes(costs: Mapping[str, Cost], before: Mapping[str, Cost]) -> list[Change]:
    """Returns how the cost of each crate that was proved has changed, the greatest growth first."""
    found = [Change(c, before.get(c, Cost()).total, n.total) for c, n in proved(costs).items()]
    return sorted(found, key=lambda change: (-change.growth, change.crate))


def full_seconds(costs: Mapping[str, Cost], before: Mapping[str, Cost]) -> float:
    """Returns the cost of a run that proves every crate, by the table if it is not in this run."""
    return sum(cost.total for cost in {**costs, **before, **proved(costs)}.values())


def report(costs: Mapping[str, Cost], wall_clock: float, processors_used: int) -> list[str]:
    """Returns the lines of the report, the crate that cost most first."""
    overall = Cost(*(sum(getattr(cost, kind) for cost in costs.values()) for kind in KINDS))
    ordered = sorted(costs.items(), key=lambda item: (-item[1].total, item[0]))
    width = max([len("processor seconds"), *map(len, costs)]) + 2
    lines = ["processor seconds".ljust(width) + "".join(f"{k:>9}" for k in (*KINDS, "all"))]
    for name, cost in [*ordered, ("all", overall)]:
        numbers = [*(getattr(cost, kind) for kind in KINDS), cost.total]
        lines.append(name.ljust(width) + "".join(f"{number:9.0f}" for number in numbers))
    lines.append(
        f"{wall_clock:.0f} seconds of wall-clock time on {processors_used} processors,"
        f" {overall.total / 60:.1f} processor minutes"
    )
    return lines


def comparison(costs: Mapping[str, Cost], before: Mapping[str, Cost], table: str) -> list[str]:
    """Returns the lines that compare the crates that were proved in this run with the table."""
    found = changes(costs, before)
    then, now = sum(c.before for c in found) / 60, sum(c.now for c in found) / 60
    lines = [f"crates proved in this run: {len(found)}, {now:.1f} minutes ({table}: {then:.1f})"]
    kept = [crate for crate in before if crate not in proved(costs)]
    if kept:
        minutes = full_seconds(costs, before) / 60
        lines.append(
            f"crates not proved in this run, so not compared: {len(kept)};"
            f" with their figures from {table}, {minutes:.1f} minutes in all"
        )
    return lines


def warning(
    costs: Mapping[str, Cost], before: Mapping[str, Cost], budget: float | None
) -> list[str]:
    """Returns the lines that warn of a total above the budget, in minutes."""
    minutes = full_seconds(costs, before) / 60
    if budget is None or minutes <= budget:
        return []
    lines = [
        f"gate-times: warning: {minutes:.1f} processor minutes, above the budget of {budget:.0f};"
        " of the crates proved in this run, these grew most:"
    ]
    grown = [change for change in changes(costs, before) if change.growth > 0]
    for change in grown[:CRATES_IN_WARNING]:
        lines.append(f"  {change.crate}: from {change.before:.0f} to {change.now:.0f} seconds")
    return lines if grown else [*lines, "  none"]
