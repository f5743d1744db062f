"""Reads the newest results of bench/measure, for the charts of times."""

import csv
import pathlib
from dataclasses import dataclass

RESULTS = pathlib.Path(__file__).resolve().parents[2] / 'bench' / 'results'
# Two forms of the skip list are measured. A chart has the faster one of each workload.
SKIP_LISTS = ('skiplist', 'skiplist-tuned')
LONGEST = 80


@dataclass(frozen=True)
class Row:
    """What one program took on one workload: the cells of its line."""

    cells: dict[str, str]

    @property
    def ranges(self) -> int:
        """The number of read and write ranges of all transactions."""
        return int(self.cells['transactions']) * int(self.cells['ranges'])

    @property
    def seconds(self) -> float:
        """The median over the rounds."""
        return float(self.cells['seconds_median'])

    @property
    def boundaries(self) -> int:
        """The number of boundaries at the end."""
        return int(self.cells['boundaries'])

    def number(self, column: str, missing: float) -> float:
        """Returns a number, or another one if the cell is empty."""
        return float(self.cells[column] or missing)


@dataclass(frozen=True)
class Results:
    """A file of results: its rows by workload and program, and where and when they were made."""

    rows: dict[tuple[str, str], Row]
    comments: dict[str, str]

    def row(self, workload: str, program: str) -> Row | None:
        """Returns the row of a program, or of the faster skip list."""
        names = SKIP_LISTS if program == 'skiplist' else (program,)
        found = [self.rows[workload, name] for name in names if (workload, name) in self.rows]
        return min(found, key=lambda row: row.seconds) if found else None

    def workloads(self, prefix: str = '') -> list[str]:
        """Returns the measured workloads whose names begin so, in the order of the file."""
        return [
            name
            for name in dict.fromkeys(workload for workload, _ in self.rows)
            if name.startswith(prefix)
        ]

    @property
    def edition(self) -> str:
        """Which edition of `replay` was measured."""
        return 'proved' if 'edition: proved' in self.comments['date'] else 'Cargo edition'

    @property
    def source(self) -> str:
        """The date and the machine, on one line."""
        line = (
            f'{self.comments["date"].partition(";")[0]}, '
            f'{self.comments["machine"].partition(";")[0]}.'
        )
        return line if len(line) <= LONGEST else line[:LONGEST - 1] + '…'


def read(path: pathlib.Path) -> Results:
    """Reads a file of results."""
    lines = path.read_text().splitlines()
    comments = dict(line[2:].split(': ', 1) for line in lines if line.startswith('# '))
    rows = (
        Row(cells) for cells in csv.DictReader(line for line in lines if not line.startswith('#'))
    )
    return Results({(row.cells['workload'], row.cells['program']): row for row in rows}, comments)


def newest() -> Results:
    """Reads the newest results: the names of the files begin with their dates."""
    return read(max(RESULTS.glob('*-programs.csv'), key=lambda path: path.name))
