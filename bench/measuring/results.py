# SPDX-License-Identifier: Apache-2.0
"""Rows of results: as a file, and as a table to read."""

import csv
import datetime
import os
import pathlib
import platform
import subprocess
from collections.abc import Iterable
from dataclasses import dataclass

from measuring import TOP
from measuring.rounds import Rounds
from measuring.summary import Spread, ratios, spread

MEASURES = ('seconds', 'ratio', 'transactions_per_second', 'p50_us', 'p99_us', 'peak_mib')
COLUMNS = (
    'workload',
    'program',
    'batches',
    'transactions',
    'ranges',
    'boundaries',
    'rounds',
    *(f'{measure}_{part}' for measure in MEASURES for part in ('median', 'least', 'greatest')),
)
DECIMALS = {
    'seconds': 3, 'ratio': 2, 'transactions_per_second': 0, 'p50_us': 1, 'p99_us': 1, 'peak_mib': 1
}
EXPLANATION = (
    (
        'seconds: complete processes, standard output to a file; '
        'each measure has its median, least and greatest over the rounds'
    ),
    (
        "ratio: seconds of replay divided by those of the program in the same round; "
        "below 1, replay is faster"
    ),
    (
        'p50_us, p99_us: microseconds per batch in one thread, decoded and resolved; '
        'of replay, those of bench/latency (Cargo edition)'
    ),
    (
        'peak_mib: greatest resident set; '
        'all but replay and art keep the complete input file in memory'
    ),
)


@dataclass(frozen=True)
class Row:
    """What one program took on one workload."""

    workload: str
    program: str
    batches: int
    transactions: int
    # Read and write ranges per transaction.
    ranges: int
    boundaries: int | None
    rounds: int
    measures: dict[str, Spread]

    def cells(self) -> list[str]:
        """Returns the cells of its line. A measure that was not taken has empty cells."""
        head = [
            self.workload,
            self.program,
            self.batches,
            self.transactions,
            self.ranges,
            self.boundaries,
            self.rounds,
        ]
        return [*('' if cell is None else str(cell) for cell in head),
                *(cell for measure in MEASURES for cell in self.measure_cells(measure))]

    def measure_cells(self, measure: str) -> list[str]:
        """Returns the median, the least and the greatest value."""
        found = self.measures.get(measure)
        if found is None:
            return ['', '', '']
        return [
            f'{value:.{DECIMALS[measure]}f}'
            for value in (found.median, found.least, found.greatest)
        ]


def rows_of(workload: str, ranges: int, size: tuple[int, int], measured: Rounds) -> list[Row]:
    """Summarizes the rounds of each program.

    `size` is the number of batches and of transactions.
    """
    batches, transactions = size
    reference = [run.seconds for run in measured.runs.get('replay', [])]
    rows = []
    for program, runs in measured.runs.items():
        seconds = [run.seconds for run in runs]
        measures = {
            'seconds': spread(seconds),
            'transactions_per_second': spread(seconds).inverted(transactions),
            'peak_mib': spread([run.peak_mib for run in runs]),
        }
        if reference:
            measures['ratio'] = ratios(reference, seconds)
        for measure in ('p50_us', 'p99_us'):
            values = [value for run in runs if (value := getattr(run, measure)) is not None]
            if values:
                measures[measure] = spread(values)
        rows.append(
            Row(
                workload,
                program,
                batches,
                transactions,
                ranges,
                measured.boundaries,
                len(runs),
                measures,
            )
        )
    return rows


def processor(cpuinfo: str) -> str:
    """Returns the model of the first processor in the text of /proc/cpuinfo."""
    models = (
        line.partition(':')[2].strip()
        for line in cpuinfo.splitlines()
        if line.startswith('model name')
    )
    return next(models, platform.machine())


def memory_gib(meminfo: str) -> float:
    """Returns the memory in the text of /proc/meminfo."""
    line = next(line for line in meminfo.splitlines() if line.startswith('MemTotal:'))
    return int(line.split()[1]) / 2**20


def git(*arguments: str) -> str:
    """Returns what git prints, or nothing outside a checkout."""
    done = subprocess.run(['git', *arguments], cwd=TOP, capture_output=True, text=True, check=False)
    return done.stdout.strip()


def heading(command: str, edition: str) -> list[str]:
    """Returns the lines that say where, when and how the numbers were measured."""
    cpuinfo, meminfo = (
        pathlib.Path(path).read_text() for path in ('/proc/cpuinfo', '/proc/meminfo')
    )
    changed = ' with changes' if git('status', '--porcelain', '--untracked-files=no') else ''
    return [
        (
            f'machine: {os.cpu_count()} processors of '
            f'{processor(cpuinfo)}, {memory_gib(meminfo):.1f} GiB; Linux {platform.release()}; '
            f'load average at the start {os.getloadavg()[0]:.1f}'
        ),
        (
            f'date: {datetime.date.today()}; commit: '
            f'{git("rev-parse", "--short=8", "HEAD") or "unknown"}{changed}; edition: {edition}'
        ),
        f'command: {command}',
        *EXPLANATION,
    ]


def write(file: pathlib.Path, comments: Iterable[str], rows: Iterable[Row]) -> None:
    """Writes a file of results."""
    file.parent.mkdir(parents=True, exist_ok=True)
    with file.open('w', newline='') as out:
        out.writelines(f'# {comment}\n' for comment in comments)
        writer = csv.writer(out, lineterminator='\n')
        writer.writerow(COLUMNS)
        writer.writerows(row.cells() for row in rows)


def table(rows: list[Row]) -> str:
    """Returns the rows of one workload as a table.

    Medians come first, with the least and the greatest value after them.
    """
    lines = [['', *MEASURES]]
    for row in rows:
        cells = (row.measure_cells(measure) for measure in MEASURES)
        lines.append(
            [
                row.program,
                *(
                    f'{median} ({least}-{greatest})' if median else ''
                    for median, least, greatest in cells
                ),
            ]
        )
    widths = [max(map(len, column)) for column in zip(*lines)]
    return '\n'.join(
        '  '.join(cell.ljust(width) for cell, width in zip(line, widths)).rstrip() for line in lines
    )
