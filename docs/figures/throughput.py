#!/usr/bin/env python3
"""Draws how many ranges per second `replay` and two baselines resolve.

The numbers are the newest results of bench/measure.
"""

from dataclasses import dataclass

import measured
from svg import Picture, write

PROGRAMS = ('art', 'replay', 'skiplist')
KINDS = ('grey-fill', 'blue-fill', 'pale-fill')
LABELS = {
    'skiplisttest': '1 read, 1 write, 1 to 10 keys each',
    'points': '5 reads, 2 writes of single keys',
    'growth-1000': 'the same, {} boundaries',
    'growth-100000': 'the same, {} boundaries',
    'growth-1000000': 'the same, {} boundaries',
    'wide': '64 reads, 16 writes',
}
LEFT, WIDTH, TOP, GROUP, BAR = 282, 376, 66, 64, 16


@dataclass
class Row:
    """A workload: its rates in million ranges per second, and the spread of that of `replay`."""

    name: str
    rates: tuple[float, ...]
    least: float
    most: float


def rounded(boundaries: int) -> str:
    """Returns a number of boundaries to the next hundred or thousand."""
    unit = 100 if boundaries < 10_000 else 1_000
    return f'{round(boundaries / unit) * unit:,}'


def read_rows(results: measured.Results) -> list[Row]:
    """Returns the workloads of the chart."""
    found = []
    for workload, label in LABELS.items():
        rows = [row for name in PROGRAMS if (row := results.row(workload, name)) is not None]
        if len(rows) < len(PROGRAMS):
            continue
        rates = tuple(row.ranges / row.seconds / 1e6 for row in rows)
        ratio = rows[0].number('ratio_median', 1)
        found.append(
            Row(
                label.format(rounded(rows[0].boundaries)) if '{}' in label else label,
                rates,
                rates[1] * ratio / rows[0].number('ratio_greatest', ratio),
                rates[1] * ratio / rows[0].number('ratio_least', ratio),
            )
        )
    return found


def picture() -> Picture:
    """Returns the picture."""
    results = measured.newest()
    rows = read_rows(results)
    greatest = 1.12 * max(max(*row.rates, row.most) for row in rows)
    bottom = TOP + GROUP * len(rows)
    said = ' '.join(
        f'{row.name}: replay {row.rates[1]:.1f}, radix tree {row.rates[0]:.1f}, '
        f'skip list {row.rates[2]:.1f}.'
        for row in rows
    )

    def across(rate: float) -> float:
        return LEFT + rate * WIDTH / greatest

    p = Picture(680, bottom + 78, 'Throughput',
                f'Million read and write ranges per second, complete processes. {said}')
    x = 10.0
    for name, kind, step in zip(
        ('radix tree, C++', f'replay, {results.edition}', 'skip list, C++'), KINDS, (170, 170, 0)
    ):
        p.rect(x, 12, 14, 14, kind, 2)
        p.text(x + 20, 24, name, 'ink', 15)
        x += step
    p.text(
        10,
        50,
        'million read and write ranges per second; the two in C++ are not proved',
        'soft',
        15,
    )
    for tick in range(0, int(greatest), 2 if greatest < 16 else 5):
        p.line(across(tick), TOP, across(tick), bottom, 'thin', 1)
        p.text(across(tick), bottom + 20, str(tick), 'soft', 15, 'middle')
    for index, row in enumerate(rows):
        y = TOP + GROUP * index + (GROUP - 3 * BAR) / 2
        p.text(10, y + 1.5 * BAR + 5, row.name, 'ink', 15)
        for bar, (rate, kind) in enumerate(zip(row.rates, KINDS)):
            p.rect(LEFT, y + bar * BAR, across(rate) - LEFT, BAR - 2, kind, 0)
            end = max(rate, row.most if bar == 1 else rate)
            p.text(across(end) + 6, y + bar * BAR + BAR - 3, f'{rate:.1f}', 'soft', 14)
        if row.most > row.least:
            middle = y + 1.5 * BAR - 1
            p.line(across(row.least), middle, across(row.most), middle, 'ink-line', 1.5)
            for end in (row.least, row.most):
                p.line(across(end), middle - 4, across(end), middle + 4, 'ink-line', 1.5)
    p.text(10, bottom + 46, 'Error bars: spread of the ratio to the radix tree.', 'soft', 15)
    p.text(10, bottom + 68, results.source, 'soft', 15)
    return p


if __name__ == '__main__':
    write(picture(), __file__)
