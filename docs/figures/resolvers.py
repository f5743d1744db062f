#!/usr/bin/env python3
"""Draws the throughput of several resolvers and the conflicts that they add.

The numbers are the newest results of bench/resolvers.
"""

import sys
from dataclasses import dataclass

import measured
from svg import Picture, write

LABELS = {
    'skiplisttest': '1 read, 1 write, 1-10 keys',
    'points': '5 reads, 2 writes',
    'zipfian': '5 reads, 2 writes',
    'wide': '64 reads, 16 writes',
    'longkeys': 'keys of 1,000 bytes',
    'growth-1000': '1,000 boundaries',
    'growth-10000': '10,000 boundaries',
    'growth-100000': '98,000 boundaries',
    'growth-1000000': '976,000 boundaries',
}
RADIX_TREE = 'radix tree, C++'
# A panel per workload, three in a row.
COLUMNS, LEFT, TOP, WIDE, HIGH = 3, 14, 86, 224, 208
# In a panel: the width of all bars, the height of the highest, and the line on which they stand.
ACROSS, HEIGHT, GROUND = 204, 88, 154


@dataclass(frozen=True)
class Bar:
    """A number of resolvers, or the radix tree.

    Million ranges per second, and added conflicts in percent of the transactions.
    """

    name: str
    rate: float
    extra: float


def bar_of(row: measured.Row, name: str) -> Bar:
    """Returns the bar of a row."""
    return Bar(
        name,
        row.ranges / row.seconds / 1e6,
        100 * int(row.cells['extra_conflicts']) / int(row.cells['transactions']),
    )


def rate_of(bar: Bar) -> str:
    """Returns the rate with two digits, or more before the point."""
    return f'{bar.rate:.1f}' if bar.rate >= 1 else f'{bar.rate:.2f}'


def extra_of(bar: Bar) -> str:
    """Returns the added conflicts in percent."""
    return f'{bar.extra:.2f}' if bar.extra >= 0.005 else '<0.01' if bar.extra else '0'


def read_groups(results: measured.Results) -> dict[str, list[Bar]]:
    """Returns the bars of each workload: the radix tree, and then one resolver, two, and so on."""
    groups: dict[str, list[Bar]] = {}
    for workload in LABELS:
        rows = [row for (name, _), row in results.rows.items() if name == workload]
        several = sorted(
            (row for row in rows if row.cells['resolvers']),
            key=lambda row: int(row.cells['resolvers']),
        )
        if several:
            art = [bar_of(row, RADIX_TREE) for row in rows if not row.cells['resolvers']]
            groups[workload] = (
                art + [bar_of(row, f'K = {row.cells["resolvers"]}') for row in several]
            )
    return groups


def panel(p: Picture, left: float, top: float, workload: str, bars: list[Bar]) -> None:
    """Draws the bars of a workload.

    Each has its rate above it, and its number of resolvers and added conflicts below.
    """
    p.text(left, top + 16, workload, 'ink', 15, bold=True)
    p.text(left, top + 34, LABELS[workload], 'soft', 13)
    greatest = max(bar.rate for bar in bars)
    step, ground = ACROSS / len(bars), top + GROUND
    for index, bar in enumerate(bars):
        middle, high = left + step * (index + 0.5), bar.rate * HEIGHT / greatest
        p.rect(
            middle - step * 0.36,
            ground - high,
            step * 0.72,
            high,
            'grey-fill' if bar.name == RADIX_TREE else 'blue-fill',
            0,
        )
        p.text(middle, ground - high - 5, rate_of(bar), 'soft', 13, 'middle')
        if bar.name != RADIX_TREE:
            p.text(middle, ground + 17, bar.name.removeprefix('K = '), 'ink', 13, 'middle')
            p.text(middle, ground + 34, extra_of(bar), 'red' if bar.extra else 'soft', 13, 'middle')
    p.line(left, ground, left + ACROSS, ground, 'line', 1)


def picture(results: measured.Results) -> Picture:
    """Returns the picture."""
    groups = read_groups(results)
    bottom = TOP + HIGH * -(-len(groups) // COLUMNS)
    said = ' '.join(
        f'{workload}: '
        + ', '.join(f'{bar.name} {rate_of(bar)} with {extra_of(bar)} %' for bar in bars)
        + '.'
        for workload, bars in groups.items()
    )
    p = Picture(
        680,
        bottom + 44,
        'Throughput of several resolvers',
        (
            'Million read and write ranges per second, '
            f'and added conflicts in percent of the transactions. {said}'
        ),
    )
    p.text(10, 24, 'million read and write ranges per second, complete processes', 'ink', 15)
    p.rect(10, 40, 14, 14, 'grey-fill', 2)
    p.text(30, 52, f'{RADIX_TREE}, one thread', 'ink', 15)
    p.rect(260, 40, 14, 14, 'blue-fill', 2)
    p.text(280, 52, f'replay by its number of resolvers; {results.edition}', 'ink', 15)
    p.text(10, 76, 'last line of each: added conflicts, in percent of the transactions', 'red', 15)
    for index, (workload, bars) in enumerate(groups.items()):
        panel(
            p, LEFT + WIDE * (index % COLUMNS), TOP + 14 + HIGH * (index // COLUMNS), workload, bars
        )
    p.text(10, bottom + 30, results.source, 'soft', 15)
    return p


def main() -> None:
    """Draws the picture, if there are results."""
    files = sorted(measured.RESULTS.glob('*-resolvers.csv'))
    if not files:
        print('resolvers: no results of bench/resolvers, so no picture', file=sys.stderr)
        return
    write(picture(measured.read(files[-1])), __file__)


if __name__ == '__main__':
    main()
