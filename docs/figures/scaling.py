#!/usr/bin/env python3
"""Draws how the time per range grows with the boundaries in the window.

The numbers are the newest results of bench/measure.
"""

import math

import measured
from svg import Picture, write

# Names, classes of their lines, points and texts, and whether the line is dashed.
PROGRAMS = {
    'replay': ('replay', 'blue-line', 'blue-box', 'blue', False),
    'art': ('radix tree, C++', 'line', 'box', 'soft', False),
    'bplus': ('B+-tree, Rust', 'green-line', 'green-box', 'green', False),
    'skiplist': ('skip list, C++', 'amber-line', 'amber-box', 'amber', False),
    'btree': ('BTreeMap, Rust', 'red-line', 'red-box', 'red', True),
}
LEFT, RIGHT, TOP, BOTTOM, LABEL_GAP = 76, 520, 66, 346, 19
FEWEST, MOST = 1_000, 1_000_000

Point = tuple[int, float]


def read_lines(results: measured.Results) -> dict[str, list[Point]]:
    """Returns boundaries and nanoseconds per range of each program, by rising boundaries."""
    lines: dict[str, list[Point]] = {}
    for program in PROGRAMS:
        rows = [
            row
            for workload in results.workloads('growth-')
            if (row := results.row(workload, program)) is not None
        ]
        if rows:
            lines[program] = sorted(
                (row.boundaries, row.seconds / row.ranges * 1e9) for row in rows
            )
    return lines


def spread_labels(wanted: list[float]) -> list[float]:
    """Returns heights for rising wanted ones that are far enough apart to read."""
    placed: list[float] = []
    for height in wanted:
        placed.append(max(height, placed[-1] + LABEL_GAP) if placed else height)
    return placed


def across(boundaries: float) -> float:
    """Returns where a number of boundaries is, on a scale of powers of ten."""
    return LEFT + (RIGHT - LEFT) * math.log(boundaries / FEWEST) / math.log(MOST / FEWEST)


def unit_of(greatest: float) -> int:
    """Returns the distance of the lines of the grid, so that there are at most eight."""
    return next(
        unit for unit in (50, 100, 250, 500, 1_000, 2_500, 5_000, 10_000) if greatest / unit <= 8
    )


def picture() -> Picture:
    """Returns the picture."""
    results = measured.newest()
    lines = read_lines(results)
    unit = unit_of(max(nanoseconds for line in lines.values() for _, nanoseconds in line))
    ceiling = (
        unit
        * math.ceil(max(nanoseconds for line in lines.values() for _, nanoseconds in line) / unit)
    )

    def height(nanoseconds: float) -> float:
        return BOTTOM - (BOTTOM - TOP) * nanoseconds / ceiling

    said = ' '.join(
        f'{PROGRAMS[name][0]}: '
        + ', '.join(f'{nanoseconds:.0f} at {boundaries:,}' for boundaries, nanoseconds in line)
        + '.'
        for name, line in lines.items()
    )
    p = Picture(
        680,
        BOTTOM + 104,
        'Time per range and boundaries',
        (
            'Nanoseconds per read or write range by boundaries in the window, '
            f'complete processes. {said}'
        ),
    )
    p.text(10, 24, 'nanoseconds per read or write range, by boundaries in the window', 'ink', 15)
    p.text(10, 46, f'5 reads and 2 writes of single keys; replay: {results.edition}', 'soft', 15)
    for tick in range(0, ceiling + 1, unit):
        p.line(LEFT, height(tick), RIGHT, height(tick), 'thin', 1)
        p.text(LEFT - 10, height(tick) + 5, f'{tick:,}', 'soft', 15, 'end')
    for power in (1_000, 10_000, 100_000, 1_000_000):
        p.line(across(power), BOTTOM, across(power), BOTTOM + 6)
        p.text(across(power), BOTTOM + 24, f'{power:,}', 'soft', 15, 'middle')
    order = sorted(lines, key=lambda name: height(lines[name][-1][1]))
    for name, label in zip(order, spread_labels([height(lines[name][-1][1]) for name in order])):
        title, line_kind, fill, text_kind, dashed = PROGRAMS[name]
        points = [
            (across(boundaries), height(nanoseconds)) for boundaries, nanoseconds in lines[name]
        ]
        for (x1, y1), (x2, y2) in zip(points, points[1:]):
            p.line(x1, y1, x2, y2, line_kind, 2.5, dashed)
        for x, y in points:
            p.circle(x, y, 4, fill)
        p.text(RIGHT + 12, label + 5, title, text_kind, 15)
    p.text(
        10, BOTTOM + 54, 'Lower is better. Points are medians of complete processes.', 'soft', 15
    )
    p.text(10, BOTTOM + 76, results.source, 'soft', 15)
    return p


if __name__ == '__main__':
    write(picture(), __file__)
