#!/usr/bin/env python3
"""Draws the batch of version 300 of the tutorial: keys, versions, and the read in conflict."""

from svg import Picture, write

VERSIONS = (0, 100, 200, 300)
ALICE, BOB = 104, 192


def across(version: float) -> float:
    """Returns where a version is."""
    return 158 + version * 1.18


def write_mark(p: Picture, version: float, y: float) -> None:
    """Draws a committed write."""
    p.rect(across(version) - 8, y - 8, 16, 16, 'blue-fill', 3)


def read(p: Picture, y: float, kind: str) -> None:
    """Draws what a read at snapshot 100 must find unwritten: versions above 100 up to its batch."""
    p.rect(across(100) + 12, y - 16, across(300) - across(100) - 24, 32, kind, 4)


def picture() -> Picture:
    """Returns the picture."""
    p = Picture(
        680,
        312,
        'Why a transaction is in conflict',
        (
            'The batch of version 300 of the tutorial. Its first transaction reads the keys '
            'account/bob and account/alice at snapshot 100. Both were written at version 100, '
            'which the snapshot includes. Alice was written again at 200, above the snapshot: the '
            'read with index 1 is in conflict. The second transaction reads bob alone, which '
            'nobody has written since, so it commits and writes bob at version 300.'
        ),
    )
    for y, key in ((ALICE, 'account/alice'), (BOB, 'account/bob')):
        p.text(10, y + 5, key, size=15, mono=True)
        p.line(146, y, 534, y, 'thin', 1)
    read(p, ALICE, 'red-box')
    read(p, BOB, 'green-box')
    for version, y in ((100, ALICE), (100, BOB), (200, ALICE), (300, BOB)):
        write_mark(p, version, y)

    for version, label in ((100, 'snapshot'), (300, 'batch')):
        p.line(across(version), 40, across(version), 246, 'line', 1.2, dashed=True)
        p.text(across(version), 32, f'{label} {version}', 'ink', 16, 'middle', bold=True)
    p.text(across(200), ALICE - 24, 'read 1: written at 200', 'red', 15, 'middle')
    p.text(across(200), BOB - 24, 'read 0: not written since', 'green', 15, 'middle')
    p.text(across(300) - 14, BOB + 36, 'written by transaction 1', 'blue', 15, 'end')
    for y, lines, kind in (
        (ALICE, ('transaction 0', 'reads both'), 'red'),
        (BOB, ('transaction 1', 'reads bob'), 'green'),
    ):
        for index, line in enumerate(lines):
            p.text(546, y - 22 + 20 * index, line, 'ink', 15)
        p.text(546, y + 18, 'conflict:1' if kind == 'red' else 'committed', kind, 15, mono=True)

    p.line(146, 246, 534, 246)
    for version in VERSIONS:
        p.line(across(version), 246, across(version), 252)
        p.text(across(version), 268, str(version), 'soft', 15, 'middle')
    p.text(10, 268, 'version', 'soft', 15)
    p.rect(10, 290, 14, 14, 'blue-fill', 3)
    p.text(30, 302, 'committed write', 'soft', 15)
    p.rect(172, 288, 26, 18, 'frame', 4)
    p.text(206, 302, 'above the snapshot: a write here is a conflict', 'soft', 15)
    return p


if __name__ == '__main__':
    write(picture(), __file__)
