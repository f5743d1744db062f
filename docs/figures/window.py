#!/usr/bin/env python3
"""Draws the window of versions that the resolver looks back, with three reads of one key."""

from svg import Picture, write

WRITE = 3.5


def across(millions: float) -> float:
    """Returns where a version is."""
    return 84 + millions * 76


def read(
    p: Picture, y: float, snapshot: float, label: str, verdict: str, why: str, colour: str
) -> None:
    """Draws a read from its snapshot up to the version of its batch."""
    if snapshot < 3:
        p.text(
            across(snapshot) - (54 if snapshot == 0 else 0), y - 14, f'snapshot {label}', colour, 15
        )
    else:
        p.text(across(6) - 8, y - 14, f'snapshot {label}', colour, 15, 'end')
    p.line(across(snapshot), y, across(6), y, f'{colour}-line', 3)
    p.circle(across(snapshot), y, 5, f'{colour}-box')
    p.text(across(6) + 14, y + 1, verdict, colour, 16, bold=True)
    p.text(across(6) + 14, y + 20, why, 'soft', 15)


def picture() -> Picture:
    """Returns the picture."""
    p = Picture(
        680,
        330,
        'The window of versions',
        (
            'The batch of version 6,000,000 with the window of 5,000,000 versions has the edge '
            '1,000,000. A read at snapshot 100 is below the edge: too old. A read at snapshot '
            '2,000,000 of a key that was written at 3,500,000 is a conflict. A read of that key at '
            'snapshot 4,000,000 has seen the write: committed.'
        ),
    )
    p.rect(across(1), 46, across(6) - across(1), 228, 'shade', 0)
    p.text(across(1), 20, 'edge 1,000,000', 'ink', 16, 'middle', bold=True)
    p.text(across(6), 20, 'batch 6,000,000', 'ink', 16, 'middle', bold=True)
    p.text((across(1) + across(6)) / 2, 38, 'window: 5,000,000 versions', 'blue', 15, 'middle')
    for millions in (1, 6):
        p.line(across(millions), 28, across(millions), 274, 'line', 1.2, dashed=True)

    p.line(across(WRITE), 148, across(WRITE), 262, 'blue-line', 1.2)
    p.rect(across(WRITE) - 8, 254, 16, 16, 'blue-fill', 3)
    p.text(across(WRITE) - 14, 267, 'written at 3,500,000', 'blue', 15, 'end')

    read(p, 90, 0, '100', 'too old', 'below the edge', 'amber')
    read(p, 152, 2, '2,000,000', 'conflict', 'written later', 'red')
    read(p, 214, 4, '4,000,000', 'committed', 'write seen', 'green')

    p.line(across(0), 274, across(6) + 20, 274)
    for millions in range(7):
        p.line(across(millions), 274, across(millions), 280)
        p.text(
            across(millions), 296, f'{millions}' + (' M' if millions else ''), 'soft', 15, 'middle'
        )
    p.text(
        10,
        320,
        'Writes below the edge may be forgotten: a read that needs them is too old.',
        'soft',
        15,
    )
    return p


if __name__ == '__main__':
    write(picture(), __file__)
