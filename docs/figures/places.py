#!/usr/bin/env python3
"""Draws a batch of three transactions after two writes, and which of their reads conflict."""

from svg import Picture, write


def across(letter: str) -> float:
    """Returns where a key of one letter is."""
    return 190 + (ord(letter) - ord('a')) * 62


def span(p: Picture, y: float, begin: str, end: str, colour: str, text: str) -> None:
    """Draws a range of keys with a word beside its begin."""
    p.rect(across(begin), y, across(end) - across(begin), 20, f'{colour}-box', 3)
    p.text(across(begin) + 5, y + 15, text, colour, 13)


def picture() -> Picture:
    """Returns the picture."""
    p = Picture(
        700,
        300,
        'Which reads conflict',
        (
            'At version 100 the ranges from a to b and from e to f were written. In the batch of '
            'version 200, the first transaction reads at snapshot 99: its reads 0 and 2 meet those '
            'writes, so it is in conflict and reports 0 and 2. The second reads a to b at snapshot '
            '100, which is not below 100, and writes c to d: it is committed. The third reads c to '
            'd, which the second has written in the same batch: it is in conflict.'
        ),
    )
    for letter in 'abcdef':
        p.text(across(letter), 22, letter, 'ink', 15, 'middle', bold=True, mono=True)
        p.line(across(letter), 30, across(letter), 286, 'thin', 1, dashed=True)
    p.text(14, 60, 'written at 100', 'blue', 15, bold=True)
    span(p, 44, 'a', 'b', 'blue', 'write')
    span(p, 44, 'e', 'f', 'blue', 'write')
    p.line(10, 82, 690, 82, 'line', 1)
    p.text(14, 104, 'batch 200', 'ink', 15, bold=True)

    p.text(14, 142, 'txn 0, snapshot 99', 'soft', 14)
    span(p, 126, 'a', 'b', 'red', 'read 0')
    span(p, 126, 'c', 'd', 'green', 'read 1')
    span(p, 126, 'e', 'f', 'red', 'read 2')
    p.text(540, 142, 'conflict:0,2', 'red', 16, bold=True)
    p.text(540, 162, 'written after 99', 'soft', 14)

    p.text(14, 202, 'txn 1, snapshot 100', 'soft', 14)
    span(p, 186, 'a', 'b', 'green', 'read 0')
    span(p, 186, 'c', 'd', 'blue', 'write')
    p.text(540, 202, 'committed', 'green', 16, bold=True)
    p.text(540, 222, 'has seen the write', 'soft', 14)

    p.text(14, 262, 'txn 2, snapshot 200', 'soft', 14)
    span(p, 246, 'c', 'd', 'red', 'read 0')
    p.text(540, 262, 'conflict', 'red', 16, bold=True)
    p.text(540, 282, 'written by txn 1', 'soft', 14)
    return p


if __name__ == '__main__':
    write(picture(), __file__)
