#!/usr/bin/env python3
"""Draws when two ranges of keys meet."""

from svg import Picture, write


def across(letter: str) -> float:
    """Returns where a key of one letter is."""
    return 96 + (ord(letter) - ord('a')) * 88


def span(p: Picture, y: float, begin: str, end: str, colour: str) -> None:
    """Draws the range from one key up to another, which it doesn't hold."""
    p.rect(across(begin), y, across(end) - across(begin), 20, f'{colour}-box', 3)
    p.text(across(begin) + 6, y + 14, f'[{begin},{end})', colour, 13, mono=True)


def picture() -> Picture:
    """Returns the picture."""
    p = Picture(
        680,
        250,
        'When two ranges meet',
        (
            'The ranges from a to c and from b to d meet: both hold b. The ranges from a to b and '
            'from b to c do not meet: the first one ends before b. The empty range from b to b '
            'holds no key, so it meets nothing.'
        ),
    )
    for letter in 'abcd':
        p.text(across(letter), 24, letter, 'ink', 16, 'middle', bold=True, mono=True)
        p.line(across(letter), 32, across(letter), 226, 'thin', 1, dashed=True)
    rows = [(44, ('a', 'c'), ('b', 'd'), 'meet', 'both hold b', 'green'),
            (108, ('a', 'b'), ('b', 'c'), 'do not meet', '[a,b) does not hold b', 'red')]
    for y, first, second, verdict, why, colour in rows:
        span(p, y, *first, 'blue')
        span(p, y + 24, *second, 'amber')
        p.text(440, y + 16, verdict, colour, 16, bold=True)
        p.text(440, y + 36, why, 'soft', 15)
    span(p, 172, 'a', 'c', 'blue')
    p.line(across('b'), 197, across('b'), 217, 'amber-line', 3)
    p.text(across('b') + 10, 212, '[b,b)', 'amber', 13, mono=True)
    p.text(440, 188, 'do not meet', 'red', 16, bold=True)
    p.text(440, 208, 'an empty range holds no key', 'soft', 15)
    return p


if __name__ == '__main__':
    write(picture(), __file__)
