#!/usr/bin/env python3
"""Draws what becomes of a batch by its previous version: repeated, processed, or held."""

from svg import Picture, write


def picture() -> Picture:
    """Returns the picture."""
    p = Picture(
        700,
        250,
        'What becomes of a batch',
        (
            'The resolver is at version 100. A batch whose previous version is 100 is processed. '
            'One whose previous version is below 100 is a repeat: it is answered with the kept '
            'reply, or never. One whose previous version is above 100 is held until the resolver '
            'comes to it, and is answered held if the run ends before.'
        ),
    )
    p.box(270, 16, 160, 44, ['resolver', 'version 100'], 'box', 15)
    rows = [
        (20, '0 > 100', 'below 100: a repeat', ['the kept reply,', 'or never'], 'amber'),
        (260, '100 > 200', 'at 100: the next batch', ['judged and', 'answered'], 'green'),
        (500, '200 > 300', 'above 100: too early', ['held until the', 'version is 200'], 'blue'),
    ]
    for x, batch, why, fate, colour in rows:
        p.curve(350, 60, x + 90, 96)
        p.box(x, 96, 180, 40, [batch], f'{colour}-box', 16, mono=True)
        p.text(x + 90, 156, why, colour, 14, 'middle', bold=True)
        p.arrow(x + 90, 164, x + 90, 186)
        for index, line in enumerate(fate):
            p.text(x + 90, 206 + 20 * index, line, 'soft', 15, 'middle')
    return p


if __name__ == '__main__':
    write(picture(), __file__)
