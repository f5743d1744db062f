#!/usr/bin/env python3
"""Draws a chain of batches, and a batch off it."""

from svg import Picture, write


def picture() -> Picture:
    """Returns the picture."""
    p = Picture(
        680,
        220,
        'The chain of versions',
        (
            'A batch names its previous version and its own. The batch from -1 to 0 opens the '
            'chain, the batch from 0 to 100 follows it, and the batch from 100 to 200 follows '
            'that. The batch from 150 to 300 follows none of them. Each reply of the chain is '
            'right after all writes that the batches before it committed.'
        ),
    )
    batches = [('-1 > 0', 30), ('0 > 100', 190), ('100 > 200', 350)]
    for index, (text, x) in enumerate(batches):
        p.box(x, 40, 120, 44, [text], 'blue-box', 16, mono=True)
        if index:
            p.arrow(x - 40, 62, x, 62)
        p.arrow(x + 60, 84, x + 60, 118)
        p.box(x, 118, 120, 40, ['reply'], 'green-box', 15)
    p.text(30, 24, 'in sequence: a chain', 'ink', 15, bold=True)
    p.box(530, 40, 130, 44, ['150 > 300'], 'amber-box', 16, dashed=True, mono=True)
    p.text(530, 24, 'not on the chain', 'amber', 15, bold=True)
    p.text(530, 108, 'no batch has', 'soft', 14)
    p.text(530, 126, 'version 150', 'soft', 14)
    p.line(30, 178, 470, 178, 'blue-line', 2)
    p.text(
        30,
        202,
        'Each reply is right after the committed writes of all batches before it.',
        'soft',
        15,
    )
    return p


if __name__ == '__main__':
    write(picture(), __file__)
