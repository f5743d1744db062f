#!/usr/bin/env python3
"""Draws one log of two proxies' batches, and the answers that each of them receives."""

from svg import Picture, write


def picture() -> Picture:
    """Returns the picture."""
    p = Picture(
        700,
        280,
        'One log, and the answers of each proxy',
        (
            'Proxy 0 sends the batches from -1 to 0 and from 100 to 200, proxy 1 the batch from 0 '
            'to 100. The log takes each of them once, those of a proxy in the order sent. The '
            'reference resolver computes the answers to the log. Each proxy receives its own '
            'answers, in order and once.'
        ),
    )
    p.box(14, 40, 116, 60, ['proxy 0', '-1>0, 100>200'], 'blue-box', 15)
    p.box(14, 170, 116, 60, ['proxy 1', '0>100'], 'amber-box', 15)
    p.text(176, 24, 'log: the order of taking', 'ink', 15, bold=True)
    log = [
        ('Take 0', '-1 > 0', 'blue'),
        ('Take 1', '0 > 100', 'amber'),
        ('Take 0', '100 > 200', 'blue'),
        ('Finish', '', 'box'),
    ]
    for index, (step, batch, colour) in enumerate(log):
        kind = colour if colour == 'box' else f'{colour}-box'
        p.box(180, 40 + 54 * index, 130, 44, [step, batch] if batch else [step], kind, 14)
        if index:
            p.arrow(245, 30 + 54 * index, 245, 40 + 54 * index)
    p.arrow(130, 62, 180, 62)
    p.line(130, 200, 155, 200)
    p.line(155, 200, 155, 116, 'line')
    p.arrow(155, 116, 180, 116)
    p.box(362, 100, 120, 80, ['reference', 'resolver', 'scans all writes'], 'green-box', 15)
    p.arrow(310, 140, 362, 140)
    p.box(536, 40, 150, 60, ['to proxy 0', 'replies 0 and 200'], 'blue-box', 15)
    p.box(536, 170, 150, 60, ['to proxy 1', 'reply 100'], 'amber-box', 15)
    p.curve(482, 140, 536, 70)
    p.curve(482, 140, 536, 200)
    p.text(14, 272, 'There is such a log in every schedule of the threads.', 'soft', 15)
    return p


if __name__ == '__main__':
    write(picture(), __file__)
