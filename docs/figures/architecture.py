#!/usr/bin/env python3
"""Draws the resolver between its proxies and the verdicts, and its three uses."""

from svg import Picture, write


def picture() -> Picture:
    """Returns the picture."""
    p = Picture(
        680,
        330,
        'Archcaraway: a resolver and its three uses',
        (
            'Up to 64 commit proxies send batches of transactions to the resolver. Its gate puts '
            'them in the order of versions, its conflict set decides each transaction, and replies '
            'are kept for repeats. The verdicts are committed, conflict or too old. It is used as '
            'an oracle for another resolver, as a library, and to replay recordings.'
        ),
    )
    p.text(54, 18, 'proxies', 'soft', 15, 'middle')
    for index, y in ((0, 28), (1, 76), (63, 144)):
        p.box(10, y, 88, 36, [f'proxy {index}'], size=16)
        p.arrow(98, y + 18, 180, y + 18)
    for y in (120, 128, 136):
        p.circle(54, y, 1.8, 'dots')
    p.text(138, 38, 'batches', 'soft', 15, 'middle')

    p.rect(182, 22, 344, 166, 'blue-box', 10)
    p.text(194, 46, 'resolver', 'blue', 17, bold=True)
    for x, width, lines in (
        (192, 86, ['gate', 'order of', 'versions']),
        (290, 130, ['conflict set', 'one verdict per', 'transaction']),
        (432, 86, ['replies', 'kept for', 'repeats']),
    ):
        p.box(x, 62, width, 110, lines, size=16)
    p.arrow(278, 117, 290, 117)
    p.arrow(420, 117, 432, 117)

    p.text(612, 18, 'verdicts', 'soft', 15, 'middle')
    for y, word, kind, colour in (
        (28, 'committed', 'green-box', 'green'),
        (86, 'conflict: 0, 2', 'red-box', 'red'),
        (144, 'too old', 'amber-box', 'amber'),
    ):
        p.arrow(526, y + 18, 552, y + 18)
        p.box(553, y, 119, 36, [word], kind, 16, first=colour)

    uses = (
        (10, ['oracle', 'compares the replies', 'of another resolver']),
        (238, ['library', 'decides the commits', 'of your database']),
        (466, ['recordings', 'resolves recorded', 'batches again']),
    )
    for x, lines in uses:
        p.line(x + 102, 212, x + 102, 236, 'thin')
        p.box(x, 236, 204, 84, lines, size=16)
    p.line(112, 212, 568, 212, 'thin')
    p.line(340, 188, 340, 212, 'thin')
    return p


if __name__ == '__main__':
    write(picture(), __file__)
