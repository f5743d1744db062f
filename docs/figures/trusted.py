#!/usr/bin/env python3
"""Draws what the claims rest on: what the prover checks, and what has to be trusted."""

from svg import Picture, write


def picture() -> Picture:
    """Returns the picture."""
    p = Picture(
        680,
        354,
        'What the claims rest on',
        (
            'The five claims are clauses. The prover checks that the sources meet them. Four '
            'things are trusted: that the definitions say what is meant, the Rattle toolchain with '
            'its library and ported crates, the compiler clang, and the C library with the '
            'operating system. The Cargo edition trusts the eraser, rustc and stand-ins instead of '
            'clang and the library of the toolchain, and is tested, not proved.'
        ),
    )
    p.box(10, 10, 660, 40, ['the five claims'], 'blue-box', 17, first='blue')
    p.arrow(340, 92, 340, 52)
    p.text(352, 76, 'checked by machine', 'soft', 15)
    p.box(
        10,
        94,
        660,
        50,
        ['contracts and proofs of every function', 'crates/*/src, crates/*/proofs'],
        'green-box',
        17,
        first='green',
    )
    p.text(10, 174, 'trusted', 'amber', 16, bold=True)
    columns = (
        ['definitions', 'crates/*/specs:', 'read them'],
        ['toolchain', 'prover, library,', 'ported crates'],
        ['clang', 'output of two', 'builds compared'],
        ['system', 'C library, kernel,', 'files and streams'],
    )
    for index, lines in enumerate(columns):
        x = 10 + index * 168
        p.arrow(x + 78, 184, x + 78, 146)
        p.box(x, 186, 156, 80, lines, 'amber-box', 16, first='amber')
    p.box(
        170,
        288,
        340,
        56,
        ['Cargo edition: tested, not proved', 'eraser, rustc and stand-ins instead'],
        'box',
        16,
        dashed=True,
    )
    p.line(256, 266, 256, 288, 'line', 1.2, dashed=True)
    p.line(424, 266, 424, 288, 'line', 1.2, dashed=True)
    return p


if __name__ == '__main__':
    write(picture(), __file__)
