#!/usr/bin/env python3
"""Draws the crates of crates.txt: each above all that it uses.

Crates that serve tests alone are not drawn.
"""

import pathlib
import re
from dataclasses import dataclass

from svg import Picture, width_of, write

LIST = pathlib.Path(__file__).resolve().parent.parent.parent / 'crates.txt'
TESTS = re.compile(r'test_values|codec_c_tests|\w+_tests')
PROGRAMS = {'replay', 'batches', 'workload', 'archcaraway_c'}
SIZE, ROW, HEIGHT, GAP, MARGIN = 13, 78, 32, 16, 12


def listed() -> dict[str, list[str]]:
    """Returns the crates that are drawn, each with those that it uses."""
    found: dict[str, list[str]] = {}
    for line in LIST.read_text().splitlines():
        match = re.fullmatch(r'(\w+)[^:#]*:(.*)', line.strip())
        if match and not TESTS.fullmatch(match[1]):
            found[match[1]] = match[2].split()
    return {name: [used for used in uses if used in found] for name, uses in found.items()}


def direct(uses: dict[str, list[str]]) -> dict[str, list[str]]:
    """Leaves the uses of each crate that do not follow from its others."""
    every: dict[str, set[str]] = {}

    def below(name: str) -> set[str]:
        if name not in every:
            every[name] = set().union(*({used} | below(used) for used in uses[name]))
        return every[name]

    return {name: [used for used in used_all if not any(used in below(other) for other in used_all)]
            for name, used_all in uses.items()}


def heights(uses: dict[str, list[str]]) -> dict[str, int]:
    """Returns how high each crate is: one above the highest that it uses.

    One that uses none is just below its lowest user.
    """
    height: dict[str, int] = {}

    def level(name: str) -> int:
        if name not in height:
            height[name] = 1 + max((level(used) for used in uses[name]), default=-1)
        return height[name]

    for name in uses:
        level(name)
    for name in uses:
        users = [height[user] for user in uses if name in uses[user]]
        if users and not uses[name]:
            height[name] = min(users) - 1
    return height


@dataclass
class Node:
    """A crate in its row, or a point where a line passes a row."""

    name: str
    width: float
    x: float = 0


class Layout:
    """The rows of crates and passing lines, each line from one row to the next."""

    def __init__(self, uses: dict[str, list[str]]) -> None:
        height = heights(uses)
        self.rows: list[list[Node]] = [[] for _ in range(max(height.values()) + 1)]
        self.lines: list[list[tuple[Node, Node]]] = [[] for _ in self.rows]
        crates = {name: Node(name, width_of(name, SIZE) + 18) for name in uses}
        for name, node in crates.items():
            self.rows[height[name]].append(node)
        for name, used_all in uses.items():
            for used in used_all:
                above = crates[name]
                for level in range(height[name] - 1, height[used], -1):
                    passing = Node('', 4)
                    self.rows[level].append(passing)
                    self.lines[level + 1].append((above, passing))
                    above = passing
                self.lines[height[used] + 1].append((above, crates[used]))
        self.order()
        self.place()

    def neighbours(self, level: int) -> tuple[dict[int, list[Node]], dict[int, list[Node]]]:
        """Returns for the nodes of a row those below and those above that lines join them to."""
        below: dict[int, list[Node]] = {id(node): [] for node in self.rows[level]}
        above: dict[int, list[Node]] = {id(node): [] for node in self.rows[level]}
        for high, low in self.lines[level]:
            below[id(high)].append(low)
        if level + 1 < len(self.rows):
            for high, low in self.lines[level + 1]:
                above[id(low)].append(high)
        return below, above

    def crossings(self) -> int:
        """Returns how many pairs of lines cross."""
        total = 0
        for level in range(1, len(self.rows)):
            place = {
                id(node): index
                for row in self.rows[level - 1:level + 1]
                for index, node in enumerate(row)
            }
            ends = [(place[id(high)], place[id(low)]) for high, low in self.lines[level]]
            total += sum(
                (a[0] - b[0]) * (a[1] - b[1]) < 0 for i, a in enumerate(ends) for b in ends[:i]
            )
        return total

    def order(self) -> None:
        """Puts each row in an order with few crossings.

        That is by the middle of the row below, then of the row above, some times.
        """
        best, fewest = [list(row) for row in self.rows], self.crossings()
        for turn in range(60):
            up = turn % 2 == 0
            levels = range(1, len(self.rows)) if up else range(len(self.rows) - 2, -1, -1)
            for level in levels:
                other = self.rows[level - 1 if up else level + 1]
                place = {id(node): (index + 0.5) / len(other) for index, node in enumerate(other)}
                near = self.neighbours(level)[0 if up else 1]
                row = self.rows[level]
                own = {id(node): (index + 0.5) / len(row) for index, node in enumerate(row)}
                row.sort(
                    key=lambda node: sum(place[id(n)] for n in near[id(node)]) / len(near[id(node)])
                    if near[id(node)]
                    else own[id(node)]
                )
            self.swap()
            if self.crossings() < fewest:
                best, fewest = [list(row) for row in self.rows], self.crossings()
        self.rows = best

    def swap(self) -> None:
        """Exchanges two neighbours of a row wherever fewer lines cross then."""
        for row in self.rows:
            for index in range(len(row) - 1):
                before = self.crossings()
                row[index], row[index + 1] = row[index + 1], row[index]
                if self.crossings() >= before:
                    row[index], row[index + 1] = row[index + 1], row[index]

    def place(self) -> None:
        """Gives each node its place across: near those that it is joined to, apart from others."""
        for row in self.rows:
            x = 0.0
            for node in row:
                node.x = x + node.width / 2
                x += node.width + GAP
        for turn in range(200):
            levels = range(len(self.rows)) if turn % 2 else range(len(self.rows) - 1, -1, -1)
            for level in levels:
                below, above = self.neighbours(level)
                wanted = []
                for node in self.rows[level]:
                    near = below[id(node)] + above[id(node)]
                    wanted.append(sum(n.x for n in near) / len(near) if near else node.x)
                self.spread(self.rows[level], wanted)
        left = min(node.x - node.width / 2 for row in self.rows for node in row)
        for row in self.rows:
            for node in row:
                node.x += MARGIN - left

    @staticmethod
    def spread(row: list[Node], wanted: list[float]) -> None:
        """Moves the nodes of a row as near to the wanted places as their widths allow.

        Nodes that touch move as a group.
        """
        groups: list[list[float]] = []  # sum of wanted starts, count, width
        members: list[list[int]] = []
        for index, node in enumerate(row):
            groups.append([wanted[index] - node.width / 2, 1, node.width + GAP])
            members.append([index])
            while (
                len(groups) > 1
                and groups[-2][0] / groups[-2][1] + groups[-2][2] > groups[-1][0] / groups[-1][1]
            ):
                last, other = groups.pop(), members.pop()
                groups[-1][0] += last[0] - last[1] * groups[-1][2]
                groups[-1][1] += last[1]
                groups[-1][2] += last[2]
                members[-1] += other
        for group, indices in zip(groups, members):
            x = group[0] / group[1]
            for index in indices:
                row[index].x = x + row[index].width / 2
                x += row[index].width + GAP


def picture() -> Picture:
    """Returns the picture."""
    uses = direct(listed())
    layout = Layout(uses)
    width = int(max(node.x + node.width / 2 for row in layout.rows for node in row)) + MARGIN + 1
    height = ROW * (len(layout.rows) - 1) + HEIGHT + 2 * MARGIN
    p = Picture(
        width,
        height,
        'The crates',
        'Each crate is above all that it uses; a line joins it to those that it uses '
        'directly. '
        + ' '.join(f'{name}: {", ".join(used) or "none"}.' for name, used in uses.items()),
    )
    for level, lines in enumerate(layout.lines):
        top = height - MARGIN - HEIGHT - ROW * level
        for high, low in lines:
            p.curve(high.x, top + HEIGHT, low.x, top + ROW, 'line')
    for level, row in enumerate(layout.rows):
        top = height - MARGIN - HEIGHT - ROW * level
        for node in row:
            if node.name:
                kind = 'blue-box' if node.name in PROGRAMS else 'box'
                p.box(node.x - node.width / 2, top, node.width, HEIGHT, [node.name], kind, SIZE)
            else:
                p.line(node.x, top, node.x, top + HEIGHT, 'line', 1.2)
    return p


if __name__ == '__main__':
    write(picture(), __file__)
