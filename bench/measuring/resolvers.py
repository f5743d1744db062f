# SPDX-License-Identifier: Apache-2.0
"""Several resolvers: their times, what they print together, and the conflicts that they add."""

import csv
import pathlib
import subprocess
from collections import Counter
from collections.abc import Iterable, Sequence
from dataclasses import dataclass

from measuring import OUT
from measuring.programs import Program, own_program
from measuring.rounds import Different, Run, compare, order_of, run_process
from measuring.summary import Spread, ratios, spread
from measuring.workloads import Workload
from measuring.workloads import count as size_of

# Of the verdicts of all shards, the first one of these counts. An empty batch has the last word.
WORDS = ('conflict', 'tooold', 'committed', 'empty')
RANKS = {word: rank for rank, word in enumerate(WORDS)}
ONE = 'replay-1'
COLUMNS = (
    'workload',
    'program',
    'resolvers',
    'batches',
    'transactions',
    'ranges',
    'rounds',
    *(
        f'{measure}_{part}'
        for measure in ('seconds', 'ratio_to_art', 'ratio_to_one', 'transactions_per_second')
        for part in ('median', 'least', 'greatest')
    ),
    'peak_mib',
    'committed',
    'conflict',
    'tooold',
    'extra_conflicts',
)
EXPLANATION = (
    (
        'seconds: complete processes, standard output to a file; '
        'each measure has its median, least and greatest over the rounds'
    ),
    (
        'ratio_to_art: seconds divided by those of the radix tree in the same round; '
        'below 1, replay is faster'
    ),
    'ratio_to_one: seconds divided by those of one resolver in the same round',
    (
        'extra_conflicts: conflicts beyond those of one resolver, which several resolvers report '
        'since each keeps the writes of transactions that others reject'
    ),
)


@dataclass(frozen=True)
class Resolvers(Program):
    """`replay` with that many resolvers, which pick their split points by the first batches."""

    resolvers: int = 1

    def command(self, limit: int, file: pathlib.Path) -> list[str]:
        """Returns the command that prints the verdicts."""
        return [
            str(self.path), '--resolvers', str(self.resolvers), '--limit', str(limit), str(file)
        ]


def runs_of(replay: pathlib.Path, most: int) -> list[Resolvers]:
    """Returns `replay` with one resolver, two, and so on."""
    return [Resolvers(f'replay-{number}', replay, (), number) for number in range(1, most + 1)]


def combined(lines: Sequence[str]) -> str:
    """Returns the line of all shards, given that of each.

    It has the same proxy and version, and the least verdict of each transaction.
    """
    parts = [line.split() for line in lines]
    if len({(part[0], part[1], len(part)) for part in parts}) > 1:
        raise Different(f'the lines of shards are of different batches: {lines[0][:40]}')
    words = (
        min(words, key=RANKS.__getitem__)
        for words in zip(*(part[2:] for part in parts), strict=True)
    )
    return ' '.join([*parts[0][:2], *words])


def verdicts(lines: Iterable[str]) -> Counter[str]:
    """Returns how often the lines have each verdict."""
    return Counter(word for line in lines for word in line.split()[2:])


def run_to(output: pathlib.Path, *command: object) -> None:
    """Runs a command with its standard output in a file."""
    with output.open('wb') as out:
        subprocess.run([str(word) for word in command], check=True, stdout=out)


def check(workload: Workload, file: pathlib.Path, count: int) -> None:
    """Compares that many resolvers with one `replay` per shard over its clips."""
    folder = OUT / 'outputs'
    folder.mkdir(parents=True, exist_ok=True)
    replay, batches = own_program('replay'), own_program('batches')
    points, together = folder / 'points', folder / 'together.txt'
    run_to(points, batches, 'split-points', '--resolvers', count, file)
    run_to(
        together,
        replay,
        '--resolvers',
        count,
        '--split-points',
        points,
        '--limit',
        workload.limit,
        file,
    )
    outputs = []
    for shard in range(count):
        clip, output = folder / 'clip', folder / f'shard{shard}.txt'
        run_to(clip, batches, 'clip', '--split-points', points, '--shard', shard, file)
        run_to(output, replay, '--limit', workload.limit, clip)
        outputs.append(output)
    files = [output.open() for output in outputs]
    try:
        with together.open() as whole:
            for number, (line, *own) in enumerate(zip(whole, *files, strict=True), 1):
                if combined(own) != line.rstrip('\n'):
                    raise Different(
                        f'{workload.shape}: {count} resolvers print other verdicts than their '
                        f'shards, first in line {number}'
                    )
    finally:
        for each in files:
            each.close()


@dataclass(frozen=True)
class Row:
    """What one program took on one workload. The radix tree has no number of resolvers."""

    workload: str
    program: str
    resolvers: int | None
    size: tuple[int, int]
    ranges: int
    seconds: Spread
    ratio: Spread | None
    to_one: Spread
    rounds: int
    peak_mib: float
    verdicts: Counter[str]
    extra: int

    def cells(self) -> list[str]:
        """Returns the cells of its line."""
        rate = self.seconds.inverted(self.size[1])
        ratio = three(self.ratio, 2) if self.ratio else ['', '', '']
        parts = [*three(self.seconds, 3), *ratio, *three(self.to_one, 2), *three(rate, 0)]
        counts = (str(self.verdicts[word]) for word in ('committed', 'conflict', 'tooold'))
        return [
            self.workload,
            self.program,
            '' if self.resolvers is None else str(self.resolvers),
            *map(str, self.size),
            str(self.ranges),
            str(self.rounds),
            *parts,
            f'{self.peak_mib:.1f}',
            *counts,
            str(self.extra),
        ]


def three(found: Spread, decimals: int) -> list[str]:
    """Returns the median, the least and the greatest value."""
    return [f'{value:.{decimals}f}' for value in (found.median, found.least, found.greatest)]


def measure(
    workload: Workload, file: pathlib.Path, built: Sequence[Program], rounds: int
) -> list[Row]:
    """Runs every program once per round, and compares what they print."""
    by_name = {program.name: program for program in built}
    runs: dict[str, list[Run]] = {name: [] for name in by_name}
    folder = OUT / 'outputs'
    folder.mkdir(parents=True, exist_ok=True)
    for number in range(rounds):
        for name in order_of(list(by_name), number):
            output = folder / f'{name}.txt'
            runs[name].append(run_process(by_name[name], workload.limit, file, output))
            if number == 0:
                (folder / f'{name}-first.txt').write_bytes(output.read_bytes())
            compare(workload.shape, f'{name}-first', name, folder)
    if 'art' in by_name:
        compare(workload.shape, ONE, 'art', folder)
    return rows_of(
        workload,
        size_of(file),
        by_name,
        runs,
        {name: verdicts((folder / f'{name}.txt').open()) for name in by_name},
    )


def rows_of(
    workload: Workload,
    size: tuple[int, int],
    built: dict[str, Program],
    runs: dict[str, list[Run]],
    found: dict[str, Counter[str]],
) -> list[Row]:
    """Summarizes the rounds of each program."""
    seconds = {name: [run.seconds for run in own] for name, own in runs.items()}
    return [
        Row(
            workload.shape,
            name,
            getattr(program, 'resolvers', None),
            size,
            workload.ranges,
            spread(seconds[name]),
            ratios(seconds[name], seconds['art']) if 'art' in seconds else None,
            ratios(seconds[name], seconds[ONE]),
            len(runs[name]),
            max(run.peak_mib for run in runs[name]),
            found[name],
            found[name]['conflict'] - found[ONE]['conflict'],
        )
        for name, program in built.items()
    ]


def table(rows: Sequence[Row]) -> str:
    """Returns the rows of one workload as a table."""
    lines = [['', 'seconds', 'ratio to art', 'conflicts', 'extra']]
    for row in rows:
        ratio = '{} ({}-{})'.format(*three(row.ratio, 2)) if row.ratio else ''
        lines.append(
            [
                row.program,
                '{} ({}-{})'.format(*three(row.seconds, 3)),
                ratio,
                str(row.verdicts['conflict']),
                str(row.extra),
            ]
        )
    widths = [max(map(len, column)) for column in zip(*lines, strict=True)]
    return '\n'.join(
        '  '.join(cell.ljust(width) for cell, width in zip(line, widths, strict=True)).rstrip()
        for line in lines
    )


def write(file: pathlib.Path, comments: Iterable[str], rows: Iterable[Row]) -> None:
    """Writes a file of results."""
    file.parent.mkdir(parents=True, exist_ok=True)
    with file.open('w', newline='') as out:
        out.writelines(f'# {comment}\n' for comment in (*comments, *EXPLANATION))
        writer = csv.writer(out, lineterminator='\n')
        writer.writerow(COLUMNS)
        writer.writerows(row.cells() for row in rows)
