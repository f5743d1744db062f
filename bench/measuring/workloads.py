# SPDX-License-Identifier: Apache-2.0
"""The workloads: a shape each, and the file of batch frames that is written for it."""

import pathlib
import subprocess
import sys
from collections.abc import Iterator
from dataclasses import dataclass

from measuring import OUT, TOP

DEFAULT_LIMIT = 1_000_000
MAX_LIMIT = 16_777_216


@dataclass(frozen=True)
class Workload:
    """A shape, its ranges per transaction, and the arguments of `replay` and `workload`."""

    shape: str
    ranges: int
    # Batches, and transactions per batch, for the program `workload`; None for a shape of
    # bench/shapes.py.
    size: tuple[int, int] | None = None
    limit: int = DEFAULT_LIMIT

    def command(
        self, generator: pathlib.Path, file: pathlib.Path, seed: int, scale: float
    ) -> list[str]:
        """Returns the command that writes the file.

        The program `workload` writes to its standard output instead.
        """
        if self.size is None:
            return [sys.executable, '-B', str(TOP / 'bench' / 'shapes.py'), self.shape, str(file),
                    '--seed', str(seed), '--scale', repr(scale)]
        batches, transactions = self.size
        return [str(generator), self.shape, str(max(1, int(batches * scale))), str(transactions)]


FULL = (
    Workload('skiplisttest', 2, (500, 2_500)),
    Workload('points', 7, (400, 500)),
    Workload('zipfian', 7),
    Workload('wide', 80),
    Workload('longkeys', 6),
    Workload('growth-1000', 7),
    Workload('growth-10000', 7),
    Workload('growth-100000', 7),
    # At the default limit the window would almost fill the set, and `replay` would sweep more.
    Workload('growth-1000000', 7, limit=MAX_LIMIT),
)

QUICK = (Workload('skiplisttest', 2, (40, 500)), Workload('points', 7, (40, 250)))


def file_name(workload: Workload, seed: int, scale: float) -> str:
    """Returns a name that is different for different bytes."""
    size = '' if workload.size is None else '-{}x{}'.format(*workload.size)
    return f'{workload.shape}{size}-seed{seed}-scale{scale:g}.frames'


def write(workload: Workload, generator: pathlib.Path, seed: int, scale: float) -> pathlib.Path:
    """Writes the file of a workload unless it exists, and returns its path."""
    file = OUT / 'workloads' / file_name(workload, seed, scale)
    if not file.exists():
        file.parent.mkdir(parents=True, exist_ok=True)
        part = file.with_suffix('.part')
        with part.open('wb') as out:
            subprocess.run(workload.command(generator, part, seed, scale), check=True,
                           stdout=subprocess.DEVNULL if workload.size is None else out)
        part.rename(file)
    return file


def transactions_of(frames: bytes) -> Iterator[int]:
    """Returns the number of transactions of each batch in a file of wire version 1 or 2."""
    at = 0
    while at < len(frames):
        yield int.from_bytes(frames[at + 29:at + 31], 'big')
        at += 4 + int.from_bytes(frames[at:at + 4], 'big')


def count(file: pathlib.Path) -> tuple[int, int]:
    """Returns the number of batches and of transactions in a file."""
    counts = list(transactions_of(file.read_bytes()))
    return len(counts), sum(counts)
