# SPDX-License-Identifier: Apache-2.0
"""Runs the programs on a file, round by round, and compares what they print."""

import filecmp
import pathlib
import random
import subprocess
from collections.abc import Sequence
from dataclasses import dataclass
from itertools import zip_longest

from measuring import OUT
from measuring.programs import Program
from measuring.summary import percentile


class Different(Exception):
    """Two programs print different verdicts."""


@dataclass(frozen=True)
class Run:
    """What one program took in one round. Without latencies, the percentiles are None."""

    seconds: float
    peak_mib: float
    p50_us: float | None = None
    p99_us: float | None = None


def order_of(names: Sequence[str], number: int) -> list[str]:
    """Returns the order of the programs in a round: shuffled, and the same in each measurement."""
    order = list(names)
    random.Random(number).shuffle(order)
    return order


def first_difference(left: pathlib.Path, right: pathlib.Path) -> int:
    """Returns the number of the first line in which two files differ, from 1."""
    with left.open('rb') as a, right.open('rb') as b:
        return next(number for number, (x, y) in enumerate(zip_longest(a, b), 1) if x != y)


def compare(workload: str, reference: str, program: str, folder: pathlib.Path) -> None:
    """Compares the output of a program with that of the reference, byte by byte."""
    left, right = folder / f'{reference}.txt', folder / f'{program}.txt'
    if not filecmp.cmp(left, right, shallow=False):
        raise Different(
            f'{workload}: {program} and {reference} print different verdicts, first in line '
            f'{first_difference(left, right)} of {right} and {left}'
        )


def run_process(program: Program, limit: int, file: pathlib.Path, output: pathlib.Path) -> Run:
    """Runs a program once with its standard output in a file."""
    command = [str(OUT / 'spawn'), str(output), *program.command(limit, file)]
    seconds, kib, status = subprocess.run(
        command, check=True, capture_output=True, text=True
    ).stdout.split()
    if status != '0':
        raise SystemExit(f'measure: {program.name} ends with status {status} on {file}')
    return Run(float(seconds), int(kib) / 1024)


def run_latency(program: Program, file: pathlib.Path) -> tuple[list[int], int | None]:
    """Returns the nanoseconds of each batch, and the boundaries at the end if they are reported."""
    done = subprocess.run([*program.latency, str(file)], check=True, capture_output=True, text=True)
    number, _, unit = done.stderr.strip().partition(' ')
    return (
        [int(line) for line in done.stdout.split()], int(number) if unit == 'boundaries' else None
    )


@dataclass
class Rounds:
    """The runs of each program on one file, in the order of the rounds."""

    runs: dict[str, list[Run]]
    boundaries: int | None = None


def measure(
    shape: str, limit: int, file: pathlib.Path, programs: list[Program], rounds: int, latency: bool
) -> Rounds:
    """Runs every program once per round. Raises `Different` if two outputs differ."""
    by_name = {program.name: program for program in programs}
    measured = Rounds({program.name: [] for program in programs})
    folder = OUT / 'outputs'
    folder.mkdir(parents=True, exist_ok=True)
    for number in range(rounds):
        order = order_of(list(by_name), number)
        for name in order:
            run = run_process(by_name[name], limit, file, folder / f'{name}.txt')
            if latency:
                nanoseconds, boundaries = run_latency(by_name[name], file)
                run = Run(
                    run.seconds,
                    run.peak_mib,
                    percentile(nanoseconds, 50) / 1e3,
                    percentile(nanoseconds, 99) / 1e3,
                )
                measured.boundaries = measured.boundaries if boundaries is None else boundaries
            measured.runs[name].append(run)
        reference = 'replay' if 'replay' in by_name else order[0]
        for name in order:
            compare(shape, reference, name, folder)
    return measured
