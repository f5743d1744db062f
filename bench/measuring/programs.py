# SPDX-License-Identifier: Apache-2.0
"""The programs that are compared, and how they are built."""

import os
import pathlib
import platform
import subprocess
from dataclasses import dataclass

from measuring import OUT, TOP

BASELINES = TOP / 'bench' / 'baselines'
X86_64 = platform.machine() == 'x86_64'
CXX_FLAGS = ['-std=c++17', '-O3', '-Wall', '-Wextra'] + (['-march=x86-64-v2'] if X86_64 else [])
RUST_FLAGS = '-Ctarget-cpu=x86-64-v2' if X86_64 else ''
# Names, sources and definitions of the programs in C++. `art` uses SSE2.
CXX_PROGRAMS: dict[str, tuple[str, list[str]]] = {
    'skiplist': ('skiplist', []),
    'skiplist-tuned': ('skiplist', ['-DTUNED']),
    **({'art': ('art', [])} if X86_64 else {}),
}
RUST_PROGRAMS = ('btree', 'bplus')
NAMES: tuple[str, ...] = ('replay', *CXX_PROGRAMS, *RUST_PROGRAMS)


@dataclass(frozen=True)
class Program:
    """A program that prints the verdicts of a file, and the command that times each batch."""

    name: str
    path: pathlib.Path
    latency: tuple[str, ...]

    def command(self, limit: int, file: pathlib.Path) -> list[str]:
        """Returns the command that prints the verdicts. Only `replay` has a limit on boundaries."""
        options = ['--limit', str(limit)] if self.name == 'replay' else []
        return [str(self.path), *options, str(file)]


def run(command: list[str], flags: str | None = None) -> None:
    """Runs a command of the build."""
    environment = os.environ | ({} if flags is None else {'RUSTFLAGS': flags})
    subprocess.run(command, check=True, cwd=TOP, env=environment)


def edition() -> str:
    """Returns which edition of `replay` is measured: the proved one if it is built."""
    return 'proved' if (TOP / 'crates' / 'replay' / 'out' / 'replay').exists() else 'cargo'


def own_program(name: str) -> pathlib.Path:
    """Returns the path of `replay` or `workload`: the proved one, or that of the Cargo edition."""
    proved = TOP / 'crates' / name / 'out' / name
    return proved if proved.exists() else TOP / 'out' / 'quick' / name


def build_own(latency: bool) -> None:
    """Builds the program that times batches.

    Builds `replay` and `workload` too, unless they are proved and built.
    """
    if not all((TOP / 'crates' / name / 'out' / name).exists() for name in ('replay', 'workload')):
        run(['make', '--no-print-directory', 'quick'])
    if latency:
        run(['cargo/erase.py', str(OUT / 'workspace'), '--add', 'bench/latency'])
        run(
            [
                'cargo', 'build', '--manifest-path', str(OUT / 'workspace' / 'Cargo.toml'),
                '--release', '--offline', '--quiet', '--bin', 'archcaraway-latency',
            ],
            RUST_FLAGS,
        )


def build_baselines() -> None:
    """Builds the baselines and the program that starts each process."""
    OUT.mkdir(parents=True, exist_ok=True)
    run([os.environ.get('CC', 'cc'), '-O2', '-o', str(OUT / 'spawn'), 'bench/spawn.c'])
    for name, (folder, definitions) in CXX_PROGRAMS.items():
        run(
            [
                os.environ.get('CXX', 'c++'), *CXX_FLAGS, *definitions, '-o', str(OUT / name),
                str(BASELINES / folder / 'main.cpp'),
            ]
        )
    run(
        [
            'cargo', 'build', '--manifest-path', str(BASELINES / 'Cargo.toml'), '--target-dir',
            str(OUT / 'target'), '--release', '--offline', '--locked', '--quiet',
        ],
        RUST_FLAGS,
    )


def find(name: str) -> Program:
    """Returns a program that is built."""
    if name == 'replay':
        latency = (str(OUT / 'workspace' / 'target' / 'release' / 'archcaraway-latency'),)
        return Program(name, own_program(name), latency)
    path = OUT / 'target' / 'release' / name if name in RUST_PROGRAMS else OUT / name
    return Program(name, path, (str(path), '--latency'))


def build(names: list[str], latency: bool) -> list[Program]:
    """Builds all programs and returns those with the given names."""
    build_own(latency)
    build_baselines()
    return [find(name) for name in names]
