"""Runs a case on both builds, and compares what comes of it."""

import os
import re
import shlex
import shutil
import subprocess
import tempfile
from dataclasses import dataclass
from pathlib import Path
from typing import Any, BinaryIO

from .case import Case, Outcome, Run, Text, hidden

LIMIT = 55  # seconds, if each process has a processor of its own
ENDLESS = -1_000  # the status of a program that was ended after them
SHOWN = 600  # bytes of a text
CLAP_SPEAKS = ("replay", "batches")
FAULT = re.compile(rb"^replay: proxy \d+: wire .*\n", re.MULTILINE)

Programs = dict[str, Path]


@dataclass(frozen=True)
class Difference:
    run: Run
    # What each side printed, by its name.
    outcomes: dict[str, Outcome]

    def is_endless(self) -> bool:
        """Whether a program didn't end."""
        return any(outcome.status == ENDLESS for outcome in self.outcomes.values())


def time_limit() -> float:
    """Returns after how many seconds a program counts as endless.

    It is more if processes wait for processors.
    """
    return LIMIT * max(1.0, os.getloadavg()[0] / (os.cpu_count() or 1))


def played(programs: Programs, run: Run, folder: Path) -> Outcome:
    """Runs a command line."""
    limit = time_limit()
    source = folder / run.stdin_file if run.stdin_file else os.devnull
    with open("/dev/full", "wb") as full, open(source, "rb") as file:
        out: BinaryIO | int = full if run.is_full else subprocess.PIPE
        command = [str(programs[run.program]), *run.args]
        given: dict[str, Any] = {"stdin": file} if run.stdin_file else {"input": run.stdin}
        try:
            done = subprocess.run(
                command, **given, stdout=out, stderr=subprocess.PIPE, cwd=folder, timeout=limit
            )
        except subprocess.TimeoutExpired:
            return Outcome(ENDLESS, b"", f"no end after {limit:.0f} seconds".encode())
    return Outcome(done.returncode, done.stdout or b"", done.stderr)


def is_of_clap(run: Run, outcome: Outcome) -> bool:
    """Whether the text is that of `clap`: help, or a refused command line.

    `workload` prints its own text.
    """
    return run.text is Text.OF_CLAP or (outcome.status == 2 and run.program in CLAP_SPEAKS)


def kind_of(run: Run, text: bytes) -> bytes:
    """Returns what is compared of a text of `clap`.

    `batches` without arguments prints its help to standard error.
    """
    if run.program == "replay" and text.startswith(b"error: "):
        return b"error"
    return b"text" if text else b""


def fixed(run: Run, outcome: Outcome) -> Outcome:
    """Returns what the documents fix of an outcome."""
    if is_of_clap(run, outcome):
        return Outcome(outcome.status, kind_of(run, outcome.out), kind_of(run, outcome.err))
    if run.hides_occupancy:
        outcome = Outcome(outcome.status, hidden(outcome.out), hidden(outcome.err))
    if b"replay: stop " in outcome.err:
        # After a stop the schedule decides whether a worker still reads its file up to a fault.
        return Outcome(outcome.status, outcome.out, FAULT.sub(b"", outcome.err))
    return outcome


def differs(run: Run, outcomes: dict[str, Outcome]) -> bool:
    return len({fixed(run, outcome) for outcome in outcomes.values()}) > 1


def is_silent(run: Run, outcomes: dict[str, Outcome]) -> bool:
    """Whether a side doesn't say what it must."""
    return any(run.says not in outcome.err for outcome in outcomes.values())


def write_files(case: Case, folder: Path) -> None:
    for name, content in case.files.items():
        path = folder / name
        if name.endswith("/"):
            path.mkdir()
        else:
            path.write_bytes(content)
    for name, target in case.hard_links.items():
        (folder / name).hardlink_to(folder / target)
    for name, target in case.symbolic_links.items():
        (folder / name).symlink_to(target)


def compared(case: Case, sides: dict[str, Programs], room: Path) -> list[Difference]:
    """Runs a case on each side, and returns the runs that differ from each other or from what is
    expected. A program that doesn't end ends the case."""
    found = []
    with tempfile.TemporaryDirectory(dir=room) as name:
        folder = Path(name)
        write_files(case, folder)
        for run in case.runs:
            outcomes = {side: played(programs, run, folder) for side, programs in sides.items()}
            silent = is_silent(run, outcomes)
            if run.expected is not None:
                outcomes["expected"] = run.expected
            if silent or differs(run, outcomes):
                found.append(Difference(run, outcomes))
                if found[-1].is_endless():
                    break
    return found


def command_line(run: Run) -> str:
    words = [
        arg if isinstance(arg, str) else arg.decode("utf-8", "backslashreplace") for arg in run.args
    ]
    stdin = f" < {run.stdin_file}" if run.stdin_file else " < stdin" if run.stdin else ""
    return shlex.join([run.program, *words]) + stdin + (" > /dev/full" if run.is_full else "")


def shortened(text: bytes) -> str:
    front = text[:SHOWN].decode("utf-8", "backslashreplace")
    return front if len(text) <= SHOWN else f"{front}.. ({len(text)} bytes)"


def first_line_apart(outcomes: dict[str, Outcome]) -> str:
    """Names the first line of standard output in which the sides differ."""
    texts = [outcome.out.splitlines() for outcome in outcomes.values()]
    for number in range(max(len(lines) for lines in texts)):
        if len({lines[number] if number < len(lines) else None for lines in texts}) > 1:
            return f"  first apart in line {number + 1} of standard output\n"
    return ""


def shown(difference: Difference) -> str:
    """Returns the text of a difference."""
    lines = [f"  {command_line(difference.run)}\n", first_line_apart(difference.outcomes)]
    for side, outcome in difference.outcomes.items():
        lines.append(f"  {side}: status {outcome.status}\n")
        for name, text in (("out", outcome.out), ("err", outcome.err)):
            lines += [f"    {name}: {line}\n" for line in shortened(text).splitlines()]
    return "".join(lines)


def save(case: Case, differences: list[Difference], folder: Path) -> None:
    """Keeps the inputs of a case and what came of it."""
    shutil.rmtree(folder, ignore_errors=True)
    folder.mkdir(parents=True)
    write_files(case, folder)
    for number, difference in enumerate(differences):
        (folder / f"command.{number}").write_text(command_line(difference.run) + "\n")
        if difference.run.stdin:
            (folder / f"stdin.{number}").write_bytes(difference.run.stdin)
        for side, outcome in difference.outcomes.items():
            (folder / f"{side}.{number}.out").write_bytes(outcome.out)
            (folder / f"{side}.{number}.err").write_bytes(outcome.err)
            (folder / f"{side}.{number}.status").write_text(f"{outcome.status}\n")
