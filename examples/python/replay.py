"""Replays recorded files, and prints what the program `replay` prints: `python3 replay.py FILE..`.

The file at index p, counted from 0, has the batches of proxy p.
"""

from __future__ import annotations

import sys
from pathlib import Path

from archcaraway import Answer, Core, Entry, Error, Kind, Stop, Verdict, frames

WORDS = {Verdict.CONFLICT: "conflict", Verdict.TOO_OLD: "tooold", Verdict.COMMITTED: "committed"}


def admit_all(core: Core, paths: list[str], failures: dict[int, Error]) -> None:
    """Takes one batch of each file in turn. Notes the fault of each file. A stop is raised."""
    inputs = {proxy: frames(Path(path).read_bytes()) for proxy, path in enumerate(paths)}
    while inputs:
        for proxy in list(inputs):
            try:
                core.admit(proxy, next(inputs[proxy]))
            except StopIteration:
                del inputs[proxy]
            except Stop:
                raise
            except Error as fault:
                failures[proxy] = fault
                del inputs[proxy]
    core.finish()


def entry_text(entry: Entry) -> str:
    places = ",".join(map(str, entry.conflicts))
    return WORDS[entry.verdict] + (f":{places}" if places else "")


def answer_text(answer: Answer) -> str:
    if answer.reply is None:
        return "never" if answer.kind == Kind.NEVER else "held"
    return " ".join(map(entry_text, answer.reply.entries)) or "empty"


def short(error: Error) -> str:
    """Returns the part of the text that `replay` prints."""
    return str(error).partition(":")[0]


def main(paths: list[str]) -> int:
    faults: dict[int, Error] = {}
    failures = []
    with Core(len(paths)) as core:
        try:
            admit_all(core, paths, faults)
        except Stop as stop:
            failures.append(short(stop))
        for proxy in range(len(paths)):
            answers = list(iter(lambda: core.give(proxy), None))
            for answer in sorted(answers, key=lambda answer: answer.version):
                print(proxy, answer.version, answer_text(answer))
    sys.stdout.flush()
    failures = [f"proxy {proxy}: {short(faults[proxy])}" for proxy in sorted(faults)] + failures
    for failure in failures:
        print(f"replay: {failure}", file=sys.stderr)
    return 1 if failures else 0


if __name__ == "__main__":
    sys.exit(main(sys.argv[1:]))
