"""What `replay --resolvers` prints, by one `replay` per shard over clipped files.

Their answers are combined by a plain function.
"""

import json
import subprocess
import tempfile
from collections.abc import Sequence
from dataclasses import dataclass
from pathlib import Path

from .case import Outcome
from .lines import entry_json
from .plain import clip_of, point_lines
from .reading import frames, read_batch
from .wire import Batch, Entry, Txn

RANKS = ("conflict", "tooold", "committed")

# The entries of a reply, or `never`, or `held`.
Answer = tuple[Entry, ...] | str


@dataclass(frozen=True)
class Shard:
    """What the run of a shard has printed: of each proxy and version, the answers in order."""

    answers: dict[int, dict[int, list[Answer]]]
    # Its lines on standard error: those of proxies, and that of its ending.
    proxies: list[str]
    ending: str


def answer_of(line: dict[str, object]) -> Answer:
    if "answer" in line:
        return str(line["answer"])
    found = [one if isinstance(one, dict) else {one: ()} for one in line["verdicts"]]
    return tuple(Entry(verdict, tuple(places)) for one in found for verdict, places in one.items())


def shard_of(run: subprocess.CompletedProcess[bytes]) -> Shard:
    answers: dict[int, dict[int, list[Answer]]] = {}
    for line in map(json.loads, run.stdout.splitlines()):
        own = answers.setdefault(line["proxy"], {})
        own.setdefault(line["version"], []).append(answer_of(line))
    messages = run.stderr.decode().splitlines()
    proxies = [message for message in messages if message.startswith("replay: proxy ")]
    endings = [message for message in messages if message not in proxies]
    return Shard(answers, proxies, endings[0] if endings else "")


def read_indices(txn: Txn, first: bytes, end: bytes | None) -> list[int]:
    return [index for index, one in enumerate(txn.reads) if clip_of(one, first, end) is not None]


def entry_of(entries: Sequence[Entry], indices: Sequence[Sequence[int]]) -> Entry:
    """The least verdict of the shards, and all that they report.

    Reports have the numbers of the batch that was sent.
    """
    verdict = min((entry.verdict for entry in entries), key=RANKS.index)
    places = {own[place] for entry, own in zip(entries, indices) for place in entry.indices}
    return Entry(verdict, tuple(sorted(places)))


def combined(
    answers: Sequence[Answer], batch: Batch | None, bounds: Sequence[tuple[bytes, bytes | None]]
) -> Answer:
    """The answer of all shards, given the first batch of the version that requests a report."""
    if "never" in answers:
        return "never"
    if "held" in answers:
        return "held"
    if len({len(entries) for entries in answers}) > 1:
        return "never"
    txns = batch.txns if batch else ()
    indices = [[read_indices(txn, *own) for txn in txns] for own in bounds]
    try:
        return tuple(
            entry_of(
                [entries[number] for entries in answers],
                [own[number] if number < len(own) else [] for own in indices],
            )
            for number in range(len(answers[0]))
        )
    except IndexError:
        return "never"


def line_of(proxy: int, version: int, answer: Answer, is_json: bool) -> str:
    if is_json and isinstance(answer, str):
        return f'{{"proxy":{proxy},"version":{version},"answer":"{answer}"}}\n'
    if is_json:
        return (
            f'{{"proxy":{proxy},"version":{version},'
            f'"verdicts":[{",".join(map(entry_json, answer))}]}}\n'
        )
    if isinstance(answer, str):
        return f"{proxy} {version} {answer}\n"
    words = [
        entry.verdict + (":" + ",".join(map(str, entry.indices)) if entry.indices else "")
        for entry in answer
    ]
    return f"{proxy} {version} {' '.join(words) or 'empty'}\n"


class Plain:
    """The runs of all shards."""

    def __init__(
        self,
        replay: Path,
        batches: Path,
        contents: Sequence[bytes],
        points: Sequence[bytes],
        options: Sequence[str],
    ) -> None:
        self.contents, self.points = contents, points
        self.bounds = list(zip([b"", *points], [*points, None]))
        with tempfile.TemporaryDirectory() as folder:
            self.folder = Path(folder)
            (self.folder / "points").write_bytes(point_lines(points))
            for proxy, content in enumerate(contents):
                (self.folder / f"file{proxy}").write_bytes(content)
            self.shards = [
                self.run(replay, batches, shard, options) for shard in range(len(points) + 1)
            ]

    def run(self, replay: Path, batches: Path, shard: int, options: Sequence[str]) -> Shard:
        """Clips the files to a shard and replays them.

        The bytes after a fault are unchanged, after the clips before it.
        """
        names = []
        for proxy, content in enumerate(self.contents):
            clip = [
                batches,
                "clip",
                "--split-points",
                self.folder / "points",
                "--shard",
                str(shard),
                self.folder / f"file{proxy}",
            ]
            clipped = subprocess.run(clip, capture_output=True, timeout=120)
            names.append(self.folder / f"clip{proxy}")
            names[-1].write_bytes(
                clipped.stdout + (rest_of(content) if clipped.returncode else b"")
            )
        return shard_of(
            subprocess.run([replay, "--json", *options, *names], capture_output=True, timeout=120)
        )

    def first_with_report(self, proxy: int) -> dict[int, Batch]:
        read, _ = frames(self.contents[proxy], read_batch)
        return {
            batch.version: batch
            for batch in reversed(read)
            if any(txn.report for txn in batch.txns)
        }

    def lines(self, proxy: int, is_json: bool) -> str:
        each = [shard.answers.get(proxy, {}) for shard in self.shards]
        batches = self.first_with_report(proxy)
        lines = []
        for version in sorted(set.intersection(*(set(own) for own in each))):
            for answers in zip(*(own[version] for own in each)):
                answer = combined(answers, batches.get(version), self.bounds)
                lines.append(line_of(proxy, version, answer, is_json))
        return "".join(lines)

    def outcome(self, is_json: bool) -> Outcome:
        out = "".join(self.lines(proxy, is_json) for proxy in range(len(self.contents)))
        messages = list(self.shards[0].proxies)
        stops = [
            (number, shard.ending)
            for number, shard in enumerate(self.shards)
            if "stop" in shard.ending
        ]
        if stops:
            messages += [stops[0][1], f"replay: shard {stops[0][0]}"]
        return Outcome(
            1 if messages else 0,
            out.encode(),
            "".join(f"{message}\n" for message in messages).encode(),
        )


def rest_of(content: bytes) -> bytes:
    """The bytes from the first frame with a fault on."""
    at = 0
    for _ in frames(content, read_batch)[0]:
        at += 4 + int.from_bytes(content[at : at + 4], "big")
    return content[at:]
