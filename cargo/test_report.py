"""The page of `batches report` has the numbers of plain counting, for random files."""

import html
import json
import pathlib
import random
import re
import subprocess
import tempfile
import unittest
from collections import Counter

BATCHES = pathlib.Path(__file__).resolve().parent.parent / "out" / "quick" / "batches"
KEYS = ("a", "b", "k\\x00", "<&>", "x" * 130)
Json = dict[str, object]


def draw_batch(chance: random.Random, version: int) -> Json:
    def draw_range() -> object:
        begin, end = sorted(chance.choices(KEYS, k=2))
        return begin if begin == end else [begin, end]

    def draw_txn() -> Json:
        snapshot = max(0, version - chance.choice((0, 1, 1, 7, 100, 100, 5_000)))
        reads = [draw_range() for _ in range(chance.randint(1, 4))]
        return {"snapshot": snapshot, "report": True, "reads": reads, "writes": []}

    return {
        "previous": version - 1,
        "version": version,
        "transactions": [draw_txn() for _ in range(chance.randint(0, 5))],
    }


def draw_reply(chance: random.Random, batch: Json) -> Json:
    def draw_verdict(txn: Json) -> object:
        places = [place for place in range(len(txn["reads"])) if chance.random() < 0.5]
        return chance.choice(
            ("committed", "tooold", "conflict", {"conflict": places} if places else "conflict")
        )

    return {
        "version": batch["version"],
        "verdicts": [draw_verdict(txn) for txn in batch["transactions"]],
    }


def lines_of(values: list[Json]) -> bytes:
    return "".join(json.dumps(value) + "\n" for value in values).encode()


def share(part: int, whole: int) -> str:
    return f"{(part * 2_000 + whole) // (2 * whole) / 10:.1f} %" if whole else "none"


def name_of(read: object) -> str:
    return f'"{read}"' if isinstance(read, str) else f'"{read[0]}" .. "{read[1]}"'


def is_conflict(verdict: object) -> bool:
    return verdict == "conflict" or isinstance(verdict, dict)


class Plain:
    """The numbers, counted plainly."""

    def __init__(self, batches: list[Json], replies: list[Json]) -> None:
        first = {reply["version"]: reply for reply in reversed(replies)}
        chosen = {
            batch["version"]: batch for batch in reversed(batches) if batch["version"] in first
        }
        self.judged = [
            (batch, first[version]["verdicts"]) for version, batch in sorted(chosen.items())
        ]
        self.verdicts = [verdict for _, verdicts in self.judged for verdict in verdicts]

    def page_verdicts(self) -> list[tuple[str, ...]]:
        count, found = (
            len(self.verdicts),
            Counter("conflict" if is_conflict(verdict) else verdict for verdict in self.verdicts),
        )
        rows = [
            (name, found[word])
            for name, word in (
                ("committed", "committed"), ("conflict", "conflict"), ("too old", "tooold")
            )
        ]
        return [(name, str(part), share(part, count)) for name, part in (*rows, ("all", count))]

    def between(self, first: int, last: int) -> list[object]:
        return [
            verdict
            for batch, verdicts in self.judged
            if first <= batch["version"] <= last
            for verdict in verdicts
        ]

    def ages(self) -> list[int]:
        pairs = [
            (batch["version"], txn, verdict)
            for batch, verdicts in self.judged
            for txn, verdict in zip(batch["transactions"], verdicts)
        ]
        return [version - txn["snapshot"] for version, txn, verdict in pairs if verdict == "tooold"]

    def hot(self) -> list[tuple[str, int]]:
        heat: Counter[str] = Counter()
        for batch, verdicts in self.judged:
            for txn, verdict in zip(batch["transactions"], verdicts):
                if isinstance(verdict, dict):
                    heat.update({name_of(txn["reads"][place]) for place in verdict["conflict"]})
        return sorted(heat.items(), key=lambda item: (-item[1], item[0].encode()))[:20]


class Report(unittest.TestCase):
    def setUp(self) -> None:
        folder = tempfile.TemporaryDirectory()
        self.addCleanup(folder.cleanup)
        self.folder = pathlib.Path(folder.name)

    def encode(self, name: str, values: list[Json], *options: str) -> str:
        run = subprocess.run(
            [BATCHES, "encode", *options],
            input=lines_of(values),
            stdout=subprocess.PIPE,
            check=True,
            timeout=60,
        )
        (self.folder / name).write_bytes(run.stdout)
        return str(self.folder / name)

    def page(self, batches: list[Json], replies: list[Json]) -> str:
        files = (
            self.encode("batches", batches),
            "--replies",
            self.encode("replies", replies, "--replies"),
        )
        run = subprocess.run(
            [BATCHES, "report", *files], stdout=subprocess.PIPE, check=True, timeout=60
        )
        page = self.folder / "page.html"
        page.write_bytes(run.stdout + b"bytes from before")
        subprocess.run([BATCHES, "report", *files, "-o", page], check=True, timeout=60)
        self.assertEqual(page.read_bytes(), run.stdout)
        return run.stdout.decode()

    def section(self, page: str, title: str) -> str:
        return page.split(f"<h2>{title}</h2>")[1].split("<h2>")[0]

    def rows(self, page: str, title: str) -> list[tuple[str, ...]]:
        rows = re.findall(r"<tr>(<td.*?)</tr>", self.section(page, title))
        cells = [re.findall(r"<td>(.*?)</td>", row) for row in rows]
        return [tuple(html.unescape(re.sub("</?code>", "", cell)) for cell in row) for row in cells]

    def check(self, batches: list[Json], replies: list[Json]) -> None:
        page, plain = self.page(batches, replies), Plain(batches, replies)
        self.assertIn(f"<p>{len(plain.judged)} batches with their replies.", page)
        self.assertEqual(self.rows(page, "Verdicts"), plain.page_verdicts())
        for title, counts in (
            ("Conflicts over versions", is_conflict),
            ("Too old over versions", lambda verdict: verdict == "tooold"),
        ):
            self.check_plot(self.section(page, title), plain, counts)
        for window, count, part in self.rows(
            page, "Snapshot age of transactions that were too old"
        ):
            covered = sum(age <= int(window) for age in plain.ages())
            self.assertEqual((int(count), part), (covered, share(covered, len(plain.ages()))))
        sizes = [len(batch["transactions"]) for batch, _ in plain.judged]
        for name, count, part in self.rows(page, "Batch sizes"):
            ends = [int(word) for word in name.split(" to ")]
            found = sum(ends[0] <= size <= ends[-1] for size in sizes)
            self.assertEqual((int(count), part), (found, share(found, len(sizes))))
        self.assertEqual(sum(int(row[1]) for row in self.rows(page, "Batch sizes")), len(sizes))
        self.check_hot(page, plain)

    def check_plot(self, section: str, plain: Plain, counts: object) -> None:
        found = re.findall(
            r"<title>versions (\d+) to (\d+): (\d+) of (\d+), (.*?)</title>", section
        )
        for first, last, count, txns, part in found:
            verdicts = plain.between(int(first), int(last))
            wanted = sum(map(counts, verdicts))
            self.assertEqual(
                (int(count), int(txns), part), (wanted, len(verdicts), share(wanted, len(verdicts)))
            )
        total = sum(map(counts, plain.verdicts))
        self.assertEqual(sum(int(count) for _, _, count, _, _ in found), total)
        self.assertEqual("<p>none</p>" in section, total == 0)

    def check_hot(self, page: str, plain: Plain) -> None:
        wanted = [
            (name[:120] + "..." if len(name) > 120 else name, str(count))
            for name, count in plain.hot()
        ]
        self.assertEqual(self.rows(page, "Hot ranges"), wanted)
        conflicts = sum(map(is_conflict, plain.verdicts))
        reported = sum(isinstance(verdict, dict) for verdict in plain.verdicts)
        sampled = f"Sampled: {reported} of {conflicts} conflicts have a report of their reads."
        self.assertEqual(sampled in page, reported < conflicts)

    def test_random(self) -> None:
        for seed in range(20):
            chance = random.Random(seed)
            versions = [
                chance.randrange(2_000) * chance.choice((1, 1, 1_000))
                for _ in range(chance.randint(0, 60))
            ]
            batches = [draw_batch(chance, version) for version in versions]
            first = {batch["version"]: batch for batch in reversed(batches)}
            replies = [
                draw_reply(chance, first[version]) for version in versions if chance.random() < 0.9
            ]
            replies += [
                {"version": 10**12 + number, "verdicts": []}
                for number in range(chance.randint(0, 2))
            ]
            with self.subTest(seed=seed):
                self.check(batches, replies)

    def test_unfit(self) -> None:
        batches, replies = (
            [draw_batch(random.Random(1), 5)], [{"version": 5, "verdicts": ["committed"] * 9}]
        )
        files = (
            self.encode("batches", batches),
            "--replies",
            self.encode("replies", replies, "--replies"),
        )
        run = subprocess.run([BATCHES, "report", *files], capture_output=True, timeout=60)
        said = f"batches: {files[0]}: the reply of version 5 doesn't fit its batch\n".encode()
        self.assertEqual((run.returncode, run.stdout, run.stderr), (1, b"", said))


if __name__ == "__main__":
    unittest.main()
