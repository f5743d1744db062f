"""What the rules of docs/FOUNDATIONDB.md say of a log of batches, by plain lists, and the lines
that docs/REPLAY.md makes of it.

It keeps all writes, and has no limit on boundaries. Of a gate that fills it says nothing.
"""

import json
from bisect import bisect_left, bisect_right
from collections.abc import Sequence
from dataclasses import dataclass, field
from decimal import ROUND_HALF_UP, Decimal

from .explaining import Explainer, Note
from .lines import entry_json
from .wire import Batch, Entry, Range, Reply, Txn, reply_frame

WINDOW = 5_000_000
MAX_HELD = 1_024


class Unspecified(Exception):
    """The documents leave open what comes of the run."""


@dataclass(frozen=True)
class Answer:
    version: int
    # `never` or `held` if there is no reply.
    reply: Reply | None
    word: str = ""
    # What explains the rejections of a reply.
    note: Note = Note()


@dataclass(frozen=True)
class Filter:
    """Which lines of answers are printed."""

    quiet: bool = False
    only: str | None = None
    least: int | None = None
    below: int | None = None

    def shows(self, answer: Answer) -> bool:
        entries = answer.reply.entries if answer.reply is not None else ()
        return (
            not self.quiet
            and (self.only is None or any(entry.verdict == self.only for entry in entries))
            and (self.least is None or self.least <= answer.version)
            and (self.below is None or answer.version < self.below)
        )


ALL_LINES = Filter()


@dataclass
class History:
    """The version that wrote each key last: from each of the keys in order up to the next one."""

    keys: list[bytes] = field(default_factory=lambda: [b""])
    versions: list[int] = field(default_factory=lambda: [-1])

    def greatest_in(self, of: Range) -> int:
        """Returns the greatest version in the range, or -1 if the range is empty."""
        first = bisect_right(self.keys, of.begin) - 1
        return -1 if of.is_empty else max(self.versions[first : bisect_left(self.keys, of.end)])

    def write(self, of: Range, version: int) -> None:
        if of.is_empty:
            return
        first = bisect_left(self.keys, of.begin)
        after = bisect_right(self.keys, of.end)
        last = self.versions[after - 1]
        self.keys[first:after] = [of.begin, of.end]
        self.versions[first:after] = [version, last]


@dataclass
class Resolver:
    window: int = WINDOW
    version: int = -1
    history: History = field(default_factory=History)
    held: list[tuple[int, Batch]] = field(default_factory=list)
    kept: dict[tuple[int, int], Reply] = field(default_factory=dict)
    answers: dict[int, list[Answer]] = field(default_factory=dict)
    explainer: Explainer | None = None
    notes: dict[tuple[int, int], Note] = field(default_factory=dict)

    def admit(self, proxy: int, batch: Batch) -> None:
        """Takes a batch, and each held one that is due after it."""
        if batch.previous > self.version:
            if len(self.held) == MAX_HELD:
                raise Unspecified("the gate is full")
            self.held.append((proxy, batch))
            return
        self.handle(proxy, batch)
        while (due := self.next_due()) is not None:
            self.held.remove(due)
            self.handle(*due)

    def next_due(self) -> tuple[int, Batch] | None:
        """Returns the held batch that leaves next.

        It has the least previous version, and is the earliest arrival among equals.
        """
        due = [one for one in self.held if one[1].previous <= self.version]
        return min(due, key=lambda one: one[1].previous) if due else None

    def handle(self, proxy: int, batch: Batch) -> None:
        if batch.previous == self.version:
            self.process(proxy, batch)
        elif (proxy, batch.version) in self.kept:
            self.answer(proxy, batch.version, self.kept[proxy, batch.version])
        else:
            self.answer(proxy, batch.version, None, "never")

    def process(self, proxy: int, batch: Batch) -> None:
        reply = self.judge(batch)
        self.version = batch.version
        for other, version in list(self.kept):
            if other == proxy and version <= batch.received:
                del self.kept[other, version]
        self.kept[proxy, batch.version] = reply
        if self.explainer is not None:
            self.notes[proxy, batch.version] = self.explainer.process(proxy, batch, reply)
        self.answer(proxy, batch.version, reply)

    def answer(self, proxy: int, version: int, reply: Reply | None, word: str = "") -> None:
        note = Note() if reply is None else self.notes.get((proxy, version), Note())
        self.answers.setdefault(proxy, []).append(Answer(version, reply, word, note))

    def judge(self, batch: Batch) -> Reply:
        edge = max(0, batch.version - self.window)
        committed: list[Range] = []
        entries = []
        for txn in batch.txns:
            entry = self.verdict(txn, edge, committed)
            entries.append(entry)
            if entry.verdict == "committed":
                committed += txn.writes
        for written in committed:
            self.history.write(written, batch.version)
        return Reply(batch.version, tuple(entries))

    def verdict(self, txn: Txn, edge: int, committed: list[Range]) -> Entry:
        if txn.reads and txn.snapshot < edge:
            return Entry("tooold")
        history = [
            index
            for index, read in enumerate(txn.reads)
            if self.history.greatest_in(read) > txn.snapshot
        ]
        batch = [
            index
            for index, read in enumerate(txn.reads)
            if any(read.meets(written) for written in committed)
        ]
        if not history and not batch:
            return Entry("committed")
        indices = history or batch[:1]
        return Entry("conflict", tuple(indices) if txn.report else ())

    def finish(self) -> None:
        for proxy, batch in self.held:
            self.answer(proxy, batch.version, None, "held")
        self.held.clear()


def resolve(
    files: Sequence[Sequence[Batch]], window: int = WINDOW, explains: bool = False
) -> list[list[Answer]]:
    """Returns the answers to each proxy, sorted by version. The files are read in sequence."""
    resolver = Resolver(window, explainer=Explainer(window) if explains else None)
    for proxy, batches in enumerate(files):
        for batch in batches:
            resolver.admit(proxy, batch)
    resolver.finish()
    return [
        sorted(resolver.answers.get(proxy, []), key=lambda one: one.version)
        for proxy in range(len(files))
    ]


def words_of(reply: Reply) -> str:
    words = [
        entry.verdict + (":" + ",".join(map(str, entry.indices)) if entry.indices else "")
        for entry in reply.entries
    ]
    return " ".join(words) or "empty"



def line_of(proxy: int, answer: Answer, form: str) -> str:
    """Returns the line of an answer and what explains it, as `words`, `frames` or `json`."""
    if form == "json":
        body = f'"answer":"{answer.word}"'
        if answer.reply is not None:
            body = f'"verdicts":[{",".join(entry_json(entry) for entry in answer.reply.entries)}]'
        return f'{{"proxy":{proxy},"version":{answer.version},{body}{answer.note.member}}}\n'
    if answer.reply is None:
        return f"{proxy} {answer.version} {answer.word}\n"
    shown = reply_frame(answer.reply).hex() if form == "frames" else words_of(answer.reply)
    return f"{proxy} {answer.version} {shown}\n{answer.note.lines}"


def lines_of(answers: Sequence[Sequence[Answer]], form: str, shown: Filter = ALL_LINES) -> str:
    return "".join(
        line_of(proxy, answer, form)
        for proxy, some in enumerate(answers)
        for answer in some
        if shown.shows(answer)
    )


def counts_of(answers: Sequence[Sequence[Answer]]) -> tuple[dict[str, int], tuple[int, int] | None]:
    """Counts the answers to some proxies, of which each has them in order of versions.

    Returns the least and the greatest version too.
    """
    first, others = [], []
    for some in answers:
        replies = [answer for answer in some if answer.reply is not None]
        versions = [answer.version for answer in replies]
        for place, answer in enumerate(replies):
            (others if answer.version in versions[:place] else first).append(answer.reply)
    verdicts = [entry.verdict for reply in first for entry in reply.entries]
    words = [answer.word for some in answers for answer in some]
    counts = {"batches": len(first), "transactions": len(verdicts)}
    counts |= {verdict: verdicts.count(verdict) for verdict in ("committed", "conflict", "tooold")}
    counts |= {"repeats": len(others), "never": words.count("never"), "held": words.count("held")}
    versions = [reply.version for reply in first]
    return counts, (min(versions), max(versions)) if versions else None


def percent_of(part: int, whole: int) -> str:
    """Returns a share in percent with one decimal, rounded to the nearest, and up from half."""
    return str((Decimal(100 * part) / whole).quantize(Decimal("0.1"), ROUND_HALF_UP))


def summary_words(name: str, answers: Sequence[Sequence[Answer]]) -> str:
    counts, ends = counts_of(answers)
    rate = (
        f"{percent_of(counts['conflict'], counts['transactions'])} %"
        if counts["transactions"]
        else "none"
    )
    versions = "none" if ends is None else f"{ends[0]} to {ends[1]}"
    parts = [f"{word} {count}" for word, count in counts.items()]
    return (
        f"{name}: {', '.join([*parts[:5], f'conflict rate {rate}', *parts[5:]])}, "
        f"versions {versions}\n"
    )


def summary_members(answers: Sequence[Sequence[Answer]]) -> dict[str, object]:
    counts, ends = counts_of(answers)
    rate = (
        float(percent_of(counts["conflict"], counts["transactions"]))
        if counts["transactions"]
        else None
    )
    members = list(counts.items())
    members.insert(5, ("conflict_percent", rate))
    return (
        dict(members) | {"versions": None if ends is None else {"first": ends[0], "last": ends[1]}}
    )


def summary_of(answers: Sequence[Sequence[Answer]], is_json: bool) -> str:
    """Returns the text that `--summary` prints. How full the resolver was is hidden."""
    if is_json:
        proxies = [{"proxy": proxy} | summary_members([some]) for proxy, some in enumerate(answers)]
        members = json.dumps(
            {"proxies": proxies} | summary_members(answers), separators=(",", ":")
        )[:-1]
        return members + ',"most_held":*,"boundaries":*,"most_boundaries":*}\n'
    lines = [summary_words(f"proxy {proxy}", [some]) for proxy, some in enumerate(answers)]
    return (
        "".join(lines)
        + summary_words("all", answers)
        + "resolver: held at most *, boundaries *, at most *\n"
    )


def differences_of(expected: Reply, found: Reply) -> list[str]:
    """Returns how two replies of one version differ."""
    if len(expected.entries) != len(found.entries):
        return [f"expected {len(expected.entries)} verdicts, found {len(found.entries)}"]
    lines = []
    for index, (ours, theirs) in enumerate(zip(expected.entries, found.entries)):
        if ours.verdict != theirs.verdict:
            lines.append(f"{index} expected {ours.verdict}, found {theirs.verdict}")
        elif ours.indices != theirs.indices:
            shown = [",".join(map(str, one.indices)) or "none" for one in (ours, theirs)]
            lines.append(f"{index} places expected {shown[0]} found {shown[1]}")
    return lines


def checked_proxy(answers: Sequence[Answer], recorded: Sequence[Reply]) -> list[str]:
    """Returns the differences of one proxy, without its number."""
    left = sorted(recorded, key=lambda reply: reply.version)
    lines = []
    for answer in answers:
        if answer.reply is None:
            continue
        found = next((one for one in left if one.version == answer.version), None)
        if found is None:
            lines.append(f"{answer.version} missing")
            continue
        left.remove(found)
        lines += [
            f"{answer.version} {difference}" for difference in differences_of(answer.reply, found)
        ]
    return lines + [f"{one.version} unexpected" for one in left]


def checked(
    answers: Sequence[Sequence[Answer]], recorded: Sequence[Sequence[Reply]]
) -> tuple[str, int]:
    """Returns the text of a comparison with recorded replies, and the number of differences."""
    lines = [
        f"{proxy} {line}\n"
        for proxy, some in enumerate(answers)
        for line in checked_proxy(some, recorded[proxy])
    ]
    count = sum(len(some) for some in answers)
    return "".join(lines) + f"checked {count} batches, {len(lines)} differences\n", len(lines)
