"""What `batches opening`, `stats`, `split-points` and `clip` print, by plain definitions."""

import json
from collections.abc import Sequence

from .case import Outcome
from .lines import key_form
from .reading import frames, read_batch
from .wire import Batch, Range, Txn, batch_frame, file_of

GREATEST_KEY = b"\xff" * 10_001


def opening(version: int) -> bytes:
    """Returns the frame of the batch that starts a chain at a version."""
    return batch_frame(Batch(-1, version, txns=(Txn(0, writes=(Range(b"", GREATEST_KEY),)),)), 2)


def ranges_of(batches: Sequence[Batch]) -> list[Range]:
    return [one for batch in batches for txn in batch.txns for one in txn.reads + txn.writes]


def keys_of(of: Range) -> list[bytes]:
    """The keys that a range is written by."""
    return [of.begin] if of.is_single else [of.begin, of.end]


def mean(numbers: Sequence[int]) -> str:
    """The mean with one decimal, rounded up from the middle."""
    tenths = (20 * sum(numbers) + len(numbers)) // (2 * len(numbers))
    return f"{tenths // 10}.{tenths % 10}"


class Counted:
    """What the batches of some files add up to."""

    def __init__(self, contents: Sequence[bytes]) -> None:
        batches = [batch for content in contents for batch in frames(content, read_batch)[0]]
        txns = [txn for batch in batches for txn in batch.txns]
        self.bytes = sum(map(len, contents))
        self.versions = [batch.version for batch in batches]
        self.marked = sum(txn.report for txn in txns)
        self.per_batch = [len(batch.txns) for batch in batches]
        self.reads = [len(txn.reads) for txn in txns]
        self.writes = [len(txn.writes) for txn in txns]
        self.keys = [len(key) for one in ranges_of(batches) for key in keys_of(one)]

    def text(self) -> str:
        def spread(name: str, numbers: Sequence[int]) -> str:
            if not numbers:
                return f"{name}: none\n"
            return f"{name}: least {min(numbers)}, mean {mean(numbers)}, greatest {max(numbers)}\n"

        versions = f"{min(self.versions)} to {max(self.versions)}" if self.versions else "none"
        return (
            f"batches: {len(self.versions)}\nbytes: {self.bytes}\nversions: {versions}\n"
            f"transactions: {len(self.reads)}\ntransactions that request a report: {self.marked}\n"
            + spread("transactions per batch", self.per_batch)
            + f"read ranges: {sum(self.reads)}\n"
            + spread("read ranges per transaction", self.reads)
            + f"write ranges: {sum(self.writes)}\n"
            + spread("write ranges per transaction", self.writes)
            + f"keys: {len(self.keys)}\n"
            + spread("key bytes", self.keys)
        )

    def json(self) -> str:
        def spread(numbers: Sequence[int]) -> dict[str, float] | None:
            if not numbers:
                return None
            return {"least": min(numbers), "mean": float(mean(numbers)), "greatest": max(numbers)}

        members = {
            "batches": len(self.versions),
            "bytes": self.bytes,
            "versions": [min(self.versions), max(self.versions)] if self.versions else None,
            "transactions": len(self.reads),
            "reports": self.marked,
            "transactions_per_batch": spread(self.per_batch),
            "reads": sum(self.reads),
            "reads_per_transaction": spread(self.reads),
            "writes": sum(self.writes),
            "writes_per_transaction": spread(self.writes),
            "keys": len(self.keys),
            "key_bytes": spread(self.keys),
        }
        return json.dumps(members, separators=(",", ":")) + "\n"


def first_fault(names: Sequence[str], contents: Sequence[bytes]) -> Outcome | None:
    """What is printed of the first file that has a fault: nothing but a line on standard error."""
    for name, content in zip(names, contents):
        batches, fault = frames(content, read_batch)
        if fault:
            return Outcome(1, b"", f"batches: {name}: frame {len(batches) + 1}: {fault}\n".encode())
    return None


def stats(names: Sequence[str], contents: Sequence[bytes], is_json: bool) -> Outcome:
    counted = Counted(contents)
    text = counted.json() if is_json else counted.text()
    return first_fault(names, contents) or Outcome(0, text.encode(), b"")


def balanced(batches: Sequence[Batch], shards: int) -> list[bytes]:
    """At each split point, the remaining shards share the begins after it evenly."""
    points: list[bytes] = []
    rest = sorted(one.begin for one in ranges_of(batches) if one.begin)
    for done in range(shards - 1):
        part = len(rest) // (shards - done)
        if part < len(rest):
            points.append(rest[part])
            rest = [key for key in rest if key > points[-1]]
    return points


def point_lines(points: Sequence[bytes]) -> bytes:
    return "".join(f"{key_form(point)}\n" for point in points).encode()


def split_points(names: Sequence[str], contents: Sequence[bytes], shards: int) -> Outcome:
    batches = [batch for content in contents for batch in frames(content, read_batch)[0]]
    return first_fault(names, contents) or Outcome(0, point_lines(balanced(batches, shards)), b"")


def clip_of(of: Range, first: bytes, end: bytes | None) -> Range | None:
    """What the shard from a key up to another gets of a range, if it gets any of it."""
    if of.is_empty:
        return of if first <= of.begin and (end is None or of.begin < end) else None
    cut = Range(max(of.begin, first), of.end if end is None else min(of.end, end))
    return cut if cut.begin < cut.end else None


def clips_of(ranges: Sequence[Range], first: bytes, end: bytes | None) -> tuple[Range, ...]:
    clips = (clip_of(one, first, end) for one in ranges)
    return tuple(clip for clip in clips if clip is not None)


def batch_clip(batch: Batch, points: Sequence[bytes], shard: int) -> Batch:
    first, end = [b"", *points][shard], [*points, None][shard]
    txns = (
        Txn(
            txn.snapshot,
            txn.report,
            clips_of(txn.reads, first, end),
            clips_of(txn.writes, first, end),
        )
        for txn in batch.txns
    )
    return Batch(batch.previous, batch.version, batch.received, tuple(txns))


def clip(name: str, content: bytes, points: Sequence[bytes], shard: int) -> Outcome:
    batches, fault = frames(content, read_batch)
    err = f"batches: {name}: frame {len(batches) + 1}: {fault}\n" if fault else ""
    clips = [batch_clip(batch, points, shard) for batch in batches]
    return Outcome(1 if fault else 0, file_of(clips, 2), err.encode())
