"""Batches and replies, and their frames by docs/WIRE.md.

Written apart from the programs, which read what it writes.
"""

import struct
from collections.abc import Iterable
from dataclasses import dataclass, field

MAX_BODY_LENGTH = 4_194_304
VERDICTS = ("conflict", "tooold", "committed")


@dataclass(frozen=True)
class Range:
    begin: bytes
    end: bytes

    @property
    def is_single(self) -> bool:
        return self.end == self.begin + b"\0"

    @property
    def is_empty(self) -> bool:
        return self.begin == self.end

    def meets(self, other: "Range") -> bool:
        """Whether some string of bytes is in both ranges."""
        if self.is_empty or other.is_empty:
            return False
        return self.begin < other.end and other.begin < self.end


def single(key: bytes) -> Range:
    """Returns the range of one key."""
    return Range(key, key + b"\0")


@dataclass(frozen=True)
class Txn:
    snapshot: int
    report: bool = False
    reads: tuple[Range, ...] = ()
    writes: tuple[Range, ...] = ()


@dataclass(frozen=True)
class Batch:
    previous: int
    version: int
    received: int = -1
    txns: tuple[Txn, ...] = ()


@dataclass(frozen=True)
class Entry:
    verdict: str
    indices: tuple[int, ...] = ()


@dataclass(frozen=True)
class Reply:
    version: int
    entries: tuple[Entry, ...] = field(default=())


def framed(body: bytes) -> bytes:
    return struct.pack(">I", len(body)) + body


def text(key: bytes) -> bytes:
    return struct.pack(">H", len(key)) + key


def range_bytes(of: Range, version: int) -> bytes:
    """Returns the range in this version of the wire form."""
    if version == 1:
        return text(of.begin) + text(of.end)
    if of.is_single:
        return b"\1" + text(of.begin)
    return b"\0" + text(of.begin) + text(of.end)


def txn_bytes(txn: Txn, version: int) -> bytes:
    head = struct.pack(">qBHH", txn.snapshot, txn.report, len(txn.reads), len(txn.writes))
    return head + b"".join(range_bytes(one, version) for one in txn.reads + txn.writes)


def batch_frame(batch: Batch, version: int = 1) -> bytes:
    """Returns the frame of a batch in this version of the wire form."""
    kind = 1 if version == 1 else 3
    head = struct.pack(
        ">BqqqH", kind, batch.previous, batch.version, batch.received, len(batch.txns)
    )
    return framed(head + b"".join(txn_bytes(txn, version) for txn in batch.txns))


def entry_bytes(entry: Entry) -> bytes:
    head = struct.pack(">BH", VERDICTS.index(entry.verdict), len(entry.indices))
    return head + b"".join(struct.pack(">H", index) for index in entry.indices)


def reply_frame(reply: Reply) -> bytes:
    """Returns the frame of a reply. Both versions of the wire form have the same."""
    head = struct.pack(">BqH", 2, reply.version, len(reply.entries))
    return framed(head + b"".join(entry_bytes(entry) for entry in reply.entries))


def file_of(batches: Iterable[Batch], version: int = 1) -> bytes:
    return b"".join(batch_frame(batch, version) for batch in batches)
