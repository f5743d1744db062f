"""Batches and replies: values, and their frames."""

from __future__ import annotations

import ctypes
import enum
import operator
from collections.abc import Iterable, Iterator
from dataclasses import dataclass
from typing import Union

from ._errors import check
from ._library import LIBRARY, EntryReader, KeyRecord, RangeRecord, ReplyReader
from ._library import TransactionRecord, Writer

Key = Union[bytes, bytearray, memoryview]
Range = Union[Key, "tuple[Key, Key]"]
"""A single key, or the pair of a begin and an end, which the range doesn't hold."""


class Verdict(enum.IntEnum):
    CONFLICT = 0
    TOO_OLD = 1
    COMMITTED = 2


@dataclass(frozen=True)
class Transaction:
    """`snapshot` is its read version. With `report`, a conflict lists the indices of such reads."""

    snapshot: int
    reads: Iterable[Range] = ()
    writes: Iterable[Range] = ()
    report: bool = False


@dataclass(frozen=True)
class Entry:
    """The verdict on a transaction, and the conflicting reads of one that asks for them."""

    verdict: Verdict
    conflicts: tuple[int, ...] = ()


@dataclass(frozen=True)
class Reply:
    """The reply to the batch of a version: one entry per transaction, in order."""

    version: int
    entries: tuple[Entry, ...]

    @property
    def verdicts(self) -> tuple[Verdict, ...]:
        return tuple(entry.verdict for entry in self.entries)


def as_bytes(value: Key) -> bytes:
    """Returns bytes, and refuses text and numbers."""
    if not isinstance(value, (bytes, bytearray, memoryview)):
        raise TypeError(f"bytes are needed, not {type(value).__name__}")
    return bytes(value)


def as_integer(name: str, value: int, bits: int = 64, signed: bool = True) -> int:
    """Returns an integer that its C type can hold. ctypes would drop the other bits."""
    number = operator.index(value)
    least, most = (-(1 << bits - 1), (1 << bits - 1) - 1) if signed else (0, (1 << bits) - 1)
    if not least <= number <= most:
        raise ValueError(f"{name} is {number}, and not from {least} to {most}")
    return number


def _key_record(key: Key) -> KeyRecord:
    kept = as_bytes(key)
    return KeyRecord(kept, len(kept))


def _range_record(item: Range) -> RangeRecord:
    if isinstance(item, tuple):
        begin, end = map(_key_record, item)
        return RangeRecord(begin, end, False)
    return RangeRecord(_key_record(item), KeyRecord(), True)


def _range_records(items: Iterable[Range]) -> ctypes.Array[RangeRecord]:
    records = [_range_record(item) for item in items]
    return (RangeRecord * len(records))(*records)


def transaction_record(transaction: Transaction) -> TransactionRecord:
    """Returns the transaction as C reads it. The record keeps the bytes that it points to."""
    snapshot = as_integer("snapshot", transaction.snapshot)
    reads, writes = _range_records(transaction.reads), _range_records(transaction.writes)
    report = bool(transaction.report)
    return TransactionRecord(snapshot, reads, len(reads), writes, len(writes), report)


def _add(writer: ctypes._Pointer[Writer], kind: str, item: Range) -> None:
    if isinstance(item, tuple):
        begin, end = (as_bytes(key) for key in item)
        add = getattr(LIBRARY, f"archcaraway_batch_{kind}")
        check(add(writer, begin, len(begin), end, len(end)))
    else:
        key = as_bytes(item)
        check(getattr(LIBRARY, f"archcaraway_batch_{kind}_key")(writer, key, len(key)))


def encode(
    version: int, transactions: Iterable[Transaction], *, previous: int = -1, received: int = -1
) -> bytes:
    """Returns the frame of a batch. Raises FrameError if it exceeds a limit.

    `previous` is the version of the batch before, `received` that of the last reply that came.
    """
    versions = {"previous": previous, "version": version, "received": received}
    owned = LIBRARY.archcaraway_writer_new(None, None)
    writer = ctypes.pointer(owned)
    try:
        numbers = (as_integer(*item) for item in versions.items())
        check(LIBRARY.archcaraway_batch_begin(writer, *numbers))
        for transaction in transactions:
            snapshot = as_integer("snapshot", transaction.snapshot)
            check(LIBRARY.archcaraway_batch_transaction(writer, snapshot, bool(transaction.report)))
            for item in transaction.reads:
                _add(writer, "read", item)
            for item in transaction.writes:
                _add(writer, "write", item)
        check(LIBRARY.archcaraway_batch_end(writer))
        return ctypes.string_at(owned.bytes, owned.length)
    finally:
        LIBRARY.archcaraway_writer_free(writer)


def decode(frame: Key) -> Reply:
    """Reads the frame of a reply at the front of the bytes. Raises FrameError if there is none."""
    kept, reader, entry, entries = as_bytes(frame), ReplyReader(), EntryReader(), []
    check(LIBRARY.archcaraway_reply_read(reader, kept, len(kept)))
    while LIBRARY.archcaraway_reply_next(reader, entry):
        places = (LIBRARY.archcaraway_entry_place(entry, index) for index in range(entry.count))
        entries.append(Entry(Verdict(entry.verdict), tuple(places)))
    return Reply(reader.version, tuple(entries))


def frames(data: Key) -> Iterator[bytes]:
    """Divides a stream of frames. Raises FrameError after the last one, if bytes follow."""
    stream, length, at = as_bytes(data), ctypes.c_size_t(), 0
    start = ctypes.cast(ctypes.c_char_p(stream), ctypes.c_void_p).value or 0
    while at < len(stream):
        rest = ctypes.c_char_p(start + at)
        check(LIBRARY.archcaraway_frame_length(rest, len(stream) - at, length))
        yield stream[at : at + length.value]
        at += length.value
