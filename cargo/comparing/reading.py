"""Reads frames in the order of docs/WIRE.md, and names the first fault."""

import struct
from collections.abc import Callable
from typing import TypeVar

from .wire import MAX_BODY_LENGTH, VERDICTS, Batch, Entry, Range, Reply, Txn, single

T = TypeVar("T")

MAX_KEY_LENGTH = 10_001
MAX_RANGES = 1_024
MAX_TXNS = 4_096
FAULTS = {
    "Short": 1,
    "Long": 2,
    "Kind": 3,
    "Trailing": 4,
    "Version": 5,
    "Marks": 6,
    "Count": 7,
    "KeyLength": 8,
    "Inverted": 9,
    "Cut": 10,
    "Read": 12,
    "Form": 13,
    "Spelling": 14,
}


class Fault(Exception):
    """The fault of a frame, by its name."""

    def __init__(self, name: str) -> None:
        super().__init__(f"{FAULTS[name]} {name}")


class Body:
    """The fields of a body, from left to right."""

    def __init__(self, data: bytes) -> None:
        self.data = data
        self.at = 0

    def take(self, count: int) -> bytes:
        if self.at + count > len(self.data):
            raise Fault("Cut")
        self.at += count
        return self.data[self.at - count : self.at]

    def number(self, form: str, holds: Callable[[int], bool], fault: str) -> int:
        """Reads a number, which must hold, else this is the fault."""
        value = int(struct.unpack(">" + form, self.take(struct.calcsize(">" + form)))[0])
        if not holds(value):
            raise Fault(fault)
        return value

    def count(self, most: int) -> int:
        return self.number("H", lambda count: count <= most, "Count")

    def key(self, most: int) -> bytes:
        return self.take(self.number("H", lambda length: length <= most, "KeyLength"))

    def end(self) -> None:
        if self.at < len(self.data):
            raise Fault("Trailing")


def read_pair(body: Body) -> Range:
    begin = body.key(MAX_KEY_LENGTH)
    end = body.key(MAX_KEY_LENGTH)
    if end < begin:
        raise Fault("Inverted")
    return Range(begin, end)


def read_range(body: Body, kind: int) -> Range:
    if kind == 1:
        return read_pair(body)
    if body.number("B", lambda form: form <= 1, "Form") == 1:
        return single(body.key(MAX_KEY_LENGTH - 1))
    pair = read_pair(body)
    if pair.is_single:
        raise Fault("Spelling")
    return pair


def read_txn(body: Body, kind: int) -> Txn:
    snapshot = body.number("q", lambda version: version >= 0, "Version")
    report = body.number("B", lambda marks: marks <= 1, "Marks") == 1
    reads, writes = body.count(MAX_RANGES), body.count(MAX_RANGES)
    ranges = [read_range(body, kind) for _ in range(reads + writes)]
    return Txn(snapshot, report, tuple(ranges[:reads]), tuple(ranges[reads:]))


def read_batch(body: Body) -> Batch:
    kind = body.number("B", lambda kind: kind in (1, 3), "Kind")
    previous = body.number("q", lambda version: version >= -1, "Version")
    version = body.number("q", lambda version: version >= 0 and version > previous, "Version")
    received = body.number("q", lambda received: -1 <= received < version, "Version")
    txns = tuple(read_txn(body, kind) for _ in range(body.count(MAX_TXNS)))
    return Batch(previous, version, received, txns)


def read_entry(body: Body) -> Entry:
    verdict = VERDICTS[body.number("B", lambda verdict: verdict <= 2, "Kind")]
    count = body.count(MAX_RANGES if verdict == "conflict" else 0)
    indices: list[int] = []
    for _ in range(count):
        last = indices[-1] if indices else -1
        indices.append(body.number("H", lambda index: last < index < MAX_RANGES, "Marks"))
    return Entry(verdict, tuple(indices))


def read_reply(body: Body) -> Reply:
    body.number("B", lambda kind: kind == 2, "Kind")
    version = body.number("q", lambda version: version >= 0, "Version")
    return Reply(version, tuple(read_entry(body) for _ in range(body.count(MAX_TXNS))))


def body_at(data: bytes, at: int) -> Body:
    """Returns the body of the frame that begins here."""
    if len(data) < at + 4:
        raise Fault("Short")
    (length,) = struct.unpack(">I", data[at : at + 4])
    if length > MAX_BODY_LENGTH:
        raise Fault("Long")
    if len(data) < at + 4 + length:
        raise Fault("Short")
    return Body(data[at + 4 : at + 4 + length])


def frames(data: bytes, read: Callable[[Body], T]) -> tuple[list[T], str]:
    """Reads frames to the end of a file.

    Returns them, and the fault by number and name, or an empty text.
    """
    found: list[T] = []
    at = 0
    while at < len(data):
        try:
            body = body_at(data, at)
            one = read(body)
            body.end()
        except Fault as fault:
            return found, str(fault)
        found.append(one)
        at += 4 + len(body.data)
    return found, ""
