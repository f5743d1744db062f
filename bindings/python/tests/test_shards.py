"""Tests of split points, clips and combined replies, by the rows of tests/shards.txt."""

from __future__ import annotations

import struct
from pathlib import Path
from typing import Callable

import pytest
from archcaraway import ArgumentError, ConflictSet, FrameError, ReplyError, SplitPoints
from archcaraway import SplitPointsError, Transaction, decode, encode

ROWS = Path(__file__).resolve().parents[3] / "tests/shards.txt"


def batch_frame(text: str) -> bytes:
    versions, *transactions = text.split("; ")
    previous, version = map(int, versions.split(">"))
    values = []
    for transaction in transactions:
        snapshot, *words = transaction.split(" ")
        ranges: dict[str, list[tuple[bytes, bytes]]] = {"R": [], "W": []}
        for word in words:
            if word != "m":
                begin, end = word[2:-1].split(",")
                ranges[word[0]].append((begin.encode(), end.encode()))
        values.append(Transaction(int(snapshot[1:]), ranges["R"], ranges["W"], "m" in words))
    return encode(version, values, previous=previous)


def reply_frame(text: str) -> bytes:
    version, *words = text.split(" ")
    body = struct.pack(">BqH", 2, int(version[:-1]), len(words))
    for word in words:
        places = [int(place) for place in word[1:].split(",") if place]
        body += struct.pack(f">BH{len(places)}H", "XTC".index(word[0]), len(places), *places)
    return struct.pack(">I", len(body)) + body


def split(words: str) -> SplitPoints:
    return SplitPoints([word.encode() for word in words.split(" ")])


def test_rows() -> None:
    combined = 0
    for line in ROWS.read_text().splitlines():
        word, _, rest = line.partition(" ")
        if word == "points":
            points = split(rest)
            sets, alone = [ConflictSet() for _ in range(points.shards)], ConflictSet()
        elif word == "batch":
            frame, replies = batch_frame(rest), list[bytes]()
        elif word == "clip":
            clip = points.clip(len(replies), frame)
            assert clip == batch_frame(rest)
        elif word == "reply":
            assert sets[len(replies)].resolve(clip) == decode(reply_frame(rest))
            replies.append(reply_frame(rest))
        elif word == "combined":
            assert points.combine(frame, replies) == decode(reply_frame(rest))
            combined += 1
        elif word == "alone":
            assert alone.resolve(frame) == decode(reply_frame(rest))
    assert combined == 11


def test_refused_split_points() -> None:
    rows = [
        ([b"h", b"p", b"c"], 302, 2),
        ([b""], 302, 0),
        ([bytes(length) for length in range(1, 65)], 301, 64),
        ([b"a", bytes(10_002)], 108, 1),
    ]
    for keys, status, index in rows:
        with pytest.raises(SplitPointsError) as refused:
            SplitPoints(keys)
        assert (refused.value.status, refused.value.index) == (status, index)
    with pytest.raises(TypeError):
        SplitPoints(["m"])  # type: ignore[list-item]


def test_refused_replies() -> None:
    points, frame = split("m"), batch_frame("0>100; @50 m R[a,b) R[c,d) R[x,y)")
    rows = [
        (["100: X1", "200: C"], 311, 1),
        (["100: C C", "100: C"], 312, 0),
        (["100: X1", "100: X1"], 313, 1),
        (["100: X1"], 101, 1),
    ]
    for replies, status, shard in rows:
        with pytest.raises(ReplyError) as refused:
            points.combine(frame, map(reply_frame, replies))
        assert (refused.value.status, refused.value.shard) == (status, shard)
    others: list[tuple[type[Exception], Callable[[], object]]] = [
        (FrameError, lambda: points.combine(frame, [reply_frame("100: C")] * 3)),
        (FrameError, lambda: points.combine(b"", [])),
        (FrameError, lambda: points.clip(0, b"")),
        (ArgumentError, lambda: points.clip(2, frame)),
        (ValueError, lambda: points.clip(-1, frame)),
    ]
    for error, call in others:
        with pytest.raises(error):
            call()
    points.close()
    points.close()
    assert points.shards == 0
    with pytest.raises(ArgumentError):
        points.combine(frame, [])
