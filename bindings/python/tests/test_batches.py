"""Tests of batches without frames."""

from __future__ import annotations

import gc
import threading
from collections.abc import Iterator
from typing import Callable

import pytest
from archcaraway import (
    ArgumentError,
    Batch,
    ConflictSet,
    Core,
    FrameError,
    Kind,
    Stop,
    Transaction,
    Verdict,
    VersionError,
    encode,
)

CONFLICT, TOO_OLD, COMMITTED = Verdict.CONFLICT, Verdict.TOO_OLD, Verdict.COMMITTED


def test_verdicts() -> None:
    reads = [(b"a", b"b"), (b"c", b"d"), b"e"]
    with ConflictSet(window=150) as conflicts:
        first = conflicts.judge(100, [Transaction(0, writes=[(b"a", b"b"), (b"e", b"f")])])
        second = conflicts.judge(
            200,
            [Transaction(99, reads), Transaction(100, reads, [b"c"]), Transaction(200, [b"c"])],
        )
        assert conflicts.judge(300, []) == ()
        third = conflicts.judge(400, [Transaction(249, [b"z"]), Transaction(250, [b"z"])])
    assert (first, second) == ((COMMITTED,), (CONFLICT, COMMITTED, CONFLICT))
    assert third == (TOO_OLD, COMMITTED)


def test_single_keys_are_no_empty_ranges() -> None:
    rows = {
        CONFLICT: [b"k", (b"k", b"k\0"), bytearray(b"k"), memoryview(b"k"), b"z\0z"],
        COMMITTED: [(b"k", b"k"), b"k\0", b"", b"z", b"z\0"],
    }
    with ConflictSet() as conflicts:
        conflicts.judge(100, [Transaction(0, writes=[bytearray(b"k"), b"z\0z"])])
        version = 100
        for verdict, reads in rows.items():
            for read in reads:
                version += 1
                assert conflicts.judge(version, [Transaction(50, [read])]) == (verdict,), read


def test_keys_are_kept_until_they_are_copied() -> None:
    def keys() -> Iterator[bytearray]:
        for number in range(1000):
            if number % 100 == 0:
                gc.collect()
            yield bytearray(b"key %d" % number)

    batch = Batch([Transaction(0, writes=keys())])
    gc.collect()
    with ConflictSet() as conflicts:
        assert conflicts.judge(1, batch) == (COMMITTED,)
        reads = [Transaction(0, [b"key %d" % number]) for number in range(1000)]
        assert conflicts.judge(2, reads) == (CONFLICT,) * 1000
        assert conflicts.judge(3, [Transaction(0, [b"key 1000"])]) == (COMMITTED,)


def test_a_bad_transaction_is_refused_alone() -> None:
    key = b"k" * 10_001
    rows = {
        105: Transaction(-1),
        107: Transaction(0, [b"k"] * 1025),
        108: Transaction(0, [key]),
        109: Transaction(0, writes=[(b"b", b"a")]),
    }
    batch = Batch([Transaction(0, writes=[b"a"])])
    for status, transaction in rows.items():
        with pytest.raises(FrameError) as refused:
            batch.add(transaction)
        assert (refused.value.status, len(batch)) == (status, 1)
    batch.add(Transaction(0, [b"k"] * 1024, [b"k"] * 1024))
    batch.add(Transaction(0, [(b"", key)]))
    with ConflictSet() as conflicts:
        with pytest.raises(FrameError) as refused:
            conflicts.judge(1, rows.values())
        assert refused.value.status == 105
        assert conflicts.judge(1, batch) == (COMMITTED, COMMITTED, CONFLICT)


def test_wrong_types_and_numbers_are_refused() -> None:
    batch = Batch()
    for transaction in (Transaction(0, ["k"]), Transaction(0, [3]), Transaction("0")):
        with pytest.raises(TypeError):
            batch.add(transaction)
    for snapshot in (2**63, -(2**63) - 1):
        with pytest.raises(ValueError):
            batch.add(Transaction(snapshot))
    for keys in ((b"a",), (b"a", b"b", b"c")):
        with pytest.raises(ValueError):
            batch.add(Transaction(0, [keys]))
    assert len(batch) == 0
    with ConflictSet() as conflicts, Core(1) as core:
        for version in (2**63, 2**64 + 1):
            with pytest.raises(ValueError):
                conflicts.judge(version, batch)
            with pytest.raises(ValueError):
                core.admit_batch(0, batch, version, previous=-1)
        with pytest.raises(ValueError):
            core.admit_batch(2**32, batch, 1, previous=-1)


def test_room_drop_last_and_clear() -> None:
    batch = Batch()
    assert (len(batch), batch.room) == (0, 4096)
    batch.drop_last()
    for number in range(3):
        batch.add(Transaction(number, writes=[b"%d" % number]))
    batch.drop_last()
    assert (len(batch), batch.room) == (2, 4094)
    with ConflictSet() as conflicts:
        assert conflicts.judge(5, batch) == (COMMITTED,) * 2
        reads = [Transaction(4, [b"%d" % number]) for number in range(3)]
        assert conflicts.judge(6, reads) == (CONFLICT, CONFLICT, COMMITTED)
    batch.clear()
    assert (len(batch), batch.room) == (0, 4096)
    for _ in range(4096):
        batch.add(Transaction(0))
    with pytest.raises(FrameError) as refused:
        batch.add(Transaction(0))
    assert (refused.value.status, batch.room) == (107, 0)


def test_append() -> None:
    batch, other = Batch([Transaction(0, writes=[b"a"])]), Batch()
    batch.append(other)
    for _ in range(2):
        other.add(Transaction(0, [b"a"], [b"b"]))
    batch.append(other)
    assert (len(batch), len(other)) == (3, 2)
    with ConflictSet() as conflicts:
        assert conflicts.judge(1, batch) == (COMMITTED, CONFLICT, CONFLICT)
        assert conflicts.judge(2, other) == (CONFLICT, CONFLICT)
    with pytest.raises(ArgumentError):
        batch.append(batch)
    many = Batch(Transaction(0) for _ in range(4094))
    with pytest.raises(FrameError) as refused:
        batch.append(many)
    assert (refused.value.status, len(batch)) == (107, 3)


def test_the_same_batch_again() -> None:
    batch = Batch([Transaction(0, [b"k"], [b"k"])])
    with ConflictSet() as conflicts:
        assert conflicts.judge(1, batch) == (COMMITTED,)
        assert conflicts.judge(2, batch) == (CONFLICT,)
        with pytest.raises(VersionError):
            conflicts.judge(2, batch)
        with pytest.raises(VersionError):
            ConflictSet().judge(-1, batch)


def test_a_stop_is_final() -> None:
    with ConflictSet(limit=1) as conflicts:
        for version in (1, 2):
            with pytest.raises(Stop) as stop:
                conflicts.judge(version, [Transaction(0, writes=[b"k"])])
            assert stop.value.status == 3


def test_closed_objects_refuse_calls() -> None:
    batch, conflicts, core = Batch([Transaction(0)]), ConflictSet(), Core(1)
    with batch:
        pass
    batch.close()
    calls: list[Callable[[], object]] = [
        lambda: batch.add(Transaction(0)),
        batch.drop_last,
        batch.clear,
        lambda: batch.append(Batch()),
        lambda: Batch().append(batch),
        lambda: conflicts.judge(1, batch),
        lambda: core.admit_batch(0, batch, 1, previous=-1),
    ]
    for call in calls:
        with pytest.raises(ArgumentError):
            call()
    assert (len(batch), batch.room) == (0, 0)
    conflicts.close()
    core.close()
    with pytest.raises(ArgumentError):
        conflicts.judge(1, [])
    with pytest.raises(ArgumentError):
        core.admit_batch(0, Batch(), 1, previous=-1)


def test_a_core_takes_batches() -> None:
    batch = Batch([Transaction(0, [(b"a", b"b"), b"k"], [b"k"], report=True)])
    with Core(2) as core:
        core.admit_batch(1, batch, 200, previous=100)
        core.admit(0, encode(100, [Transaction(0, writes=[b"k"])]))
        core.admit_batch(1, batch, 300, previous=200, received=200)
        answers = [core.give(proxy) for proxy in (0, 1, 1)]
        assert core.stats.version == 300
        for versions in ((-2, 5, -1), (5, 5, -1), (4, 5, 5)):
            previous, version, received = versions
            with pytest.raises(ArgumentError):
                core.admit_batch(0, batch, version, previous=previous, received=received)
        with pytest.raises(ArgumentError):
            core.admit_batch(2, batch, 400, previous=300)
    assert all(answer is not None and answer.kind == Kind.REPLY for answer in answers)
    replies = [answer.reply for answer in answers if answer is not None]
    assert [reply.version for reply in replies if reply is not None] == [100, 200, 300]
    entries = [reply.entries[0] for reply in replies if reply is not None]
    verdicts = [(entry.verdict, entry.conflicts) for entry in entries]
    assert verdicts == [(COMMITTED, ()), (CONFLICT, (1,)), (CONFLICT, (1,))]


def test_frames_and_batches_agree() -> None:
    seed = 1

    def drawn(most: int) -> int:
        nonlocal seed
        seed = (seed * 6364136223846793005 + 1442695040888963407) % 2**64
        return (seed >> 33) % most

    def transaction(version: int) -> Transaction:
        def ranges() -> list[bytes | tuple[bytes, bytes]]:
            keys = [b"k%d" % drawn(9) for _ in range(drawn(4))]
            return [key if drawn(2) else (key, key + b"%d" % drawn(9)) for key in keys]

        return Transaction(max(0, version - 1 - drawn(5)), ranges(), ranges())

    with ConflictSet(window=4) as one, ConflictSet(window=4) as two:
        for version in range(1, 400):
            transactions = [transaction(version) for _ in range(drawn(6))]
            reply = one.resolve(encode(version, transactions))
            assert two.judge(version, transactions) == reply.verdicts
        assert one.stats == two.stats


def test_threads_fill_batches_that_one_appends() -> None:
    parts = [Batch() for _ in range(8)]

    def fill(part: Batch) -> None:
        for number in range(100):
            part.add(Transaction(0, writes=[b"%d" % number]))

    threads = [threading.Thread(target=fill, args=(part,)) for part in parts]
    for thread in threads:
        thread.start()
    for thread in threads:
        thread.join()
    batch = Batch()
    for part in parts:
        batch.append(part)
    with ConflictSet() as conflicts:
        assert conflicts.judge(1, batch) == (COMMITTED,) * 800
        assert conflicts.boundaries == 201


def test_threads_append_to_each_other() -> None:
    one, other = Batch([Transaction(0)]), Batch([Transaction(0)])

    def append(to: Batch, what: Batch) -> None:
        for _ in range(2000):
            to.append(what)
            to.drop_last()
            to.clear()

    threads = [threading.Thread(target=append, args=pair) for pair in ((one, other), (other, one))]
    for thread in threads:
        thread.start()
    for thread in threads:
        thread.join(60)
    assert not any(thread.is_alive() for thread in threads)
