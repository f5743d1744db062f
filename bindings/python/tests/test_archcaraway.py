"""Tests of the package: `python3 -m pytest` in bindings/python."""

from __future__ import annotations

import copy
import doctest
import pickle
import threading
from typing import Any, Callable

import archcaraway
import pytest
from archcaraway import (
    ArgumentError,
    ConflictSet,
    Core,
    Entry,
    Error,
    FrameError,
    Kind,
    Stats,
    Stop,
    Transaction,
    Verdict,
    VersionError,
    decode,
    encode,
    frames,
)


def test_docs() -> None:
    assert doctest.testmod(archcaraway).failed == 0


def test_verdicts_and_reports() -> None:
    with ConflictSet() as conflicts:
        conflicts.resolve(encode(100, [Transaction(0, writes=[(b"a", b"b"), (b"e", b"f")])]))
        reads = [(b"a", b"b"), (b"c", b"d"), b"e"]
        reply = conflicts.resolve(
            encode(200, [Transaction(99, reads, report=True), Transaction(100, reads, [b"c"])])
        )
    assert reply.version == 200
    assert reply.entries == (Entry(Verdict.CONFLICT, (0, 2)), Entry(Verdict.COMMITTED))
    assert reply.verdicts == (Verdict.CONFLICT, Verdict.COMMITTED)


def test_single_keys_are_no_empty_ranges() -> None:
    with ConflictSet() as conflicts:
        conflicts.resolve(encode(100, [Transaction(0, writes=[b"k", b"z\0z"])]))
        rows = {
            Verdict.CONFLICT: [b"k", (b"k", b"k\0"), bytearray(b"k"), memoryview(b"k"), b"z\0z"],
            Verdict.COMMITTED: [(b"k", b"k"), b"k\0", b"", b"z"],
        }
        version = 100
        for verdict, reads in rows.items():
            for read in reads:
                version += 1
                reply = conflicts.resolve(encode(version, [Transaction(50, [read])]))
                assert reply.verdicts == (verdict,), read


def test_too_old() -> None:
    with ConflictSet(window=10) as conflicts:
        reply = conflicts.resolve(encode(100, [Transaction(89, [b"k"]), Transaction(90, [b"k"])]))
    assert reply.verdicts == (Verdict.TOO_OLD, Verdict.COMMITTED)


def test_a_set_that_starts_at_a_version() -> None:
    with ConflictSet(version=1000) as conflicts:
        reads = [(900, b"k"), (1000, b"k"), (999, (b"", b"\xff")), (900, (b"k", b"k"))]
        transactions = [Transaction(snapshot, [read]) for snapshot, read in reads]
        reply = conflicts.resolve(encode(1001, transactions))
        assert conflicts.stats == Stats(2, 1_000_000, 1001, 0, 0, 0)
        with pytest.raises(VersionError):
            conflicts.resolve(encode(1001, []))
    conflict, committed = Verdict.CONFLICT, Verdict.COMMITTED
    assert reply.verdicts == (conflict, committed, conflict, committed)
    with ConflictSet(version=7) as conflicts, pytest.raises(VersionError):
        conflicts.resolve(encode(7, []))


def test_a_batch_that_does_not_fit_is_refused() -> None:
    def write(version: int, key: bytes) -> bytes:
        return encode(version, [Transaction(0, writes=[key])])

    with ConflictSet(limit=3) as conflicts:
        assert conflicts.try_resolve(write(100, b"k")) is not None
        before = conflicts.stats
        assert conflicts.try_resolve(write(200, b"m")) is None
        assert conflicts.stats == before
        reply = conflicts.try_resolve(encode(200, [Transaction(99, [b"k"])]))
        assert reply is not None and reply.verdicts == (Verdict.CONFLICT,)
        assert conflicts.try_resolve(write(5_000_101, b"m")) is not None
        with pytest.raises(VersionError):
            conflicts.try_resolve(write(5_000_101, b"m"))
        with pytest.raises(Stop):
            conflicts.resolve(write(5_000_102, b"n"))
        assert conflicts.try_resolve(encode(20_000_000, [])) is None


def test_a_trimmed_set_is_as_before() -> None:
    with ConflictSet() as conflicts:
        keys = [b"%0100d" % number for number in range(1000)]
        conflicts.resolve(encode(1, [Transaction(0, writes=[key]) for key in keys]))
        version = 5_000_002
        while conflicts.boundaries > 3:
            conflicts.resolve(encode(version, [Transaction(version - 1, writes=[b"k"])]))
            version += 1
        stats, before = conflicts.stats, conflicts.bytes_held
        conflicts.trim()
        assert conflicts.stats == stats
        assert 0 < conflicts.bytes_held < before / 2
        reads = [Transaction(version - back, [b"k"]) for back in (1, 2)]
        reply = conflicts.resolve(encode(version, reads))
        assert reply.verdicts == (Verdict.COMMITTED, Verdict.CONFLICT)
    assert conflicts.bytes_held == 0
    with pytest.raises(ArgumentError):
        conflicts.trim()


def test_a_stopped_set_stays_stopped_when_trimmed() -> None:
    with ConflictSet(limit=1) as conflicts:
        for version in (1, 2):
            with pytest.raises(Stop) as refused:
                conflicts.resolve(encode(version, [Transaction(0, writes=[b"k"])]))
            assert refused.value.status == 3
            conflicts.trim()


def test_a_core_that_starts_at_a_version() -> None:
    start = 10**9
    with Core(3, version=start) as core:
        assert core.next is None
        for previous, version in ((0, 1), (1, 2), (0, 9), (8, 10)):
            core.admit(2, encode(start + version, [], previous=start + previous))
        core.admit(1, encode(start, [], previous=-1))
        assert core.stats == Stats(2, 1_000_000, start + 2, start + 2 - 5_000_000, 1, 4)
        with ConflictSet(version=start) as conflicts:
            assert core.bytes_held == conflicts.bytes_held > 0
        answers = []
        while (proxy := core.next) is not None:
            answer = core.give(proxy)
            assert answer is not None
            answers.append((proxy, answer.kind, answer.version - start))
    assert answers == [
        (1, Kind.NEVER, 0),
        (2, Kind.REPLY, 1),
        (2, Kind.REPLY, 2),
        (2, Kind.NEVER, 9),
    ]
    assert core.next is None
    with pytest.raises(ArgumentError):
        core.stats


def test_a_limit_that_is_too_small_for_a_start() -> None:
    for make in (lambda: ConflictSet(limit=2, version=0), lambda: Core(1, limit=2, version=0)):
        with pytest.raises(Stop) as refused:
            make()
        assert refused.value.status == 3
    with ConflictSet(limit=3, version=0), ConflictSet(limit=1, version=-1):
        pass
    with pytest.raises(ArgumentError):
        ConflictSet(version=-2)


def test_a_closed_object_refuses_calls() -> None:
    conflicts, core = ConflictSet(), Core(1)
    for owner in (conflicts, core):
        with owner:
            pass
        with owner:
            pass
        owner.close()
        owner.close()
    with pytest.raises(ArgumentError):
        conflicts.resolve(encode(1, []))
    for call in (lambda: core.admit(0, encode(1, [])), core.finish, lambda: core.give(0)):
        with pytest.raises(ArgumentError):
            call()
    assert (conflicts.boundaries, core.owed, core.stop) == (0, 0, None)


@pytest.mark.parametrize("owner", [ConflictSet, lambda: Core(2)])
@pytest.mark.parametrize("duplicate", [copy.copy, copy.deepcopy, pickle.dumps])
def test_an_object_has_one_owner(owner: Callable[[], Any], duplicate: Callable[[Any], Any]) -> None:
    with owner() as made, pytest.raises(TypeError):
        duplicate(made)


@pytest.mark.parametrize(
    "make",
    [
        lambda: ConflictSet(window=0),
        lambda: ConflictSet(window=2**40 + 1),
        lambda: ConflictSet(window=2**64 + 5),
        lambda: ConflictSet(limit=0),
        lambda: ConflictSet(limit=-1),
        lambda: ConflictSet(limit=2**64 + 1),
        lambda: Core(0),
        lambda: Core(65),
        lambda: Core(2**32 + 1),
        lambda: encode(2**63, []),
        lambda: encode(1, [], previous=-(2**63) - 1),
        lambda: encode(1, [Transaction(2**64)]),
    ],
)
def test_numbers_outside_their_ranges(make: Callable[[], object]) -> None:
    with pytest.raises(ValueError):
        make()


@pytest.mark.parametrize(
    "make",
    [
        lambda: ConflictSet(window="5"),
        lambda: ConflictSet(window=5.0),
        lambda: encode(1, [Transaction(0, ["k"])]),
        lambda: encode(1, [Transaction(0, [("a", "b")])]),
        lambda: encode(1, [Transaction(0, b"k")]),
        lambda: ConflictSet().resolve("frame"),
        lambda: ConflictSet().resolve(31),
    ],
)
def test_values_of_other_types(make: Callable[[], object]) -> None:
    with pytest.raises(TypeError):
        make()


@pytest.mark.parametrize(
    ("status", "make"),
    [
        (105, lambda: encode(-1, [])),
        (105, lambda: encode(5, [], previous=5)),
        (105, lambda: encode(5, [Transaction(-1)])),
        (107, lambda: encode(5, [Transaction(0)] * 4097)),
        (107, lambda: encode(5, [Transaction(0, [b"k"] * 1025)])),
        (108, lambda: encode(5, [Transaction(0, [b"k" * 10001])])),
        (109, lambda: encode(5, [Transaction(0, [(b"b", b"a")])])),
        (101, lambda: decode(b"")),
        (103, lambda: decode(encode(5, []))),
        (101, lambda: list(frames(encode(5, []) + b"\0"))),
        (204, lambda: ConflictSet().resolve(encode(5, []) + b"\0")),
    ],
)
def test_faults_of_frames(status: int, make: Callable[[], object]) -> None:
    with pytest.raises(FrameError) as caught:
        make()
    assert caught.value.status == status


def test_a_late_version_changes_nothing() -> None:
    with ConflictSet() as conflicts:
        conflicts.resolve(encode(100, [Transaction(0, writes=[b"k"])]))
        with pytest.raises(VersionError):
            conflicts.resolve(encode(100, [Transaction(0, writes=[b"z"])]))
        assert conflicts.boundaries == 3


def test_a_stop_is_final() -> None:
    with ConflictSet(limit=1) as conflicts:
        for version in (1, 2):
            with pytest.raises(Stop) as caught:
                conflicts.resolve(encode(version, [Transaction(0, writes=[b"k"])]))
            assert caught.value.status == 3
    with Core(1, limit=1) as core:
        with pytest.raises(Stop):
            core.admit(0, encode(0, [Transaction(0, writes=[b"k"])]))
        assert core.stop is not None and core.stop.status == 3
        assert core.give(0) is None


def test_a_core_orders_batches() -> None:
    with Core(2) as core:
        core.admit(1, encode(100, [Transaction(0, writes=[b"k"])], previous=0))
        assert core.owed == 0 and core.give(1) is None
        core.admit(0, encode(0, []))
        core.admit(0, encode(900, [], previous=800))
        core.finish()
        assert core.owed == 3
        first, last = core.give(0), core.give(0)
        assert first is not None and (first.kind, first.version) == (Kind.REPLY, 0)
        assert last is not None and (last.kind, last.version, last.reply) == (Kind.HELD, 900, None)
        answer = core.give(1)
        assert answer is not None and answer.reply is not None
        assert answer.reply.verdicts == (Verdict.COMMITTED,)
        with pytest.raises(ArgumentError):
            core.give(2)


def test_a_long_reply() -> None:
    reads = [(b"a", b"z")] * 1024
    with ConflictSet() as conflicts, Core(1) as core:
        write = [Transaction(0, writes=[b"k"])]
        conflicts.resolve(encode(1, write))
        reply = conflicts.resolve(encode(2, [Transaction(0, reads, report=True)] * 20))
        assert all(entry.conflicts == tuple(range(1024)) for entry in reply.entries)
        core.admit(0, encode(1, write))
        core.admit(0, encode(2, [Transaction(0, reads, report=True)] * 20, previous=1))
        core.give(0)
        answer = core.give(0)
        assert answer is not None and answer.reply == reply


def test_frames_divide_a_stream() -> None:
    batches = [encode(version, [Transaction(0, [b"k" * version])]) for version in range(1, 50)]
    assert list(frames(b"".join(batches))) == batches


def test_threads_share_a_set() -> None:
    committed = []
    with ConflictSet() as conflicts:
        lock, version = threading.Lock(), [0]

        def work() -> None:
            for _ in range(500):
                with lock:
                    version[0] += 1
                    batch = encode(version[0], [Transaction(version[0] - 1, [b"k"], [b"k"])])
                    committed.append(conflicts.resolve(batch).verdicts)

        threads = [threading.Thread(target=work) for _ in range(8)]
        for thread in threads:
            thread.start()
        conflicts_seen = [conflicts.boundaries for _ in range(1000)]
        for thread in threads:
            thread.join()
    assert len(committed) == 4000 and set(committed) == {(Verdict.COMMITTED,)}
    assert set(conflicts_seen) <= {1, 3}


def test_closing_waits_for_a_call() -> None:
    conflicts = ConflictSet()
    writes = {version: Transaction(0, writes=[b"%d" % version]) for version in range(1, 2000)}
    batches = [encode(version, [write]) for version, write in writes.items()]

    def work() -> None:
        for batch in batches:
            try:
                conflicts.resolve(batch)
            except (VersionError, ArgumentError):
                pass

    threads = [threading.Thread(target=work) for _ in range(4)]
    for thread in threads:
        thread.start()
    conflicts.close()
    for thread in threads:
        thread.join()
    with pytest.raises(ArgumentError):
        conflicts.resolve(batches[-1])


def test_errors_have_the_text_of_their_status() -> None:
    assert str(Error(203)) == "buffer: too small"
    assert str(Error(9999)) == "unknown status"
