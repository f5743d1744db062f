"""Conflict sets and cores."""

from __future__ import annotations

import contextlib
import ctypes
import enum
import threading
from collections.abc import Iterable, Iterator
from dataclasses import dataclass
from typing import Any, Optional, TypeVar, Union

from ._errors import ARENA_FULL, Stop, check
from ._library import LIBRARY, Handle, StatsRecord
from ._values import Key, Reply, Transaction, Verdict, as_bytes, as_integer, decode
from ._values import transaction_record

WINDOW, LIMIT = 5_000_000, 1_000_000
_MAX_TRANSACTIONS = 4096
_ARGUMENT, _BUFFER = 202, 203
_Self = TypeVar("_Self", bound="_Owner")


@dataclass(frozen=True)
class Stats:
    """What a set or a core reports about itself. A set holds no batches and owes no answers."""

    boundaries: int
    limit: int
    version: int
    edge: int
    held: int
    owed: int


class _Owner:
    """Owns an object of the library. Threads may share it: each call takes a lock."""

    _kind: str
    _handle: Optional[Handle] = None

    def _make(self, name: str, *numbers: int) -> None:
        self._lock = threading.RLock()
        handle = Handle()
        check(getattr(LIBRARY, f"archcaraway_{self._kind}_{name}")(*numbers, handle))
        self._handle = handle

    def _call(self, name: str, *arguments: Any) -> int:
        """Calls a function of the object. The library refuses the handle of a closed one."""
        function = getattr(LIBRARY, f"archcaraway_{self._kind}_{name}")
        with self._lock:
            return int(function(self._handle, *arguments) or 0)

    def close(self) -> None:
        """Frees the object. Later calls raise ArgumentError; closing it again does nothing."""
        if self._handle is not None:
            self._call("free")

    def _is_open(self) -> bool:
        return self._handle is not None and self._handle.at is not None

    def __enter__(self: _Self) -> _Self:
        return self

    def __exit__(self, *_: object) -> None:
        self.close()

    def __del__(self) -> None:
        self.close()

    def __reduce__(self) -> Any:
        raise TypeError(f"a {type(self).__name__} can't be copied or pickled")


class _FrameWriter(_Owner):
    """An object that writes frames."""

    _buffer = ctypes.create_string_buffer(0)

    def _fill(self, name: str, *arguments: Any) -> bytes:
        """Calls a function that writes a frame. The last argument is what follows its buffer."""
        *before, after = arguments
        length, status = ctypes.c_size_t(4096), _BUFFER
        with self._lock:
            while status == _BUFFER:
                if length.value > len(self._buffer):
                    self._buffer = ctypes.create_string_buffer(length.value)
                status = self._call(name, *before, self._buffer, len(self._buffer), length, *after)
            check(status)
            return ctypes.string_at(self._buffer, length.value)


@contextlib.contextmanager
def _both(one: _Owner, other: _Owner) -> Iterator[None]:
    """Takes the locks of both, in the same order in every thread."""
    first, second = sorted((one, other), key=id)
    with first._lock, second._lock:
        yield


class Batch(_Owner):
    """Transactions without a frame, for sets and cores, which may take them again and again.

    It has copies of the keys. After a refused call it is as before.
    """

    _kind = "batch"

    def __init__(self, transactions: Iterable[Transaction] = ()) -> None:
        self._make("new")
        for transaction in transactions:
            self.add(transaction)

    def add(self, transaction: Transaction) -> None:
        """Adds a transaction after the others."""
        check(self._call("add", transaction_record(transaction)))

    def append(self, other: Batch) -> None:
        """Appends the transactions of another batch, which another thread may have added."""
        with _both(self, other):
            check(self._call("append", other._handle))

    def drop_last(self) -> None:
        """Removes the last transaction, if there is one."""
        self._change("drop_last")

    def clear(self) -> None:
        """Removes all transactions. Their memory is kept for others."""
        self._change("clear")

    def _change(self, name: str) -> None:
        with self._lock:
            check(0 if self._is_open() else _ARGUMENT)
            self._call(name)

    @property
    def room(self) -> int:
        """How many more transactions may be added; 0 if the batch is closed."""
        return self._call("room")

    def __len__(self) -> int:
        with self._lock:
            return _MAX_TRANSACTIONS - self.room if self._is_open() else 0


class _Judge(_FrameWriter):
    """A set or a core: it has numbers."""

    @property
    def stats(self) -> Stats:
        """Boundaries, limit, version, edge, batches held and answers owed."""
        record = StatsRecord()
        check(self._call("stats", record))
        return Stats(*(getattr(record, name) for name, _ in record._fields_))

    @property
    def bytes_held(self) -> int:
        """About how many bytes of memory the set uses for boundaries and filter; 0 if closed."""
        return self._call("bytes_held")


class ConflictSet(_Judge):
    """The committed writes of the last `window` versions, in at most `limit` boundaries.

    What was written up to `version` isn't known: reads with a snapshot below it conflict.
    """

    _kind = "set"

    def __init__(self, window: int = WINDOW, limit: int = LIMIT, version: int = -1) -> None:
        numbers = as_integer("window", window), as_integer("limit", limit, signed=False)
        self._make("new_at", *numbers, as_integer("version", version))

    def resolve(self, batch: Key) -> Reply:
        """Judges the batch of a frame. After FrameError and VersionError the set is as before."""
        frame = as_bytes(batch)
        return decode(self._fill("resolve", frame, len(frame), ()))

    def judge(
        self, version: int, batch: Union[Batch, Iterable[Transaction]]
    ) -> tuple[Verdict, ...]:
        """Judges transactions without a frame. After any error but Stop the set is as before."""
        if not isinstance(batch, Batch):
            with Batch(batch) as made:
                return self.judge(version, made)
        number = as_integer("version", version)
        with _both(self, batch):
            verdicts = ctypes.create_string_buffer(len(batch))
            check(self._call("judge_batch", number, batch._handle, verdicts, len(batch)))
        return tuple(map(Verdict, verdicts.raw))

    def try_resolve(self, batch: Key) -> Optional[Reply]:
        """Like resolve, but returns None if the batch doesn't fit the limit.

        Then the set is as before. A set that has met its limit in resolve always returns None.
        """
        frame = as_bytes(batch)
        try:
            return decode(self._fill("try_resolve", frame, len(frame), ()))
        except Stop as refused:
            if refused.status != ARENA_FULL:
                raise
            return None

    def trim(self) -> None:
        """Frees memory that the set doesn't need for its boundaries. It stays as it is."""
        check(self._call("trim"))

    @property
    def boundaries(self) -> int:
        """The number of boundaries that the set keeps; 0 if it is closed."""
        return self._call("boundaries")


class Kind(enum.IntEnum):
    REPLY = 1
    NEVER = 2
    HELD = 3


@dataclass(frozen=True)
class Answer:
    """The answer to the batch of a version: a reply, or why there is none."""

    kind: Kind
    version: int
    reply: Optional[Reply] = None


class Core(_Judge):
    """A resolver for the batches of many proxies, which may come early, late or twice.

    Its first batch follows `version`, and what was written up to that isn't known.
    """

    _kind = "core"

    def __init__(
        self, proxies: int, window: int = WINDOW, limit: int = LIMIT, version: int = -1
    ) -> None:
        numbers = as_integer("window", window), as_integer("limit", limit, signed=False)
        number = as_integer("proxies", proxies, 32, signed=False)
        self._make("new_at", number, *numbers, as_integer("version", version))

    def admit(self, proxy: int, batch: Key) -> None:
        """Takes the batch of a frame from a proxy. After Stop it takes no more."""
        frame = as_bytes(batch)
        check(self._call("admit", as_integer("proxy", proxy, 32, signed=False), frame, len(frame)))

    def admit_batch(
        self, proxy: int, batch: Batch, version: int, *, previous: int, received: int = -1
    ) -> None:
        """Takes transactions from a proxy, as the batch of these versions. They stay in `batch`."""
        versions = {"previous": previous, "version": version, "received": received}
        numbers = (as_integer(*item) for item in versions.items())
        number = as_integer("proxy", proxy, 32, signed=False)
        with _both(self, batch):
            check(self._call("admit_batch", number, batch._handle, *numbers))

    def finish(self) -> None:
        """Answers every batch that is still held."""
        check(self._call("finish"))

    def give(self, proxy: int) -> Optional[Answer]:
        """Returns the oldest answer owed to a proxy, or None. Continues after a stop."""
        number = as_integer("proxy", proxy, 32, signed=False)
        kind, version = ctypes.c_int(), ctypes.c_int64()
        frame = self._fill("give", number, (kind, version))
        if kind.value == 0:
            return None
        return Answer(Kind(kind.value), version.value, decode(frame) if frame else None)

    @property
    def next(self) -> Optional[int]:
        """The lowest proxy that is owed an answer, or None."""
        proxy = ctypes.c_uint32()
        return proxy.value if self._call("next", proxy) else None

    @property
    def owed(self) -> int:
        """The number of answers owed to all proxies; 0 if the core is closed."""
        return self._call("owed")

    @property
    def stop(self) -> Optional[Stop]:
        """The stop that the core has met, or None."""
        status = self._call("stop")
        return Stop(status) if 1 <= status <= 3 else None
