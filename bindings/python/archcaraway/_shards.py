"""Several resolvers by key range: split points, clips and combined replies."""

from __future__ import annotations

import ctypes
import threading
from collections.abc import Iterable
from ctypes import c_size_t
from typing import Any

from ._errors import Error, check
from ._library import LIBRARY, Handle, KeyRecord
from ._objects import _FrameWriter
from ._values import Key, Reply, as_bytes, as_integer, decode

_MEMORY = 111  # FRAME_MEMORY: no fault of a reply


class SplitPointsError(Error, ValueError):
    """Keys are no split points. `index` is the first key at fault, or the number of keys."""

    index: int


class ReplyError(Error):
    """The replies of shards can't be combined. `shard` is the first whose reply isn't one to the
    batch, or the number of shards."""

    shard: int


class SplitPoints(_FrameWriter):
    """Keys that split all keys into shards with a resolver each: at most 63, strictly rising."""

    _kind = "split_points"

    def __init__(self, keys: Iterable[Key]) -> None:
        self._lock = threading.RLock()
        owned, bad, handle = [as_bytes(key) for key in keys], c_size_t(), Handle()
        array = (KeyRecord * len(owned))(*((key, len(key)) for key in owned))
        status = LIBRARY.archcaraway_split_points_new(array, len(owned), handle, bad)
        if status in (108, 301, 302):
            error = SplitPointsError(status)
            error.index = bad.value
            raise error
        check(status)
        self._handle = handle

    def _call(self, name: str, *arguments: Any) -> int:
        if name not in ("clip", "combine"):
            return super()._call(name, *arguments)
        with self._lock:
            return int(getattr(LIBRARY, f"archcaraway_{name}")(self._handle, *arguments))

    @property
    def shards(self) -> int:
        """The number of shards: one more than the keys; 0 if the object is closed."""
        return self._call("shards")

    def clip(self, shard: int, batch: Key) -> bytes:
        """Returns the frame of the batch of a shard."""
        frame, number = as_bytes(batch), as_integer("shard", shard, signed=False)
        return self._fill("clip", number, frame, len(frame), ())

    def combine(self, batch: Key, replies: Iterable[Key]) -> Reply:
        """Combines the frames of the replies of all shards, in their order, to the frame of a batch
        as it was before it was clipped."""
        frame, bad = as_bytes(batch), c_size_t()
        stream = b"".join(map(as_bytes, replies))
        try:
            return decode(self._fill("combine", frame, len(frame), stream, len(stream), (bad,)))
        except Error as refused:
            if bad.value == self.shards or refused.status == _MEMORY:
                raise
            error = ReplyError(refused.status)
            error.shard = bad.value
            raise error from None
