"""A conflict set and a transaction resolver, after FoundationDB 7.1, over the library for C.

>>> from archcaraway import ConflictSet, Transaction
>>> with ConflictSet() as conflicts:
...     first = conflicts.judge(100, [Transaction(0, writes=[b"k"])])
...     second = conflicts.judge(200, [Transaction(50, reads=[(b"a", b"z")])])
>>> first, second
((<Verdict.COMMITTED: 2>,), (<Verdict.CONFLICT: 0>,))
"""

from ._errors import ArgumentError, Error, FrameError, ProcessorError, Stop, VersionError
from ._library import LIBRARY
from ._objects import LIMIT, WINDOW, Answer, Batch, ConflictSet, Core, Kind, Stats
from ._shards import ReplyError, SplitPoints, SplitPointsError
from ._values import Entry, Key, Range, Reply, Transaction, Verdict, decode, encode, frames

_VERSION = LIBRARY.archcaraway_version()
__version__ = f"{_VERSION // 1_000_000}.{_VERSION // 1000 % 1000}.{_VERSION % 1000}"
__all__ = ["LIMIT", "WINDOW", "Answer", "ArgumentError", "Batch", "ConflictSet", "Core", "Entry"]
__all__ += ["Error", "FrameError", "Key", "Kind", "ProcessorError", "Range", "Reply", "Stats"]
__all__ += ["Stop", "Transaction", "Verdict", "VersionError", "decode", "encode", "frames"]
__all__ += ["ReplyError", "SplitPoints", "SplitPointsError"]
