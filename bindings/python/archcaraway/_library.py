"""The functions of the C headers, by ctypes."""

from __future__ import annotations

import os
from ctypes import CDLL, POINTER, Structure, c_bool, c_char_p, c_int, c_int64, c_size_t, c_uint
from ctypes import c_uint32, c_uint64, c_void_p
from pathlib import Path


class Handle(Structure):  # archcaraway_set, _core, _batch and _split_points
    _fields_ = [("at", c_void_p)]


class KeyRecord(Structure):  # archcaraway_bytes
    _fields_ = [("bytes", c_char_p), ("length", c_size_t)]


class RangeRecord(Structure):  # archcaraway_range
    _fields_ = [("begin", KeyRecord), ("end", KeyRecord), ("single", c_bool)]


class TransactionRecord(Structure):  # archcaraway_txn
    _fields_ = [("snapshot", c_int64), ("reads", POINTER(RangeRecord)), ("read_count", c_size_t)]
    _fields_ += [("writes", POINTER(RangeRecord)), ("write_count", c_size_t), ("report", c_bool)]


class Writer(Structure):  # archcaraway_writer
    _fields_ = [("bytes", c_void_p), ("length", c_size_t), ("capacity", c_size_t)]
    _fields_ += [("grow", c_void_p), ("context", c_void_p), ("status", c_int)]
    _fields_ += [("transaction", c_size_t)]
    _fields_ += [("count", c_uint), ("reads", c_uint), ("writes", c_uint)]


class ReplyReader(Structure):  # archcaraway_reply
    _fields_ = [("version", c_int64), ("count", c_uint), ("length", c_size_t), ("at", c_void_p)]
    _fields_ += [("left", c_uint)]


class EntryReader(Structure):  # archcaraway_entry
    _fields_ = [("verdict", c_int), ("count", c_uint), ("places", c_void_p)]


class StatsRecord(Structure):  # archcaraway_stats
    _fields_ = [("boundaries", c_uint64), ("limit", c_uint64), ("version", c_int64)]
    _fields_ += [("edge", c_int64), ("held", c_uint64), ("owed", c_uint64)]


_KEY = (c_char_p, c_size_t)
_BUFFER = (c_char_p, c_size_t, POINTER(c_size_t))
_HANDLE = POINTER(Handle)
_WRITER = POINTER(Writer)

# The result of each function, and its parameters.
_FUNCTIONS = {
    "version": (c_int,),
    "status_text": (c_char_p, c_int),
    "set_new": (c_int, c_int64, c_uint64, _HANDLE),
    "set_new_at": (c_int, c_int64, c_uint64, c_int64, _HANDLE),
    "set_stats": (c_int, _HANDLE, POINTER(StatsRecord)),
    "set_resolve": (c_int, _HANDLE, *_KEY, *_BUFFER),
    "set_try_resolve": (c_int, _HANDLE, *_KEY, *_BUFFER),
    "set_boundaries": (c_uint64, _HANDLE),
    "set_bytes_held": (c_uint64, _HANDLE),
    "set_trim": (c_int, _HANDLE),
    "set_free": (None, _HANDLE),
    "core_new": (c_int, c_uint32, c_int64, c_uint64, _HANDLE),
    "core_new_at": (c_int, c_uint32, c_int64, c_uint64, c_int64, _HANDLE),
    "core_stats": (c_int, _HANDLE, POINTER(StatsRecord)),
    "core_next": (c_int, _HANDLE, POINTER(c_uint32)),
    "core_admit": (c_int, _HANDLE, c_uint32, *_KEY),
    "core_finish": (c_int, _HANDLE),
    "core_give": (c_int, _HANDLE, c_uint32, *_BUFFER, POINTER(c_int), POINTER(c_int64)),
    "core_owed": (c_uint64, _HANDLE),
    "core_bytes_held": (c_uint64, _HANDLE),
    "core_stop": (c_int, _HANDLE),
    "core_free": (None, _HANDLE),
    "batch_new": (c_int, _HANDLE),
    "batch_add": (c_int, _HANDLE, POINTER(TransactionRecord)),
    "batch_append": (c_int, _HANDLE, _HANDLE),
    "batch_drop_last": (None, _HANDLE),
    "batch_clear": (None, _HANDLE),
    "batch_room": (c_size_t, _HANDLE),
    "batch_free": (None, _HANDLE),
    "set_judge_batch": (c_int, _HANDLE, c_int64, _HANDLE, c_char_p, c_size_t),
    "core_admit_batch": (c_int, _HANDLE, c_uint32, _HANDLE, c_int64, c_int64, c_int64),
    "split_points_new": (c_int, POINTER(KeyRecord), c_size_t, _HANDLE, POINTER(c_size_t)),
    "split_points_shards": (c_size_t, _HANDLE),
    "split_points_free": (None, _HANDLE),
    "clip": (c_int, _HANDLE, c_size_t, *_KEY, *_BUFFER),
    "combine": (c_int, _HANDLE, *_KEY, *_KEY, *_BUFFER, POINTER(c_size_t)),
    "writer_new": (Writer, c_void_p, c_void_p),
    "writer_free": (None, _WRITER),
    "batch_begin": (c_int, _WRITER, c_int64, c_int64, c_int64),
    "batch_transaction": (c_int, _WRITER, c_int64, c_bool),
    "batch_read": (c_int, _WRITER, *_KEY, *_KEY),
    "batch_read_key": (c_int, _WRITER, *_KEY),
    "batch_write": (c_int, _WRITER, *_KEY, *_KEY),
    "batch_write_key": (c_int, _WRITER, *_KEY),
    "batch_end": (c_int, _WRITER),
    "frame_length": (c_int, *_BUFFER),
    "reply_read": (c_int, POINTER(ReplyReader), *_KEY),
    "reply_next": (c_bool, POINTER(ReplyReader), POINTER(EntryReader)),
    "entry_place": (c_uint, POINTER(EntryReader), c_uint),
}


# The library that ARCHCARAWAY_LIBRARY names, that of the package, or the installed one.
_BESIDE = Path(__file__).with_name("libarchcaraway.so.1")
_FOUND = str(_BESIDE) if _BESIDE.exists() else _BESIDE.name
LIBRARY = CDLL(os.environ.get("ARCHCARAWAY_LIBRARY") or _FOUND)
for _name, (_result, *_parameters) in _FUNCTIONS.items():
    _function = getattr(LIBRARY, f"archcaraway_{_name}")
    _function.restype, _function.argtypes = _result, _parameters
