"""Damages frames: each wire fault, and bytes at random."""

from collections.abc import Callable, Sequence
from random import Random

from .reading import frames, read_batch
from .wire import framed, text


def cut(chance: Random, frame: bytes) -> bytes:
    return frame[: chance.randint(1, len(frame) - 1)]


def with_length(frame: bytes, length: int) -> bytes:
    return length.to_bytes(4, "big") + frame[4:]


def too_long(chance: Random, frame: bytes) -> bytes:
    """A length above the limit, or at it, or beside the right one."""
    right = len(frame) - 4
    return with_length(
        frame, chance.choice((0x400001, 0x400000, 0xFFFFFFFF, right + 1, max(0, right - 1), 0))
    )


def trailing(chance: Random, frame: bytes) -> bytes:
    return framed(frame[4:] + chance.randbytes(chance.randint(1, 9)))


def shorter(chance: Random, frame: bytes) -> bytes:
    """A frame of the front of the body."""
    return framed(frame[4 : chance.randint(4, len(frame) - 1)])


def of_kind(chance: Random, frame: bytes) -> bytes:
    return frame[:4] + bytes([chance.choice((0, 1, 2, 3, 4, 255))]) + frame[5:]


def put(frame: bytes, at: int, field: bytes) -> bytes:
    return frame[:at] + field + frame[at + len(field) :]


def field_changed(chance: Random, frame: bytes) -> bytes:
    """A field at its edge: versions, counts, lengths of keys, marks, forms."""
    at = chance.choice((5, 13, 21, 29, 31, 39, 40, 42, chance.randrange(5, len(frame))))
    field = chance.choice(
        (
            b"\xff" * 8, b"\x80" + b"\0" * 7, b"\x7f" + b"\xff" * 7, b"\0" * 8, b"\xff", b"\2",
            b"\1", b"\0",
        )
    )
    field = chance.choice(
        (
            field, b"\x27\x10", b"\x27\x11", b"\x27\x12", b"\x04\x00", b"\x04\x01", b"\x10\x00",
            b"\x10\x01",
        )
    )
    return put(frame, at, field)[: len(frame)] if at < len(frame) else frame


def byte_changed(chance: Random, frame: bytes) -> bytes:
    return put(frame, chance.randrange(len(frame)), chance.randbytes(1))


def ends_swapped(chance: Random, frame: bytes) -> bytes:
    """The bytes of the body's end the other way round, so that a range may be inverted."""
    at = chance.randint(4, len(frame))
    return frame[:at] + frame[at:][::-1]


def spelled_out(chance: Random, frame: bytes) -> bytes:
    """A single key spelled as a range in version 2, or one byte otherwise in version 1."""
    batches, _ = frames(frame, read_batch)
    singles = [
        one
        for batch in batches
        for txn in batch.txns
        for one in txn.reads + txn.writes
        if one.is_single
    ]
    if not singles or frame[4] != 3:
        return byte_changed(chance, frame)
    one = chance.choice(singles)
    return framed(
        frame[4:].replace(b"\1" + text(one.begin), b"\0" + text(one.begin) + text(one.end), 1)
    )


DAMAGES: tuple[Callable[[Random, bytes], bytes], ...] = (
    cut,
    cut,
    too_long,
    trailing,
    shorter,
    of_kind,
    field_changed,
    field_changed,
    field_changed,
    byte_changed,
    spelled_out,
    ends_swapped,
)


def damaged(chance: Random, frame: bytes) -> bytes:
    return chance.choice(DAMAGES)(chance, frame)


def damaged_file(chance: Random, frames: Sequence[bytes]) -> bytes:
    """A file of frames of which one is damaged, or with bytes after them that are no frame."""
    if not frames or chance.random() < 0.1:
        return b"".join(frames) + chance.randbytes(chance.randint(1, 40))
    at = chance.randrange(len(frames))
    return b"".join((*frames[:at], damaged(chance, frames[at]), *frames[at + 1 :]))
