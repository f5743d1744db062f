"""Statuses as exceptions."""

from ._library import LIBRARY


class Error(Exception):
    """A call was refused. `status` is its number in archcaraway.h."""

    def __init__(self, status: int) -> None:
        super().__init__(LIBRARY.archcaraway_status_text(status).decode())
        self.status = status


class Stop(Error):
    """The object has stopped for good: an allocation failed, or its gate or its arena is full."""


class FrameError(Error):
    """The bytes are no frame, or a batch has none: a limit is exceeded."""


class VersionError(Error):
    """The version isn't above that of the batch that the set resolved last."""


class ArgumentError(Error, ValueError):
    """A number is outside its range, there is no such proxy, or the object is closed."""


class ProcessorError(Error):
    """The processor lacks instructions that the library needs."""


ARENA_FULL = 3

_CLASSES: dict[int, type[Error]] = {number: FrameError for number in [*range(101, 116), 204]}
_CLASSES |= {1: Stop, 2: Stop, 3: Stop, 201: VersionError, 202: ArgumentError, 205: ProcessorError}


def check(status: int) -> None:
    """Raises the exception for a status that isn't 0."""
    if status != 0:
        raise _CLASSES.get(status, Error)(status)
