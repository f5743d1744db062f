"""Draws frames for `batches decode` and `batches show`."""

from random import Random

from .batches import acknowledged, draw_drawer, draw_reply
from .case import Case, Run
from .damage import damaged_file
from .expecting import turned
from .wire import batch_frame, reply_frame


def draw_frames(chance: Random, is_replies: bool) -> list[bytes]:
    count = chance.randint(0, 6)
    if is_replies:
        return [reply_frame(draw_reply(chance)) for _ in range(count)]
    chain = acknowledged(chance, draw_drawer(chance).chain(count, (1, 100, 2**40)))
    return [batch_frame(batch, chance.choice((1, 2))) for batch in chain]


def draw_decoded(chance: Random) -> Case:
    """Frames of batches or replies, perhaps damaged or of the other kind.

    They come from a file or from standard input.
    """
    is_replies = chance.random() < 0.4
    found = draw_frames(chance, is_replies if chance.random() < 0.95 else not is_replies)
    content = damaged_file(chance, found) if chance.random() < 0.4 else b"".join(found)
    runs = []
    for task, full in (("decode", False), ("show", False), ("show", True)):
        args = [task, *(["--replies"] if is_replies else []), *(["--full"] if full else [])]
        if chance.random() < 0.5:
            runs.append(
                Run(
                    "batches",
                    tuple(args),
                    content,
                    expected=turned(content, task, is_replies, full),
                )
            )
        else:
            runs.append(
                Run(
                    "batches",
                    (*args, "frames"),
                    expected=turned(content, task, is_replies, full, "frames"),
                )
            )
    return Case("", "frames shown", {"frames": content}, tuple(runs))
