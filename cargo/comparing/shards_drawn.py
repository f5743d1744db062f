"""Draws files of batches for `batches stats`, `split-points`, `clip` and `opening`."""

from random import Random

from .batches import acknowledged, draw_drawer
from .case import Case, Outcome, Run
from .damage import damaged
from .plain import clip, opening, point_lines, split_points, stats
from .wire import Batch, file_of


def draw_points(chance: Random, batches: list[Batch]) -> list[bytes]:
    """Split points, most of which are ends of ranges."""
    keys = {
        key
        for batch in batches
        for txn in batch.txns
        for one in txn.reads + txn.writes
        for key in (one.begin, one.end)
    }
    keys |= {b"m", b"\\", b"\n", b" ", bytes([chance.randrange(256), chance.randrange(256)])}
    keys.discard(b"")
    return sorted(
        chance.sample(
            sorted(keys), k=chance.randint(0, min(len(keys), chance.choice((1, 2, 5, 63))))
        )
    )


def draw_shards(chance: Random) -> Case:
    """One file or more, of which the last may be damaged."""
    chain = acknowledged(chance, draw_drawer(chance).chain(chance.randint(0, 5), (1, 1_000, 2**50)))
    count = chance.choice((1, 1, 2, 3))
    contents = [file_of(chain[number::count], chance.choice((1, 2))) for number in range(count)]
    if contents[-1] and chance.random() < 0.2:
        contents[-1] = damaged(chance, contents[-1])
    names = [f"file{number}" for number in range(count)]
    points = draw_points(chance, chain)
    shard, resolvers = chance.randint(0, len(points)), chance.choice((1, 2, 3, 4, 16, 64))
    version = chance.choice((0, 1, 70, 2**62, 2**63 - 1, chance.randrange(2**63)))
    clip_args = ("clip", "--split-points", "points", f"--shard={shard}")
    runs = (
        Run("batches", ("stats", *names), expected=stats(names, contents, False)),
        Run("batches", ("stats", "--json", *names), expected=stats(names, contents, True)),
        Run(
            "batches",
            ("stats",),
            contents[0],
            expected=stats(["standard input"], contents[:1], False),
        ),
        Run(
            "batches",
            ("split-points", "--resolvers", str(resolvers), *names),
            expected=split_points(names, contents, resolvers),
        ),
        Run("batches", (*clip_args, names[0]), expected=clip(names[0], contents[0], points, shard)),
        Run(
            "batches",
            (*clip_args, "-"),
            contents[-1],
            expected=clip("standard input", contents[-1], points, shard),
        ),
        Run(
            "batches",
            ("opening", "--version", str(version)),
            expected=Outcome(0, opening(version), b""),
        ),
    )
    return Case("", "shards", dict(zip(names, contents)) | {"points": point_lines(points)}, runs)
