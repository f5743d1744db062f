"""Draws keys, transactions and chains of batches."""

from collections.abc import Sequence
from dataclasses import dataclass, replace
from random import Random

from .wire import Batch, Entry, Range, Reply, Txn, single

LAST_VERSION = 2**63 - 1
PREFIX_LENGTHS = (0, 0, 0, 0, 1, 7, 8, 9, 15, 16, 31, 37, 38, 39, 100)
LETTERS = (
    b"ab", b"abc", b"\0a", b"\0\1\xff", bytes(range(256)), b"\x7f\x80\xfe\xff", b"0123456789"
)


def draw_pool(chance: Random, count: int) -> list[bytes]:
    """Draws keys, some of which begin with the same bytes."""
    letters = chance.choice(LETTERS)
    longest = chance.choice((1, 2, 3, 5, 9))
    prefixes = [
        bytes(chance.choices(letters, k=chance.choice(PREFIX_LENGTHS)))
        for _ in range(chance.randint(1, 3))
    ]
    keys = [
        chance.choice(prefixes) + bytes(chance.choices(letters, k=chance.randint(0, longest)))
        for _ in range(count)
    ]
    if chance.random() < 0.03:
        keys.append(b"k" * chance.choice((255, 256, 4_000, 9_999, 10_000, 10_001)))
    return keys


@dataclass
class Drawer:
    """Draws batches over a pool of keys."""

    chance: Random
    pool: list[bytes]
    # How many ranges of each kind a transaction has at most, and how many transactions a batch.
    ranges: int = 4
    txns: int = 5

    def range(self) -> Range:
        begin, end = sorted(self.chance.choices(self.pool, k=2))
        kind = self.chance.random()
        if kind < 0.4 and len(begin) <= 10_000:
            return single(begin)
        return Range(begin, begin) if kind > 0.95 else Range(begin, end)

    def ranges_of_txn(self) -> tuple[Range, ...]:
        return tuple(self.range() for _ in range(self.chance.randint(0, self.ranges)))

    def snapshot(self, versions: Sequence[int]) -> int:
        near = self.chance.choice(versions[-8:]) if versions else 0
        return min(LAST_VERSION, max(0, near + self.chance.choice((-1, 0, 0, 1, 0, -1_000))))

    def txn(self, versions: Sequence[int]) -> Txn:
        return Txn(
            self.snapshot(versions),
            self.chance.random() < 0.4,
            self.ranges_of_txn(),
            self.ranges_of_txn(),
        )

    def txns_of_batch(self, versions: Sequence[int]) -> tuple[Txn, ...]:
        return tuple(self.txn(versions) for _ in range(self.chance.randint(0, self.txns)))

    def chain(self, count: int, steps: Sequence[int]) -> list[Batch]:
        """Draws a chain of batches, whose versions rise by these steps."""
        versions: list[int] = [-1]
        batches = []
        for _ in range(count):
            version = min(LAST_VERSION, versions[-1] + self.chance.choice(steps))
            if version == versions[-1]:
                break
            batches.append(Batch(versions[-1], version, -1, self.txns_of_batch(versions)))
            versions.append(version)
        return batches


def draw_drawer(chance: Random) -> Drawer:
    return Drawer(
        chance,
        draw_pool(chance, chance.choice((2, 5, 12, 40))),
        chance.choice((1, 2, 4, 9)),
        chance.choice((1, 3, 6, 6, 30)),
    )


def draw_count(chance: Random) -> int:
    return chance.choice(
        (chance.randint(0, 4), chance.randint(4, 15), chance.randint(4, 15), chance.randint(15, 60))
    )


def draw_steps(chance: Random, window: int) -> Sequence[int]:
    """Draws how far versions rise, so that some snapshots are too old."""
    if chance.random() < 0.02:
        return (2**61, 2**62, 1)
    return chance.choice(
        (
            (1,),
            (1, 2, 100),
            (window // 7 + 1, window // 3 + 1, 1),
            (window, window + 1, max(1, window - 1)),
        )
    )


def acknowledged(chance: Random, batches: Sequence[Batch]) -> list[Batch]:
    """Returns the batches, some of them with a last received version."""
    versions = [batch.version for batch in batches]
    changed = []
    for batch in batches:
        below = (
            [version for version in versions if version < batch.version] + [-1, batch.version - 1]
        )
        changed.append(
            replace(batch, received=chance.choice(below)) if chance.random() < 0.4 else batch
        )
    return changed


def shuffled_near(chance: Random, batches: Sequence[Batch], reach: int) -> list[Batch]:
    """Returns the batches, some of them later by up to `reach` batches."""
    order = [(index + chance.randint(0, reach), index) for index in range(len(batches))]
    return [batches[index] for _, index in sorted(order)]


def inserted(chance: Random, batches: list[Batch], batch: Batch, at_least: int = 0) -> None:
    batches.insert(chance.randint(at_least, len(batches)), batch)


def other_body(batch: Batch, drawer: Drawer) -> Batch:
    return replace(batch, txns=drawer.txns_of_batch([batch.previous]))


def disturbance(chance: Random, batch: Batch, drawer: Drawer) -> Batch:
    """Returns a batch that disturbs the chain.

    It is a repeat, another batch of its version or previous version, or one off the chain.
    """
    kind = chance.randrange(5)
    if kind == 0:
        return batch
    if kind == 1:
        return other_body(batch, drawer)
    if kind == 2:
        return replace(
            other_body(batch, drawer),
            version=min(LAST_VERSION, batch.version + chance.randint(1, 100)),
        )
    previous = chance.randint(-1, batch.version - 1)
    if kind == 3:
        return replace(batch, previous=previous)
    version = min(LAST_VERSION, max(previous + 1, batch.version + chance.randint(-3, 300)))
    return Batch(previous, version, -1, batch.txns)


def disturbed(chance: Random, chain: list[Batch], drawer: Drawer) -> list[Batch]:
    """The batches of one proxy, which need not be a chain.

    There are repeats, gaps, others of a version, and late ones.
    """
    batches = shuffled_near(chance, chain, chance.choice((0, 0, 1, 3, 100)))
    for _ in range(chance.choice((0, 1, 3, len(chain) // 2))):
        if batches:
            inserted(chance, batches, disturbance(chance, chance.choice(batches), drawer))
    if batches and chance.random() < 0.3:
        batches.pop(chance.randrange(len(batches)))
    return acknowledged(chance, batches) if chance.random() < 0.5 else batches


def dealt(chance: Random, batches: Sequence[Batch], proxies: int) -> list[list[Batch]]:
    """Deals batches to proxies: in turn, at random, or in runs."""
    kind = chance.randrange(3)
    files: list[list[Batch]] = [[] for _ in range(proxies)]
    proxy = 0
    for number, batch in enumerate(batches):
        if kind == 0:
            proxy = number % proxies
        elif kind == 1 or chance.random() < 0.2:
            proxy = chance.randrange(proxies)
        files[proxy].append(batch)
    return files


def repeats_of(chance: Random, batches: list[Batch], drawer: Drawer) -> list[Batch]:
    """Repeats some batches after the first of their version.

    Puts others of a new version after the same previous one.
    """
    changed = list(batches)
    taken = {batch.version for batch in batches}
    for batch in chance.choices(batches, k=chance.randint(1, 3)):
        other = replace(
            other_body(batch, drawer),
            version=min(LAST_VERSION, batch.version + chance.randint(1, 100)),
        )
        again = chance.choice(
            (batch, other_body(batch, drawer), batch if other.version in taken else other)
        )
        inserted(chance, changed, again, changed.index(batch) + 1)
    return changed


def disturbed_file(chance: Random, batches: list[Batch], drawer: Drawer) -> list[Batch]:
    """The batches of one proxy among several, such that the schedule decides nothing.

    The first batch after a previous version stays the first in its file, and no other file has one.
    Replies are given up only in files without repeats, since the schedule decides which batches a
    repeat comes after.
    """
    batches = shuffled_near(chance, batches, chance.choice((0, 0, 0, 2)))
    if not batches or chance.random() < 0.4:
        return batches
    if chance.random() < 0.5:
        return acknowledged(chance, batches)
    return repeats_of(chance, batches, drawer)


def draw_entry(chance: Random) -> Entry:
    verdict = chance.choice(("committed", "conflict", "conflict", "tooold"))
    if verdict != "conflict" or chance.random() < 0.4:
        return Entry(verdict)
    return Entry(
        verdict,
        tuple(sorted(chance.sample(range(chance.choice((3, 1_024))), k=chance.randint(0, 3)))),
    )


def draw_reply(chance: Random) -> Reply:
    version = chance.choice((0, chance.randrange(1_000), LAST_VERSION))
    return Reply(version, tuple(draw_entry(chance) for _ in range(chance.randrange(6))))
