#!/usr/bin/env python3
# SPDX-License-Identifier: Apache-2.0
"""Writes batches of the shapes that the program `workload` does not have, as frames of wire version
1.

    bench/shapes.py SHAPE FILE [--seed N] [--scale F]

The bytes depend on the shape, the seed and the scale alone. A scale of 0.1 writes a tenth of the
batches.
"""

import argparse
import pathlib
import random
import struct
from bisect import bisect
from collections.abc import Callable, Iterator
from itertools import accumulate

WINDOW = 5_000_000
MAX_FRAME = 4_194_304
MAX_TRANSACTIONS = 4_096
MASK = (1 << 64) - 1

HEADER = struct.Struct('>IBqqqH')
TRANSACTION = struct.Struct('>qBHH')
LENGTH = struct.Struct('>H')

# The commit version of a batch and its encoded transactions.
Batch = tuple[int, list[bytes]]
Shape = Callable[[random.Random, float], Iterator[Batch]]


def encode_key(key: bytes) -> bytes:
    """Returns a key after its length."""
    return LENGTH.pack(len(key)) + key


def encode_range(begin: bytes, end: bytes) -> bytes:
    """Returns the range from `begin` up to, but not including, `end`."""
    return encode_key(begin) + encode_key(end)


def encode_single(key: bytes) -> bytes:
    """Returns the range that contains one key."""
    return encode_range(key, key + b'\0')


def encode_transaction(snapshot: int, reads: list[bytes], writes: list[bytes]) -> bytes:
    """Returns a transaction over encoded ranges that requests no report."""
    return b''.join((TRANSACTION.pack(snapshot, 0, len(reads), len(writes)), *reads, *writes))


def encode_batch(previous: int, version: int, received: int, transactions: list[bytes]) -> bytes:
    """Returns the frame of a batch."""
    body = b''.join(transactions)
    size = HEADER.size - 4 + len(body)
    if size > MAX_FRAME or len(transactions) > MAX_TRANSACTIONS:
        raise ValueError(f'the batch of version {version} is too large')
    return HEADER.pack(size, 1, previous, version, received, len(transactions)) + body


def encode_chain(batches: Iterator[Batch]) -> Iterator[bytes]:
    """Returns the frames of a chain.

    Each batch has received the replies up to eight batches before it.
    """
    versions = [-1] * 8
    for version, transactions in batches:
        yield encode_batch(versions[-1], version, versions[-8], transactions)
        versions = [*versions[-7:], version]


def mix(number: int, salt: int) -> int:
    """Returns 64 bits that look random."""
    mixed = (number * 0x9E3779B97F4A7C15 + salt) & MASK
    mixed ^= mixed >> 29
    mixed = (mixed * 0xBF58476D1CE4E5B9) & MASK
    return mixed ^ (mixed >> 32)


def short_key(number: int) -> bytes:
    """Returns 8 to 24 bytes: one of 16 table prefixes, then bytes that look random."""
    drawn = mix(number, 0x1234567)
    body = b''.join(
        part.to_bytes(8, 'big') for part in (mix(drawn, 0x89ABCDE), mix(drawn, 0x7777777), drawn)
    )
    return bytes((0x15, 1 + (drawn >> 40) % 16)) + body[:6 + drawn % 17]


def earlier(version: int, step: int, lag: int) -> int:
    """Returns the version `lag` batches before `version`, or 0 before the start of the chain.

    The chain has one batch per `step`.
    """
    return max(0, version - lag * step)


def scaled(count: int, scale: float) -> range:
    """Returns the indices of the batches, at least one."""
    return range(max(1, int(count * scale)))


def zipfian(rng: random.Random, scale: float) -> Iterator[Batch]:
    """Single keys of which few are frequent.

    200,000 transactions of 5 reads and 2 writes, 50 to 500 per batch.
    """
    sums = list(accumulate((rank + 20.0) ** -0.8 for rank in range(1_000_000)))
    version, versions, remaining = 0, [0], max(1, int(200_000 * scale))

    def key() -> bytes:
        return encode_single(short_key(bisect(sums, rng.random() * sums[-1])))

    def snapshot() -> int:
        dice = rng.random()
        if dice < 0.985:
            lag = 1
            while rng.random() < 0.7:
                lag += 1
            return versions[-lag] if lag <= len(versions) else 0
        if dice < 0.998:
            return max(0, version - int(rng.random() * WINDOW))
        return max(0, version - WINDOW - 1 - int(rng.random() * 1_000_000))

    while remaining > 0:
        size = min(remaining, 50 + int(rng.random() * 451))
        remaining -= size
        version += 10_000 + int(rng.random() * 20_000)
        yield (
            version,
            [
                encode_transaction(snapshot(), [key() for _ in range(5)], [key() for _ in range(2)])
                for _ in range(size)
            ],
        )
        versions.append(version)


def wide(rng: random.Random, scale: float) -> Iterator[Batch]:
    """Transactions of 64 reads and 16 writes of short ranges, 100 per batch.

    One read of 2,000 is long.
    """
    step = 200_000
    prefixes = [
        b'\x02' + (b'tenant-%02d/index-by-time/' % tenant)[:23].ljust(23, b'_')
        for tenant in range(8)
    ]

    def short_range(longest: int) -> bytes:
        prefix = prefixes[int(rng.random() * 8)]
        begin = int(rng.random() * 1_000_000_000)
        end = begin + 1 + int(rng.random() * longest)
        return encode_range(prefix + begin.to_bytes(8, 'big'), prefix + end.to_bytes(8, 'big'))

    def read() -> bytes:
        return short_range(1_000_000 if rng.random() < 0.0005 else 200)

    for index in scaled(80, scale):
        version = (index + 1) * step
        yield (
            version,
            [
                encode_transaction(
                    earlier(version, step, 1 + int(rng.random() * 10)),
                    [read() for _ in range(64)],
                    [short_range(100) for _ in range(16)],
                )
                for _ in range(100)
            ],
        )


def longkeys(rng: random.Random, scale: float) -> Iterator[Batch]:
    """Keys of 1,000 bytes whose first 900 are equal.

    4 reads and 2 writes per transaction, 40 transactions per batch.
    """
    step = 166_666
    stem = bytes(97 + (i * i + i // 7) % 26 for i in range(900))
    prefixes = [stem + (b'/%02d' % number) + stem[number:number + 77] for number in range(20)]

    def key(prefix: bytes) -> bytes:
        return prefix + b'%020d' % (mix(int(rng.random() * 1_000), 0x5151) >> 1)

    def single() -> bytes:
        return encode_single(key(prefixes[int(rng.random() * 20)]))

    def short_range() -> bytes:
        begin = key(prefixes[int(rng.random() * 20)])
        # All keys that share the first four digits with the begin are below this end.
        return encode_range(begin, begin[:984] + b':')

    for index in scaled(100, scale):
        version = (index + 1) * step
        yield (
            version,
            [
                encode_transaction(
                    earlier(version, step, 1 + int(rng.random() * 6)),
                    [single(), single(), single(), short_range()],
                    [single(), single()],
                )
                for _ in range(40)
            ],
        )


def growth(window_batches: int) -> Shape:
    """Returns a shape whose window contains that many batches: 5 reads and 2 writes of single keys,
    50 per batch.

    The keys are the same for every number of batches; only the versions differ.
    """
    def shape(rng: random.Random, scale: float) -> Iterator[Batch]:
        step = WINDOW // window_batches
        for index in scaled(6_000, scale):
            version = (index + 1) * step
            transactions = []
            for _ in range(50):
                snapshot = earlier(version, step, 1 + int(rng.random() * window_batches))
                keys = [encode_single(short_key(int(rng.random() * 20_000_000))) for _ in range(7)]
                transactions.append(encode_transaction(snapshot, keys[:5], keys[5:]))
            yield version, transactions
    return shape


# The number of a growth shape is about its number of boundaries at the end.
SHAPES: dict[str, Shape] = {
    'zipfian': zipfian,
    'wide': wide,
    'longkeys': longkeys,
    'growth-1000': growth(2),
    'growth-10000': growth(25),
    'growth-100000': growth(257),
    'growth-1000000': growth(3_600),
}


def frames(shape: str, seed: int, scale: float) -> Iterator[bytes]:
    """Returns the frames of a file."""
    return encode_chain(SHAPES[shape](random.Random(seed), scale))


def main() -> None:
    """Writes the file that the command line names."""
    parser = argparse.ArgumentParser(
        description=__doc__, formatter_class=argparse.RawDescriptionHelpFormatter
    )
    parser.add_argument('shape', choices=SHAPES)
    parser.add_argument('file', type=pathlib.Path)
    parser.add_argument('--seed', type=int, default=0)
    parser.add_argument('--scale', type=float, default=1.0)
    given = parser.parse_args()
    with given.file.open('wb') as out:
        out.writelines(frames(given.shape, given.seed, given.scale))


if __name__ == '__main__':
    main()
