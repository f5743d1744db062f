"""Batches and replies as the worked rows write them.

A batch is `previous>version`, perhaps ` received N`, and perhaps `: ` with transactions between
`; `. A transaction has `m` if it requests a report, `R[a,b)` and `W[a,b)`, and its snapshot `@N`,
by default 0. `R[k]` is the range of one key, and `\\xNN` in a key one byte. A reply is its version
and a word per transaction, or `empty`.
"""

import re

from .wire import Batch, Entry, Range, Reply, Txn, single

BATCH = re.compile(r"(-?\d+)>(\d+)(?: received (-?\d+))?(?:: (.*))?", re.DOTALL)
PART = re.compile(
    r"(?P<report>m)|@(?P<snapshot>\d+)|(?P<kind>[RW])\[(?P<begin>[^,\])]*)(?:,(?P<end>[^)]*)\)|\])"
)


def key_of(shown: str) -> bytes:
    """Returns the key that the text shows."""
    return re.sub(
        r"\\x([0-9a-f]{2})", lambda found: chr(int(found[1], 16)), shown
    ).encode("latin-1")


def txn_of(shown: str) -> Txn:
    snapshot, report = 0, False
    ranges: dict[str, list[Range]] = {"R": [], "W": []}
    for word in shown.split():
        part = PART.fullmatch(word)
        if part is None:
            raise ValueError(f"no part of a transaction: {word!r}")
        if part["report"]:
            report = True
        elif part["snapshot"]:
            snapshot = int(part["snapshot"])
        else:
            begin = key_of(part["begin"])
            ranges[part["kind"]].append(
                single(begin) if part["end"] is None else Range(begin, key_of(part["end"]))
            )
    return Txn(snapshot, report, tuple(ranges["R"]), tuple(ranges["W"]))


def batch_of(shown: str) -> Batch:
    """Reads a batch of a worked row."""
    found = BATCH.fullmatch(shown)
    if found is None:
        raise ValueError(f"no batch: {shown!r}")
    txns = tuple(txn_of(part) for part in found[4].split("; ")) if found[4] else ()
    return Batch(int(found[1]), int(found[2]), int(found[3] or -1), txns)


def entry_of(word: str) -> Entry:
    verdict, _, indices = word.partition(":")
    return Entry(verdict, tuple(int(index) for index in indices.split(",") if index))


def reply_of(shown: str) -> Reply:
    """Reads a reply of a worked row."""
    version, *words = shown.split()
    return Reply(int(version), tuple(entry_of(word) for word in words if word != "empty"))
