"""Resolves batches by the package of bindings/python.

    export ARCHCARAWAY_LIBRARY=out/quick/libarchcaraway.so PYTHONPATH=bindings/python
    python3 examples/python/resolve.py
"""

from __future__ import annotations

from archcaraway import ConflictSet, Entry, Error, Transaction, encode

BATCHES = {
    100: [Transaction(0, writes=[(b"a", b"c")])],
    200: [
        Transaction(50, reads=[(b"a", b"b"), b"x"], report=True),
        Transaction(150, reads=[b"x"], writes=[b"x"]),
    ],
    5_000_300: [Transaction(299, reads=[b"x"]), Transaction(300, reads=[b"x"])],
}


def text(entry: Entry) -> str:
    verdict = entry.verdict.name.lower().replace("_", " ")
    return verdict + "".join(f" [{index}]" for index in entry.conflicts)


def main() -> None:
    with ConflictSet() as conflicts:
        for version, transactions in BATCHES.items():
            reply = conflicts.resolve(encode(version, transactions))
            print(version, ", ".join(map(text, reply.entries)))
        try:
            conflicts.resolve(encode(7, []))
        except Error as refused:
            print("refused", refused.status)


if __name__ == "__main__":
    main()
