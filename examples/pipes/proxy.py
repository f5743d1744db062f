#!/usr/bin/env python3
"""A proxy over pipes: `proxy.py BATCHES RECORDS [--clients N] [--transfers N] [--keep FILE]`.

Clients move numbers between accounts. Each reads two accounts and writes both. The proxy sends
their transactions as batches to the pipe BATCHES, takes the answers from the pipe RECORDS of
`replay --stream --replies RECORDS BATCHES`, acknowledges them, and lets a client whose transaction
was in conflict try again. `-` is standard output for BATCHES, and standard input for RECORDS.

At the end the proxy prints the answers that it received, as `replay` prints them, to standard
error, and keeps the batches in FILE.
"""

import argparse
import random
import struct
import sys

ACCOUNTS = 16
WINDOW = 100  # versions between two batches
VERDICTS = ("conflict", "tooold", "committed")


def text(data):
    return struct.pack(">H", len(data)) + data


def single(key):
    """The range of one key, in version 2 of the form."""
    return b"\1" + text(key)


def transaction(snapshot, reads, writes):
    head = struct.pack(">qBHH", snapshot, 0, len(reads), len(writes))
    return head + b"".join(map(single, reads)) + b"".join(map(single, writes))


def batch(previous, version, received, transactions):
    body = (
        struct.pack(">BqqqH", 3, previous, version, received, len(transactions))
        + b"".join(transactions)
    )
    return struct.pack(">I", len(body)) + body


def exactly(source, count):
    data = b""
    while len(data) < count:
        more = source.read(count - len(data))
        if not more:
            raise EOFError("the resolver has ended")
        data += more
    return data


def answer(source):
    """Takes one record.

    Returns its version and its verdicts, or none for a batch without a reply.
    """
    status, version = struct.unpack(">Bq", exactly(source, 9))
    if status != 1:
        return version, None
    length = struct.unpack(">I", exactly(source, 4))[0]
    body = exactly(source, length)
    count, place, verdicts = struct.unpack_from(">H", body, 9)[0], 11, []
    for _ in range(count):
        verdict, places = struct.unpack_from(">BH", body, place)
        verdicts.append(VERDICTS[verdict])
        place += 3 + 2 * places
    return version, verdicts


class Client:
    """Moves one between two accounts, again and again.

    It tries a transfer until it is committed.
    """

    def __init__(self, chance, transfers):
        self.chance = chance
        self.left = transfers
        self.choose()

    def choose(self):
        self.source, self.target = self.chance.sample(range(ACCOUNTS), 2)

    def read(self, accounts, version):
        """Reads both accounts at a version. Returns the transaction that writes them."""
        self.values = accounts[self.source] - 1, accounts[self.target] + 1
        keys = [b"account%02d" % self.source, b"account%02d" % self.target]
        return transaction(version, keys, keys)

    def ended(self, verdict, accounts):
        if verdict != "committed":
            return
        accounts[self.source], accounts[self.target] = self.values
        self.left -= 1
        self.choose()


class Proxy:
    def __init__(self, sink, source, keep):
        self.sink, self.source, self.keep = sink, source, keep
        self.version, self.lines = -1, []

    def send(self, transactions):
        """Sends a batch that acknowledges all answers before, and returns its verdicts."""
        frame = batch(self.version, self.version + WINDOW, self.version, transactions)
        self.sink.write(frame)
        self.sink.flush()
        if self.keep:
            self.keep.write(frame)
        version, verdicts = answer(self.source)
        if (
            version != self.version + WINDOW
            or verdicts is None
            or len(verdicts) != len(transactions)
        ):
            raise ValueError(f"an answer to another batch: {version} {verdicts}")
        self.version = version
        self.lines.append(f"0 {version} {' '.join(verdicts) or 'empty'}")
        return verdicts


def serve(proxy, clients, chance):
    """Sends until no client is left.

    Some clients wait a batch longer, so that what they have read is old.
    """
    accounts = [100] * ACCOUNTS
    proxy.send([])
    waiting = {}
    while any(client.left for client in clients):
        for client in clients:
            if client.left and client not in waiting:
                waiting[client] = client.read(accounts, proxy.version)
        sent = [client for client in waiting if chance.random() < 0.7]
        verdicts = proxy.send([waiting.pop(client) for client in sent])
        for client, verdict in zip(sent, verdicts):
            client.ended(verdict, accounts)
        if sum(accounts) != 100 * ACCOUNTS:
            raise ValueError("the sum of the accounts has changed")


def main():
    parser = argparse.ArgumentParser(
        description=__doc__, formatter_class=argparse.RawDescriptionHelpFormatter
    )
    parser.add_argument("batches")
    parser.add_argument("records")
    parser.add_argument("--clients", type=int, default=8)
    parser.add_argument("--transfers", type=int, default=50)
    parser.add_argument("--keep")
    args = parser.parse_args()
    chance = random.Random(1)
    sink = sys.stdout.buffer if args.batches == "-" else open(args.batches, "wb")
    source = sys.stdin.buffer if args.records == "-" else open(args.records, "rb")
    keep = open(args.keep, "wb") if args.keep else None
    proxy = Proxy(sink, source, keep)
    serve(proxy, [Client(chance, args.transfers) for _ in range(args.clients)], chance)
    sink.close()
    if keep:
        keep.close()
    print("\n".join(proxy.lines), file=sys.stderr)


if __name__ == "__main__":
    main()
