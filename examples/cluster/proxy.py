"""A proxy: `python3 proxy.py NUMBER --resolvers PORT,.. [--points KEY,..] < FRAMES`.

It clips each batch of standard input to every shard, sends the resolver of each shard its clip, and
prints a line per batch, as `replay` does. README.md describes the messages.
"""

from __future__ import annotations

import argparse
import os
import select
import socket
import struct
import time

from archcaraway import Kind, Reply, SplitPoints, Verdict

WORDS = {Verdict.CONFLICT: "conflict", Verdict.TOO_OLD: "tooold", Verdict.COMMITTED: "committed"}
WINDOW = 16  # batches without all answers, at most
PATIENCE = 30  # seconds until a resolver that is gone must be replaced
VERSION, RECEIVED = slice(13, 21), slice(21, 29)  # in the frame of a batch


def take_message(stream: bytearray) -> bytes:
    """Takes the message at the front of a stream, with its length; none if it isn't complete."""
    end = 4 + int.from_bytes(stream[:4], "big")
    if len(stream) < end:
        return b""
    message = bytes(stream[:end])
    del stream[:end]
    return message


class Link:
    """The connection to the resolver of a shard, over which a lost connection loses nothing."""

    def __init__(self, proxy: int, port: int) -> None:
        self.proxy, self.port, self.ended = proxy, port, False
        self.unanswered: dict[int, bytes] = {}  # by version, in the order of sending
        self.received = -1  # the answers up to this version have come
        self.socket = socket.socket()
        self.connect()

    def connect(self) -> None:
        """Sends again what has no answer yet. The resolver gives the replies that it keeps."""
        self.socket.close()
        deadline = time.monotonic() + PATIENCE
        while True:
            try:
                self.socket = socket.create_connection(("127.0.0.1", self.port))
                break
            except OSError:
                if time.monotonic() > deadline:
                    raise
                time.sleep(0.05)
        self.socket.setsockopt(socket.IPPROTO_TCP, socket.TCP_NODELAY, 1)
        self.socket.setblocking(False)
        self.incoming = bytearray()
        self.outgoing = bytearray(struct.pack(">I", self.proxy))
        self.outgoing += b"".join(self.unanswered.values())
        if self.ended:
            self.end()

    def close(self) -> None:
        """Waits until the resolver has read everything."""
        self.socket.shutdown(socket.SHUT_WR)
        self.socket.setblocking(True)
        while self.socket.recv(1 << 16):
            pass

    def send(self, version: int, clip: bytes) -> None:
        frame = bytearray(clip)
        frame[RECEIVED] = min(self.received, version - 1).to_bytes(8, "big", signed=True)
        self.unanswered[version] = bytes(frame)
        self.outgoing += frame

    def end(self) -> None:
        self.ended = True
        self.outgoing += bytes(4)

    def write(self) -> None:
        try:
            del self.outgoing[: self.socket.send(self.outgoing)]
        except BlockingIOError:
            pass
        except OSError:
            self.connect()

    def read(self) -> list[tuple[int, Kind, bytes]]:
        """Returns the answers that have come: version, kind and frame."""
        try:
            data = self.socket.recv(1 << 16)
        except BlockingIOError:
            return []
        except OSError:
            data = b""
        if not data:
            self.connect()
        self.incoming += data
        answers = []
        while message := take_message(self.incoming):
            kind, version = struct.unpack_from(">Bq", message, 4)
            if version == next(iter(self.unanswered), None):
                self.received = version
            # A batch that was sent twice is answered twice. The second answer counts for nothing.
            if self.unanswered.pop(version, None) is not None:
                answers.append((version, Kind(kind), message[13:]))
        return answers


def reply_text(reply: Reply) -> str:
    words = []
    for entry in reply.entries:
        places = ",".join(map(str, entry.conflicts))
        words.append(WORDS[entry.verdict] + (f":{places}" if places else ""))
    return " ".join(words) or "empty"


class Proxy:
    def __init__(self, number: int, points: SplitPoints, ports: list[int], drop: int) -> None:
        self.number, self.points, self.drop, self.answered = number, points, drop, 0
        self.links = [Link(number, port) for port in ports]
        self.pending: dict[int, tuple[bytes, dict[int, tuple[Kind, bytes]]]] = {}  # by version
        self.input = bytearray()

    def take(self) -> None:
        """Sends the batches that have come, up to the window."""
        while len(self.pending) < WINDOW and (frame := take_message(self.input)):
            version = int.from_bytes(frame[VERSION], "big", signed=True)
            self.pending[version] = frame, {}
            for shard, link in enumerate(self.links):
                link.send(version, self.points.clip(shard, frame))

    def note(self, shard: int, version: int, kind: Kind, reply: bytes) -> None:
        """No shard's verdict counts if another shard has none."""
        frame, answers = self.pending[version]
        answers[shard] = kind, reply
        if len(answers) < len(self.links):
            return
        del self.pending[version]
        kinds = {kind for kind, _ in answers.values()}
        if kinds == {Kind.REPLY}:
            replies = [answers[number][1] for number in range(len(self.links))]
            text = reply_text(self.points.combine(frame, replies))
        else:
            text = "never" if Kind.NEVER in kinds else "held"
        print(self.number, version, text, flush=True)

    def run(self) -> None:
        """Ends once all batches of the input are answered."""
        is_open = True  # standard input
        while is_open or self.pending or any(link.outgoing for link in self.links):
            readers = {link.socket.fileno(): shard for shard, link in enumerate(self.links)}
            writers = {link.socket.fileno(): link for link in self.links if link.outgoing}
            standard = [0] if is_open and len(self.pending) < WINDOW else []
            readable, writable, _ = select.select([*readers, *standard], writers, [])
            for descriptor in writable:
                writers[descriptor].write()
            for descriptor in readable:
                if descriptor != 0:
                    self.receive(readers[descriptor])
                    continue
                data = os.read(0, 1 << 16)
                self.input += data
                is_open = bool(data)
            self.take()
            if not is_open and len(self.pending) < WINDOW and not self.links[0].ended:
                for link in self.links:
                    link.end()
        for link in self.links:
            link.close()

    def receive(self, shard: int) -> None:
        for answer in self.links[shard].read():
            self.note(shard, *answer)
            self.answered += 1
            if self.drop and self.answered % self.drop == 0:
                self.links[shard].connect()  # loses what is on its way in both directions


if __name__ == "__main__":
    parser = argparse.ArgumentParser()
    parser.add_argument("number", type=int)
    parser.add_argument("--resolvers", required=True, help="the port of each shard")
    parser.add_argument("--points", default="", help="split points, as hexadecimal digits")
    parser.add_argument("--drop", type=int, default=0, help="breaks a connection every N answers")
    words = parser.parse_args()
    keys = [bytes.fromhex(key) for key in words.points.split(",") if key]
    split = SplitPoints(keys)
    Proxy(words.number, split, [int(port) for port in words.resolvers.split(",")], words.drop).run()
