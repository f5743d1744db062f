"""Replays recorded files with a resolver per shard, and prints what `replay --resolvers` prints.

    python3 resolvers.py POINTS WINDOW LIMIT FILE..

POINTS has the split points as hexadecimal digits, with commas between them.
"""

from __future__ import annotations

import contextlib
import struct
import sys
from collections import defaultdict, deque
from pathlib import Path

from archcaraway import Answer, Core, Kind, Reply, SplitPoints, Stop, Verdict, frames

WORDS = {Verdict.CONFLICT: "conflict", Verdict.TOO_OLD: "tooold", Verdict.COMMITTED: "committed"}


def reply_frame(reply: Reply) -> bytes:
    body = struct.pack(">BqH", 2, reply.version, len(reply.entries))
    for entry in reply.entries:
        count = len(entry.conflicts)
        body += struct.pack(f">BH{count}H", entry.verdict, count, *entry.conflicts)
    return struct.pack(">I", len(body)) + body


def reply_text(reply: Reply) -> str:
    words = []
    for entry in reply.entries:
        places = ",".join(map(str, entry.conflicts))
        words.append(WORDS[entry.verdict] + (f":{places}" if places else ""))
    return " ".join(words) or "empty"


def combined_text(points: SplitPoints, frame: bytes, answers: list[Answer]) -> str:
    kinds = {answer.kind for answer in answers}
    if Kind.NEVER in kinds:
        return "never"
    if Kind.HELD in kinds:
        return "held"
    replies = [answer.reply for answer in answers if answer.reply is not None]
    return reply_text(points.combine(frame, map(reply_frame, replies)))


def answers_of(core: Core, proxies: int) -> dict[tuple[int, int], deque[Answer]]:
    """Returns the answers by proxy and version."""
    answers = defaultdict[tuple[int, int], deque[Answer]](deque)
    for proxy in range(proxies):
        while (answer := core.give(proxy)) is not None:
            answers[proxy, answer.version].append(answer)
    return answers


def main(keys: str, window: str, limit: str, *paths: str) -> int:
    points = SplitPoints(map(bytes.fromhex, keys.split(",")))
    cores = [Core(len(paths), int(window), int(limit)) for _ in range(points.shards)]
    batches = []
    for proxy, path in enumerate(paths):
        for frame in frames(Path(path).read_bytes()):
            batches.append((proxy, int.from_bytes(frame[13:21], "big"), frame))
            for shard, core in enumerate(cores):
                with contextlib.suppress(Stop):
                    core.admit(proxy, points.clip(shard, frame))
    for core in cores:
        with contextlib.suppress(Stop):
            core.finish()
    shards = [answers_of(core, len(paths)) for core in cores]
    for proxy, version, frame in sorted(batches, key=lambda batch: batch[:2]):
        each = [shard[proxy, version] for shard in shards]
        if all(each):
            answers = [own.popleft() for own in each]
            print(proxy, version, combined_text(points, frame, answers))
    for shard, core in enumerate(cores):
        if core.stop is not None:
            stop = str(core.stop).partition(":")[0]
            print(f"replay: {stop}\nreplay: shard {shard}", file=sys.stderr)
            return 1
    return 0


if __name__ == "__main__":
    sys.exit(main(*sys.argv[1:]))
