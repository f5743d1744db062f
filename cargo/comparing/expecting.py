"""What a command line prints and returns by the documents."""

from collections.abc import Sequence
from dataclasses import replace

from .case import Outcome
from .lines import batch_line, batch_table, reply_line, reply_table
from .reading import frames, read_batch, read_reply
from .reference import (
    ALL_LINES,
    WINDOW,
    Filter,
    Unspecified,
    checked,
    lines_of,
    resolve,
    summary_of,
)
from .wire import Batch


def fault_lines(faults: Sequence[str], what: str) -> str:
    return "".join(
        f"replay: {what} {proxy}: wire {fault}\n" for proxy, fault in enumerate(faults) if fault
    )


def all_asking(batches: Sequence[Batch]) -> list[Batch]:
    """Returns the same batches, whose transactions all ask for their reports."""
    return [
        replace(batch, txns=tuple(replace(txn, report=True) for txn in batch.txns))
        for batch in batches
    ]


def replay_outcome(
    files: Sequence[bytes],
    form: str = "words",
    window: int = WINDOW,
    replies: Sequence[bytes] | None = None,
    shown: Filter = ALL_LINES,
    is_summary: bool = False,
    explains: bool = False,
    reports_all: bool = False,
) -> Outcome | None:
    """Returns what `replay` prints for these files, or nothing if the run would meet a stop."""
    recorded, replies_faults = [], []
    for content in replies or ():
        some, fault = frames(content, read_reply)
        recorded.append(some)
        replies_faults.append(fault)
    if any(replies_faults):
        return Outcome(
            1, b"", fault_lines(replies_faults, "replies").splitlines(keepends=True)[0].encode()
        )
    batches, faults = zip(*(frames(content, read_batch) for content in files))
    if reports_all:
        batches = tuple(map(all_asking, batches))
    try:
        answers = resolve(batches, window, explains)
    except Unspecified:
        return None
    if is_summary:
        text, differences = summary_of(answers, form == "json"), 0
    elif replies is None:
        text, differences = lines_of(answers, form, shown), 0
    else:
        text, differences = checked(answers, recorded)
    status = 1 if any(faults) else 3 if differences else 0
    return Outcome(status, text.encode(), fault_lines(faults, "proxy").encode())


def turned(
    content: bytes, task: str, is_replies: bool, full: bool = False, name: str = "standard input"
) -> Outcome:
    """Returns what `batches decode` or `batches show` prints for these frames of a file."""
    if is_replies:
        replies, fault = frames(content, read_reply)
        lines = [
            reply_line(one) + "\n" if task == "decode" else reply_table(one) for one in replies
        ]
    else:
        batches, fault = frames(content, read_batch)
        lines = [
            batch_line(one) + "\n" if task == "decode" else batch_table(one, full)
            for one in batches
        ]
    err = f"batches: {name}: frame {len(lines) + 1}: {fault}\n" if fault else ""
    return Outcome(1 if fault else 0, "".join(lines).encode(), err.encode())


def most_boundaries(batches: Sequence[Batch]) -> int:
    """Returns a number of boundaries that these batches never exceed."""
    return 1 + 2 * sum(len(txn.writes) for batch in batches for txn in batch.txns)
