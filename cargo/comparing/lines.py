"""Batches and replies as lines of JSON and as tables, as the program `batches` prints them."""

from .wire import Batch, Entry, Range, Reply, Txn

MAX_WIDTH = 32
SHOWN_VERDICTS = {"conflict": "conflict", "tooold": "too old", "committed": "committed"}


def byte_form(byte: int) -> str:
    if byte == ord("\\"):
        return "\\\\"
    return chr(byte) if 32 <= byte < 127 else f"\\x{byte:02x}"


def key_form(key: bytes) -> str:
    """Returns the printed form of a key, which is ASCII."""
    return "".join(map(byte_form, key))


def quoted(text: str) -> str:
    """Returns an ASCII text without control characters as a string of JSON."""
    return '"' + text.replace("\\", "\\\\").replace('"', '\\"') + '"'


def range_json(of: Range) -> str:
    if of.is_single:
        return quoted(key_form(of.begin))
    return f"[{quoted(key_form(of.begin))},{quoted(key_form(of.end))}]"


def txn_json(txn: Txn) -> str:
    reads, writes = (",".join(map(range_json, ranges)) for ranges in (txn.reads, txn.writes))
    return (
        f'{{"snapshot":{txn.snapshot},"report":{str(txn.report).lower()},"reads":[{reads}],'
        f'"writes":[{writes}]}}'
    )


def batch_line(batch: Batch) -> str:
    txns = ",".join(map(txn_json, batch.txns))
    return (
        f'{{"previous":{batch.previous},"version":{batch.version},"received":{batch.received},'
        f'"transactions":[{txns}]}}'
    )


def entry_json(entry: Entry) -> str:
    return (
        f'{{"conflict":[{",".join(map(str, entry.indices))}]}}'
        if entry.indices
        else f'"{entry.verdict}"'
    )


def reply_line(reply: Reply) -> str:
    return f'{{"version":{reply.version},"verdicts":[{",".join(map(entry_json, reply.entries))}]}}'


def key_shown(key: bytes, full: bool) -> str:
    form = key_form(key)
    return f'"{form}"' if full or len(form) <= MAX_WIDTH else f'"{form[: MAX_WIDTH - 3]}..."'


def range_shown(of: Range, full: bool) -> str:
    begin = key_shown(of.begin, full)
    return begin if of.is_single else f"{begin} .. {key_shown(of.end, full)}"


def batch_table(batch: Batch, full: bool) -> str:
    """Returns the table of a batch."""
    lines = [
        f"batch {batch.previous} > {batch.version}, received {batch.received}, "
        f"transactions {len(batch.txns)}\n"
    ]
    for index, txn in enumerate(batch.txns):
        lines.append(f"{index:>6}  snapshot {txn.snapshot}{', report' if txn.report else ''}\n")
        for name, ranges in (("read ", txn.reads), ("write", txn.writes)):
            lines += [f"        {name}  {range_shown(one, full)}\n" for one in ranges]
    return "".join(lines)


def reply_table(reply: Reply) -> str:
    """Returns the table of a reply."""
    lines = [f"reply {reply.version}, verdicts {len(reply.entries)}\n"]
    for index, entry in enumerate(reply.entries):
        lines.append(
            f"{index:>6}  "
            f"{SHOWN_VERDICTS[entry.verdict]}{''.join(f' {one}' for one in entry.indices)}\n"
        )
    return "".join(lines)
