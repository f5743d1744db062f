"""What `--explain` prints with the line of a batch, by a scan of all writes."""

from collections.abc import Iterator, Sequence
from dataclasses import dataclass, field

from .lines import key_form, quoted
from .wire import Batch, Entry, Range, Reply, Txn


@dataclass(frozen=True)
class Write:
    """A write range of a committed transaction."""

    proxy: int
    version: int
    txn: int
    of: Range


def range_form(of: Range) -> str:
    return f'["{key_form(of.begin)}","{key_form(of.end)}")'


def write_form(write: Write, version: int) -> str:
    origin = "same batch" if write.version == version else "history"
    return (
        f"{range_form(write.of)} of proxy {write.proxy}, version {write.version}, "
        f"txn {write.txn} ({origin})"
    )


def pair_json(of: Range) -> str:
    return f"[{quoted(key_form(of.begin))},{quoted(key_form(of.end))}]"


def write_json(write: Write) -> str:
    return (
        f'{{"range":{pair_json(write.of)},"proxy":{write.proxy},"version":{write.version},'
        f'"txn":{write.txn}}}'
    )


@dataclass(frozen=True)
class Note:
    """What explains the rejections in a batch: as lines, and as members of an array of JSON."""

    lines: str = ""
    objects: tuple[str, ...] = ()

    @property
    def member(self) -> str:
        return f',"explanations":[{",".join(self.objects)}]' if self.objects else ""


@dataclass
class Explainer:
    """The batches that were processed, in order."""

    window: int
    processed: list[tuple[int, Batch, Reply]] = field(default_factory=list)

    def process(self, proxy: int, batch: Batch, reply: Reply) -> Note:
        """Takes the batch that was processed last, and returns what explains its rejections."""
        self.processed.append((proxy, batch, reply))
        txns = zip(batch.txns, reply.entries)
        pairs = [
            pair
            for index, (txn, entry) in enumerate(txns)
            for pair in self.pairs(index, txn, entry, batch.version)
        ]
        return Note("".join(line for line, _ in pairs), tuple(one for _, one in pairs))

    def pairs(self, index: int, txn: Txn, entry: Entry, version: int) -> Iterator[tuple[str, str]]:
        """Yields the lines and the objects of JSON that explain why a transaction was rejected."""
        if entry.verdict == "tooold":
            oldest = max(0, version - self.window)
            yield (
                (
                    f"  txn {index} too old: "
                    f"snapshot {txn.snapshot}, oldest readable version {oldest}\n"
                ),
                f'{{"txn":{index},"too_old":{{"snapshot":{txn.snapshot},"oldest":{oldest}}}}}',
            )
        elif entry.verdict == "conflict":
            for read in range(len(txn.reads)):
                writes = self.writes(index, txn, txn.reads[read], version)
                if writes:
                    of = txn.reads[read]
                    yield (
                        self.line(index, read, of, writes, version),
                        self.object(index, read, of, writes, version),
                    )

    def line(self, index: int, read: int, of: Range, writes: Sequence[Write], version: int) -> str:
        further = f", and {len(writes) - 1} more" if len(writes) > 1 else ""
        return (
            f"  txn {index} read {read} {range_form(of)} conflicts with "
            f"write {write_form(writes[-1], version)}{further}\n"
        )

    def object(
        self, index: int, read: int, of: Range, writes: Sequence[Write], version: int
    ) -> str:
        is_same_batch = "true" if writes[-1].version == version else "false"
        return (
            f'{{"txn":{index},"read":{read},"range":{pair_json(of)},'
            f'"write":{write_json(writes[-1])},"further":{len(writes) - 1},'
            f'"same_batch":{is_same_batch}}}'
        )

    def writes(self, index: int, txn: Txn, read: Range, version: int) -> list[Write]:
        """Returns the writes that explain the conflict of a read, in order."""
        found = []
        for proxy, batch, reply in self.processed:
            if batch.version != version and batch.version <= txn.snapshot:
                continue
            for other, (writer, entry) in enumerate(zip(batch.txns, reply.entries)):
                if entry.verdict == "committed" and (batch.version != version or other < index):
                    found += [
                        Write(proxy, batch.version, other, of)
                        for of in writer.writes
                        if read.meets(of)
                    ]
        return found
