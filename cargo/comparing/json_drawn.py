"""Draws lines of JSON for `batches encode`: right ones in many spellings, and mistaken ones."""

from collections.abc import Callable
from random import Random

from .batches import acknowledged, draw_drawer, draw_reply
from .case import Case, Outcome, Run
from .lines import batch_line, byte_form
from .wire import Batch, Entry, Range, Reply, Txn, batch_frame, reply_frame

SPACES = ("", "", "", " ", "\t", "  ", "\r")


class Speller:
    """Writes batches and replies as JSON in one of the many spellings of each."""

    def __init__(self, chance: Random) -> None:
        self.chance = chance
        self.is_plain = chance.random() < 0.2

    def space(self) -> str:
        return "" if self.is_plain else self.chance.choice(SPACES)

    def joined(self, items: list[str]) -> str:
        return ",".join(self.space() + item + self.space() for item in items) or self.space()

    def array(self, items: list[str]) -> str:
        return f"[{self.joined(items)}]"

    def object(self, members: dict[str, str]) -> str:
        names = list(members)
        if not self.is_plain:
            self.chance.shuffle(names)
        return (
            "{"
            + self.joined(
                [
                    f"{self.string(name)}{self.space()}:{self.space()}{members[name]}"
                    for name in names
                ]
            )
            + "}"
        )

    def character(self, one: str) -> str:
        """A character of a string, as it is or escaped."""
        if one in '"\\':
            return (
                self.chance.choice(("\\" + one, f"\\u{ord(one):04x}"))
                if not self.is_plain
                else "\\" + one
            )
        if self.is_plain or self.chance.random() < 0.95:
            return one
        return (
            "\\/"
            if one == "/"
            else self.chance.choice((f"\\u{ord(one):04x}", f"\\u{ord(one):04X}"))
        )

    def string(self, text: str) -> str:
        return '"' + "".join(map(self.character, text)) + '"'

    def byte(self, byte: int) -> str:
        if self.is_plain or self.chance.random() < 0.9:
            return byte_form(byte)
        return self.chance.choice((f"\\x{byte:02x}", f"\\x{byte:02X}"))

    def key(self, key: bytes) -> str:
        return self.string("".join(map(self.byte, key)))

    def range(self, of: Range) -> str:
        if of.is_single and self.chance.random() < 0.9:
            return self.key(of.begin)
        return self.array([self.key(of.begin), self.key(of.end)])

    def number(self, number: int) -> str:
        return "-0" if number == 0 and self.chance.random() < 0.1 else str(number)

    def txn(self, txn: Txn) -> str:
        members = {"snapshot": self.number(txn.snapshot)}
        if txn.report or self.chance.random() < 0.5:
            members["report"] = str(txn.report).lower()
        members |= {
            "reads": self.array(list(map(self.range, txn.reads))),
            "writes": self.array(list(map(self.range, txn.writes))),
        }
        return self.object(members)

    def batch(self, batch: Batch) -> str:
        members = {"previous": self.number(batch.previous), "version": self.number(batch.version)}
        if batch.received != -1 or self.chance.random() < 0.5:
            members["received"] = self.number(batch.received)
        return self.object(members | {"transactions": self.array(list(map(self.txn, batch.txns)))})

    def entry(self, entry: Entry) -> str:
        if not entry.indices and (entry.verdict != "conflict" or self.chance.random() < 0.8):
            return self.string(entry.verdict)
        return self.object({"conflict": self.array(list(map(self.number, entry.indices)))})

    def reply(self, reply: Reply) -> str:
        verdicts = self.array(list(map(self.entry, reply.entries)))
        return self.object({"version": self.number(reply.version), "verdicts": verdicts})


def draw_batches(chance: Random) -> list[Batch]:
    drawer = draw_drawer(chance)
    return acknowledged(chance, drawer.chain(chance.randint(0, 4), (1, 1_000, 2**50)))


def blank(chance: Random) -> str:
    return chance.choice(("", "", "", "\n", " \t\n", "\r\n"))


def encode_run(
    chance: Random, is_replies: bool, text: bytes, expected: Outcome | None
) -> tuple[Run, dict[str, bytes]]:
    args = ("encode", "--replies") if is_replies else ("encode",)
    if chance.random() < 0.5:
        return Run("batches", args, text, expected=expected), {}
    return Run("batches", (*args, "lines"), expected=expected), {"lines": text}


def draw_encoded(chance: Random) -> Case:
    """Right lines, with blank ones between them and perhaps no line feed at the end."""
    is_replies = chance.random() < 0.3
    speller = Speller(chance)
    if is_replies:
        replies = [draw_reply(chance) for _ in range(chance.randint(0, 4))]
        lines, frames = list(map(speller.reply, replies)), list(map(reply_frame, replies))
    else:
        batches = draw_batches(chance)
        lines, frames = (
            list(map(speller.batch, batches)), [batch_frame(batch, 2) for batch in batches]
        )
    text = (
        "".join(blank(chance) + line + chance.choice(("\n", "\n", "\r\n")) for line in lines)
        + blank(chance)
    )
    if chance.random() < 0.2:
        text = text.rstrip("\n")
    run, files = encode_run(chance, is_replies, text.encode(), Outcome(0, b"".join(frames), b""))
    return Case("", "JSON", files, (run,))


PIECES: tuple[str, ...] = (
    '"', "\\", "{", "}", "[", "]", ",", ":", "0", "-", ".", "e", "1e3", "true", "null", "\\u0000",
    "\\ud800", "\\x", "\t", "\0", "\x1f", "\x7f",
)
PIECES += (
    "\u00e9", "\ufeff", "\u2028", "\U0001f600", "\\u00e9", "\\n", "\\/", "\\b", "\\u12", "//",
    "NaN", "'", "\n", "\r", " ", "\u00a0", "\v",
)
VALUES: tuple[str, ...] = (
    "0", "-0", "-1", "-2", "1", "1.0", "1e3", "1E+2", "0.0", "-", "+1", "01", ".5", "5.", "1e",
    "9223372036854775807", "9223372036854775808",
)
VALUES += (
    "-9223372036854775808", "-9223372036854775809", "18446744073709551615", "18446744073709551616",
    "1" * 400, "0." + "0" * 400, "1e999",
)
VALUES += (
    "null", "true", "false", "True", "nul", '""', '"a"', "[]", "{}", "[[]]", '["a"]',
    '["a","b","c"]', '{"a":1}', "NaN", "Infinity", '"\\ud83d\\ude00"',
)
VALUES += (
    '"\\ud800"', '"\\udc00"', '"\\ud800\\u0041"', '"\\uD800\\uD800"', '"\\u0000"', '"\\u00"',
    '"\\q"', '"\\x41"', '"\\\\x4"', '"\\\\"', '"unended',
)
MEMBERS = (
    "previous", "version", "received", "transactions", "snapshot", "report", "reads", "writes",
    "verdicts", "conflict",
)
NAMES = (
    *MEMBERS, "Previous", "version ", "", "\\u0076ersion", "versi\\u006fn", "\\ud800", "x" * 64,
    "x" * 65, "\u00e9" * 40, '\\"', "\\\\", "a\\nb",
)
BYTES = (
    b"\xff", b"\xc3", b"\xc3\x28", b"\xe2\x82", b"\xed\xa0\x80", b"\xf4\x90\x80\x80", b"\xc0\x80",
    b"\xef\xbb\xbf", b"\x80", b"\0",
)


def nested(chance: Random, text: str) -> str:
    """A deep value, near the depth that a line may have, which is closed or not."""
    depth = chance.choice((1, 2, 125, 126, 127, 128, 129, 130, 131, 5_000))
    opening, closing = chance.choice((("[", "]"), ('{"a":', "}"), ('[{"a":', "}]")))
    count = max(1, depth // len(closing))
    value = (
        opening * count
        + chance.choice(("", "0", "[]"))
        + closing * (count if chance.random() < 0.9 else count - 1)
    )
    return chance.choice((value, with_value(chance, text, value)))


def with_value(chance: Random, text: str, value: str) -> str:
    """Replaces the value of a member, or the front of it."""
    spots = [at for at, one in enumerate(text) if one == ":"]
    if not spots:
        return value
    at = chance.choice(spots) + 1
    end = at
    while end < len(text) and text[end] not in ',}]"[{':
        end += 1
    if end < len(text) and text[end] in '"[{':
        return (
            text[:at] + value + "," + text[end:]
            if chance.random() < 0.5
            else text[:at] + value + text[end + 1 :]
        )
    return text[:at] + value + text[end:]


def doubled(chance: Random, text: str) -> str:
    """Puts a member before the first of an object: a doubled or an unknown one."""
    spots = [at for at, one in enumerate(text) if one == "{"]
    if not spots:
        return text
    at = chance.choice(spots) + 1
    return f'{text[:at]}"{chance.choice(NAMES)}":{chance.choice(VALUES)},{text[at:]}'


def renamed(chance: Random, text: str) -> str:
    """Changes the name of a member."""
    name = chance.choice(MEMBERS)
    return text.replace(f'"{name}"', f'"{chance.choice(NAMES)}"', 1)


def piece_put(chance: Random, text: str) -> str:
    at = chance.randint(0, len(text))
    return text[:at] + chance.choice(PIECES) + text[at:]


def piece_taken(chance: Random, text: str) -> str:
    at = chance.randint(0, len(text))
    return text[:at] + text[at + chance.choice((1, 1, 2, 9)) :]


def cut_short(chance: Random, text: str) -> str:
    return text[: chance.randint(0, len(text))]


def value_changed(chance: Random, text: str) -> str:
    return with_value(chance, text, chance.choice(VALUES))


MISTAKES: tuple[Callable[[Random, str], str], ...] = (
    nested,
    value_changed,
    value_changed,
    value_changed,
    doubled,
    doubled,
    renamed,
    piece_put,
    piece_put,
    piece_taken,
    cut_short,
)


def mistaken(chance: Random, line: str) -> bytes:
    """A line with one mistake or two, or with bytes that are no UTF-8."""
    for _ in range(chance.choice((1, 1, 1, 2))):
        line = chance.choice(MISTAKES)(chance, line)
    text = line.encode()
    if chance.random() < 0.12:
        at = chance.randint(0, len(text))
        text = text[:at] + chance.choice(BYTES) + text[at:]
    return text


def repeated(front: str, item: str, back: str, most: int) -> Callable[[int], str]:
    """Returns a line by how many items it has more than the most."""
    return lambda more: front + ",".join([item] * (most + more)) + back


TXNS = '{"previous":0,"version":1,"transactions":['
READS = TXNS + '{"snapshot":0,"reads":['
LIMITS: tuple[Callable[[int], str], ...] = (
    repeated(TXNS, '{"snapshot":0,"reads":[],"writes":[]}', "]}", 4_096),
    repeated(READS, '"k"', '],"writes":[]}]}', 1_024),
    repeated('{"version":1,"verdicts":[', '"conflict"', "]}", 4_096),
    lambda more: READS + '"' + "k" * (10_000 + more) + '"],"writes":[]}]}',
    lambda more: READS + '["","' + "k" * (10_001 + more) + '"]],"writes":[]}]}',
    lambda more: '{"version":1,"verdicts":[{"conflict":['
    + ",".join(map(str, range(1_024 + more)))
    + "]}]}",
)


def draw_mistaken(chance: Random) -> Case:
    """Lines of which one has a mistake, or is at a limit or beyond it.

    Only what both builds make of it is compared.
    """
    is_replies = chance.random() < 0.3
    speller = Speller(chance)
    if is_replies:
        lines = [speller.reply(draw_reply(chance)).encode() for _ in range(chance.randint(1, 3))]
    else:
        lines = (
            [batch_line(batch).encode() for batch in draw_batches(chance)]
            or [speller.batch(Batch(-1, 0)).encode()]
        )
    at = chance.randrange(len(lines))
    if chance.random() < 0.08:
        lines[at] = chance.choice(LIMITS)(chance.choice((-1, 0, 1))).encode()
    else:
        lines[at] = mistaken(chance, lines[at].decode())
    text = (
        chance.choice((b"", b"", b"", b"\n", b"\xef\xbb\xbf"))
        + chance.choice((b"\n", b"\n", b"\r\n")).join(lines)
    )
    run, files = encode_run(chance, is_replies, text + chance.choice((b"", b"\n")), None)
    return Case("", "JSON mistakes", files, (run,))
