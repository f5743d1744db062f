"""Rows of the subcommands `opening`, `stats`, `split-points` and `clip` of `batches`."""

from dataclasses import dataclass

# Batches by their names, as the worked rows write them.
FILES: dict[str, tuple[str, ...]] = {
    "first": ("-1>0", r"0>100 received 0: m R[a,c) R[k] W[\x00,\xff\xff); W[kk] W[] @50"),
    "second": ("100>250: R[b,b)",),
    "empty": (),
    # Begins of ranges: a once, k six times, x, y and z.
    "begins": ("-1>0: R[a] R[k] R[k,l) R[k,m) W[k] W[k,n) W[k,z) W[x] W[y] W[z]",),
    "wide": ("-1>0: R[a,z) W[c] W[m,m) W[p,q)",),
}

# Files of split points.
POINTS: dict[str, str] = {
    "one": "m\n",
    "two": "c\np",
    "none": "",
    "escapes": "\\x00\\\\\n \n\\xFF\n",
    "falls": "c\nm\nd\n",
    "again": "c\nc\n",
    "blank": "\nc\n",
    "odd": "a\n\\q\n",
    "blank_key": "\n c\n",
    "printed": "a\n\t\n",
    "many": "".join(f"{number:03}\n" for number in range(64)),
}

STATS_FIRST = """\
batches: 2
bytes: 115
versions: 0 to 100
transactions: 2
transactions that request a report: 1
transactions per batch: least 0, mean 1.0, greatest 2
read ranges: 2
read ranges per transaction: least 0, mean 1.0, greatest 2
write ranges: 3
write ranges per transaction: least 1, mean 1.5, greatest 2
keys: 7
key bytes: least 0, mean 1.1, greatest 2
"""

STATS_SECOND = """\
batches: 1
bytes: 51
versions: 250 to 250
transactions: 1
transactions that request a report: 0
transactions per batch: least 1, mean 1.0, greatest 1
read ranges: 1
read ranges per transaction: least 1, mean 1.0, greatest 1
write ranges: 0
write ranges per transaction: least 0, mean 0.0, greatest 0
keys: 2
key bytes: least 1, mean 1.0, greatest 1
"""

STATS_EMPTY = """\
batches: 0
bytes: 0
versions: none
transactions: 0
transactions that request a report: 0
transactions per batch: none
read ranges: 0
read ranges per transaction: none
write ranges: 0
write ranges per transaction: none
keys: 0
key bytes: none
"""

JSON_SECOND = (
    '{"batches":1,"bytes":51,"versions":[250,250],"transactions":1,"reports":0,'
    '"transactions_per_batch":{"least":1,"mean":1.0,"greatest":1},"reads":1,'
    '"reads_per_transaction":{"least":1,"mean":1.0,"greatest":1},"writes":0,'
    '"writes_per_transaction":{"least":0,"mean":0.0,"greatest":0},"keys":2,'
    '"key_bytes":{"least":1,"mean":1.0,"greatest":1}}\n'
)

JSON_EMPTY = (
    '{"batches":0,"bytes":0,"versions":null,"transactions":0,"reports":0,'
    '"transactions_per_batch":null,"reads":0,"reads_per_transaction":null,"writes":0,'
    '"writes_per_transaction":null,"keys":0,"key_bytes":null}\n'
)


@dataclass(frozen=True)
class BatchesRow:
    args: tuple[str, ...]
    # Standard output, or the batches whose frames it has.
    out: str | tuple[str, ...] = ""
    err: str = ""
    status: int = 0
    # The name of the file that is standard input.
    stdin: str | None = None


def clip(points: str, shard: int, *files: str) -> tuple[str, ...]:
    return ("clip", "--split-points", points, "--shard", str(shard), *files)


ROWS = (
    BatchesRow(("stats", "first"), STATS_FIRST),
    BatchesRow(("stats", "second"), STATS_SECOND),
    BatchesRow(("stats", "empty"), STATS_EMPTY),
    BatchesRow(("stats",), STATS_SECOND, stdin="second"),
    BatchesRow(("stats", "-", "empty"), STATS_SECOND, stdin="second"),
    BatchesRow(("stats", "--json", "second"), JSON_SECOND),
    BatchesRow(("stats", "empty", "--json"), JSON_EMPTY),
    BatchesRow(
        ("stats", "first", "missing"), "", "batches: missing: the file can't be opened\n", 1
    ),
    BatchesRow(("stats", "first", "one"), "", "batches: one: frame 1: 1 Short\n", 1),
    BatchesRow(("stats",), "", "batches: standard input: frame 1: 1 Short\n", 1, stdin="one"),
    BatchesRow(("encode", "missing"), "", "batches: missing: the file can't be opened\n", 1),
    BatchesRow(("decode", "missing"), "", "batches: missing: the file can't be opened\n", 1),
    BatchesRow(("show", "one/missing"), "", "batches: one/missing: the file can't be opened\n", 1),
    BatchesRow(("encode", "."), "", "batches: .: the input can't be read\n", 1),
    BatchesRow(("show", "."), "", "batches: .: the input can't be read\n", 1),
    BatchesRow(("encode", "odd"), "", "batches: odd: line 1, column 1: not JSON\n", 1),
    BatchesRow(
        ("encode", "-"),
        "",
        "batches: standard input: line 2, column 2: not JSON\n",
        1,
        stdin="blank_key",
    ),
    BatchesRow(("decode", "one"), "", "batches: one: frame 1: 1 Short\n", 1),
    BatchesRow(
        ("show", "--replies", "-"),
        "",
        "batches: standard input: frame 1: 1 Short\n",
        1,
        stdin="one",
    ),
    BatchesRow(("stats", "."), "", "batches: .: the input can't be read\n", 1),
    BatchesRow(("split-points", "--resolvers", "4", "begins"), "k\ny\nz\n"),
    BatchesRow(("split-points", "--resolvers", "2", "begins"), "k\n"),
    BatchesRow(("split-points", "--resolvers", "1", "begins"), ""),
    BatchesRow(("split-points", "--resolvers", "64", "begins"), "a\nk\nx\ny\nz\n"),
    BatchesRow(("split-points", "--resolvers=3", "first", "second"), "a\nk\n"),
    BatchesRow(("split-points", "--resolvers", "2"), "k\n", stdin="begins"),
    BatchesRow(("split-points", "--resolvers", "2", "empty"), ""),
    BatchesRow(
        ("split-points", "--resolvers", "2", "empty", "one"),
        "",
        "batches: one: frame 1: 1 Short\n",
        1,
    ),
    BatchesRow(clip("one", 0, "wide"), ("-1>0: R[a,m) W[c]",)),
    BatchesRow(clip("one", 1, "wide"), ("-1>0: R[m,z) W[m,m) W[p,q)",)),
    BatchesRow(clip("two", 0, "wide"), ("-1>0: R[a,c)",)),
    BatchesRow(clip("two", 1, "wide"), ("-1>0: R[c,p) W[c] W[m,m)",)),
    BatchesRow(clip("two", 2, "wide"), ("-1>0: R[p,z) W[p,q)",)),
    BatchesRow(clip("none", 0, "wide"), ("-1>0: R[a,z) W[c] W[m,m) W[p,q)",)),
    BatchesRow(clip("one", 0), ("-1>0: R[a,m) W[c]",), stdin="wide"),
    BatchesRow(clip("one", 0, "-"), ("-1>0: R[a,m) W[c]",), stdin="wide"),
    BatchesRow(clip("one", 1, "second"), ("100>250: @0",)),
    BatchesRow(clip("escapes", 1, "first"), ("-1>0", r"0>100 received 0: m W[\x00\x5c,\x20); @50")),
    BatchesRow(clip("one", 1, "empty"), ()),
    BatchesRow(
        clip("one", 2, "wide"),
        "",
        "batches: one: no shard has this number: there are 2, counted from 0\n",
        1,
    ),
    BatchesRow(
        clip("falls", 0, "wide"),
        "",
        "batches: falls: line 3: the split point isn't after the one before\n",
        1,
    ),
    BatchesRow(
        clip("again", 0, "wide"),
        "",
        "batches: again: line 2: the split point isn't after the one before\n",
        1,
    ),
    BatchesRow(
        clip("blank", 0, "wide"),
        "",
        "batches: blank: line 1: the split point isn't after the one before\n",
        1,
    ),
    BatchesRow(
        clip("odd", 0, "wide"),
        "",
        "batches: odd: line 2: backslash that begins neither \\\\\\\\ nor \\\\xNN\n",
        1,
    ),
    BatchesRow(
        clip("printed", 0, "wide"),
        "",
        (
            "batches: printed: line 2: character that isn't printable ASCII: "
            "write its bytes as \\\\xNN\n"
        ),
        1,
    ),
    BatchesRow(clip("many", 0, "wide"), "", "batches: many: more than 63 split points\n", 1),
    BatchesRow(clip("missing", 0, "wide"), "", "batches: missing: the file can't be opened\n", 1),
    BatchesRow(clip("one", 0, "missing"), "", "batches: missing: the file can't be opened\n", 1),
    BatchesRow(clip("one", 0, "one"), "", "batches: one: frame 1: 1 Short\n", 1),
    BatchesRow(
        ("report", "first", "--replies", "missing"),
        "",
        "batches: missing: the file can't be opened\n",
        1,
    ),
    BatchesRow(
        ("report", "missing", "--replies", "empty"),
        "",
        "batches: missing: the file can't be opened\n",
        1,
    ),
    BatchesRow(("report", "one", "--replies", "empty"), "", "batches: one: frame 1: 1 Short\n", 1),
    BatchesRow(
        ("report", "--replies", "empty"),
        "",
        "batches: standard input: frame 1: 1 Short\n",
        1,
        stdin="one",
    ),
    BatchesRow(("report", "alone", "--replies", "one"), "", "batches: one: frame 1: 1 Short\n", 1),
    BatchesRow(
        ("report", "alone", "--replies", "empty", "-o", "missing/page"),
        "",
        "batches: missing/page: the file can't be created\n",
        1,
    ),
    BatchesRow(
        ("decode", "-"),
        '{"previous":-1,"version":0,"received":-1,"transactions":[]}\n',
        stdin="alone",
    ),
    BatchesRow(("show", "-"), "batch -1 > 0, received -1, transactions 0\n", stdin="alone"),
)
FILES["alone"] = ("-1>0",)

@dataclass(frozen=True)
class KeptRow:
    """A command line of `report` whose page would overwrite a file that is read.

    It fails, and the files are as before.
    """

    args: tuple[str, ...]
    # The file of the page.
    page: str
    # The name of the file that is standard input.
    stdin: str | None = None


# Further names of `first` and of `empty`, a file of no replies.
HARD_LINKS = {"hard": "first", "hard_replies": "empty"}
SYMBOLIC_LINKS = {"soft": "first"}

KEPT = (
    KeptRow(("first",), "first"),
    KeptRow(("first",), "./first"),
    KeptRow(("./first",), "first"),
    KeptRow(("first",), "hard"),
    KeptRow(("first",), "soft"),
    KeptRow(("soft",), "hard"),
    KeptRow(("second", "first"), "first"),
    KeptRow(("first",), "empty"),
    KeptRow(("first",), "./empty"),
    KeptRow(("first",), "hard_replies"),
    KeptRow((), "first", "first"),
    KeptRow(("-",), "hard", "first"),
    KeptRow(("second", "/dev/stdin"), "first", "first"),
    KeptRow((), "/dev/stdin", "first"),
)
FILE_KEPT = "the file is read too, and isn't overwritten"

# A device is written, although it is read.
DEVICE = ("report", "/dev/null", "--replies", "/dev/null", "-o", "/dev/null")

# Refused with status 2.
REFUSED: tuple[tuple[str, ...], ...] = (
    ("opening",),
    ("opening", "--version"),
    ("opening", "--version", "-1"),
    ("opening", "--version=-1"),
    ("opening", "--version", "9223372036854775808"),
    ("opening", "--version", "seventy"),
    ("opening", "--version", "1", "file"),
    ("split-points", "begins"),
    ("split-points", "--resolvers", "0", "begins"),
    ("split-points", "--resolvers", "65", "begins"),
    ("clip", "--shard", "0", "wide"),
    ("clip", "--split-points", "one", "wide"),
    ("clip", "--split-points", "one", "--shard", "64", "wide"),
    ("clip", "--split-points", "one", "--shard", "0", "wide", "wide"),
    ("stats", "--text"),
    ("report", "first"),
    ("report", "first", "--replies"),
    ("report", "first", "--replies", "empty", "-o"),
    ("report", "first", "--replies", "empty", "-o", "page", "--output", "page"),
)

# Versions whose opening batch is written.
VERSIONS = (0, 1, 70, 9_223_372_036_854_775_807)
