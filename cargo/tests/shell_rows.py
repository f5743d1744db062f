"""Rows of the command line of `replay`: files by their names, arguments, and what the program
prints and returns.

The help is not here, nor what `clap` says of refused arguments, only that it is an error.
"""

from dataclasses import dataclass

from .rows import FIRST_RUN, SHORT, Parts

# The files of batches.
BATCHES: dict[str, Parts] = {
    "first": (FIRST_RUN,),
    "second": ("100>200: R[a,b) @99",),
    "third": ("200>300",),
    "conflict": ("-1>0", "0>100: W[a,b)", "100>101: R[a,b) @99; R[a,b) @100"),
    "one": ("-1>0",),
    "writes": ("-1>0", "0>100: W[a,b)", "100>200: W[c,d) @100"),
    "cut": ("-1>0", b"\0"),
    "late": (*(f"{version - 1}>{version}" for version in range(20, 36)), "-1>0"),
    "empty": (),
    "json": (b'{"previous":-1,"version":0}\n',),
    "held": tuple(f"{version - 1}>{version}" for version in range(11, 1_200)),
    "overtaken": ("-1>0", "150>300", "100>200: W[a,b)", "0>100"),
    "rejected": (
        "-1>0",
        "0>100: W[k]; W[j,l); W[\\x01\"]",
        "100>200 received 0: m R[x] R[k] @50; R[\\x01\"] @50; W[k] @200; R[k] @200; R[a,z) @0",
        "100>200",
        "50>150",
        "0>100",
    ),
    # The report of the first transaction has its read of an older write alone. The second one asks
    # for none.
    "beside": ("-1>0", "0>100: W[a,b)", "100>200: W[k]; m R[k] R[a,b) @50; R[k] R[a,b) @50"),
    "again": ("-1>0", "0>100: W[a,b)", "0>100: W[a,b)", "-1>0", "0>100: W[a,b)"),
    "--frames": (FIRST_RUN,),
    "n\u00e4me of words": (FIRST_RUN,),
}

# The files of replies.
REPLIES: dict[str, Parts] = {
    "same": ("100 committed", "0 empty"),
    "fewer": ("0 empty",),
    "others": ("50 empty", "0 tooold", "100 tooold"),
    "nothing": (),
    "conflicts": ("200 conflict",),
    "places": ("200 conflict:0,2",),
    "place": ("200 conflict:0",),
    "short": ("0 empty", b"\0"),
}


@dataclass(frozen=True)
class ShellRow:
    args: tuple[str | bytes, ...]
    out: str
    err: str = ""
    status: int = 0
    # The name of the file that is standard input.
    stdin: str | None = None

    def hides_occupancy(self) -> bool:
        """Whether the row leaves open how full the resolver was."""
        return any(open_numbers in self.out + self.err for open_numbers in (SHARED, SHARED_JSON))


FIRST = "0 0 empty\n0 100 committed\n"

ANSWERS = (
    ShellRow(("first",), FIRST),
    ShellRow(("first", "second"), FIRST + "1 200 conflict\n"),
    ShellRow(("second", "first"), "0 200 conflict\n1 0 empty\n1 100 committed\n"),
    ShellRow(
        ("third", "first", "second"), "0 300 empty\n1 0 empty\n1 100 committed\n2 200 conflict\n"
    ),
    ShellRow(("second", "third"), "0 200 held\n1 300 held\n"),
    ShellRow(("conflict",), "0 0 empty\n0 100 committed\n0 101 conflict committed\n"),
    ShellRow(("--window", "1", "conflict"), "0 0 empty\n0 100 committed\n0 101 tooold committed\n"),
    ShellRow(("writes",), "0 0 empty\n0 100 committed\n0 200 committed\n"),
    ShellRow(("writes", "--limit", "3"), FIRST, "replay: stop 3 ArenaFull\n", 1),
    ShellRow(
        ("--frames", "first"),
        "0 0 0000000b0200000000000000000000\n0 100 0000000e0200000000000000640001020000\n",
    ),
    ShellRow(("--capacity", "1", "first", "second"), FIRST + "1 200 conflict\n"),
    ShellRow(
        ("late", *63 * ("empty",)),
        "0 0 empty\n" + "".join(f"0 {version} held\n" for version in range(20, 36)),
    ),
    ShellRow(
        ("--json", "first", "second"),
        (
            '{"proxy":0,"version":0,"verdicts":[]}\n'
            '{"proxy":0,"version":100,"verdicts":["committed"]}\n'
            '{"proxy":1,"version":200,"verdicts":["conflict"]}\n'
        ),
    ),
    ShellRow(("--", "--frames"), FIRST),
    ShellRow(("--capacity=+1", "--window", "+1", "first", "--limit=00003"), FIRST),
    ShellRow(("n\u00e4me of words",), FIRST),
    ShellRow(("-",), FIRST, stdin="first"),
    ShellRow(("--", "-"), FIRST, stdin="first"),
    ShellRow(("first", "-"), FIRST + "1 200 conflict\n", stdin="second"),
    ShellRow(
        ("-", "first", "./second"),
        "0 300 empty\n1 0 empty\n1 100 committed\n2 200 conflict\n",
        stdin="third",
    ),
    ShellRow(("-",), "", stdin="empty"),
)

FAILURES = (
    ShellRow(("none",), "", "replay: proxy 0: cannot open\n", 1),
    ShellRow(("first", "none"), "", "replay: proxy 1: cannot open\n", 1),
    ShellRow(("none", "first"), "", "replay: proxy 0: cannot open\n", 1),
    ShellRow(
        ("first", "second", "none", "third", "nowhere"), "", "replay: proxy 2: cannot open\n", 1
    ),
    ShellRow(("cut",), "0 0 empty\n", SHORT, 1),
    ShellRow(("-",), "0 0 empty\n", SHORT, 1, stdin="cut"),
    ShellRow(("./-",), "", "replay: proxy 0: cannot open\n", 1, stdin="first"),
    ShellRow((".",), "", "replay: proxy 0: wire 12 Read\n", 1),
    ShellRow(("first", "."), FIRST, "replay: proxy 1: wire 12 Read\n", 1),
    ShellRow(("",), "", "replay: proxy 0: cannot open\n", 1),
)

CHECKS = (
    ShellRow(("--check", "same", "first"), "checked 2 batches, 0 differences\n"),
    ShellRow(
        ("--check", "same", "first", "--check", "conflicts", "second"),
        "checked 3 batches, 0 differences\n",
    ),
    ShellRow(
        ("first", "--check", "fewer"), "0 100 missing\nchecked 2 batches, 1 differences\n", "", 3
    ),
    ShellRow(
        ("first", "--check", "others"),
        (
            "0 0 expected 0 verdicts, found 1\n0 100 0 expected committed, found tooold\n"
            "0 50 unexpected\n"
            "checked 2 batches, 3 differences\n"
        ),
        "",
        3,
    ),
    ShellRow(
        ("first", "--check", "same", "second", "--check", "places"),
        "1 200 0 places expected none found 0,2\nchecked 3 batches, 1 differences\n",
        "",
        3,
    ),
    ShellRow(("--check", "-", "first"), "checked 2 batches, 0 differences\n", stdin="same"),
    ShellRow(("--check", "same", "-"), "checked 2 batches, 0 differences\n", stdin="first"),
    ShellRow(("second", "--check", "nothing"), "checked 1 batches, 0 differences\n"),
    ShellRow(
        ("second", "--check", "conflicts"),
        "0 200 unexpected\nchecked 1 batches, 1 differences\n",
        "",
        3,
    ),
    ShellRow(("first", "--check", "nowhere"), "", "replay: replies 0: cannot open\n", 1),
    ShellRow(("nowhere", "--check", "nowhere"), "", "replay: proxy 0: cannot open\n", 1),
    ShellRow(
        ("first", "second", "--check", "same", "--check", "short"),
        "",
        "replay: replies 1: wire 1 Short\n",
        1,
    ),
    ShellRow(
        ("cut", "--check", "same"), "0 100 unexpected\nchecked 1 batches, 1 differences\n", SHORT, 1
    ),
)

# Answers as they come. The lines of different proxies may alternate in any way, so each row has one
# proxy with answers.
STREAMS = (
    ShellRow(("--stream", "first"), FIRST),
    ShellRow(("writes", "--stream"), "0 0 empty\n0 100 committed\n0 200 committed\n"),
    ShellRow(("--stream", "empty"), ""),
    ShellRow(("--stream", "-"), FIRST, stdin="first"),
    ShellRow(("--stream", "empty", "-"), "1 0 empty\n1 100 committed\n", stdin="first"),
    ShellRow(
        ("--stream", "--frames", "first"),
        "0 0 0000000b0200000000000000000000\n0 100 0000000e0200000000000000640001020000\n",
    ),
    ShellRow(
        ("--json", "--stream", "first"),
        (
            '{"proxy":0,"version":0,"verdicts":[]}\n'
            '{"proxy":0,"version":100,"verdicts":["committed"]}\n'
        ),
    ),
    ShellRow(
        ("--capacity", "1", "--stream", "conflict"),
        "0 0 empty\n0 100 committed\n0 101 conflict committed\n",
    ),
    ShellRow(
        ("--stream", "late", *63 * ("empty",)),
        "0 0 empty\n" + "".join(f"0 {version} held\n" for version in range(20, 36)),
    ),
    ShellRow(("--stream", "third"), "0 300 held\n"),
    ShellRow(("--stream", "writes", "--limit", "3"), FIRST, "replay: stop 3 ArenaFull\n", 1),
    ShellRow(
        ("empty", "writes", "--stream", "--limit", "3"),
        "1 0 empty\n1 100 committed\n",
        "replay: stop 3 ArenaFull\n",
        1,
    ),
    ShellRow(("--stream", "cut"), "0 0 empty\n", SHORT, 1),
    ShellRow(("--stream", "none"), "", "replay: proxy 0: cannot open\n", 1),
    ShellRow(("--stream", "."), "", "replay: proxy 0: wire 12 Read\n", 1),
)

# The records of the two answers of FIRST, and of one that is held.
FIRST_RECORDS = (
    "\1" + 8 * "\0" + "\0\0\0\x0b\2" + 10 * "\0" + "\1" + 7 * "\0" + "d" + "\0\0\0\x0e\2" + 7 * "\0"
    + "d\0\1\2\0\0"
)
HELD_RECORD = "\3" + 6 * "\0" + "\1,"
RECORDS = (
    ShellRow(("--stream", "--replies", "/dev/stderr", "first"), FIRST, FIRST_RECORDS),
    ShellRow(("--stream", "--replies", "/dev/stderr", "third"), "0 300 held\n", HELD_RECORD),
    ShellRow(
        ("--stream", "--json", "--replies=/dev/stderr", "--capacity=1", "third"),
        '{"proxy":0,"version":300,"answer":"held"}\n',
        HELD_RECORD,
    ),
    ShellRow(
        ("--stream", "empty", "third", "--replies", "out", "--replies", "/dev/stderr"),
        "1 300 held\n",
        HELD_RECORD,
    ),
    ShellRow(("--stream", "--replies", "out", "first"), FIRST),
    ShellRow(("--stream", "--replies", "out", "third"), "0 300 held\n"),
    ShellRow(
        ("--stream", "--replies", "/dev/full", "one"),
        "0 0 empty\n",
        "replay: replies 0: wire 15 Write\n",
        1,
    ),
    ShellRow(
        ("--stream", "empty", "one", "--replies", "/dev/full", "--replies", "/dev/full"),
        "1 0 empty\n",
        "replay: replies 1: wire 15 Write\n",
        1,
    ),
    ShellRow(
        ("--stream", "--replies", "no/such/out", "first"), "", "replay: replies 0: cannot open\n", 1
    ),
    ShellRow(
        ("--stream", "first", "second", "--replies", "out", "--replies", "."),
        "",
        "replay: replies 1: cannot open\n",
        1,
    ),
    ShellRow(("--stream", "none", "--replies", "."), "", "replay: proxy 0: cannot open\n", 1),
)

# Some lines of answers only. The batches and their replies are the same.
CONFLICT_JSON = '{"proxy":0,"version":101,"verdicts":["conflict","committed"]}\n'
FILTERS = (
    ShellRow(("--quiet", "first", "second"), ""),
    ShellRow(("--quiet", "cut"), "", SHORT, 1),
    ShellRow(("--quiet", "writes", "--limit", "3"), "", "replay: stop 3 ArenaFull\n", 1),
    ShellRow(("--quiet", "none"), "", "replay: proxy 0: cannot open\n", 1),
    ShellRow(("--only", "committed", "conflict"), "0 100 committed\n0 101 conflict committed\n"),
    ShellRow(("--only=conflict", "conflict"), "0 101 conflict committed\n"),
    ShellRow(("conflict", "--only", "tooold", "--window", "1"), "0 101 tooold committed\n"),
    ShellRow(("--only", "tooold", "conflict"), ""),
    ShellRow(("--only", "conflict", "second", "first"), "0 200 conflict\n"),
    ShellRow(("--only", "committed", "second", "third"), ""),
    ShellRow(("--only", "committed", "overtaken"), "0 200 committed\n"),
    ShellRow(("--versions", "150..", "overtaken"), "0 200 committed\n0 300 never\n"),
    ShellRow(("--versions", "100..101", "conflict"), "0 100 committed\n"),
    ShellRow(("--versions", "..101", "conflict"), FIRST),
    ShellRow(("--versions", "101..", "conflict"), "0 101 conflict committed\n"),
    ShellRow(
        ("--versions", "..", "conflict"), "0 0 empty\n0 100 committed\n0 101 conflict committed\n"
    ),
    ShellRow(("--versions", "101..100", "conflict"), ""),
    ShellRow(("--versions", "100..100", "conflict"), ""),
    ShellRow(("--versions", "+1..+0101", "conflict"), "0 100 committed\n"),
    ShellRow(("--versions=-1..1", "first"), "0 0 empty\n"),
    ShellRow(("--versions=-9223372036854775808..9223372036854775807", "first"), FIRST),
    ShellRow(("--versions", "250..301", "second", "third"), "1 300 held\n"),
    ShellRow(("--versions", "100..", "first", "second"), "0 100 committed\n1 200 conflict\n"),
    ShellRow(("--versions", "..101", "--only", "committed", "conflict"), "0 100 committed\n"),
    ShellRow(("--quiet", "--versions", "..", "--only", "committed", "conflict"), ""),
    ShellRow(("--only", "committed", "cut"), "", SHORT, 1),
    ShellRow(
        ("--frames", "--versions", "1..", "first"), "0 100 0000000e0200000000000000640001020000\n"
    ),
    ShellRow(
        ("--frames", "--only", "committed", "first"), "0 100 0000000e0200000000000000640001020000\n"
    ),
    ShellRow(("--json", "--only", "conflict", "conflict"), CONFLICT_JSON),
    ShellRow(("--json", "--versions", "101..102", "conflict"), CONFLICT_JSON),
    ShellRow(
        ("--json", "--versions", "300..", "third"), '{"proxy":0,"version":300,"answer":"held"}\n'
    ),
    ShellRow(("--stream", "--quiet", "first"), ""),
    ShellRow(("--stream", "--quiet", "cut"), "", SHORT, 1),
    ShellRow(("--stream", "--only", "conflict", "conflict"), "0 101 conflict committed\n"),
    ShellRow(("--stream", "--versions", "1..101", "conflict"), "0 100 committed\n"),
    ShellRow(("--stream", "--only", "committed", "third"), ""),
    ShellRow(
        ("--stream", "--json", "--only", "conflict", "--versions", "..102", "conflict"),
        CONFLICT_JSON,
    ),
    ShellRow(("--stream", "--quiet", "--replies", "/dev/stderr", "first"), "", FIRST_RECORDS),
    ShellRow(
        ("--stream", "--only", "tooold", "--replies", "/dev/stderr", "third"), "", HELD_RECORD
    ),
    ShellRow(
        ("--stream", "--versions", "1..", "--replies", "/dev/stderr", "first"),
        "0 100 committed\n",
        FIRST_RECORDS,
    ),
    ShellRow(
        ("--stream", "--quiet", "--replies", "/dev/full", "one"),
        "",
        "replay: replies 0: wire 15 Write\n",
        1,
    ),
)

# Options and files in any order, and names that are like options.
ARGUMENTS = (
    ShellRow(("empty", "first", "empty"), "1 0 empty\n1 100 committed\n"),
    ShellRow(("-", "./-", "--json"), "", "replay: proxy 1: cannot open\n", 1, stdin="first"),
    ShellRow(
        ("--capacity", "1", "--window=1", "one", "--frames", "empty", "--limit", "1"),
        "0 0 0000000b0200000000000000000000\n",
    ),
    ShellRow(
        ("--capacity=1024", "--window", "1099511627776", "--limit", "16777216", "first"), FIRST
    ),
    ShellRow(
        ("--check", "same", "first", "second", "--check=conflicts"),
        "checked 3 batches, 0 differences\n",
    ),
    ShellRow(("one", "--stream", "empty"), "0 0 empty\n"),
    ShellRow(
        ("--only", "committed", "conflict", "--stream"),
        "0 100 committed\n0 101 conflict committed\n",
    ),
    ShellRow(
        ("--only", "conflict", "--versions", "+101..0102", "--json", "conflict"), CONFLICT_JSON
    ),
    ShellRow(("--only=tooold", "--versions=-9223372036854775807..", "conflict"), ""),
    ShellRow(
        ("--versions", "..9223372036854775807", "--frames", "one"),
        "0 0 0000000b0200000000000000000000\n",
    ),
    ShellRow(
        ("--replies", "out", "third", "--stream", "--json"),
        '{"proxy":0,"version":300,"answer":"held"}\n',
    ),
    ShellRow(
        ("--stream", "--replies", "-", "empty", "--replies=/dev/stderr", "third"),
        "1 300 held\n",
        HELD_RECORD,
    ),
)

def counted(name: str, counts: tuple[int, ...], versions: str) -> str:
    """The line of a summary."""
    words = (
        "batches", "transactions", "committed", "conflict", "tooold", "repeats", "never", "held"
    )
    parts = [f"{word} {count}" for word, count in zip(words, counts, strict=True)]
    rate = "none" if counts[1] == 0 else f"{100 * counts[3] / counts[1]:.1f} %"
    return (
        f"{name}: {', '.join([*parts[:5], f'conflict rate {rate}', *parts[5:]])}, "
        f"versions {versions}\n"
    )


def resolver(most_held: int | str, boundaries: int | str, most_boundaries: int | str) -> str:
    """The line that says how full the resolver was."""
    return (
        f"resolver: held at most {most_held}, boundaries {boundaries}, at most {most_boundaries}\n"
    )


# Several proxies share the resolver, so the schedule decides.
SHARED = resolver("*", "*", "*")
SHARED_JSON = ',"most_held":*,"boundaries":*,"most_boundaries":*'


def alone(*counts: int, versions: str, full: tuple[int, int, int] = (0, 3, 3)) -> str:
    """The summary of a run of one proxy."""
    return counted("proxy 0", counts, versions) + counted("all", counts, versions) + resolver(*full)


# A summary instead of lines.
TWO_COUNTED = (
    counted("proxy 0", (2, 1, 1, 0, 0, 0, 0, 0), "0 to 100")
    + counted("proxy 1", (1, 1, 0, 1, 0, 0, 0, 0), "200 to 200")
    + counted("all", (3, 2, 1, 1, 0, 0, 0, 0), "0 to 200")
    + SHARED
)
NOTHING = alone(0, 0, 0, 0, 0, 0, 0, 0, versions="none", full=(0, 1, 1))
SUMMARIES = (
    ShellRow(("--summary", "first"), alone(2, 1, 1, 0, 0, 0, 0, 0, versions="0 to 100")),
    ShellRow(("first", "--summary", "second"), TWO_COUNTED),
    ShellRow(
        ("--summary", "conflict", "--window=1", "--capacity", "1"),
        alone(3, 3, 2, 0, 1, 0, 0, 0, versions="0 to 101"),
    ),
    ShellRow(("--summary", "again"), alone(2, 1, 1, 0, 0, 3, 0, 0, versions="0 to 100")),
    ShellRow(
        ("--summary", "overtaken"),
        alone(3, 1, 1, 0, 0, 0, 1, 0, versions="0 to 200", full=(2, 3, 3)),
    ),
    ShellRow(
        ("--summary", "second", "third"),
        counted("proxy 0", (0, 0, 0, 0, 0, 0, 0, 1), "none")
        + counted("proxy 1", (0, 0, 0, 0, 0, 0, 0, 1), "none")
        + counted("all", (0, 0, 0, 0, 0, 0, 0, 2), "none")
        + SHARED,
    ),
    ShellRow(("--summary", "empty"), NOTHING),
    ShellRow(("--summary", "-"), alone(2, 1, 1, 0, 0, 0, 0, 0, versions="0 to 100"), stdin="first"),
    ShellRow(
        ("--json", "--summary", "first", "empty"),
        '{"proxies":[{"proxy":0,"batches":2,"transactions":1,"committed":1,"conflict":0,"tooold":0,'
        '"conflict_percent":0.0,"repeats":0,"never":0,"held":0,"versions":{"first":0,"last":100}},'
        '{"proxy":1,"batches":0,"transactions":0,"committed":0,"conflict":0,"tooold":0,'
        '"conflict_percent":null,"repeats":0,"never":0,"held":0,"versions":null}],"batches":2,'
        '"transactions":1,"committed":1,"conflict":0,"tooold":0,"conflict_percent":0.0,"repeats":0,'
        '"never":0,"held":0,"versions":{"first":0,"last":100}'
        + SHARED_JSON
        + "}\n",
    ),
    ShellRow(
        ("--summary", "cut"),
        alone(1, 0, 0, 0, 0, 0, 0, 0, versions="0 to 0", full=(0, 1, 1)),
        SHORT,
        1,
    ),
    ShellRow(
        ("--summary", "writes", "--limit", "3"),
        alone(2, 1, 1, 0, 0, 0, 0, 0, versions="0 to 100"),
        "replay: stop 3 ArenaFull\n",
        1,
    ),
    ShellRow(("--summary", "first", "none"), "", "replay: proxy 1: cannot open\n", 1),
)

# The lines that explain the rejections of some batches.
SECOND_EXPLAINED = (
    '  txn 0 read 0 ["a","b") conflicts with write ["a","b") of proxy 0, version 100, '
    'txn 0 (history)\n'
)
HELD_EXPLAINED = (
    '  txn 0 read 0 ["a","b") conflicts with write ["a","b") of proxy 1, version 100, '
    'txn 0 (history)\n'
)
TOO_OLD_EXPLAINED = "  txn 0 too old: snapshot 99, oldest readable version 100\n"
REJECTED = (
    "0 200 conflict:1 conflict committed conflict conflict\n"
    '  txn 0 read 1 ["k","k\\x00") conflicts with write ["j","l") of proxy 0, version 100, '
    'txn 1 (history), and 1 more\n'
    '  txn 1 read 0 ["\\x01"","\\x01"\\x00") conflicts with write ["\\x01"","\\x01"\\x00") of '
    'proxy 0, version 100, txn 2 (history)\n'
    '  txn 3 read 0 ["k","k\\x00") conflicts with write ["k","k\\x00") of proxy 0, version 200, '
    'txn 2 (same batch)\n'
    '  txn 4 read 0 ["a","z") conflicts with write ["k","k\\x00") of proxy 0, version 200, '
    'txn 2 (same batch), and 2 more\n'
)
SECOND_MEMBER = (
    '"explanations":[{"txn":0,"read":0,"range":["a","b"],'
    '"write":{"range":["a","b"],"proxy":0,"version":100,"txn":0},"further":0,"same_batch":false}]'
)
FIRST_JSON = (
    '{"proxy":0,"version":0,"verdicts":[]}\n{"proxy":0,"version":100,"verdicts":["committed"]}\n'
)
SECOND_JSON = '{"proxy":1,"version":200,"verdicts":["conflict"],' + SECOND_MEMBER + "}\n"
TOO_OLD_JSON = (
    '{"proxy":0,"version":101,"verdicts":["tooold","committed"],'
    '"explanations":[{"txn":0,"too_old":{"snapshot":99,"oldest":100}}]}\n'
)
REJECTED_JSON = (
    '{"proxy":0,"version":200,"verdicts":[{"conflict":[1]},"conflict","committed","conflict",'
    '"conflict"],"explanations":[{"txn":0,"read":1,"range":["k","k\\\\x00"],"write":{"range":["j",'
    '"l"],"proxy":0,"version":100,"txn":1},"further":1,"same_batch":false},{"txn":1,"read":0,'
    '"range":["\\\\x01\\"","\\\\x01\\"\\\\x00"],"write":{"range":["\\\\x01\\"",'
    '"\\\\x01\\"\\\\x00"],"proxy":0,"version":100,"txn":2},"further":0,"same_batch":false},'
    '{"txn":3,"read":0,"range":["k","k\\\\x00"],"write":{"range":["k","k\\\\x00"],"proxy":0,'
    '"version":200,"txn":2},"further":0,"same_batch":true},{"txn":4,"read":0,"range":["a","z"],'
    '"write":{"range":["k","k\\\\x00"],"proxy":0,"version":200,"txn":2},"further":2,'
    '"same_batch":true}]}\n'
)
THREE = "0 100 committed committed committed\n"
# Each read in conflict has a line, also if a report leaves it out.
BESIDE_EXPLAINED = "".join(
    f'  txn {txn} read 0 ["k","k\\x00") conflicts with write ["k","k\\x00") of proxy 0, '
    'version 200, txn 0 (same batch)\n'
    f'  txn {txn} read 1 ["a","b") conflicts with write ["a","b") of proxy 0, version 100, '
    'txn 0 (history)\n'
    for txn in (1, 2)
)
BESIDE_MEMBER = ",".join(
    f'{{"txn":{txn},"read":0,"range":["k","k\\\\x00"],'
    '"write":{"range":["k","k\\\\x00"],"proxy":0,"version":200,"txn":0},"further":0,'
    f'"same_batch":true}},{{"txn":{txn},"read":1,"range":["a","b"],"write":{{"range":["a","b"],'
    '"proxy":0,"version":100,"txn":0},"further":0,"same_batch":false}'
    for txn in (1, 2)
)
BESIDE_JSON = (
    '{"proxy":0,"version":200,"verdicts":["committed",{"conflict":[1]},"conflict"],'
    f'"explanations":[{BESIDE_MEMBER}]}}\n'
)
EXPLAINS = (
    ShellRow(("--explain", "first"), FIRST),
    ShellRow(("first", "second", "--explain"), FIRST + "1 200 conflict\n" + SECOND_EXPLAINED),
    ShellRow(
        ("--explain", "second", "first"),
        "0 200 conflict\n" + HELD_EXPLAINED + "1 0 empty\n1 100 committed\n",
    ),
    ShellRow(("--explain", "conflict"), FIRST + "0 101 conflict committed\n" + SECOND_EXPLAINED),
    ShellRow(
        ("--explain", "--window", "1", "conflict"),
        FIRST + "0 101 tooold committed\n" + TOO_OLD_EXPLAINED,
    ),
    # A repeat has the same lines again. One whose reply is no longer kept has none.
    ShellRow(("--explain", "rejected"), "0 0 empty\n" + 2 * THREE + "0 150 never\n" + 2 * REJECTED),
    ShellRow(
        ("--explain", "beside"), FIRST + "0 200 committed conflict:1 conflict\n" + BESIDE_EXPLAINED
    ),
    ShellRow(("--explain", "--json", "--versions", "200..", "beside"), BESIDE_JSON),
    ShellRow(("--explain", "overtaken"), "0 0 empty\n0 100 empty\n0 200 committed\n0 300 never\n"),
    ShellRow(("--explain", "second", "third"), "0 200 held\n1 300 held\n"),
    ShellRow(("--explain", "empty"), ""),
    # In a line of JSON they are a member.
    ShellRow(("--explain", "--json", "first"), FIRST_JSON),
    ShellRow(("--json", "first", "second", "--explain"), FIRST_JSON + SECOND_JSON),
    ShellRow(
        ("--explain", "--json", "--window", "1", "--versions", "101..", "conflict"), TOO_OLD_JSON
    ),
    ShellRow(("--explain", "--json", "--versions", "200..", "rejected"), 2 * REJECTED_JSON),
    ShellRow(("--explain", "--json", "third"), '{"proxy":0,"version":300,"answer":"held"}\n'),
    ShellRow(
        ("--explain", "--json", "--only", "committed", "second", "first"),
        '{"proxy":1,"version":100,"verdicts":["committed"]}\n',
    ),
    ShellRow(("--explain", "--json", "--quiet", "first", "second"), ""),
    ShellRow(("--explain", "--json", "cut"), '{"proxy":0,"version":0,"verdicts":[]}\n', SHORT, 1),
    # What isn't shown isn't explained.
    ShellRow(("--explain", "--only", "committed", "first", "second"), "0 100 committed\n"),
    ShellRow(
        ("--explain", "--only", "conflict", "first", "second"),
        "1 200 conflict\n" + SECOND_EXPLAINED,
    ),
    ShellRow(
        ("--versions", "200..", "--explain", "first", "second"),
        "1 200 conflict\n" + SECOND_EXPLAINED,
    ),
    ShellRow(("--versions", "..200", "--explain", "first", "second"), FIRST),
    ShellRow(("--explain", "--quiet", "first", "second"), ""),
    ShellRow(("--explain", "cut"), "0 0 empty\n", SHORT, 1),
    ShellRow(("--explain", "writes", "--limit", "3"), FIRST, "replay: stop 3 ArenaFull\n", 1),
    ShellRow(("--explain", "first", "none"), "", "replay: proxy 1: cannot open\n", 1),
)

# Every transaction is resolved as if it asked for its report.
REPORTED = REJECTED.replace(
    "conflict:1 conflict committed conflict conflict",
    "conflict:1 conflict:0 committed conflict:0 conflict:0",
)
REPORTED_JSON = (
    '{"proxy":0,"version":200,"verdicts":[{"conflict":[1]},{"conflict":[0]},"committed",'
    '{"conflict":[0]},{"conflict":[0]}]}\n'
)
REPORTS = (
    ShellRow(("--report-all", "first", "second"), FIRST + "1 200 conflict:0\n"),
    ShellRow(("first", "--report-all"), FIRST),
    ShellRow(("--report-all", "conflict"), FIRST + "0 101 conflict:0 committed\n"),
    ShellRow(("--window", "1", "--report-all", "conflict"), FIRST + "0 101 tooold committed\n"),
    ShellRow(
        ("--report-all", "--json", "--versions", "101..", "conflict"),
        '{"proxy":0,"version":101,"verdicts":[{"conflict":[0]},"committed"]}\n',
    ),
    ShellRow(
        ("--frames", "--report-all", "--versions", "200..", "first", "second"),
        "1 200 000000100200000000000000c800010000010000\n",
    ),
    ShellRow(
        ("--report-all", "--explain", "first", "second"),
        FIRST + "1 200 conflict:0\n" + SECOND_EXPLAINED,
    ),
    ShellRow(
        ("--explain", "--report-all", "rejected"),
        "0 0 empty\n" + 2 * THREE + "0 150 never\n" + 2 * REPORTED,
    ),
    ShellRow(
        ("--explain", "--report-all", "beside"),
        FIRST + "0 200 committed conflict:1 conflict:1\n" + BESIDE_EXPLAINED,
    ),
    ShellRow(("--report-all", "--only", "conflict", "conflict"), "0 101 conflict:0 committed\n"),
    ShellRow(("--report-all", "--summary", "first", "second"), TWO_COUNTED),
    ShellRow(("--report-all", "--stream", "conflict"), FIRST + "0 101 conflict:0 committed\n"),
    ShellRow(
        ("--stream", "--report-all", "--json", "rejected", "--versions", "200.."), 2 * REPORTED_JSON
    ),
    ShellRow(
        ("first", "--check", "same", "second", "--check", "place", "--report-all"),
        "checked 3 batches, 0 differences\n",
    ),
    ShellRow(
        ("--report-all", "first", "--check", "same", "second", "--check", "conflicts"),
        "1 200 0 places expected 0 found none\nchecked 3 batches, 1 differences\n",
        "",
        3,
    ),
    ShellRow(("--report-all", "cut"), "0 0 empty\n", SHORT, 1),
    ShellRow(("--report-all", "--stream", "cut"), "0 0 empty\n", SHORT, 1),
    ShellRow(("--report-all", "first", "none"), "", "replay: proxy 1: cannot open\n", 1),
    ShellRow(("writes", "--limit", "3", "--report-all"), FIRST, "replay: stop 3 ArenaFull\n", 1),
)

# With a file for the output it gets the same bytes, and standard output stays empty. The lines of
# failures come after them.
OUTPUTS = tuple(
    ShellRow(("-o", "/dev/stderr", *row.args), "", row.out + row.err, row.status, row.stdin)
    for row in ANSWERS + FAILURES + CHECKS + STREAMS + FILTERS[:8] + SUMMARIES + EXPLAINS + REPORTS
) + (
    ShellRow(("first", "--output=/dev/stderr"), "", FIRST),
    ShellRow(("first", "-o/dev/stderr", "--json"), "", FIRST_JSON),
    ShellRow(("-o", "out", "first"), ""),
    ShellRow(("-o", "out", "first", "--check", "others"), "", "", 3),
    ShellRow(("-o", "out", "--stream", "third", "--replies", "/dev/stderr"), "", HELD_RECORD),
    ShellRow(("-o", "/dev/stderr", "--stream", "--replies", "out", "first"), "", FIRST),
    # A write that fails has no line.
    ShellRow(("-o", "/dev/full", "first"), "", "", 1),
    ShellRow(("-o", "/dev/full", "--explain", "first"), "", "", 1),
    ShellRow(("-o", "/dev/full", "--summary", "first"), "", "", 1),
    ShellRow(("-o", "/dev/full", "--stream", "first"), "", "", 1),
    ShellRow(("-o", "/dev/full", "--check", "same", "first"), "", "", 1),
    ShellRow(("-o", "/dev/full", "cut"), "", SHORT, 1),
    ShellRow(("-o", "/dev/full", "empty"), ""),
    # It is created after the files of batches were opened, and before anything else is done.
    ShellRow(("-o", "no/such/out", "first"), "", "replay: create output\n", 1),
    ShellRow(("-o", ".", "first", "--json"), "", "replay: create output\n", 1),
    ShellRow(("-o", "", "--stream", "first"), "", "replay: create output\n", 1),
    ShellRow(("-o", "no/such/out", "first", "none"), "", "replay: proxy 1: cannot open\n", 1),
    ShellRow(
        ("-o", "no/such/out", "first", "--check", "nowhere"), "", "replay: create output\n", 1
    ),
    ShellRow(
        ("-o", "no/such/out", "first", "--stream", "--replies", "no/such/out"),
        "",
        "replay: create output\n",
        1,
    ),
)


def hot(reads: tuple[str, ...], writes: tuple[str, ...]) -> str:
    """The lines of ranges that conflict most."""
    lines = [
        "read ranges in conflict, most first",
        *reads,
        "written ranges in conflict, most first",
        *writes,
    ]
    return "".join(f"{line}\n" for line in lines)


# Summaries with the ranges that conflict most.
ONE_HOT = ('  1 ["a","b")',)
TOPS = (
    ShellRow(
        ("--summary", "--top", "5", "first"),
        alone(2, 1, 1, 0, 0, 0, 0, 0, versions="0 to 100") + hot((), ()),
    ),
    ShellRow(("--top", "1", "first", "--summary", "second"), TWO_COUNTED + hot(ONE_HOT, ONE_HOT)),
    ShellRow(
        ("--json", "--summary", "--top", "1", "conflict"),
        (
            '{"proxies":[{"proxy":0,"batches":3,"transactions":3,"committed":2,"conflict":1,'
            '"tooold":0,"conflict_percent":33.3,"repeats":0,"never":0,"held":0,'
            '"versions":{"first":0,"last":101}}],"batches":3,"transactions":3,"committed":2,'
            '"conflict":1,"tooold":0,"conflict_percent":33.3,"repeats":0,"never":0,"held":0,'
            '"versions":{"first":0,"last":101},"most_held":0,"boundaries":3,"most_boundaries":3,'
            '"hot_reads":[{"begin":"a","end":"b","conflicts":1}],"hot_writes":[{"begin":"a",'
            '"end":"b","conflicts":1}]}\n'
        ),
    ),
    ShellRow(
        ("--summary", "--top", "9", "conflict", "--window=1"),
        alone(3, 3, 2, 0, 1, 0, 0, 0, versions="0 to 101") + hot((), ()),
    ),
    ShellRow(
        ("--summary", "--top", "9", "cut"),
        alone(1, 0, 0, 0, 0, 0, 0, 0, versions="0 to 0", full=(0, 1, 1)) + hot((), ()),
        SHORT,
        1,
    ),
    ShellRow(("--summary", "--top", "9", "first", "none"), "", "replay: proxy 1: cannot open\n", 1),
    ShellRow(("-o", "/dev/full", "--summary", "--top", "9", "first"), "", "", 1),
)

FROM_100 = (
    "  no batch follows version -1, so all are held: "
    "begin the chain with `batches opening --version 100`\n"
)
FROM_200 = FROM_100.replace("100", "200")

# Failures with one more line, and runs whose batches are all held.
VERBOSE = (
    ShellRow(("--verbose", "first"), FIRST),
    ShellRow(("--verbose", "second", "third"), "0 200 held\n1 300 held\n", FROM_100),
    ShellRow(("third", "--verbose", "--stream"), "0 300 held\n", FROM_200),
    ShellRow(("--verbose", "--explain", "third", "second"), "0 300 held\n1 200 held\n", FROM_100),
    ShellRow(
        ("--verbose", "--check", "conflicts", "second"),
        "0 200 unexpected\nchecked 1 batches, 1 differences\n",
        FROM_100,
        3,
    ),
    ShellRow(("second", "first", "--verbose"), "0 200 conflict\n1 0 empty\n1 100 committed\n"),
    ShellRow(("--verbose", "empty"), ""),
    # Standard input can't be read again.
    ShellRow(("--verbose", "second", "-"), "0 200 held\n1 300 held\n", stdin="third"),
    ShellRow(
        ("cut", "--verbose"),
        "0 0 empty\n",
        SHORT
        + "  cut ends inside frame 2 at byte 31, 3 bytes too early: "
        + "record it again, or keep the frames before it with `head -c 31`\n",
        1,
    ),
    ShellRow(
        ("first", "none", "--verbose"),
        "",
        (
            "replay: proxy 1: cannot open\n"
            "  none can't be opened: check the name and the permissions\n"
        ),
        1,
    ),
    ShellRow(
        ("--verbose", "same"),
        "",
        (
            "replay: proxy 0: wire 3 Kind\n  same contains replies, not batches, "
            "from frame 1 at byte 0 on: give them to `--check`\n"
        ),
        1,
    ),
    ShellRow(
        ("--verbose", "json"),
        "",
        (
            "replay: proxy 0: wire 2 Long\n"
            "  json is JSON: run `batches encode`, and replay its output\n"
        ),
        1,
    ),
    ShellRow(
        ("--verbose", "."),
        "",
        (
            "replay: proxy 0: wire 12 Read\n"
            "  . can't be read: it is a directory, or its device fails\n"
        ),
        1,
    ),
    ShellRow(
        ("--verbose", "-"),
        "0 0 empty\n",
        SHORT
        + (
            "  - is standard input, which can't be read again: "
            "record it to a file, and replay that\n"
        ),
        1,
        stdin="cut",
    ),
    ShellRow(
        ("--verbose", "writes", "--limit", "3"),
        FIRST,
        (
            "replay: stop 3 ArenaFull\n"
            "  version 100 was reached with a limit of 3 boundaries: "
            "raise `--limit`, or use a smaller `--window`\n"
        ),
        1,
    ),
    ShellRow(
        ("--verbose", "held"),
        "",
        (
            "replay: stop 2 GateFull\n"
            "  no batch follows version -1, so all are held: "
            "begin the chain with `batches opening --version 10`\n"
        ),
        1,
    ),
    ShellRow(
        ("--verbose", "-o", "/dev/full", "first"),
        "",
        "  the output can't be written: free its disk, or read it to its end\n",
        1,
    ),
    ShellRow(
        ("--verbose", "first", "--check", "short"), "", "replay: replies 0: wire 1 Short\n", 1
    ),
)

# A summary beside the answers.
FIRST_COUNTED = alone(2, 1, 1, 0, 0, 0, 0, 0, versions="0 to 100")
BESIDES = (
    ShellRow(("first", "--summary-to", "/dev/stderr"), FIRST, FIRST_COUNTED),
    ShellRow(
        ("--summary-to=/dev/stderr", "first", "second"), FIRST + "1 200 conflict\n", TWO_COUNTED
    ),
    # The summary is of all answers.
    ShellRow(("--summary-to", "/dev/stderr", "first", "--quiet"), "", FIRST_COUNTED),
    ShellRow(
        ("--summary-to", "/dev/stderr", "first", "--versions", "100.."),
        "0 100 committed\n",
        FIRST_COUNTED,
    ),
    ShellRow(
        ("--summary-to", "/dev/stderr", "cut"),
        "0 0 empty\n",
        alone(1, 0, 0, 0, 0, 0, 0, 0, versions="0 to 0", full=(0, 1, 1)) + SHORT,
        1,
    ),
    ShellRow(("--summary-to", "out", "first"), FIRST),
    ShellRow(("--summary-to", "out", "-o", "/dev/stderr", "first"), "", FIRST),
    ShellRow(("--summary-to", "/dev/stderr", "-o", "out", "first"), "", FIRST_COUNTED),
    # The other text is complete if one can't be written.
    ShellRow(("--summary-to", "/dev/full", "first"), FIRST, "", 1),
    ShellRow(("--summary-to", "/dev/stderr", "-o", "/dev/full", "first"), "", FIRST_COUNTED, 1),
    # It is created after the files were opened and the output was created.
    ShellRow(("--summary-to", "no/such/out", "first"), "", "replay: create summary\n", 1),
    ShellRow(
        ("--summary-to", "no/such/out", "-o", "no/such/out", "first"),
        "",
        "replay: create output\n",
        1,
    ),
    ShellRow(("--summary-to", "no/such/out", "none"), "", "replay: proxy 0: cannot open\n", 1),
)

# A device can be written twice, and read too.
DEVICES = (
    ShellRow(("-o", "/dev/null", "--summary-to", "/dev/null", "first"), ""),
    ShellRow(
        (
            "-o", "/dev/null", "--stream", "--replies", "/dev/null", "--replies", "/dev/null",
            "first", "second",
        ),
        "",
    ),
    ShellRow(("-o", "/dev/../dev/null", "/dev/null"), ""),
)

ROWS = (
    ANSWERS + FAILURES + CHECKS + STREAMS + RECORDS + FILTERS + ARGUMENTS + SUMMARIES + EXPLAINS
    + REPORTS + OUTPUTS + TOPS + BESIDES + VERBOSE + DEVICES
)

@dataclass(frozen=True)
class KeptRow:
    """A command line that would overwrite a file that is read, or write one twice.

    It fails, and the files are as before.
    """

    args: tuple[str, ...]
    err: str
    # The name of the file that is standard input.
    stdin: str | None = None


# Further names of `first`.
HARD_LINKS = {"hard": "first"}
SYMBOLIC_LINKS = {"soft": "first"}
# A file of split points.
POINTS = {"point": b"b\n"}

OUTPUT_KEPT = "replay: create output\n"
SUMMARY_KEPT = "replay: create summary\n"
REPLIES_KEPT = "replay: replies 0: cannot open\n"

KEPT = (
    KeptRow(("-o", "./first", "first"), OUTPUT_KEPT),
    KeptRow(("-o", "first", "second", "./first"), OUTPUT_KEPT),
    KeptRow(("-o", "hard", "first"), OUTPUT_KEPT),
    KeptRow(("-o", "soft", "first"), OUTPUT_KEPT),
    KeptRow(("-o", "first", "soft"), OUTPUT_KEPT),
    KeptRow(("-o", "hard", "soft"), OUTPUT_KEPT),
    KeptRow(("-o", "./first", "--stream", "first"), OUTPUT_KEPT),
    KeptRow(("-o", "./first", "--summary", "first"), OUTPUT_KEPT),
    KeptRow(("-o", "./first", "--resolvers", "2", "--split-points", "point", "first"), OUTPUT_KEPT),
    KeptRow(("-o", "./point", "--resolvers", "2", "--split-points", "point", "first"), OUTPUT_KEPT),
    KeptRow(("-o", "first", "-"), OUTPUT_KEPT, "first"),
    KeptRow(("--summary-to", "./first", "first"), SUMMARY_KEPT),
    KeptRow(("--summary-to", "hard", "first"), SUMMARY_KEPT),
    KeptRow(("--summary-to", "third", "-o", "./third", "first"), SUMMARY_KEPT),
    KeptRow(("--stream", "--replies", "./first", "first"), REPLIES_KEPT),
    KeptRow(("--stream", "--replies", "third", "-o", "./third", "first"), REPLIES_KEPT),
    KeptRow(
        ("--stream", "--replies", "third", "--replies", "./third", "first", "second"),
        "replay: replies 1: cannot open\n",
    ),
    # The replies are opened once the output was created.
    KeptRow(("-o", "./same", "--check", "same", "first"), REPLIES_KEPT),
    KeptRow(
        ("-o", "./same", "--check", "same", "--resolvers", "2", "--split-points", "point", "first"),
        REPLIES_KEPT,
    ),
)

# Command lines that show that all those files are as before.
AS_BEFORE = (
    ShellRow(
        ("third", "hard", "second"), "0 300 empty\n1 0 empty\n1 100 committed\n2 200 conflict\n"
    ),
    ShellRow(
        ("--check", "same", "soft", "--resolvers", "2", "--split-points", "point"),
        "checked 2 batches, 0 differences\n",
    ),
)

# A file that is written has no bytes from before, even if it is given none.
TRUNCATED = (
    # The line of an answer is read as a split point.
    (
        ShellRow(("-o", "late", "third"), ""),
        ShellRow(("--resolvers", "2", "--split-points", "late", "first"), FIRST),
    ),
    (ShellRow(("-o", "third", "empty"), ""), ShellRow(("third",), "")),
    (ShellRow(("-o", "third", "--stream", "empty"), ""), ShellRow(("third",), "")),
    (ShellRow(("--stream", "--replies", "third", "empty"), ""), ShellRow(("third",), "")),
    (ShellRow(("--stream", "--quiet", "-o", "third", "first"), ""), ShellRow(("third",), "")),
    # A run that fails before it prints anything keeps them.
    (
        ShellRow(("-o", "third", "--stream", "json"), "", "replay: proxy 0: wire 2 Long\n", 1),
        ShellRow(("third",), "0 300 held\n"),
    ),
)

# Refused with status 2 and a text of `clap` on standard error. Nothing is on standard output.
REFUSED: tuple[tuple[str | bytes, ...], ...] = (
    (),
    ("--frames",),
    ("--capacity", "0", "first"),
    ("--capacity", "1025", "first"),
    ("--capacity", "sixteen", "first"),
    ("--capacity", "-1", "first"),
    ("--capacity", "1", "--capacity", "2", "first"),
    ("--capacity", "", "first"),
    ("--capacity", "1 ", "first"),
    ("--capacity", "0x1", "first"),
    ("--capacity", "99999999999999999999999", "first"),
    ("--window", "0", "first"),
    ("--window", "1099511627777", "first"),
    ("--window", "-9223372036854775809", "first"),
    ("--window", "1.5", "first"),
    ("--limit", "0", "first"),
    ("--limit", "16777217", "first"),
    ("--limit", "many", "first"),
    ("first", "--limit"),
    ("--frames=yes", "first"),
    ("-x", "first"),
    ("--none", "first"),
    ("--Frames", "first"),
    ("--json", "--frames", "first"),
    ("--json", "--check", "same", "first"),
    ("--frames", "--check", "same", "first"),
    ("--json", "--json", "first"),
    ("--check", "first"),
    ("--check", "same", "--check", "same", "first"),
    ("--check", "same", "first", "second"),
    65 * ("first",),
    ("-", "-"),
    ("first", "-", "second", "-"),
    ("--check", "-", "-"),
    ("--stream", "--check", "same", "first"),
    ("--replies", "out", "first"),
    ("--check", "same", "--replies", "out", "first"),
    ("--stream", "--replies", "out", "first", "second"),
    ("--stream", "--replies", "out", "--replies", "out", "first"),
    ("--stream", "--replies"),
    ("--stream", "--replies", "first"),
    ("--stream", "--stream", "first"),
    ("--stream", "--json", "--frames", "first"),
    ("--stream", "-", "-"),
    ("--", "-", "-"),
    ("--quiet",),
    ("--quiet", "--quiet", "first"),
    ("--quiet=yes", "first"),
    ("--only", "first"),
    ("--only", "", "first"),
    ("--only", "Committed", "first"),
    ("--only", "conflict:0", "first"),
    ("--only", "conflicts", "first"),
    ("--only", "committed,conflict", "first"),
    ("--only", "never", "first"),
    ("--only", "committed", "--only", "conflict", "first"),
    ("--only", b"\xff", "first"),
    ("--versions", "first"),
    ("--versions", "", "first"),
    ("--versions", "100", "first"),
    ("--versions", ".", "first"),
    ("--versions", "...", "first"),
    ("--versions", "1.2", "first"),
    ("--versions", "1...2", "first"),
    ("--versions", "1..2..3", "first"),
    ("--versions", "5..7..", "first"),
    ("--versions", "1..=2", "first"),
    ("--versions", " 1..2", "first"),
    ("--versions", "1..2 ", "first"),
    ("--versions", "one..", "first"),
    ("--versions", "0x1..", "first"),
    ("--versions", "1..-", "first"),
    ("--versions=..-", "first"),
    ("--versions=--1..", "first"),
    ("--versions", "..9223372036854775808", "first"),
    ("--versions=-9223372036854775809..", "first"),
    ("--versions", "1..2", "--versions", "1..2", "first"),
    ("--quiet", "--check", "same", "first"),
    ("--only", "committed", "--check", "same", "first"),
    ("--versions", "1..2", "--check", "same", "first"),
    ("--versions", "..", "--check", "same", "first"),
    ("--quiet", "--json", "--frames", "first"),
    ("--quiet", "--replies", "out", "first"),
    ("--explain",),
    ("--explain", "--explain", "first"),
    ("--explain=yes", "first"),
    ("--explain", "--check", "same", "first"),
    ("--explain", "--stream", "first"),
    ("--explain", "--stream", "--replies", "out", "first"),
    ("--explain", "--replies", "out", "first"),
    ("--explain", "--frames", "first"),
    ("--explain", "--json", "--check", "same", "first"),
    ("--explain", "--json", "--stream", "first"),
    ("--explain", "--json", "--frames", "first"),
    ("--explain", "--json", "--summary", "first"),
    ("--explain", "--summary", "first"),
    ("--summary",),
    ("--summary", "--summary", "first"),
    ("--summary=yes", "first"),
    ("--summary", "--check", "same", "first"),
    ("--summary", "--stream", "first"),
    ("--summary", "--stream", "--replies", "out", "first"),
    ("--summary", "--replies", "out", "first"),
    ("--summary", "--frames", "first"),
    ("--summary", "--frames", "--json", "first"),
    ("--summary", "--quiet", "first"),
    ("--summary", "--only", "committed", "first"),
    ("--summary", "--versions", "..", "first"),
    ("-o", "out"),
    ("first", "-o"),
    ("first", "--output"),
    ("-o", "out", "-o", "out", "first"),
    ("-o", "out", "--output", "out", "first"),
    ("--summary-to", "to"),
    ("first", "--summary-to"),
    ("--summary-to", "to", "--summary-to", "to", "first"),
    ("--summary-to", "to", "--summary", "first"),
    ("--summary-to", "to", "--check", "same", "first"),
    ("--summary-to", "to", "--stream", "first"),
    ("--summary-to", "to", "--stream", "--replies", "out", "first"),
    ("--summary-to", "to", "--replies", "out", "first"),
    ("--summary-to", "to", "--frames", "first"),
    ("--summary-to", "to", "--explain", "first"),
    ("--summary-to", "to", "--explain", "--json", "first"),
    ("--top", "5", "first"),
    ("--top", "5", "--json", "first"),
    ("--top", "5", "--stream", "first"),
    ("--top", "5", "--check", "same", "first"),
    ("--top", "5", "--explain", "first"),
    ("--top", "5", "--summary-to", "to", "first"),
    ("--top", "0", "--summary", "first"),
    ("--top", "1001", "--summary", "first"),
    ("--top", "-1", "--summary", "first"),
    ("--top", "five", "--summary", "first"),
    ("--top", "", "--summary", "first"),
    ("--top", "5", "--top", "5", "--summary", "first"),
    ("--summary", "first", "--top"),
    ("--verbose",),
    ("--verbose", "--verbose", "first"),
    ("--verbose=yes", "first"),
    ("--report-all",),
    ("--report-all=yes", "first"),
    ("--report-all", "--report-all", "first"),
    ("--report", "first"),
    (b"\xff",),
    ("first", b"sec\xc3ond"),
    ("--help", b"\xff"),
)

# Refused by the program itself, which says why: a part of standard error.
REASONS: tuple[tuple[tuple[str | bytes, ...], str], ...] = (
    (
        ("--json", "--frames", "first"),
        "error: at most one of --frames, --json and --check is wanted\n",
    ),
    (("--check", "same", "first", "second"), "error: --check REPLIES is wanted once a file\n"),
    (("--stream", "--check", "same", "first"), "error: --stream is wanted without --check\n"),
    (("--only", "never", "first"), "error: --only is committed, conflict or tooold\n"),
    (
        ("--versions", "5", "first"),
        "error: --versions is A..B with integers of 64 bits, of which each can be omitted\n",
    ),
    (
        ("--quiet", "--check", "same", "first"),
        "error: --quiet, --only and --versions are wanted without --check\n",
    ),
    (
        ("--summary", "--quiet", "first"),
        (
            "error: --summary is wanted without --check, --stream, --frames, --quiet, "
            "--only and --versions\n"
        ),
    ),
    (
        ("--explain", "--frames", "first"),
        "error: --explain is wanted without --check, --stream, --summary and --frames\n",
    ),
    (
        ("--summary-to", "to", "--stream", "first"),
        (
            "error: --summary-to is wanted without --check, --stream, --summary, "
            "--explain and --frames\n"
        ),
    ),
    (
        ("--summary-to", "to", "--explain", "first"),
        (
            "error: --summary-to is wanted without --check, --stream, --summary, "
            "--explain and --frames\n"
        ),
    ),
    (("--top", "5", "first"), "error: --top is wanted with --summary\n"),
    (("--top", "5", "--summary-to", "to", "first"), "error: --top is wanted with --summary\n"),
    (("--replies", "out", "first"), "error: --replies OUT is wanted with --stream\n"),
    (
        ("--stream", "--replies", "out", "first", "second"),
        "error: --replies OUT is wanted once a file\n",
    ),
    (("-", "first", "-"), "error: standard input (-) can be given only once\n"),
    (
        ("first", "second", "--output", "first"),
        "error: --output, --summary-to and --replies are wanted with files that aren't read\n",
    ),
    (65 * ("first",), "error: from 1 to 64 files are wanted\n"),
    (
        ("first", b"\xff"),
        (
            "error: invalid UTF-8 was detected in one or more arguments\n\n"
            "Usage: replay [OPTIONS] <FILE>...\n\nFor more information, try '--help'.\n"
        ),
    ),
)

# What `workload` prints without arguments, and for mistaken ones.
USAGE = """\
usage: workload SHAPE BATCHES TRANSACTIONS
Writes the frames of one chain of batches to standard output. The same words give the same bytes.
  SHAPE         skiplisttest or points
  BATCHES       1 to 65536
  TRANSACTIONS  1 to 2500, in each batch
"""
EXPECTED = (
    "workload: SHAPE (skiplisttest or points), "
    "BATCHES (1 to 65536) and TRANSACTIONS (1 to 2500) are expected\n"
)
MISTAKEN: tuple[tuple[str | bytes, ...], ...] = (
    ("circles", "1", "1"),
    ("points", "0", "1"),
    ("points", "65537", "1"),
    ("points", "1", "2501"),
    ("points", "1"),
    ("points", "1", "1", "1"),
    ("", "1", "1"),
    (b"\xff", "1", "1"),
)

# Answered with status 0 and a text on standard output. Nothing is on standard error.
SHOWN: tuple[tuple[str, ...], ...] = (
    ("--help",), ("-h",), ("first", "--help"), ("--version",), ("-V",), ("first", "-V")
)
