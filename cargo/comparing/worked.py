"""The cases of the worked rows, of docs/WIRE.md's tables and of the recorded examples."""

from pathlib import Path

from tests import batches_rows, json_rows, rows, shell_rows, wire_rows

from .case import Case, Outcome, Run, Text
from .commands import SHAPES, short_cases
from .expecting import replay_outcome, turned
from .lines import batch_line, reply_table
from .notation import batch_of, reply_of
from .plain import opening
from .reading import frames, read_batch
from .wire import batch_frame, file_of, reply_frame

TOP = Path(__file__).resolve().parent.parent.parent
FORMS = {"words": (), "frames": ("--frames",), "json": ("--json",)}


def batches_file(parts: rows.Parts, version: int) -> bytes:
    return b"".join(
        part if isinstance(part, bytes) else batch_frame(batch_of(part), version) for part in parts
    )


def replies_file(parts: rows.Parts) -> bytes:
    return b"".join(
        part if isinstance(part, bytes) else reply_frame(reply_of(part)) for part in parts
    )


def row_case(row: rows.Row, version: int) -> Case:
    """A worked row in a version of the wire form, with its answers in the other forms."""
    files = {f"file{proxy}": batches_file(parts, version) for proxy, parts in enumerate(row.files)}
    runs = [
        Run(
            "replay",
            (*row.options, *files),
            expected=Outcome(row.status, row.out.encode(), row.err.encode()),
        )
    ]
    if not row.options and "stop" not in row.err:
        for form in ("frames", "json"):
            runs.append(
                Run(
                    "replay",
                    (f"--{form}", *files),
                    expected=replay_outcome(tuple(files.values()), form),
                )
            )
    return Case(f"{row.name}, wire {version}", "worked rows", files, tuple(runs))


def row_cases() -> list[Case]:
    cases = []
    for row in rows.ROWS + rows.SHARING:
        cases.append(row_case(row, 1))
        if any(isinstance(part, str) for parts in row.files for part in parts):
            cases.append(row_case(row, 2))
    return cases


def shelf() -> dict[str, bytes]:
    """The files of the rows of the command line."""
    files = {name: batches_file(parts, 1) for name, parts in shell_rows.BATCHES.items()}
    return files | {name: replies_file(parts) for name, parts in shell_rows.REPLIES.items()}


def shell_cases() -> list[Case]:
    files = shelf()
    answered = [
        Run(
            "replay",
            row.args,
            files[row.stdin] if row.stdin else b"",
            expected=Outcome(row.status, row.out.encode(), row.err.encode()),
            hides_occupancy=row.hides_occupancy(),
        )
        for row in shell_rows.ROWS
    ]
    refusal = Outcome(2, b"", b"error: ")
    refused = [
        Run("replay", args, text=Text.OF_CLAP, expected=refusal) for args in shell_rows.REFUSED
    ]
    refused += [
        Run("replay", args, text=Text.OF_CLAP, expected=refusal, says=reason.encode())
        for args, reason in shell_rows.REASONS
    ]
    shown = [
        Run("replay", args, text=Text.OF_CLAP, expected=Outcome(0, b"help", b""))
        for args in shell_rows.SHOWN
    ]
    return [
        Case(f"command line {number}", "worked rows", files, (run,))
        for number, run in enumerate(answered + refused + shown)
    ]


def run_of(row: shell_rows.ShellRow) -> Run:
    return Run("replay", row.args, expected=Outcome(row.status, row.out.encode(), row.err.encode()))


def kept_cases() -> list[Case]:
    """Files that are written: those that are read too are kept, and the others truncated."""
    files = shelf() | shell_rows.POINTS
    as_before = tuple(map(run_of, shell_rows.AS_BEFORE))
    cases = []
    for number, row in enumerate(shell_rows.KEPT):
        run = Run(
            "replay", row.args, stdin_file=row.stdin, expected=Outcome(1, b"", row.err.encode())
        )
        links = (shell_rows.HARD_LINKS, shell_rows.SYMBOLIC_LINKS)
        cases.append(Case(f"kept file {number}", "worked rows", files, (run, *as_before), *links))
    for number, rows_in_turn in enumerate(shell_rows.TRUNCATED):
        cases.append(
            Case(f"truncated file {number}", "worked rows", files, tuple(map(run_of, rows_in_turn)))
        )
    return cases


def wire_cases() -> list[Case]:
    """The tables of docs/WIRE.md, after a right frame too."""
    cases = []
    for number, (frame, fault) in enumerate(wire_rows.BATCHES):
        content = rows.EMPTY_BATCH + frame
        err = f"replay: proxy 0: wire {fault}\n" if fault else ""
        runs = [Run("batches", ("decode",), frame, expected=turned(frame, "decode", False))]
        if fault:
            runs.append(Run("replay", ("file",), expected=Outcome(1, b"0 0 empty\n", err.encode())))
            runs.append(
                Run(
                    "batches",
                    ("decode",),
                    frame,
                    expected=Outcome(
                        1, b"", f"batches: standard input: frame 1: {fault}\n".encode()
                    ),
                )
            )
        cases.append(Case(f"wire batch {number}", "worked rows", {"file": content}, tuple(runs)))
    for number, (frame, fault) in enumerate(wire_rows.REPLIES):
        runs = [
            Run("batches", ("decode", "--replies"), frame, expected=turned(frame, "decode", True))
        ]
        if fault:
            err = f"replay: replies 0: wire {fault}\n"
            runs.append(
                Run(
                    "replay", ("file", "--check", "replies"), expected=Outcome(1, b"", err.encode())
                )
            )
        cases.append(
            Case(
                f"wire reply {number}",
                "worked rows",
                {"file": rows.EMPTY_BATCH, "replies": frame},
                tuple(runs),
            )
        )
    return cases


def refused_line(marked: str, cause: str, options: tuple[str, ...] = (), out: bytes = b"") -> Run:
    """Lines, of which one is refused.

    An arrow marks the line and the column that the message names.
    """
    before, _, after = marked.partition("↓")
    column = len(before.rpartition("\n")[2].encode()) + 1
    message = (
        f"batches: standard input: line {before.count(chr(10)) + 1}, column {column}: {cause}\n"
    )
    return Run(
        "batches",
        ("encode", *options),
        (before + after).encode(errors="surrogateescape"),
        expected=Outcome(1, out, message.encode()),
    )


def json_runs() -> list[Run]:
    runs = []
    for line, cause in (
        row.split(" => ") for row in (*json_rows.REFUSED.split("\n"), *json_rows.REFUSED_LONG)
    ):
        runs.append(refused_line(line, cause))
    runs += [refused_line(lines, cause) for lines, cause in json_rows.REFUSED_AMONG]
    for line, cause in (row.split(" => ") for row in json_rows.REFUSED_REPLIES.split("\n")):
        runs.append(refused_line(line, cause, ("--replies",)))
    for line, batch in (row.split(" => ") for row in json_rows.READ.split("\n")):
        runs.append(
            Run(
                "batches",
                ("encode",),
                line.encode(),
                expected=Outcome(0, batch_frame(batch_of(batch), 2), b""),
            )
        )
    for line, reply in (row.split(" => ") for row in json_rows.READ_REPLIES.split("\n")):
        frame = reply_frame(reply_of(reply))
        runs.append(
            Run("batches", ("encode", "--replies"), line.encode(), expected=Outcome(0, frame, b""))
        )
    runs += written_runs()
    for batch, form in (row.split(" => ") for row in json_rows.KEYS.split("\n")):
        line = (
            '{"previous":0,"version":1,"received":-1,"transactions":[{"snapshot":0,"report":false,'
            f'"reads":[],"writes":["{form}"]}}]}}\n'
        )
        runs.append(
            Run(
                "batches",
                ("decode",),
                batch_frame(batch_of(batch)),
                expected=Outcome(0, line.encode(), b""),
            )
        )
    return runs + stream_runs() + shown_runs()


def written_runs() -> list[Run]:
    """The rows of lines, their frames, and the lines of these."""
    runs = []
    for row in json_rows.WRITTEN.split("\n"):
        line, batch, written = row.split(" => ")
        runs += there_and_back(line, batch_frame(batch_of(batch), 2), written, ())
    for row in json_rows.WRITTEN_REPLIES.split("\n"):
        line, reply, written = row.split(" => ")
        runs += there_and_back(line, reply_frame(reply_of(reply)), written, ("--replies",))
    return runs


def there_and_back(
    line: str, frame: bytes, written: str, options: tuple[str, ...]
) -> tuple[Run, Run]:
    return (
        Run("batches", ("encode", *options), line.encode(), expected=Outcome(0, frame, b"")),
        Run(
            "batches",
            ("decode", *options),
            frame,
            expected=Outcome(0, f"{written}\n".encode(), b""),
        ),
    )


def stream_runs() -> list[Run]:
    """Two lines and their frames.

    Then a line that is refused after another, and a frame that is cut after another.
    """
    shown, _ = json_rows.TABLE
    batches = [batch_of(one) for one in shown]
    lines, content = [f"{batch_line(batch)}\n".encode() for batch in batches], file_of(batches)
    return [
        Run("batches", ("encode",), b"".join(lines), expected=Outcome(0, file_of(batches, 2), b"")),
        Run("batches", ("decode",), content, expected=Outcome(0, b"".join(lines), b"")),
        refused_line(*json_rows.REFUSED_THIRD, out=file_of(batches[:1], 2)),
        Run(
            "batches",
            ("decode",),
            content[:-1],
            expected=Outcome(1, lines[0], b"batches: standard input: frame 2: 1 Short\n"),
        ),
    ]


def shown_runs() -> list[Run]:
    """The rows of tables."""
    shown, table = json_rows.TABLE
    wide, reply = batch_frame(batch_of(json_rows.WIDE)), reply_of(json_rows.REPLY)
    rows_of_tables = (
        (("show",), file_of(map(batch_of, shown)), table),
        (("show",), wide, json_rows.WIDE_CUT),
        (("show", "--full"), wide, json_rows.WIDE_FULL),
        (("show", "--replies"), reply_frame(reply), json_rows.REPLY_TABLE),
    )
    assert reply_table(reply) == json_rows.REPLY_TABLE
    return [
        Run("batches", args, stdin, expected=Outcome(0, out.encode(), b""))
        for args, stdin, out in rows_of_tables
    ]


def json_cases() -> list[Case]:
    return [
        Case(f"json {number}", "worked rows", {}, (run,)) for number, run in enumerate(json_runs())
    ]


def subcommand_cases() -> list[Case]:
    """The rows of `opening`, `stats`, `split-points` and `clip`."""
    files = {name: file_of(map(batch_of, some), 2) for name, some in batches_rows.FILES.items()}
    files |= {name: text.encode() for name, text in batches_rows.POINTS.items()}
    runs = []
    for row in batches_rows.ROWS:
        out = row.out.encode() if isinstance(row.out, str) else file_of(map(batch_of, row.out), 2)
        stdin = files[row.stdin] if row.stdin else b""
        runs.append(
            Run("batches", row.args, stdin, expected=Outcome(row.status, out, row.err.encode()))
        )
    runs += [
        Run("batches", args, text=Text.OF_CLAP, expected=Outcome(2, b"", b"error: "))
        for args in batches_rows.REFUSED
    ]
    for version in batches_rows.VERSIONS:
        runs.append(
            Run(
                "batches",
                ("opening", "--version", str(version)),
                expected=Outcome(0, opening(version), b""),
            )
        )
    return [
        Case(f"subcommand {number}", "worked rows", files, (run,))
        for number, run in enumerate(runs)
    ]


def kept_page_cases() -> list[Case]:
    """Pages of `report` in files: those that are read too are kept, and a device is written."""
    files = {name: file_of(map(batch_of, some), 2) for name, some in batches_rows.FILES.items()}
    links = (batches_rows.HARD_LINKS, batches_rows.SYMBOLIC_LINKS)
    as_before = Run(
        "batches",
        ("stats", "soft", "hard_replies"),
        expected=Outcome(0, batches_rows.STATS_FIRST.encode(), b""),
    )
    cases = []
    for number, row in enumerate(batches_rows.KEPT):
        err = f"batches: {row.page}: {batches_rows.FILE_KEPT}\n".encode()
        args = ("report", *row.args, "--replies", "empty", "-o", row.page)
        run = Run("batches", args, stdin_file=row.stdin, expected=Outcome(1, b"", err))
        cases.append(Case(f"kept input {number}", "worked rows", files, (run, as_before), *links))
    done = Outcome(0, b"", b"")
    cases.append(
        Case(
            "page in a device",
            "worked rows",
            files,
            (Run("batches", batches_rows.DEVICE, expected=done),),
        )
    )
    return cases


def files_of_example(path: Path) -> list[Path]:
    """The files of a run of an example: `NAME.args` names the further ones."""
    more = path.with_suffix(".args")
    return (
        [path, *(path.parent / name for name in more.read_text().split())]
        if more.exists()
        else [path]
    )


def replies_of(files: list[bytes]) -> list[bytes]:
    """The right replies to each proxy, in frames."""
    outcome = replay_outcome(files, "frames")
    assert outcome is not None
    found: list[bytes] = [b""] * len(files)
    for line in outcome.out.decode().splitlines():
        proxy, _, frame = line.split()
        found[int(proxy)] += bytes.fromhex(frame) if frame not in ("never", "held") else b""
    return found


def example_case(path: Path) -> Case:
    """An example in all forms, as lines of JSON and as tables.

    It is compared with right and with missing replies.
    """
    contents = [file.read_bytes() for file in files_of_example(path)]
    names = [f"file{proxy}" for proxy in range(len(contents))]
    files = dict(zip(names, contents))
    runs = [
        Run("replay", (*args, *names), expected=replay_outcome(contents, form))
        for form, args in FORMS.items()
    ]
    for label, replies in (("right", replies_of(contents)), ("none", [b""] * len(contents))):
        checks = []
        for name, content in zip(names, replies):
            files[f"{label}.{name}"] = content
            checks += ["--check", f"{label}.{name}"]
        runs.append(
            Run("replay", (*names, *checks), expected=replay_outcome(contents, replies=replies))
        )
    for task, full in (("decode", False), ("show", False), ("show", True)):
        args = (task, "--full") if full else (task,)
        runs.append(
            Run(
                "batches",
                (*args, "file0"),
                expected=turned(contents[0], task, False, full, "file0"),
            )
        )
    return Case(path.name, "examples", files, tuple(runs))


def example_json_case(path: Path) -> Case:
    """The JSON of an example, which becomes its batches in the second version of the wire form."""
    recorded = TOP / "examples" / path.stem
    expected = None
    if recorded.exists():
        expected = Outcome(0, file_of(frames(recorded.read_bytes(), read_batch)[0], 2), b"")
    return Case(
        path.name,
        "examples",
        {"lines": path.read_bytes()},
        (Run("batches", ("encode", "lines"), expected=expected),),
    )


def example_cases() -> list[Case]:
    recorded = sorted(
        path for path in (TOP / "examples").iterdir() if path.is_file() and "." not in path.name
    )
    texts = sorted((TOP / "examples" / "json").glob("*.jsonl")) + [TOP / "docs" / "tutorial.jsonl"]
    return [example_case(path) for path in recorded] + [example_json_case(path) for path in texts]


def workload_cases() -> list[Case]:
    """Rows of `workload`, and its greatest numbers."""
    runs = [Run("workload", (), expected=Outcome(0, shell_rows.USAGE.encode(), b""))]
    runs += [
        Run("workload", args, expected=Outcome(2, b"", shell_rows.EXPECTED.encode()))
        for args in shell_rows.MISTAKEN
    ]
    runs += [
        Run("workload", (shape, *counts))
        for shape in SHAPES
        for counts in (("1", "2500"), ("65536", "1"), ("100", "20"))
    ]
    return [Case(f"workload {number}", "workload", {}, (run,)) for number, run in enumerate(runs)]


# Runs with a standard output that takes no bytes: program, arguments, standard input, and standard
# error. The status is 1.
FULL_RUNS: tuple[tuple[str, tuple[str, ...], bytes, bytes], ...] = (
    ("replay", ("first",), b"", b""),
    ("replay", ("first", "--check", "same"), b"", b""),
    ("replay", ("--help",), b"", b""),
    ("replay", ("--version",), b"", b""),
    (
        "batches",
        ("decode",),
        rows.FIRST_RUN,
        b"batches: standard output: the output can't be written\n",
    ),
    (
        "batches",
        ("show",),
        rows.FIRST_RUN,
        b"batches: standard output: the output can't be written\n",
    ),
    ("batches", ("--help",), b"", b"batches: standard output: the output can't be written\n"),
    (
        "batches",
        ("opening", "--version", "1"),
        b"",
        b"batches: standard output: the output can't be written\n",
    ),
    (
        "batches",
        ("stats",),
        rows.FIRST_RUN,
        b"batches: standard output: the output can't be written\n",
    ),
    (
        "batches",
        ("split-points", "--resolvers=2"),
        rows.FIRST_RUN,
        b"batches: standard output: the output can't be written\n",
    ),
    (
        "batches",
        ("clip", "--shard=0", "--split-points=empty"),
        rows.FIRST_RUN,
        b"batches: standard output: the output can't be written\n",
    ),
    ("workload", ("points", "1", "1"), b"", b"workload: a write failed\n"),
    ("workload", (), b"", b"workload: a write failed\n"),
)


def full_cases() -> list[Case]:
    """Rows of a standard output that fails."""
    runs = [
        Run(program, args, stdin, is_full=True, expected=Outcome(1, b"", err))
        for program, args, stdin, err in FULL_RUNS
    ]
    return [
        Case(f"full output {number}", "worked rows", shelf(), (run,))
        for number, run in enumerate(runs)
    ]


def fixed_cases() -> list[Case]:
    """All cases that aren't drawn."""
    return (
        row_cases() + shell_cases() + kept_cases() + wire_cases() + json_cases()
        + subcommand_cases() + kept_page_cases() + workload_cases() + short_cases() + full_cases()
        + example_cases()
    )
