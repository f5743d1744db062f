"""Draws command lines: wrong ones, files that aren't there, and those of `workload`."""

from random import Random

from .batches import draw_drawer
from .case import Case, Outcome, Run, Text
from .wire import Batch, Reply, batch_frame, file_of, reply_frame

ASKING = ("-h", "--help", "-V", "--version", "help")
NUMBERS: tuple[str, ...] = (
    "0", "1", "16", "1024", "1025", "+5", "-1", "007", "", " 1", "1 ", "1e3", "0x10", "1_000",
    "\u0661", "16777217",
)
NUMBERS += (
    "5000000", "1099511627776", "1099511627777", "9223372036854775808", "18446744073709551616",
    "many", "--", "-",
)
FLAGS = (
    "--frames", "--json", "--frames=yes", "--json=", "--Frames", "--frame", "--js", "-f", "-x",
    "--none", "---", "--check", "--capacity",
)
ODD: tuple[str | bytes, ...] = (
    "--", "-", "", "none", ".", b"\xff", b"fil\xc3", "-hV", "-Vh", "--help=1", "--version=1",
    "-h=1", "--=", "--x=y",
)


def draw_option(chance: Random, names: tuple[str, ...]) -> list[str]:
    name, value = chance.choice(names), chance.choice(NUMBERS)
    return [f"--{name}={value}"] if chance.random() < 0.5 else [f"--{name}", value]


def text_of(args: list[str | bytes]) -> Text:
    """Help and the version are texts of `clap`."""
    return (
        Text.OF_CLAP
        if any(arg in ASKING or str(arg).startswith(("-h", "-V")) for arg in args)
        else Text.EXACT
    )


def draw_replay(chance: Random) -> list[str | bytes]:
    """Arguments of `replay`, of which most are right and some are not."""
    # Each file is named once. Two proxies that send the same batches leave to the schedule which is
    # answered.
    args: list[str | bytes] = [*chance.sample(("first", "second", "third"), k=chance.randint(0, 3))]
    args += ["empty"] * chance.choice((0, 0, 0, 1, 2, 61, 64))
    for _ in range(chance.choice((1, 1, 2, 3))):
        kind = chance.random()
        if kind < 0.5:
            part: list[str | bytes] = [*draw_option(chance, ("capacity", "window", "limit"))]
        elif kind < 0.8:
            part = [chance.choice(FLAGS)]
        elif kind < 0.9:
            part = ["--check", chance.choice(("replies", "none", "empty"))]
        else:
            part = [chance.choice((*ODD, *ASKING))]
        at = chance.randint(0, len(args))
        args[at:at] = part
    return args


def draw_batches(chance: Random) -> list[str | bytes]:
    """Arguments of `batches`."""
    args: list[str | bytes] = [
        chance.choice(
            (
                "encode", "decode", "show", "show", "Encode", "enc", "--full", "help", "--",
                *SUBCOMMANDS[:4],
            )
        )
    ]
    parts: tuple[str | bytes, ...] = (
        "--replies", "--replies", "--full", "--full", "first", "lines", "replies", "encode", "show",
        *SUBCOMMANDS, *FLAGS, *ODD, *ASKING,
    )
    for _ in range(chance.choice((0, 1, 1, 2, 3))):
        args.insert(chance.randint(0, len(args)), chance.choice(parts))
    return args if chance.random() < 0.95 else []


def command_files() -> dict[str, bytes]:
    """Three files of one chain, one without batches, replies, and lines of JSON."""
    chain = [Batch(-1, 0), Batch(0, 100), Batch(100, 200)]
    files = {name: batch_frame(batch) for name, batch in zip(("first", "second", "third"), chain)}
    line = b'{"previous":-1,"version":0,"transactions":[]}\n'
    return files | {"empty": b"", "replies": reply_frame(Reply(0)), "lines": line}


SUBCOMMANDS = (
    "opening", "stats", "split-points", "clip", "--version=1", "--json", "--resolvers=2",
    "--shard=0", "--split-points=empty",
)

# Arguments of which each pair is tried. The batch of `held` is never due, so two proxies may send
# it.
SHORT_ARGS: tuple[str | bytes, ...] = (
    "--", "-", "", "-h", "--help", "-V", "--version", "help", "-x", "--none", "none", "--help=1",
    b"\xff", "1",
)
SHORT_ARGS_OF: dict[str, tuple[str | bytes, ...]] = {
    "replay": (
        *SHORT_ARGS, "held", "empty", "--frames", "--json", "--frames=1", "--capacity",
        "--capacity=1", "--check", "--check=empty", "--limit=0",
    ),
    "batches": (
        *SHORT_ARGS, "encode", "decode", "show", "--replies", "--full", "--replies=1", "-hV",
        "lines", *SUBCOMMANDS,
    ),
    "workload": (*SHORT_ARGS, "points", "skiplisttest", "2500", "--points", "-hV"),
}


def short_cases() -> list[Case]:
    """All command lines of up to two arguments, by the first."""
    files = command_files() | {"held": batch_frame(Batch(10, 11))}
    cases = []
    for program, args in SHORT_ARGS_OF.items():
        for number, first in enumerate(args):
            lines = [[first], *([first, second] for second in args)]
            runs = tuple(Run(program, tuple(line), text=text_of(line)) for line in lines)
            cases.append(Case(f"short {program} {number}", "command lines", files, runs))
    return cases


def draw_commands(chance: Random) -> Case:
    if chance.random() < 0.65:
        args = draw_replay(chance)
        run = Run("replay", tuple(args), text=text_of(args))
    else:
        args = draw_batches(chance)
        stdin = chance.choice((b"", batch_frame(Batch(-1, 0), 2), reply_frame(Reply(0))))
        run = Run("batches", tuple(args), stdin, text=text_of(args))
    return Case("", "command lines", command_files(), (run,))


def draw_files(chance: Random) -> Case:
    """Files of batches or replies, among them missing ones, empty ones and folders.

    The others are of one chain.
    """
    drawer = draw_drawer(chance)
    count = chance.randint(1, 5)
    chain = drawer.chain(count, (1, 100))
    files = (
        {f"file{proxy}": file_of(chain[proxy : proxy + 1]) for proxy in range(count)}
        | {"folder/": b"", "empty": b""}
    )
    names = [
        chance.choice((f"file{proxy}", f"file{proxy}", "none", "folder", "empty", "file0/x"))
        for proxy in range(count)
    ]
    args = [*names]
    if chance.random() < 0.4:
        for _ in names:
            args += ["--check", chance.choice(("empty", "empty", "empty", "none", "folder"))]
    runs = [Run("replay", tuple(args), expected=opening_outcome(names))]
    for program_args in (("encode",), ("decode",), ("show",), ("decode", "--replies")):
        if chance.random() < 0.2:
            runs.append(
                Run(
                    "batches",
                    (*program_args, chance.choice(("none", "folder", "empty", "file0/x"))),
                )
            )
    return Case("", "files", files, tuple(runs))


def opening_outcome(names: list[str]) -> Outcome | None:
    """The first file that can't be opened is named, and nothing is printed.

    A folder can be opened.
    """
    closed = [proxy for proxy, name in enumerate(names) if name in ("none", "file0/x")]
    return Outcome(1, b"", f"replay: proxy {closed[0]}: cannot open\n".encode()) if closed else None


SHAPES = ("skiplisttest", "points")


def draw_workload(chance: Random) -> Case:
    """Arguments of `workload`: a plan, or one of which a part is wrong."""
    batches = chance.choice(("1", "2", "9", "30", "+3", "08", str(chance.randint(1, 60))))
    txns = chance.choice(("1", "3", "40", "+2", "007", str(chance.randint(1, 60))))
    args: list[str | bytes] = [chance.choice(SHAPES), batches, txns]
    if chance.random() < 0.1:
        args = ["points", "1", "2500"]
    kind = chance.random()
    if kind < 0.3:
        wrong: tuple[str | bytes, ...] = (
            "0", "-1", "2501", "65537", "1.5", "", " 1", "99999999999999999999", "circles",
            "Points", "points ", b"\xff", "--", "-x",
        )
        args[chance.randrange(3)] = chance.choice(wrong)
    elif kind < 0.5:
        more: tuple[str | bytes, ...] = (*ASKING, "1", "--frames", "--", b"\xfe")
        args.insert(chance.randint(0, 3), chance.choice(more))
    elif kind < 0.6:
        args = args[: chance.randint(0, 2)]
    # What is printed without arguments is the program's own, and `clap` answers help and the
    # version alone.
    return Case("", "workload", {}, (Run("workload", tuple(args), text=text_of(args)),))
