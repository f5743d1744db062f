"""`replay --resolvers` prints what one `replay` per shard prints together.

It is shown for worked rows and random files.
"""

import os
import pathlib
import re
import subprocess
import tempfile
import unittest
from collections.abc import Sequence
from random import Random

from comparing import batches
from comparing.case import Outcome
from comparing.damage import damaged
from comparing.notation import batch_of, reply_of
from comparing.plain import balanced, point_lines
from comparing.resolvers import Plain
from comparing.shards_drawn import draw_points
from comparing.wire import Batch, file_of, reply_frame

QUICK = pathlib.Path(__file__).resolve().parent.parent / "out" / "quick"
REPLAY = pathlib.Path(os.environ.get("ARCHCARAWAY_REPLAY", QUICK / "replay"))
BATCHES = QUICK / "batches"
EXAMPLES = QUICK.parent.parent / "examples"
RUNS = 2_000 if "ARCHCARAWAY_LONG" in os.environ else 60

# How full a resolver was. A summary with several resolvers doesn't have it.
OCCUPANCY = re.compile(
    rb'resolver: held at most [^\n]*\n|,"most_held":\d+,"boundaries":\d+,"most_boundaries":\d+'
)

# A row: its split points, its files, what is printed, and what is printed on standard error.
EMPTY = "-1>0"
ROWS = {
    # A read over both split points conflicts in the last shard, and its place is that of the batch
    # that was sent.
    "range_over_two_split_points": (
        ("g", "p"),
        ((EMPTY, "0>100: W[q]", "100>200: m R[a,z) @99; R[a,z) @100"),),
        "0 0 empty\n0 100 committed\n0 200 conflict:0 committed\n",
    ),
    # The written range ends at the split point, and the key there isn't written.
    "range_that_ends_at_a_split_point": (
        ("k",),
        ((EMPTY, "0>100: W[a,k)", "100>200: R[k] @99; R[j,k) @99; R[j] @99"),),
        "0 0 empty\n0 100 committed\n0 200 committed conflict conflict\n",
    ),
    "range_that_begins_at_a_split_point": (
        ("k",),
        ((EMPTY, "0>100: W[k,l)", "100>200: R[k] @99; R[j,k) @99; R[j,kk) @99"),),
        "0 0 empty\n0 100 committed\n0 200 conflict committed conflict\n",
    ),
    # An empty range at the split point reads no key, but its transaction may be too old.
    "empty_range_at_a_split_point": (
        ("k",),
        (
            (
                EMPTY,
                "0>100: W[a,z)",
                "100>5000300: m R[k,k) @99; R[k,k) @5000300; R[k,k) R[k] @5000299",
            ),
        ),
        "0 0 empty\n0 100 committed\n0 5000300 tooold committed committed\n",
    ),
    "reads_in_one_shard_and_writes_in_another": (
        ("k",),
        (
            (
                EMPTY,
                "0>100: R[a] W[x] @0; R[x] W[a] @0",
                "100>200: R[x] @99; R[a] @99; R[a] R[x] @100",
            ),
        ),
        "0 0 empty\n0 100 committed conflict\n0 200 conflict conflict committed\n",
    ),
    # Read ranges 1 and 3 conflict in the first shard, 0 and 4 in the second, and 2 in both.
    "report_of_two_shards": (
        ("k",),
        (
            (
                EMPTY,
                "0>100: W[a,c) W[x,z)",
                "100>200: R[a] @100; m R[x] R[a] R[b,y) R[bb] R[yy] R[m] @99",
            ),
        ),
        "0 0 empty\n0 100 committed\n0 200 committed conflict:0,1,2,3,4\n",
    ),
    # The batch of version 200 is rejected by the second shard alone. The first shard remembers what
    # it writes there: one resolver would commit the read of `a`.
    "writes_of_a_rejected_transaction_stay": (
        ("k",),
        ((EMPTY, "0>100: W[x]", "100>200: R[x] W[a] W[y] @99", "200>300: R[a] @199; R[y] @199"),),
        "0 0 empty\n0 100 committed\n0 200 conflict\n0 300 conflict committed\n",
    ),
    # A repeat gets its reply again, and `never` once it is given up. A batch without one before it
    # is held.
    "repeats_and_held_batches": (
        ("k",),
        (
            (
                EMPTY, "0>100: m R[a] R[x] W[a] W[x]", "0>100: m R[a] R[x] W[a] W[x]",
                "100>200 received 100", "0>100", "300>400: R[a]",
            ),
        ),
        "0 0 empty\n0 100 committed\n0 100 committed\n0 100 never\n0 200 empty\n0 400 held\n",
    ),
    # Two files of one chain: the shards may take their batches in any order.
    "two_files": (
        ("b", "k"),
        (
            (EMPTY, "100>200: m R[c] R[x] R[a] @0", "300>400: R[y] @299"),
            ("0>100: W[a] W[x]", "200>300: W[y]"),
        ),
        "0 0 empty\n0 200 conflict:1,2\n0 400 conflict\n1 100 committed\n1 300 committed\n",
    ),
}


def run(*args: object, stdin: bytes = b"") -> Outcome:
    done = subprocess.run([REPLAY, *args], input=stdin, capture_output=True, timeout=120)
    return Outcome(done.returncode, done.stdout, done.stderr)


class Resolvers(unittest.TestCase):
    def setUp(self) -> None:
        folder = tempfile.TemporaryDirectory()
        self.addCleanup(folder.cleanup)
        self.folder = pathlib.Path(folder.name)

    def write(self, name: str, content: bytes) -> pathlib.Path:
        (self.folder / name).write_bytes(content)
        return self.folder / name

    def files(self, contents: Sequence[bytes]) -> list[pathlib.Path]:
        return [self.write(f"file{proxy}", content) for proxy, content in enumerate(contents)]

    def by_points(
        self, points: Sequence[bytes], contents: Sequence[bytes], *options: str
    ) -> Outcome:
        lines = self.write("points", point_lines(points))
        return run(
            "--resolvers", str(len(points) + 1), "--split-points", lines, *options,
            *self.files(contents),
        )

    def check(
        self, name: str, points: Sequence[bytes], contents: Sequence[bytes], *options: str
    ) -> None:
        """Compares with one `replay` per shard, in the two forms that show all."""
        plain = Plain(REPLAY, BATCHES, contents, points, options)
        with self.subTest(name):
            self.assertEqual(self.by_points(points, contents, *options), plain.outcome(False))
            self.assertEqual(
                self.by_points(points, contents, "--json", *options), plain.outcome(True)
            )

    def test_rows(self) -> None:
        for name, (points, files, out) in ROWS.items():
            contents = [file_of(map(batch_of, file)) for file in files]
            keys = [point.encode() for point in points]
            with self.subTest(name):
                self.assertEqual(self.by_points(keys, contents), Outcome(0, out.encode(), b""))
            self.check(name, keys, contents)

    def test_one_resolver(self) -> None:
        """With one resolver nothing changes."""
        for example in sorted(EXAMPLES.iterdir()):
            if example.is_file() and "." not in example.name:
                for form in ((), ("--json",), ("--frames",)):
                    with self.subTest(example.name, form=form):
                        self.assertEqual(
                            run("--resolvers", "1", *form, example), run(*form, example)
                        )

    def test_stop(self) -> None:
        """The limit holds per resolver.

        The stop of the first shard that has one is printed, and its number.
        """
        contents = [
            file_of(map(batch_of, (EMPTY, "0>100: W[a]", "100>200: W[x]", "200>300: W[y] W[z]")))
        ]
        out = b"0 0 empty\n0 100 committed\n0 200 committed\n"
        stopped = Outcome(1, out, b"replay: stop 3 ArenaFull\nreplay: shard 1\n")
        self.assertEqual(self.by_points([b"k"], contents, "--limit", "3"), stopped)
        self.check("one", [b"k"], contents, "--limit", "3")
        self.check("both", [b"k"], contents, "--limit", "1")

    def test_check(self) -> None:
        contents = [file_of(map(batch_of, (EMPTY, "0>100: W[a,z)", "100>200: m R[x] R[a] @99")))]
        recorded = [
            self.write(
                name, b"".join(map(reply_frame, map(reply_of, ("0 empty", "100 committed", last))))
            )
            for name, last in (("same", "200 conflict:0,1"), ("other", "200 conflict:0"))
        ]
        same, other = (self.by_points([b"k"], contents, "--check", str(file)) for file in recorded)
        self.assertEqual((same.status, same.err, other.status, other.err), (0, b"", 3, b""))
        self.assertEqual(
            [same, other], [run("--check", file, *self.files(contents)) for file in recorded]
        )

    def test_summary(self) -> None:
        """A summary is of the combined answers. Here they are those of one resolver."""
        contents = [
            file_of(map(batch_of, (EMPTY, "0>100: W[a,z)", "100>200: m R[x] R[a] @99; R[a] @100")))
        ]
        for form in ((), ("--json",)):
            files = self.files(contents)
            one = run("--summary", *form, *files)
            combined, found = OCCUPANCY.subn(b"", one.out)
            self.assertEqual((one.status, one.err, found), (0, b"", 1))
            self.assertEqual(
                self.by_points([b"k"], contents, "--summary", *form), Outcome(0, combined, b"")
            )
            beside, out = self.folder / "beside", self.folder / "out"
            printed = self.by_points([b"k"], contents, *form)
            self.assertEqual(
                self.by_points([b"k"], contents, *form, "--summary-to", str(beside)), printed
            )
            self.assertEqual(beside.read_bytes(), combined)
            self.assertEqual(
                self.by_points([b"k"], contents, *form, "-o", str(out)), Outcome(0, b"", b"")
            )
            self.assertEqual(out.read_bytes(), printed.out)

    def test_split_points(self) -> None:
        """Split points are refused by name."""
        first = self.write("first", file_of([batch_of(EMPTY)]))
        refused = {
            b"k\n": "2 split points are wanted, the file has 1",
            b"a\nb\nc\n": "2 split points are wanted, the file has 3",
            b"k\na\n": "line 2: the split point isn't after the one before",
            b"k\nk\n": "line 2: the split point isn't after the one before",
            b"\nk\n": "line 1: the split point isn't after the one before",
            b"a\nk\\q\n": "line 2: backslash that begins neither \\\\\\\\ nor \\\\xNN",
        }
        for content, cause in refused.items():
            points = self.write("points", content)
            with self.subTest(content):
                expected = Outcome(1, b"", f"replay: split points: {cause}\n".encode())
                self.assertEqual(run("--resolvers", "3", "--split-points", points, first), expected)
        expected = Outcome(1, b"", b"replay: split points: cannot open\n")
        self.assertEqual(
            run("--resolvers", "3", "--split-points", self.folder / "missing", first), expected
        )
        # The last line needs no line feed, and standard input may have the lines.
        self.assertEqual(
            run("--resolvers", "3", "--split-points", "-", first, stdin=b"a\nk"),
            Outcome(0, b"0 0 empty\n", b""),
        )

    def test_command_line(self) -> None:
        first = self.write("first", file_of([batch_of(EMPTY)]))
        refused = (
            ("--resolvers", "0", first),
            ("--resolvers", "17", first),
            ("--split-points", first, first),
            ("--resolvers", "1", "--split-points", first, first),
            ("--resolvers", "2", "-"),
            ("--resolvers", "2", first, "-"),
            ("--resolvers", "2", "--stream", first),
            ("--resolvers", "2", "--explain", first),
            ("--resolvers", "2", "--summary", "--top", "3", first),
            ("--resolvers", "2", "--split-points", "-", "--check", "-", first),
        )
        for args in refused:
            with self.subTest(args):
                outcome = run(*args)
                self.assertEqual(
                    (outcome.status, outcome.out, outcome.err[:7]), (2, b"", b"error: ")
                )

    def test_files(self) -> None:
        """A file is opened several times, so it must be a regular one."""
        first, pipe = self.write("first", file_of([batch_of(EMPTY)])), self.folder / "pipe"
        os.mkfifo(pipe)
        for name in (pipe, self.folder, self.folder / "missing"):
            with self.subTest(name):
                expected = Outcome(1, b"", b"replay: proxy 1: not a regular file\n")
                self.assertEqual(run("--resolvers", "2", first, name), expected)

    def test_first_batches(self) -> None:
        """Split points by the first batches are the balanced ones of a short file."""
        chance = Random(5)
        for number in range(10):
            chain = batches.draw_drawer(chance).chain(chance.randint(1, 9), (1, 1_000))
            contents = [file_of(chain)]
            for shards in (2, 3, 16):
                points = balanced(chain, shards)
                plain = Plain(REPLAY, BATCHES, contents, points, ())
                with self.subTest(number, shards=shards):
                    self.assertEqual(
                        run("--resolvers", str(shards), *self.files(contents)), plain.outcome(False)
                    )

    def test_random(self) -> None:
        """One file with anything in it, or a chain in several."""
        for seed in range(RUNS):
            chance = Random(seed)
            drawer = batches.draw_drawer(chance)
            chain = drawer.chain(batches.draw_count(chance), batches.draw_steps(chance, 5_000_000))
            points = draw_points(chance, chain)[:15] or [b"m"]
            contents = draw_contents(chance, drawer, chain)
            options = (
                ("--limit", str(chance.choice((3, 6, 20))))
                if len(contents) == 1 and chance.random() < 0.2
                else ()
            )
            self.check(f"seed {seed}", points, contents, *options)


def draw_contents(chance: Random, drawer: batches.Drawer, chain: list[Batch]) -> list[bytes]:
    if chance.random() < 0.5:
        content = file_of(batches.disturbed(chance, chain, drawer), chance.choice((1, 2)))
        return [damaged(chance, content) if content and chance.random() < 0.15 else content]
    # With repeats, the shards may answer a proxy in different orders.
    dealt = batches.dealt(chance, chain, chance.choice((2, 3, 8)))
    return [
        file_of(batches.disturbed_file(chance, some, drawer), chance.choice((1, 2)))
        for some in dealt
    ]


if __name__ == "__main__":
    unittest.main()
