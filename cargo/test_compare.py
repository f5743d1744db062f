"""Tests of what `cargo/compare` writes, reads, expects and draws."""

import json
import unittest
from dataclasses import replace
from random import Random

from comparing import batches, commands, damage, json_drawn, replays
from comparing.case import Case, Outcome, Run, Text
from comparing.drawing import FEATURES, drawn_case
from comparing.expecting import replay_outcome, turned
from comparing.lines import batch_line, batch_table, reply_line, reply_table
from comparing.notation import batch_of, reply_of
from comparing.reading import frames, read_batch, read_reply
from comparing.reference import Answer, Resolver, Unspecified, resolve
from comparing.running import differs, fixed, is_silent
from comparing.wire import Batch, Range, batch_frame, file_of, reply_frame, single
from comparing.worked import batches_file, example_cases
from tests import json_rows, rows, wire_rows


class Encoder(unittest.TestCase):
    """The vectors of docs/WIRE.md."""

    def test_batches(self) -> None:
        self.assertEqual(batch_frame(batch_of("-1>0")), rows.EMPTY_BATCH)
        self.assertEqual(batch_frame(batch_of("0>100: W[a,b)")), rows.ONE_WRITE)
        self.assertEqual(batch_frame(batch_of("0>100: W[a,b)"), 2), rows.ONE_WRITE_2)
        self.assertEqual(batch_frame(batch_of("0>100: W[k]"), 2), rows.SINGLE_KEY_2)
        self.assertEqual(
            batch_frame(batch_of("-1>0"), 2), rows.EMPTY_BATCH.replace(b"\1", b"\3", 1)
        )

    def test_replies(self) -> None:
        self.assertEqual(reply_frame(reply_of("0 empty")), wire_rows.EMPTY_REPLY)
        self.assertEqual(reply_frame(reply_of("100 committed")), wire_rows.ONE_COMMITTED)
        self.assertEqual(
            reply_frame(reply_of("100 committed conflict:0")), wire_rows.COMMITTED_AND_CONFLICT
        )

    def test_reads_back(self) -> None:
        chance = Random(1)
        for version in (1, 2):
            chain = batches.acknowledged(chance, batches.draw_drawer(chance).chain(30, (1, 9)))
            self.assertEqual(frames(file_of(chain, version), read_batch), (chain, ""))
        replies = [batches.draw_reply(chance) for _ in range(50)]
        self.assertEqual(frames(b"".join(map(reply_frame, replies)), read_reply), (replies, ""))


class Decoder(unittest.TestCase):
    def test_faults_of_batches(self) -> None:
        for frame, fault in wire_rows.BATCHES:
            self.assertEqual(frames(frame, read_batch)[1], fault, frame.hex())

    def test_faults_of_replies(self) -> None:
        for frame, fault in wire_rows.REPLIES:
            self.assertEqual(frames(frame, read_reply)[1], fault, frame.hex())

    def test_frames_before_a_fault(self) -> None:
        self.assertEqual(frames(rows.FIRST_RUN[:-1], read_batch), ([Batch(-1, 0)], "1 Short"))
        self.assertEqual(frames(b"", read_batch), ([], ""))


class Notation(unittest.TestCase):
    def test_parts(self) -> None:
        batch = batch_of(r"100>200 received 7: m R[a,b) W[k] @5; W[\x00,\xff)")
        self.assertEqual((batch.previous, batch.version, batch.received), (100, 200, 7))
        self.assertEqual((batch.txns[0].snapshot, batch.txns[0].report), (5, True))
        self.assertEqual(batch.txns[0].writes, (single(b"k"),))
        self.assertEqual(batch.txns[1].writes, (Range(b"\0", b"\xff"),))

    def test_refused(self) -> None:
        for shown in ("0", "0>1: Q[a,b)", "0>1: R[a,b"):
            with self.assertRaises(ValueError):
                batch_of(shown)


class Reference(unittest.TestCase):
    """The rules give what the worked rows say."""

    def test_worked_rows(self) -> None:
        for row in rows.ROWS + rows.SHARING:
            if row.err.startswith("replay: stop") or row.name.startswith("window"):
                continue
            form = (
                "json"
                if "--json" in row.options
                else "frames"
                if "--frames" in row.options
                else "words"
            )
            files = [batches_file(parts, 1) for parts in row.files]
            self.assertEqual(
                replay_outcome(files, form),
                Outcome(row.status, row.out.encode(), row.err.encode()),
                row.name,
            )

    def test_full_gate(self) -> None:
        with self.assertRaises(Unspecified):
            resolve([[Batch(version, version + 1) for version in range(10, 1_035)]])

    def test_order_of_files(self) -> None:
        """Files drawn for several proxies have the same answers, whichever batches come first."""
        chance = Random(3)
        for _ in range(100):
            drawer, window, chain = replays.draw_chain(chance)
            files = [
                batches.disturbed_file(chance, some, drawer)
                for some in batches.dealt(chance, chain, 3)
            ]
            in_sequence = resolve(files, window or 1_000)
            for _ in range(3):
                self.assertEqual(resolve_mixed(chance, files, window or 1_000), in_sequence)


def resolve_mixed(chance: Random, files: list[list[Batch]], window: int) -> list[list[Answer]]:
    """Does what `resolve` does, and takes batches from the files by chance."""
    resolver = Resolver(window)
    turns = [proxy for proxy, some in enumerate(files) for _ in some]
    chance.shuffle(turns)
    left = [iter(some) for some in files]
    for proxy in turns:
        resolver.admit(proxy, next(left[proxy]))
    resolver.finish()
    return [
        sorted(resolver.answers.get(proxy, []), key=lambda one: one.version)
        for proxy in range(len(files))
    ]


class Texts(unittest.TestCase):
    def test_tables(self) -> None:
        shown, table = json_rows.TABLE
        self.assertEqual("".join(batch_table(batch_of(one), False) for one in shown), table)
        self.assertEqual(batch_table(batch_of(json_rows.WIDE), False), json_rows.WIDE_CUT)
        self.assertEqual(batch_table(batch_of(json_rows.WIDE), True), json_rows.WIDE_FULL)
        self.assertEqual(reply_table(reply_of(json_rows.REPLY)), json_rows.REPLY_TABLE)

    def test_lines(self) -> None:
        for line, batch, written in (row.split(" => ") for row in json_rows.WRITTEN.split("\n")):
            self.assertEqual(
                json.loads(written).keys() | {"received"}, json.loads(line).keys() | {"received"}
            )
            self.assertEqual(batch_line(batch_of(batch)), written)
        for _, reply, written in (
            row.split(" => ") for row in json_rows.WRITTEN_REPLIES.split("\n")
        ):
            self.assertEqual(reply_line(reply_of(reply)), written)
        for reply in (row.split(" => ")[1] for row in json_rows.READ_REPLIES.split("\n")):
            self.assertIn("verdicts", json.loads(reply_line(reply_of(reply))))
        self.assertEqual(
            turned(rows.EMPTY_BATCH, "decode", False).out,
            (batch_line(Batch(-1, 0)) + "\n").encode(),
        )

    def test_spellings_are_json(self) -> None:
        """Each spelling of a batch has the value of its line."""
        chance = Random(5)
        for _ in range(100):
            for batch in json_drawn.draw_batches(chance):
                spelled = json.loads(json_drawn.Speller(chance).batch(batch))
                self.assertEqual(spelled["version"], batch.version)
                self.assertEqual(len(spelled["transactions"]), len(batch.txns))


class Comparing(unittest.TestCase):
    def run_of(self, program: str = "replay", text: Text = Text.EXACT) -> Run:
        return Run(program, ("file",), text=text)

    def test_bytes_and_status(self) -> None:
        same = Outcome(0, b"0 0 empty\n", b"")
        self.assertFalse(differs(self.run_of(), {"one": same, "other": same}))
        for other in (replace(same, status=1), replace(same, out=b""), replace(same, err=b"\n")):
            self.assertTrue(differs(self.run_of(), {"one": same, "other": other}))

    def test_texts_of_clap(self) -> None:
        refused = {"one": Outcome(2, b"", b"error: a\n"), "other": Outcome(2, b"", b"error: b\n")}
        self.assertFalse(differs(self.run_of(), refused))
        self.assertTrue(differs(self.run_of("workload"), refused))
        self.assertTrue(differs(self.run_of(), refused | {"other": Outcome(2, b"", b"")}))
        self.assertTrue(
            differs(self.run_of(), refused | {"other": Outcome(2, b"", b"warning: b\n")})
        )
        self.assertFalse(is_silent(replace(self.run_of(), says=b"error: "), refused))
        self.assertTrue(is_silent(replace(self.run_of(), says=b"error: a\n"), refused))
        help_texts = {"one": Outcome(0, b"help\n", b""), "other": Outcome(0, b"other help\n", b"")}
        self.assertFalse(differs(self.run_of(text=Text.OF_CLAP), help_texts))
        self.assertTrue(differs(self.run_of(), help_texts))

    def test_fault_after_a_stop(self) -> None:
        """After a stop the schedule decides whether a fault is met."""
        stop = b"replay: stop 3 ArenaFull\n"
        both = Outcome(1, b"0 0 empty\n", b"replay: proxy 0: wire 1 Short\n" + stop)
        self.assertEqual(fixed(self.run_of(), both).err, stop)
        alone = replace(both, err=b"replay: proxy 0: wire 1 Short\n")
        self.assertEqual(fixed(self.run_of(), alone), alone)


class Drawing(unittest.TestCase):
    def test_by_seed_and_number(self) -> None:
        self.assertEqual(drawn_case(1, 7), drawn_case(1, 7))
        self.assertNotEqual(drawn_case(1, 7).files, drawn_case(2, 7).files)

    def test_every_feature(self) -> None:
        found = {draw(Random(1)).feature for draw, _ in FEATURES}
        self.assertEqual(len(found), len(FEATURES))

    def test_one_file_has_a_previous_version(self) -> None:
        """Of several proxies one alone has the batches after a version, or all are right ones."""
        chance = Random(4)
        for _ in range(100):
            case: Case = replays.draw_many(chance)
            owners: dict[int, set[str]] = {}
            for name, content in case.files.items():
                for batch in frames(content, read_batch)[0]:
                    owners.setdefault(batch.previous, set()).add(name)
            self.assertTrue(all(len(some) == 1 for some in owners.values()))

    def test_damage(self) -> None:
        """Most damaged frames have a fault, and there is each kind of fault."""
        chance = Random(6)
        faults = set()
        for _ in range(3_000):
            frame = batch_frame(
                chance.choice(batches.draw_drawer(chance).chain(3, (1,))), chance.choice((1, 2))
            )
            faults.add(frames(damage.damaged(chance, frame), read_batch)[1])
        names = {
            "1 Short", "2 Long", "3 Kind", "4 Trailing", "5 Version", "6 Marks", "7 Count",
            "8 KeyLength", "9 Inverted", "10 Cut", "13 Form", "14 Spelling",
        }
        self.assertLessEqual(names, faults)

    def test_files_are_named_once(self) -> None:
        chance = Random(8)
        for _ in range(200):
            args = commands.draw_replay(chance)
            self.assertTrue(all(args.count(name) <= 1 for name in ("first", "second", "third")))

    def test_examples(self) -> None:
        names = {case.name for case in example_cases()}
        self.assertLessEqual(
            {"first_run", "two_proxies", "conflicts", "conflicts.jsonl", "tutorial.jsonl"}, names
        )


if __name__ == "__main__":
    unittest.main()
