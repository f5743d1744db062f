"""The worked rows that go through the program `replay`, with what it prints and returns.

A file is a tuple of its parts: a batch as `comparing.notation` reads it, or bytes as they are. The
rows `repeat_by_another_proxy` and those over values (lanes, step maps, arenas) are not here: in a
run the schedule decides the first, and no file spells the others.
"""

from dataclasses import dataclass

Parts = tuple[str | bytes, ...]


@dataclass(frozen=True)
class Row:
    name: str
    files: tuple[Parts, ...]
    out: str
    options: tuple[str, ...] = ()
    err: str = ""
    status: int = 0


EMPTY_BATCH = bytes.fromhex("0000001b 01 ffffffffffffffff 0000000000000000 ffffffffffffffff 0000")
ONE_WRITE = bytes.fromhex(
    "0000002e01 0000000000000000 0000000000000064 ffffffffffffffff 0001 0000000000000000 00 0000 "
    "0001 0001 61 0001 62"
)
ONE_WRITE_2 = bytes.fromhex(
    "0000002f03 0000000000000000 0000000000000064 ffffffffffffffff 0001 0000000000000000 00 0000 "
    "0001 00 0001 61 0001 62"
)
SINGLE_KEY_2 = bytes.fromhex(
    "0000002c03 0000000000000000 0000000000000064 ffffffffffffffff 0001 0000000000000000 00 0000 "
    "0001 01 0001 6b"
)
FIRST_RUN = EMPTY_BATCH + ONE_WRITE

SHORT = "replay: proxy 0: wire 1 Short\n"
ARENA_FULL = "replay: stop 3 ArenaFull\n"
GATE_FULL = "replay: stop 2 GateFull\n"


def opened(
    name: str, batches: Parts, out: str, *options: str, err: str = "", status: int = 0
) -> Row:
    """A row of one file that begins with the empty batch `-1>0`, whose line comes first."""
    return Row(name, (("-1>0", *batches),), "0 0 empty\n" + out, options, err, status)


TWO_WRITES = "0>100: W[a,b) W[e,f)"
EVERY_FOURTH = tuple(
    tuple(f"{version - 1}>{version}" for version in range(proxy, 1_024, 4)) for proxy in range(4)
)
EVERY_FOURTH_LINES = "".join(
    f"{proxy} {version} empty\n" for proxy in range(4) for version in range(proxy, 1_024, 4)
)
SEVENTY = "0>100: " + "; ".join(f"R[\\x{key:02x}] W[\\x{key:02x}]" for key in range(70))
HELD = tuple(f"{previous}>{previous + 1}" for previous in range(10, 1_034))
HELD_LINES = "".join(f"0 {previous + 1} held\n" for previous in range(10, 1_034))

VERDICTS = (
    Row("empty_batch", (("-1>0",),), "0 0 empty\n"),
    Row("empty_batch, no bytes", ((),), ""),
    opened(
        "snapshot_at_write",
        ("0>100: W[a,b)", "100>200: R[a,b) @100"),
        "0 100 committed\n0 200 committed\n",
    ),
    opened(
        "snapshot_before_write",
        ("0>100: W[a,b)", "100>200: R[a,b) @99"),
        "0 100 committed\n0 200 conflict\n",
    ),
    opened(
        "snapshot_at_edge",
        ("0>100: W[a,b)", "100>5000100: R[a,b) @100"),
        "0 100 committed\n0 5000100 committed\n",
    ),
    opened(
        "snapshot_below_edge",
        ("0>100: W[a,b)", "100>5000100: R[a,b) @99"),
        "0 100 committed\n0 5000100 tooold\n",
    ),
    opened("write_only_far_ahead", ("0>9000000: W[a,b)",), "0 9000000 committed\n"),
    opened(
        "same_batch_ignores_snapshot", ("0>100: W[k]; m R[k] @100",), "0 100 committed conflict:0\n"
    ),
    opened(
        "conflict_writes_do_not_count",
        ("0>100: W[a,b); R[a,b) W[x,y); R[x,y)",),
        "0 100 committed conflict committed\n",
    ),
    opened(
        "touching_ranges_do_not_meet",
        ("0>100: W[b,c)", "100>200: R[a,b)"),
        "0 100 committed\n0 200 committed\n",
    ),
    opened(
        "empty_read_range",
        ("0>100: W[a,z)", "100>200: R[m,m)", "200>5000100: R[m,m) @99"),
        "0 100 committed\n0 200 committed\n0 5000100 tooold\n",
    ),
    opened(
        "report_history_hits",
        (TWO_WRITES, "100>200: W[c,d) @100; m R[a,b) R[c,d) R[e,f) @50"),
        "0 100 committed\n0 200 committed conflict:0,2\n",
    ),
    opened(
        "report_batch_place",
        (TWO_WRITES, "100>200: W[c,d) @100; m R[a,b) R[c,d) R[e,f) @100"),
        "0 100 committed\n0 200 committed conflict:1\n",
    ),
    opened(
        "batch_place_skips_empty_range",
        ("0>100: W[a,c) W[e,g); m R[c,e) R[b,b) R[f,h)",),
        "0 100 committed conflict:2\n",
    ),
    opened("seventy_single_keys", (SEVENTY,), "0 100" + 70 * " committed" + "\n"),
    opened(
        "seventy_single_keys, and a range",
        (SEVENTY + "; m R[?,A)",),
        "0 100" + 70 * " committed" + " conflict:0\n",
    ),
)

CHAINS = (
    opened(
        "repeat_answered_again", 2 * ("0>100: R[a,b) W[a,b)",), "0 100 committed\n0 100 committed\n"
    ),
    opened(
        "repeat_after_given_up",
        ("0>100: W[a,b)", "100>200 received 100", "0>100: W[a,b)"),
        "0 100 committed\n0 100 never\n0 200 empty\n",
    ),
    opened(
        "off_chain_and_held",
        ("0>100", "100>200", "150>300", "900>1000"),
        "0 100 empty\n0 200 empty\n0 300 never\n0 1000 held\n",
    ),
    opened(
        "held_repeat_answered_twice",
        ("100>200", "100>200", "0>100"),
        "0 100 empty\n0 200 empty\n0 200 empty\n",
    ),
    opened(
        "held_repeat_answered_twice, cut after 3",
        ("100>200", "100>200"),
        "0 200 held\n0 200 held\n",
    ),
    opened(
        "held_overtaken", ("150>300", "100>200", "0>100"), "0 100 empty\n0 200 empty\n0 300 never\n"
    ),
    opened("held_overtaken, cut after 3", ("150>300", "100>200"), "0 200 held\n0 300 held\n"),
    opened("gate_full_through_replay", (*HELD, "2000>2001"), "", err=GATE_FULL, status=1),
    opened("repeat_beside_full_gate", (*HELD, "-1>0"), "0 0 empty\n" + HELD_LINES),
    Row(
        "second_file_continues_chain",
        (("-1>0", "0>100: W[a,b)"), ("100>200: R[a,b) @100",)),
        "0 0 empty\n0 100 committed\n1 200 committed\n",
    ),
    Row(
        "second_file_continues_chain, first cut",
        (("-1>0",), ("100>200: R[a,b) @100",)),
        "0 0 empty\n1 200 held\n",
    ),
    Row(
        "second_file_continues_chain, first empty", ((), ("100>200: R[a,b) @100",)), "1 200 held\n"
    ),
    Row(
        "least_previous_leaves_first",
        (("-1>0", "150>160", "0>100"), ("100>200", "50>55")),
        "0 0 empty\n0 100 empty\n0 160 never\n1 55 never\n1 200 empty\n",
    ),
    Row(
        "two_proxies_meet",
        (("-1>0", "100>200"), ("0>100",)),
        "0 0 empty\n0 200 empty\n1 100 empty\n",
    ),
    Row(
        "two_proxies_meet, narrow",
        (("-1>0", "100>200"), ("0>100",)),
        "0 0 empty\n0 200 empty\n1 100 empty\n",
        ("--capacity", "1"),
    ),
    Row(
        "two_proxies_meet, wide",
        (("-1>0", "100>200"), ("0>100",)),
        "0 0 empty\n0 200 empty\n1 100 empty\n",
        ("--capacity", "1024"),
    ),
    Row("four_files_alternate", EVERY_FOURTH, EVERY_FOURTH_LINES, ("--capacity", "1")),
    Row(
        "empty_first_file",
        ((), ("-1>0", "0>100: W[a,b)", "100>200: R[a,b) @100")),
        "1 0 empty\n1 100 committed\n1 200 committed\n",
    ),
    Row(
        "gate_full_of_two_shares",
        (
            ("-1>0", *(f"{v - 1}>{v}" for v in range(10, 523))),
            tuple(f"{v - 1}>{v}" for v in range(600, 1_113)),
        ),
        "0 0 empty\n",
        err=GATE_FULL,
        status=1,
    ),
)

OPTIONS = (
    opened("reply_frame_of_empty_batch", (), "", status=0),
    Row(
        "reply_frame_of_empty_batch, frames",
        (("-1>0",),),
        "0 0 0000000b0200000000000000000000\n",
        ("--frames",),
    ),
    Row(
        "first run, frames",
        ((FIRST_RUN,),),
        "0 0 0000000b0200000000000000000000\n0 100 0000000e0200000000000000640001020000\n",
        ("--frames",),
    ),
    Row(
        "first run, JSON",
        ((FIRST_RUN,),),
        (
            '{"proxy":0,"version":0,"verdicts":[]}\n'
            '{"proxy":0,"version":100,"verdicts":["committed"]}\n'
        ),
        ("--json",),
    ),
    opened(
        "snapshot_at_write, capacity 1",
        ("0>100: W[a,b)", "100>200: R[a,b) @100"),
        "0 100 committed\n0 200 committed\n",
        "--capacity=1",
    ),
    opened(
        "window_one",
        ("0>100: W[a,b)", "100>101: R[a,b) @99; R[a,b) @100"),
        "0 100 committed\n0 101 tooold committed\n",
        "--window",
        "1",
    ),
    opened(
        "window_largest",
        ("0>100: W[a,b)", "100>9000000: R[a,b) @99"),
        "0 100 committed\n0 9000000 conflict\n",
        "--window",
        "1099511627776",
    ),
    opened(
        "window_largest, default",
        ("0>100: W[a,b)", "100>9000000: R[a,b) @99"),
        "0 100 committed\n0 9000000 tooold\n",
    ),
    opened(
        "limit_three_stop",
        ("0>100: W[a,b)", "100>200: W[c,d) @100"),
        "0 100 committed\n",
        "--limit",
        "3",
        err=ARENA_FULL,
        status=1,
    ),
    opened(
        "limit_three_swept",
        ("0>100: W[a,b)", "100>5000101: W[c,d) @100"),
        "0 100 committed\n0 5000101 committed\n",
        "--limit",
        "3",
    ),
    opened("limit_one, empty range", ("0>100: W[a,a)",), "0 100 committed\n", "--limit", "1"),
    opened("limit_one", ("0>100: W[a,b)",), "", "--limit", "1", err=ARENA_FULL, status=1),
)

FAULTS = (
    opened("short_second_frame", (b"\0\0\0\x1e" + 29 * b"\0",), "", err=SHORT, status=1),
    opened("held_before_fault", ("100>200", b"\0"), "0 200 held\n", err=SHORT, status=1),
    Row(
        "second version in one file", ((EMPTY_BATCH, ONE_WRITE_2),), "0 0 empty\n0 100 committed\n"
    ),
    Row(
        "second version, single key", ((EMPTY_BATCH, SINGLE_KEY_2),), "0 0 empty\n0 100 committed\n"
    ),
    Row(
        "fault_closes_own_lane",
        ((EMPTY_BATCH, ONE_WRITE[:20]), ("0>100",)),
        "0 0 empty\n1 100 empty\n",
        err=SHORT,
        status=1,
    ),
    Row(
        "fault_leaves_other_held",
        ((EMPTY_BATCH, ONE_WRITE[:20]), ("100>200",)),
        "0 0 empty\n1 200 held\n",
        err=SHORT,
        status=1,
    ),
    opened("longest_key", ("0>100: W[a," + 10_001 * "b" + ")",), "0 100 committed\n"),
    opened(
        "longest_key, longer",
        ("0>100: W[a," + 10_002 * "b" + ")",),
        "",
        err="replay: proxy 0: wire 8 KeyLength\n",
        status=1,
    ),
    *(
        Row(
            f"first_run_cut_everywhere, {n}", ((FIRST_RUN[:n],),), "" if n < 31 else "0 0 empty\n",
            (), SHORT, 1,
        )
        for n in (*range(1, 31), *range(32, 81))
    ),
    Row("first_run_cut_everywhere, 31", ((FIRST_RUN[:31],),), "0 0 empty\n"),
    Row("first_run_cut_everywhere, 81", ((FIRST_RUN,),), "0 0 empty\n0 100 committed\n"),
)

ROWS = VERDICTS + CHAINS + OPTIONS + FAULTS


def sharing(
    name: str,
    files: tuple[tuple[tuple[int, int], ...], ...],
    held: int = 200,
    rest: bytes = b"",
    err: str = "",
) -> tuple[Row, Row]:
    """A row of 64 files with a share of 16 each.

    The first files have the batches of these versions.
    """
    batches: list[Parts] = [
        tuple(f"{v - 1}>{v}" for first, end in some for v in range(first, end)) for some in files
    ]
    batches[-1] = (*batches[-1], rest)
    lines = [
        f"{proxy} {version} {'empty' if version < held else 'held'}\n"
        for proxy, some in enumerate(files)
        for version in sorted(v for first, end in some for v in range(first, end))
    ]
    padded = (*batches, *((),) * (64 - len(batches)))
    wide = Row(
        f"{name}, wide", padded, "".join(lines), ("--capacity", "1024"), err, 1 if err else 0
    )
    return Row(name, padded, "".join(lines), ("--capacity", "1"), err, 1 if err else 0), wide


SHARING = (
    *sharing(
        "each_behind_the_others_share", (((20, 36), (0, 1), (2, 3)), ((4, 20), (1, 2), (3, 4)))
    ),
    *sharing("least_batch_last_in_another_file", (((1, 40),), ((40, 60), (0, 1)))),
    *sharing("file_ends_while_its_batches_are_held", (((1, 18),), ((18, 40), (0, 1)))),
    *sharing("held_to_the_end", (((5, 40),), ((0, 4), (60, 100)), ((40, 50),)), held=5),
    *sharing(
        "faulty_file_behind_its_share",
        (((20, 60),), ((0, 19), (100, 120))),
        held=20,
        rest=b"\0",
        err="replay: proxy 1: wire 1 Short\n",
    ),
)
