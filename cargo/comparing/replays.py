"""Draws runs of `replay`.

Nothing is drawn that the schedule of several workers decides:

- which of two batches with one previous version is taken first, if they are in different files;
- whether a reply is given up before its repeat is taken;
- which batches off the chain are taken before a stop.
"""

from collections.abc import Sequence
from dataclasses import replace
from random import Random

from .batches import (
    Drawer,
    dealt,
    disturbed,
    disturbed_file,
    draw_count,
    draw_drawer,
    draw_entry,
    draw_reply,
    draw_steps,
    shuffled_near,
)
from .case import Case, Outcome, Run
from .damage import cut, damaged_file
from .expecting import all_asking, most_boundaries, replay_outcome
from .reference import ALL_LINES, MAX_HELD, WINDOW, Filter, resolve
from .wire import Batch, Range, Reply, Txn, batch_frame, file_of, reply_frame, single

FORMS = ("words", "words", "frames", "json")
WINDOWS = (None, None, None, 1, 2, 10, 100, 1_000, 4_999_999, 5_000_001, 2**40)
CAPACITIES = (None, None, 1, 1, 2, 3, 15, 17, 100, 1_023, 1_024)


def draw_options(chance: Random, window: int | None) -> list[str]:
    """Draws how an option is written, and those that no line depends on."""
    options = []
    for name, value in (("capacity", chance.choice(CAPACITIES)), ("window", window)):
        if value is not None:
            options += [f"--{name}={value}"] if chance.random() < 0.5 else [f"--{name}", str(value)]
    return options


def draw_filter(chance: Random) -> tuple[list[str], Filter]:
    """Draws the options that print some lines only, in one run of four, and these lines."""
    if chance.random() < 0.75:
        return [], ALL_LINES
    only = chance.choice((None, "committed", "conflict", "tooold"))
    least, below = (
        chance.choice((None, chance.randint(0, 20), 10 ** chance.randint(1, 8))) for _ in range(2)
    )
    quiet = chance.random() < 0.1
    options = ["--quiet"] if quiet else []
    if only is not None:
        options += chance.choice((["--only", only], [f"--only={only}"]))
    if least is not None or below is not None:
        ends = ["" if end is None else str(end) for end in (least, below)]
        options += ["--versions", "..".join(ends)]
    return options, Filter(quiet, only, least, below)


def draw_bytes(chance: Random, batches: Sequence[Batch]) -> list[bytes]:
    """The frames of batches, in one version of the wire form or in both."""
    versions = chance.choice(((1,), (2,), (1, 2)))
    return [batch_frame(batch, chance.choice(versions)) for batch in batches]


def names_of(files: Sequence[bytes]) -> dict[str, bytes]:
    return {f"file{proxy}": content for proxy, content in enumerate(files)}


def draw_run(
    chance: Random, files: Sequence[bytes], window: int | None, is_known: bool = True
) -> Run:
    """A run in one of the forms, with what the rules say of it if they are to be asked."""
    form, is_summary = chance.choice(FORMS), chance.random() < 0.1
    explains = not is_summary and form != "frames" and chance.random() < 0.3
    if is_summary:
        form = "words" if form == "frames" else form
        chosen, shown = ["--summary"], ALL_LINES
    else:
        chosen, shown = draw_filter(chance)
    reports_all = chance.random() < 0.2
    flags = [
        *chosen, *(["--explain"] if explains else []), *([] if form == "words" else [f"--{form}"])
    ]
    flags += ["--report-all"] if reports_all else []
    options, names = draw_options(chance, window), list(names_of(files))
    args = chance.choice(
        ([*flags, *options, *names], [*options, *names, *flags], [*names, *flags, *options])
    )
    expected = None
    if is_known:
        expected = replay_outcome(
            files,
            form,
            window or WINDOW,
            shown=shown,
            is_summary=is_summary,
            explains=explains,
            reports_all=reports_all,
        )
    hides_occupancy = is_summary and (is_known or len(files) > 1)
    return Run("replay", tuple(args), expected=expected, hides_occupancy=hides_occupancy)


def draw_chain(chance: Random) -> tuple[Drawer, int | None, list[Batch]]:
    """Draws a chain of batches, and the window whose edges it is near."""
    drawer, window = draw_drawer(chance), chance.choice(WINDOWS)
    return drawer, window, drawer.chain(draw_count(chance), draw_steps(chance, window or WINDOW))


def draw_one(chance: Random) -> Case:
    """One proxy, in whose file anything may be."""
    drawer, window, chain = draw_chain(chance)
    files = [b"".join(draw_bytes(chance, disturbed(chance, chain, drawer)))]
    return Case("", "one proxy", names_of(files), (draw_run(chance, files, window),))


def draw_proxies(chance: Random) -> int:
    return chance.choice((2, 2, 2, 3, 4, 5, 8, 8, chance.randint(9, 64)))


def draw_many(chance: Random) -> Case:
    """One chain dealt to several proxies.

    The file of the first has repeats. There are gaps and files without batches.
    """
    drawer, window, chain = draw_chain(chance)
    if chain and chance.random() < 0.2:
        chain.pop(chance.randrange(len(chain)))
    batches = [
        disturbed_file(chance, some, drawer) for some in dealt(chance, chain, draw_proxies(chance))
    ]
    files = [b"".join(draw_bytes(chance, some)) for some in batches]
    return Case("", "several proxies", names_of(files), (draw_run(chance, files, window),))


def draw_history(chance: Random) -> Case:
    """Many keys, so that trees have levels, cells are doubled and sweeps go along leaves."""
    sorts = ManyKeys(chance)
    chain = sorts.chain(chance.choice((5, 15, 30)))
    files = [
        b"".join(draw_bytes(chance, some))
        for some in dealt(chance, chain, chance.choice((1, 1, 3)))
    ]
    return Case("", "history", names_of(files), (draw_run(chance, files, sorts.window),))


class ManyKeys:
    """Draws a chain that begins with writes of many keys, of which most are committed."""

    def __init__(self, chance: Random) -> None:
        self.chance = chance
        letters = chance.choice((bytes(range(256)), b"abcdefgh", b"\0\1a"))
        prefix = b"p" * chance.choice((0, 0, 3, 8, 20, 40))
        lengths = chance.choice(((4,), (5,), (8,), range(1, 10)))
        count = chance.choice((200, 1_000, 1_000, 6_000))
        keys = {
            prefix + bytes(chance.choices(letters, k=chance.choice(lengths))) for _ in range(count)
        }
        keys.update(chance.choice(((), (b"", prefix), (prefix[:-1], prefix + b"\0"))))
        self.pool = sorted(keys)
        self.window = chance.choice((None, 3, 8, 40))

    def run(self, most: int) -> Range:
        """Returns a range from one key up to another, at most this many keys further."""
        at = self.chance.randrange(len(self.pool) - 1)
        return Range(
            self.pool[at], self.pool[min(len(self.pool) - 1, at + self.chance.randint(1, most))]
        )

    def range(self) -> Range:
        kind = self.chance.random()
        if kind < 0.6:
            return single(self.chance.choice(self.pool))
        return self.run(3 if kind < 0.88 else len(self.pool) // (10 if kind < 0.97 else 2))

    def ranges(self, most: int) -> tuple[Range, ...]:
        return tuple(self.range() for _ in range(self.chance.randint(0, most)))

    def neighbours(self) -> tuple[Range, ...]:
        """Single keys side by side, which a tree writes into one leaf."""
        at = self.chance.randrange(len(self.pool))
        return tuple(
            map(
                single,
                self.pool[at : at + self.chance.choice((3, 40, 200)) : self.chance.choice((1, 2))],
            )
        )

    def txn(self, previous: int) -> Txn:
        snapshot = max(0, previous - self.chance.choice((0, 0, 0, 0, 1, 4)))
        if self.chance.random() < 0.15:
            return Txn(snapshot, False, (), self.neighbours())
        return Txn(snapshot, self.chance.random() < 0.3, self.ranges(3), self.ranges(5))

    def filling(self) -> tuple[Txn, ...]:
        """Writes of many keys."""
        keys = [single(key) for key in self.chance.sample(self.pool, k=len(self.pool) * 2 // 3)]
        ranges = [self.run(2) for _ in range(len(self.pool) // 10)]
        self.chance.shuffle(keys)
        return tuple(
            Txn(0, False, (), tuple((keys + ranges)[at : at + 1_024]))
            for at in range(0, len(keys + ranges), 1_024)
        )

    def chain(self, count: int) -> list[Batch]:
        chain = [Batch(-1, 0, -1, self.filling())]
        for _ in range(count):
            previous = chain[-1].version
            version = previous + self.chance.choice((1, 1, 2))
            txns = tuple(self.txn(previous) for _ in range(self.chance.choice((2, 12, 30))))
            chain.append(Batch(previous, version, -1, txns))
        return chain


def draw_stop(chance: Random) -> Case:
    """A limit that writes may exceed.

    Several proxies have one chain alone, whose batches up to the stop are answered.
    """
    drawer, window, chain = draw_chain(chance)
    limit = chance.choice((1, 2, 3, 4, 5, 6, 8, 16, 40, 200, 16_777_216))
    is_alone = chance.random() < 0.5
    batches = (
        [disturbed(chance, chain, drawer)]
        if is_alone
        else dealt(chance, chain, draw_proxies(chance))
    )
    files = [b"".join(draw_bytes(chance, some)) for some in batches]
    is_known = most_boundaries([batch for some in batches for batch in some]) <= limit
    run = draw_run(chance, files, window, is_known)
    run = replace(run, args=("--limit", str(limit), *run.args))
    return Case("", "limit", names_of(files), (run,))


def draw_full_gate(chance: Random) -> Case:
    """About as many held batches of a proxy as the gate holds, perhaps with what frees them."""
    count = chance.choice((1_022, 1_023, 1_024, 1_025))
    held = [Batch(version, version + 1) for version in range(10, 10 + count)]
    # The last of them leaves the others held, and is a repeat itself.
    freeing: list[Batch] = chance.choice([[], [Batch(0, 10)], [Batch(0, 9), Batch(-1, 0)]])
    files = [
        file_of(
            [Batch(-1, 0), *shuffled_near(chance, held, chance.choice((0, 3, 2_000))), *freeing]
        )
    ]
    return Case("", "gate", names_of(files), (draw_run(chance, files, None),))


def draw_full_shares(chance: Random) -> Case:
    """Proxies whose early batches fill the gate, each its share. All wait for each other, and only
    the batch that is due can go first."""
    proxies = chance.choice((2, 4, 8, 16, 32, 64))
    share = MAX_HELD // proxies
    due, early = list(range(proxies)), list(range(proxies, proxies + MAX_HELD))
    chance.shuffle(due)
    chance.shuffle(early)
    dealt_early = [early[proxy * share : (proxy + 1) * share] for proxy in range(proxies)]
    versions = [[*some, last] for some, last in zip(dealt_early, due)]
    files = [file_of(Batch(one - 1, one) for one in some) for some in versions]
    lines = (
        f"{proxy} {one} empty\n" for proxy in range(proxies) for one in sorted(versions[proxy])
    )
    expected = Outcome(0, "".join(lines).encode(), b"")
    run = Run("replay", tuple(names_of(files)), expected=expected)
    return Case("", "full shares", names_of(files), (run,))


def draw_fault(chance: Random) -> Case:
    """A damaged file. Among several it is cut, so that its batches before are the same."""
    drawer, window, chain = draw_chain(chance)
    if chance.random() < 0.7:
        files = [damaged_file(chance, draw_bytes(chance, disturbed(chance, chain, drawer)))]
    else:
        files = [
            b"".join(draw_bytes(chance, some))
            for some in dealt(chance, chain, draw_proxies(chance))
        ]
        for proxy in chance.sample(range(len(files)), k=chance.randint(1, 2)):
            files[proxy] = cut(chance, files[proxy]) if len(files[proxy]) > 1 else b"\0"
    # Damage may have made a long transaction out of a short one.
    is_known = sum(len(content) for content in files) < 20_000
    return Case("", "wire faults", names_of(files), (draw_run(chance, files, window, is_known),))


def entry_changed(chance: Random, reply: Reply) -> Reply:
    """Changes the verdict or the indices of one transaction, or how many there are."""
    entries = list(reply.entries)
    kind = chance.randrange(4)
    if kind == 0 or not entries:
        entries.insert(chance.randint(0, len(entries)), draw_entry(chance))
    elif kind == 1:
        entries.pop(chance.randrange(len(entries)))
    else:
        entries[chance.randrange(len(entries))] = draw_entry(chance)
    return Reply(reply.version, tuple(entries))


def recorded_changed(chance: Random, replies: list[Reply]) -> list[Reply]:
    """Changes the replies to a proxy: none, another one, in another order, repeated or missing."""
    changed = list(replies)
    for _ in range(chance.choice((0, 0, 1, 2))):
        kind = chance.randrange(5)
        if kind == 0 or not changed:
            changed.insert(chance.randint(0, len(changed)), draw_reply(chance))
            continue
        at = chance.randrange(len(changed))
        if kind == 1:
            changed.pop(at)
        elif kind == 2:
            changed.insert(chance.randint(0, len(changed)), changed[at])
        elif kind == 3:
            chance.shuffle(changed)
        else:
            changed[at] = entry_changed(chance, changed[at])
    return changed


def replies_files(chance: Random, recorded: list[list[Reply]]) -> list[bytes]:
    """The files of replies, of which one may be damaged."""
    found = [
        [reply_frame(reply) for reply in recorded_changed(chance, replies)] for replies in recorded
    ]
    files = [b"".join(frames) for frames in found]
    if chance.random() < 0.1:
        proxy = chance.randrange(len(found))
        files[proxy] = damaged_file(chance, found[proxy])
    return files


def draw_check(chance: Random) -> Case:
    """A comparison with replies: right ones, wrong, missing and damaged ones."""
    drawer, window, chain = draw_chain(chance)
    if chance.random() < 0.5:
        batches = [disturbed(chance, chain, drawer)]
    else:
        batches = [
            disturbed_file(chance, some, drawer)
            for some in dealt(chance, chain, draw_proxies(chance))
        ]
    reports_all = chance.random() < 0.2
    answers = resolve(list(map(all_asking, batches)) if reports_all else batches, window or WINDOW)
    files = [b"".join(draw_bytes(chance, some)) for some in batches]
    recorded = [[answer.reply for answer in some if answer.reply is not None] for some in answers]
    replies = replies_files(chance, recorded)
    if chance.random() < 0.1:
        files[0] = cut(chance, files[0]) if len(files[0]) > 1 else files[0]
    args = [*draw_options(chance, window), *names_of(files)]
    for proxy in range(len(files)):
        args += ["--check", f"replies{proxy}"]
    args += ["--report-all"] if reports_all else []
    given = {f"replies{proxy}": content for proxy, content in enumerate(replies)}
    expected = replay_outcome(
        files, window=window or WINDOW, replies=replies, reports_all=reports_all
    )
    return Case(
        "", "check", names_of(files) | given, (Run("replay", tuple(args), expected=expected),)
    )
