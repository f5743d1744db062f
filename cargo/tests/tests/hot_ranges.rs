//! The ranges that conflict most: rows by hand, and a plain count beside drawn chains.

use conflict::ConflictSet;
use keyspace::Verdict;
use observer::Observer;
use rattle_std::alloc::Global;
use replay_hot_ranges::{HotRange, HotRanges, hot_lines, hot_members};
use std::cmp::Reverse;
use std::collections::{BTreeMap, BTreeSet};
use std::env;
use std::sync::atomic::{AtomicU64, Ordering};
use stepmap::MAX_LIMIT;
use tests::cases::{count, run};
use tests::drawn::KeySpace;
use tests::plain::{PlainBatch, PlainRange, PlainReply, PlainTxn};
use tests::random::Random;

/// A range by its begin and its end, and its count.
type Row = ((Vec<u8>, Vec<u8>), usize);

/// Resolves batches, and shows them to an observer.
struct Counted {
    set: ConflictSet,
    hot: HotRanges,
}

impl Counted {
    fn new(window: i64) -> Self {
        Counted {
            set: ConflictSet::new(Global, window, MAX_LIMIT).expect("memory is ample"),
            hot: HotRanges::new(Global, window),
        }
    }

    fn process(&mut self, proxy: usize, plain: &PlainBatch) -> PlainReply {
        let batch = plain.batch();
        let reply = self.set.resolve(&batch).expect("the limit is ample");
        self.hot.see(proxy, batch, &reply).expect("memory is ample");
        PlainReply::of(&reply)
    }

    /// Processes batches of one proxy by their versions.
    fn process_all(&mut self, batches: &[(i64, Vec<PlainTxn>)]) {
        let mut previous = -1;
        for (version, txns) in batches {
            self.process(
                0,
                &PlainBatch { previous, version: *version, received: -1, txns: txns.clone() },
            );
            previous = *version;
        }
    }

    /// Returns the read ranges and the written ranges that conflict most.
    fn top(&self, most: usize) -> (Vec<Row>, Vec<Row>) {
        let top = self.hot.top(most).expect("memory is ample");
        (rows(&top.reads), rows(&top.writes))
    }

    fn texts(&self, most: usize) -> (String, String) {
        let top = self.hot.top(most).expect("memory is ample");
        let (lines, members) = (hot_lines(Global, &top), hot_members(Global, &top));
        let text = |bytes: &[u8]| str::from_utf8(bytes).expect("the text is ASCII").to_owned();
        (text(&lines.expect("memory is ample")), text(&members.expect("memory is ample")))
    }
}

fn rows(ranges: &[HotRange<'_>]) -> Vec<Row> {
    ranges.iter().map(|hot| ((hot.begin.to_vec(), hot.end.to_vec()), hot.conflicts)).collect()
}

/// A plain count: for each range the rejected transactions that it counts for, by their versions
/// and indices.
#[derive(Default)]
struct Scan {
    // all committed writes, in the order of processing: the version, the index of the transaction
    // and the range
    writes: Vec<(i64, usize, PlainRange)>,
    reads: BTreeMap<(Vec<u8>, Vec<u8>), BTreeSet<(i64, usize)>>,
    written: BTreeMap<(Vec<u8>, Vec<u8>), BTreeSet<(i64, usize)>>,
}

impl Scan {
    fn add(&mut self, batch: &PlainBatch, reply: &PlainReply) {
        for (txn, (judged, entry)) in batch.txns.iter().zip(&reply.entries).enumerate() {
            match entry.verdict {
                Verdict::Committed => self
                    .writes
                    .extend(judged.writes.iter().map(|range| (batch.version, txn, range.clone()))),
                Verdict::TooOld => {}
                Verdict::Conflict => judged
                    .reads
                    .iter()
                    .for_each(|range| self.add_read(batch.version, txn, judged, range)),
            }
        }
    }

    fn add_read(&mut self, version: i64, txn: usize, judged: &PlainTxn, range: &PlainRange) {
        let met = |write: &&(i64, usize, PlainRange)| {
            write.2.meets(range) && (write.0 == version || judged.snapshot < write.0)
        };
        if let Some((_, _, written)) = self.writes.iter().rfind(met) {
            self.reads.entry(ends(range)).or_default().insert((version, txn));
            self.written.entry(ends(written)).or_default().insert((version, txn));
        }
    }
}

fn ends(range: &PlainRange) -> (Vec<u8>, Vec<u8>) {
    (range.begin.clone(), range.end.clone())
}

/// Returns the greatest counts, and equal ones in the order of the ranges.
fn greatest(
    counts: &BTreeMap<(Vec<u8>, Vec<u8>), BTreeSet<(i64, usize)>>,
    most: usize,
) -> Vec<Row> {
    let mut rows: Vec<_> = counts.iter().map(|(ends, txns)| (ends.clone(), txns.len())).collect();
    rows.sort_by_key(|row| (Reverse(row.1), row.0.clone()));
    rows.truncate(most);
    rows
}

/// Over drawn chains of several proxies, the ranges are those of a plain count, whatever their
/// number.
#[test]
fn ranges_are_those_of_a_count() {
    let (several, again) = (AtomicU64::new(0), AtomicU64::new(0));
    run("ranges_are_those_of_a_count", count(1_000_000, 20_000), |random| {
        let space = KeySpace::drawn(random);
        let window = random.pick(&[1, 2, 10, 100, 5_000_000]);
        let (mut counted, mut scan) = (Counted::new(window), Scan::default());
        let (mut previous, mut txns) = (-1, 0);
        for _ in 0..1 + random.below(40) {
            let batch = drawn_batch(random, &space, previous, window);
            let reply = counted.process(random.index(3), &batch);
            scan.add(&batch, &reply);
            (previous, txns) = (batch.version, txns + batch.txns.len() as u64);
        }
        for most in [0, 1, 2, 3, 10, usize::MAX] {
            let expected = (greatest(&scan.reads, most), greatest(&scan.written, most));
            assert_eq!(counted.top(most), expected, "the first {most}");
        }
        several.fetch_add(
            scan.reads.values().filter(|txns| txns.len() > 1).count() as u64,
            Ordering::Relaxed,
        );
        again.fetch_add(
            scan.written.values().filter(|txns| txns.len() > 1).count() as u64,
            Ordering::Relaxed,
        );
        txns
    });
    // One seed alone, or few cases, may not have each kind.
    if env::var("ARCHCARAWAY_SEED").is_err() && count(20_000, 20_000) == 20_000 {
        assert!(
            several.load(Ordering::Relaxed) >= 500,
            "read ranges of several transactions: {several:?}"
        );
        assert!(
            again.load(Ordering::Relaxed) >= 500,
            "written ranges of several transactions: {again:?}"
        );
    }
}

fn drawn_batch(random: &mut Random, space: &KeySpace, previous: i64, window: i64) -> PlainBatch {
    let version = previous + random.between(1, 1 + window / 3);
    let snapshots = (version - window - 2, version);
    let txns = (0..1 + random.index(8)).map(|_| space.txn(random, 3, snapshots)).collect();
    PlainBatch { previous, version, received: -1, txns }
}

/// A range by its keys.
type Ends = (&'static [u8], &'static [u8]);

/// Returns a transaction without a report by its snapshot, the ranges that it reads, and those that
/// it writes.
fn txn(snapshot: i64, reads: &[Ends], writes: &[Ends]) -> PlainTxn {
    let ranges =
        |ranges: &[Ends]| ranges.iter().map(|(begin, end)| PlainRange::new(*begin, *end)).collect();
    PlainTxn { snapshot, marked: false, reads: ranges(reads), writes: ranges(writes) }
}

/// Batches of one proxy by their versions, and the ranges that conflict most.
struct Case {
    name: &'static str,
    window: i64,
    batches: Vec<(i64, Vec<PlainTxn>)>,
    reads: Vec<(Ends, usize)>,
    writes: Vec<(Ends, usize)>,
}

impl Case {
    fn check(&self) {
        let mut counted = Counted::new(self.window);
        counted.process_all(&self.batches);
        let rows = |rows: &[(Ends, usize)]| {
            rows.iter()
                .map(|((begin, end), conflicts)| ((begin.to_vec(), end.to_vec()), *conflicts))
                .collect::<Vec<_>>()
        };
        assert_eq!(counted.top(10), (rows(&self.reads), rows(&self.writes)), "{}", self.name);
    }
}

#[test]
fn rows_by_hand() {
    let (ab, bc, ac, xy): (Ends, Ends, Ends, Ends) =
        ((b"a", b"b"), (b"b", b"c"), (b"a", b"c"), (b"x", b"y"));
    let cases = [
        Case {
            name: "nothing is rejected",
            window: 100,
            batches: vec![(10, vec![txn(0, &[], &[ab])]), (20, vec![txn(10, &[ab], &[])])],
            reads: vec![],
            writes: vec![],
        },
        Case {
            name: "a conflict with an earlier batch",
            window: 100,
            batches: vec![(10, vec![txn(0, &[], &[ac])]), (20, vec![txn(9, &[ab], &[])])],
            reads: vec![(ab, 1)],
            writes: vec![(ac, 1)],
        },
        Case {
            name: "a conflict in one batch",
            window: 100,
            batches: vec![(10, vec![txn(0, &[], &[bc]), txn(10, &[ac], &[])])],
            reads: vec![(ac, 1)],
            writes: vec![(bc, 1)],
        },
        Case {
            name: "each read range in conflict counts, and no other",
            window: 100,
            batches: vec![
                (10, vec![txn(0, &[], &[ab, bc])]),
                (20, vec![txn(9, &[xy, bc, ab], &[])]),
            ],
            reads: vec![(ab, 1), (bc, 1)],
            writes: vec![(ab, 1), (bc, 1)],
        },
        Case {
            name: "a range that comes twice in a transaction counts once",
            window: 100,
            batches: vec![(10, vec![txn(0, &[], &[ab])]), (20, vec![txn(9, &[ab, ab], &[])])],
            reads: vec![(ab, 1)],
            writes: vec![(ab, 1)],
        },
        Case {
            name: "two read ranges that conflict with one written range",
            window: 100,
            batches: vec![(10, vec![txn(0, &[], &[ac])]), (20, vec![txn(9, &[ab, bc, ab], &[])])],
            reads: vec![(ab, 1), (bc, 1)],
            writes: vec![(ac, 1)],
        },
        Case {
            name: "transactions count one by one, the greatest count first",
            window: 100,
            batches: vec![
                (10, vec![txn(0, &[], &[ab, xy])]),
                (20, vec![txn(9, &[ab], &[]), txn(9, &[xy], &[]), txn(9, &[xy], &[])]),
                (30, vec![txn(9, &[xy], &[])]),
            ],
            reads: vec![(xy, 3), (ab, 1)],
            writes: vec![(xy, 3), (ab, 1)],
        },
        Case {
            name: "the newest write counts alone",
            window: 100,
            batches: vec![
                (10, vec![txn(0, &[], &[ab])]),
                (20, vec![txn(0, &[], &[ac])]),
                (30, vec![txn(9, &[ab], &[])]),
            ],
            reads: vec![(ab, 1)],
            writes: vec![(ac, 1)],
        },
        Case {
            name: "of one transaction the last write counts",
            window: 100,
            batches: vec![(10, vec![txn(0, &[], &[ac, ab])]), (20, vec![txn(9, &[ab], &[])])],
            reads: vec![(ab, 1)],
            writes: vec![(ab, 1)],
        },
        Case {
            name: "a rejected transaction writes nothing",
            window: 100,
            batches: vec![
                (10, vec![txn(0, &[], &[ab])]),
                (20, vec![txn(9, &[ab], &[xy])]),
                (30, vec![txn(9, &[xy], &[])]),
            ],
            reads: vec![(ab, 1)],
            writes: vec![(ab, 1)],
        },
        Case {
            name: "a transaction that is too old doesn't count",
            window: 100,
            batches: vec![(150, vec![txn(100, &[], &[ab])]), (200, vec![txn(99, &[ab], &[])])],
            reads: vec![],
            writes: vec![],
        },
        Case {
            name: "a report makes no difference",
            window: 100,
            batches: vec![
                (10, vec![txn(0, &[], &[ab])]),
                (20, vec![txn(0, &[], &[bc]), PlainTxn { marked: true, ..txn(5, &[bc, ab], &[]) }]),
            ],
            reads: vec![(ab, 1), (bc, 1)],
            writes: vec![(ab, 1), (bc, 1)],
        },
        Case {
            name: "equal counts are in the order of the begins, and then of the ends",
            window: 100,
            batches: vec![
                (10, vec![txn(0, &[], &[(b"", b"z")])]),
                (20, vec![txn(9, &[bc, ac, xy, ab], &[])]),
            ],
            reads: vec![(ab, 1), (ac, 1), (bc, 1), (xy, 1)],
            writes: vec![((b"", b"z"), 1)],
        },
    ];
    cases.iter().for_each(Case::check);
}

/// The keys are in their printed form. In JSON their quotes and backslashes are escaped.
#[test]
fn texts_by_hand() {
    let (bob, odd): (Ends, Ends) = ((b"account/bob", b"account/bob\0"), (b"\"\\", b"\"\\\xff"));
    let mut counted = Counted::new(100);
    let heads =
        ("read ranges in conflict, most first\n", "written ranges in conflict, most first\n");
    assert_eq!(
        counted.texts(3),
        (format!("{}{}", heads.0, heads.1), "\"hot_reads\":[],\"hot_writes\":[]".to_owned())
    );
    counted.process_all(&[
        (10, vec![txn(0, &[], &[bob, odd])]),
        (20, vec![txn(9, &[odd, bob], &[]), txn(9, &[bob], &[])]),
    ]);
    let lines = "  2 [\"account/bob\",\"account/bob\\x00\")\n  1 [\"\"\\\\\",\"\"\\\\\\xff\")\n";
    let array = concat!(
        r#"[{"begin":"account/bob","end":"account/bob\\x00","conflicts":2},"#,
        r#"{"begin":"\"\\\\","end":"\"\\\\\\xff","conflicts":1}]"#,
    );
    let expected = (
        format!("{}{lines}{}{lines}", heads.0, heads.1),
        format!("\"hot_reads\":{array},\"hot_writes\":{array}"),
    );
    assert_eq!(counted.texts(3), expected);
    assert_eq!(counted.texts(2), expected);
    let first = r#"[{"begin":"account/bob","end":"account/bob\\x00","conflicts":2}]"#;
    assert_eq!(counted.texts(1).1, format!("\"hot_reads\":{first},\"hot_writes\":{first}"));
}
