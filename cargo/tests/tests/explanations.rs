//! Explanations by a history against a scan over the writes of all batches, and cases by hand.

use conflict::ConflictSet;
use explanations::{Explanation, History, ProcessedBatch};
use keyspace::Verdict;
use rattle_std::alloc::Global;
use std::env;
use std::sync::atomic::{AtomicU64, Ordering};
use stepmap::MAX_LIMIT;
use tests::cases::{count, run};
use tests::drawn::KeySpace;
use tests::plain::{PlainBatch, PlainRange, PlainReply, PlainTxn};
use tests::random::Random;

/// A write range of a committed transaction, with its origin.
#[derive(Clone, Debug, PartialEq, Eq)]
struct PlainWrite {
    proxy: usize,
    version: i64,
    txn: usize,
    range: PlainRange,
}

#[derive(Clone, Debug, PartialEq, Eq)]
struct PlainExplanation {
    newest: PlainWrite,
    further: usize,
}

impl PlainExplanation {
    /// Reads an explanation of the crate.
    fn of(explanation: &Explanation<'_>) -> Self {
        let newest = &explanation.newest;
        PlainExplanation {
            newest: PlainWrite {
                proxy: newest.proxy,
                version: newest.version,
                txn: newest.txn,
                range: PlainRange::new(newest.range.begin(), newest.range.end()),
            },
            further: explanation.further,
        }
    }
}

/// The writes of all committed transactions, however old.
#[derive(Default)]
struct Log(Vec<PlainWrite>);

impl Log {
    fn add(&mut self, proxy: usize, batch: &PlainBatch, reply: &PlainReply) {
        for (txn, (judged, entry)) in batch.txns.iter().zip(&reply.entries).enumerate() {
            if entry.verdict == Verdict::Committed {
                let version = batch.version;
                self.0.extend(judged.writes.iter().cloned().map(|range| PlainWrite {
                    proxy,
                    version,
                    txn,
                    range,
                }));
            }
        }
    }

    /// Explains a read range of a transaction of the batch: first by what older batches wrote, then
    /// by its own.
    fn explain(&self, batch: &PlainBatch, txn: usize, read: usize) -> Option<PlainExplanation> {
        let (snapshot, range) = (batch.txns[txn].snapshot, &batch.txns[txn].reads[read]);
        let met = |write: &&PlainWrite| write.range.meets(range);
        let older =
            self.0.iter().filter(|write| write.version < batch.version && snapshot < write.version);
        let own = self.0.iter().filter(|write| write.version == batch.version && write.txn < txn);
        let writes: Vec<_> = older.filter(met).chain(own.filter(met)).collect();
        let (newest, others) = writes.split_last()?;
        Some(PlainExplanation { newest: (*newest).clone(), further: others.len() })
    }
}

/// Resolves batches and adds them to a history.
struct Explained {
    set: ConflictSet,
    history: History,
}

impl Explained {
    fn new(window: i64) -> Self {
        Explained {
            set: ConflictSet::new(Global, window, MAX_LIMIT).expect("memory is ample"),
            history: History::new(Global, window),
        }
    }

    fn process(&mut self, proxy: usize, plain: &PlainBatch) -> PlainReply {
        let batch = plain.batch();
        let reply = self.set.resolve(&batch).expect("the limit is ample");
        let reported = PlainReply::of(&reply);
        let processed = ProcessedBatch::new(Global, proxy, batch, reply).expect("memory is ample");
        self.history.push(processed).expect("memory is ample");
        reported
    }

    fn explain(&self, txn: usize, read: usize) -> Option<PlainExplanation> {
        self.history.explain(txn, read).as_ref().map(PlainExplanation::of)
    }
}

/// How often each kind of answer came.
#[derive(Default)]
struct Kinds {
    by_history: AtomicU64,
    by_batch: AtomicU64,
    by_several: AtomicU64,
    unexplained: AtomicU64,
    too_old: AtomicU64,
}

impl Kinds {
    fn add(&self, version: i64, explanation: Option<&PlainExplanation>) {
        let kind = match explanation {
            Some(explanation) if explanation.newest.version == version => &self.by_batch,
            Some(_) => &self.by_history,
            None => &self.unexplained,
        };
        kind.fetch_add(1, Ordering::Relaxed);
        if explanation.is_some_and(|explanation| explanation.further > 0) {
            self.by_several.fetch_add(1, Ordering::Relaxed);
        }
    }

    fn assert_each_came(&self, least: u64) {
        for (kind, times) in [
            ("by the history", &self.by_history),
            ("by the batch", &self.by_batch),
            ("by several writes", &self.by_several),
            ("unexplained", &self.unexplained),
            ("too old", &self.too_old),
        ] {
            let times = times.load(Ordering::Relaxed);
            assert!(times >= least, "{kind}: {times} times");
        }
    }
}

fn drawn_batch(random: &mut Random, space: &KeySpace, previous: i64, window: i64) -> PlainBatch {
    let version = previous + random.between(1, 1 + window / 3);
    let snapshots = (version - window - 2, version);
    let txns = (0..1 + random.index(8)).map(|_| space.txn(random, 3, snapshots)).collect();
    PlainBatch { previous, version, received: -1, txns }
}

/// Of each read range of a transaction that isn't too old: the explanation is that by the writes of
/// all batches, and a transaction has one exactly if it is in conflict.
#[test]
fn explanations_are_those_by_all_batches() {
    let kinds = Kinds::default();
    run("explanations_are_those_by_all_batches", count(1_000_000, 20_000), |random| {
        let space = KeySpace::drawn(random);
        let window = random.pick(&[1, 2, 10, 100, 5_000_000]);
        let mut explained = Explained::new(window);
        let mut log = Log::default();
        let (mut previous, mut txns) = (-1, 0);
        for _ in 0..1 + random.below(40) {
            let (proxy, batch) = (random.index(3), drawn_batch(random, &space, previous, window));
            let reply = explained.process(proxy, &batch);
            log.add(proxy, &batch, &reply);
            for (txn, entry) in reply.entries.iter().enumerate() {
                if entry.verdict == Verdict::TooOld {
                    kinds.too_old.fetch_add(1, Ordering::Relaxed);
                    continue;
                }
                let mut is_explained = false;
                for read in 0..batch.txns[txn].reads.len() {
                    let explanation = explained.explain(txn, read);
                    assert_eq!(
                        explanation,
                        log.explain(&batch, txn, read),
                        "txn {txn} read {read} of {batch:?}"
                    );
                    kinds.add(batch.version, explanation.as_ref());
                    is_explained |= explanation.is_some();
                }
                assert_eq!(
                    is_explained,
                    entry.verdict == Verdict::Conflict,
                    "txn {txn} of {batch:?}"
                );
            }
            (previous, txns) = (batch.version, txns + batch.txns.len() as u64);
        }
        txns
    });
    // One seed alone, or few cases, may not have each kind.
    if env::var("ARCHCARAWAY_SEED").is_err() && count(20_000, 20_000) == 20_000 {
        kinds.assert_each_came(500);
    }
}

fn range(keys: &str) -> PlainRange {
    let (begin, end) = keys.split_once("..").expect("a range is written with two dots");
    PlainRange::new(begin, end)
}

/// Returns a transaction by its snapshot, the ranges that it reads, and those that it writes.
fn txn(snapshot: i64, reads: &[&str], writes: &[&str]) -> PlainTxn {
    let ranges = |ranges: &[&str]| ranges.iter().map(|keys| range(keys)).collect();
    PlainTxn { snapshot, marked: false, reads: ranges(reads), writes: ranges(writes) }
}

/// Batches by their proxies and versions, and what explains a read range of the last one: the
/// proxy, the version, the transaction and the range that it wrote, and the number of further
/// writes.
struct Row {
    name: &'static str,
    window: i64,
    batches: Vec<(usize, i64, Vec<PlainTxn>)>,
    asked: (usize, usize),
    expected: Option<(usize, i64, usize, &'static str, usize)>,
}

impl Row {
    fn check(&self) {
        let mut explained = Explained::new(self.window);
        let mut previous = -1;
        for (proxy, version, txns) in &self.batches {
            explained.process(
                *proxy,
                &PlainBatch { previous, version: *version, received: -1, txns: txns.clone() },
            );
            previous = *version;
        }
        let expected = self.expected.map(|(proxy, version, txn, keys, further)| PlainExplanation {
            newest: PlainWrite { proxy, version, txn, range: range(keys) },
            further,
        });
        assert_eq!(explained.explain(self.asked.0, self.asked.1), expected, "{}", self.name);
    }
}

#[test]
fn rows_by_hand() {
    let writes = |keys| txn(0, &[], keys);
    let rows = [
        Row {
            name: "an older batch",
            window: 100,
            batches: vec![
                (2, 10, vec![writes(&["x..y"]), writes(&["a..c"])]),
                (1, 20, vec![txn(9, &["b..d"], &[])]),
            ],
            asked: (0, 0),
            expected: Some((2, 10, 1, "a..c", 0)),
        },
        Row {
            name: "the same batch, whatever the snapshot",
            window: 100,
            batches: vec![(1, 20, vec![writes(&["a..c"]), txn(90, &["x..y", "b..d"], &[])])],
            asked: (1, 1),
            expected: Some((1, 20, 0, "a..c", 0)),
        },
        Row {
            name: "a write at the snapshot explains nothing",
            window: 100,
            batches: vec![(0, 10, vec![writes(&["a..c"])]), (0, 20, vec![txn(10, &["b..d"], &[])])],
            asked: (0, 0),
            expected: None,
        },
        Row {
            name: "a rejected transaction's write explains nothing",
            window: 100,
            batches: vec![
                (0, 10, vec![writes(&["a..c"])]),
                (0, 20, vec![txn(9, &["a..b"], &["x..y"]), txn(15, &["x..y"], &[])]),
            ],
            asked: (1, 0),
            expected: None,
        },
        Row {
            name: "a too old transaction's write explains nothing",
            window: 10,
            batches: vec![(0, 20, vec![txn(9, &["a..b"], &["x..y"]), txn(15, &["x..y"], &[])])],
            asked: (1, 0),
            expected: None,
        },
        Row {
            name: "of two batches the newest",
            window: 100,
            batches: vec![
                (1, 10, vec![writes(&["a..c"])]),
                (2, 20, vec![writes(&["b..c"])]),
                (0, 30, vec![txn(5, &["b..d"], &[])]),
            ],
            asked: (0, 0),
            expected: Some((2, 20, 0, "b..c", 1)),
        },
        Row {
            name: "the batch itself before an older one",
            window: 100,
            batches: vec![
                (1, 10, vec![writes(&["a..c"])]),
                (2, 20, vec![writes(&["b..c"]), txn(5, &["b..d"], &[])]),
            ],
            asked: (1, 0),
            expected: Some((2, 20, 0, "b..c", 1)),
        },
        Row {
            name: "of one transaction's ranges the last",
            window: 100,
            batches: vec![
                (1, 10, vec![writes(&["c..d", "a..c", "b..b"])]),
                (0, 20, vec![txn(9, &["a..d"], &[])]),
            ],
            asked: (0, 0),
            expected: Some((1, 10, 0, "a..c", 1)),
        },
        Row {
            name: "its own write explains nothing",
            window: 100,
            batches: vec![(0, 20, vec![txn(9, &["a..b"], &["a..b"])])],
            asked: (0, 0),
            expected: None,
        },
        Row {
            name: "a later transaction's write explains nothing",
            window: 100,
            batches: vec![(0, 20, vec![txn(9, &["a..b"], &[]), writes(&["a..b"])])],
            asked: (0, 0),
            expected: None,
        },
        Row {
            name: "an empty range",
            window: 100,
            batches: vec![(0, 10, vec![writes(&["a..c"])]), (0, 20, vec![txn(5, &["b..b"], &[])])],
            asked: (0, 0),
            expected: None,
        },
        Row {
            name: "ranges that touch",
            window: 100,
            batches: vec![
                (0, 10, vec![writes(&["a..b", "c..d"])]),
                (0, 20, vec![txn(5, &["b..c"], &[])]),
            ],
            asked: (0, 0),
            expected: None,
        },
        Row {
            name: "one version above the edge",
            window: 10,
            batches: vec![(0, 10, vec![writes(&["a..c"])]), (1, 19, vec![txn(9, &["b..d"], &[])])],
            asked: (0, 0),
            expected: Some((0, 10, 0, "a..c", 0)),
        },
        Row {
            name: "a batch that was dropped",
            window: 10,
            batches: vec![(0, 10, vec![writes(&["a..c"])]), (1, 20, vec![txn(9, &["b..d"], &[])])],
            asked: (0, 0),
            expected: None,
        },
        Row {
            name: "no such transaction",
            window: 100,
            batches: vec![(0, 20, vec![writes(&["a..c"]), txn(9, &["b..d"], &[])])],
            asked: (2, 0),
            expected: None,
        },
        Row {
            name: "no such read range",
            window: 100,
            batches: vec![(0, 20, vec![writes(&["a..c"]), txn(9, &["b..d"], &[])])],
            asked: (1, 1),
            expected: None,
        },
        Row {
            name: "of the writers of a single key the last",
            window: 100,
            batches: vec![
                (
                    1,
                    10,
                    vec![
                        writes(&["a..a\0", "c..c\0"]),
                        writes(&["b..b\0"]),
                        writes(&["c..c\0", "a..a\0"]),
                    ],
                ),
                (0, 20, vec![txn(9, &["a..a\0"], &[])]),
            ],
            asked: (0, 0),
            expected: Some((1, 10, 2, "a..a\0", 1)),
        },
        Row {
            name: "a single key that one transaction writes twice",
            window: 100,
            batches: vec![
                (1, 10, vec![writes(&["a..a\0", "a..a\0"])]),
                (0, 20, vec![txn(9, &["a..a\0"], &[])]),
            ],
            asked: (0, 0),
            expected: Some((1, 10, 0, "a..a\0", 1)),
        },
        Row {
            name: "a single key within a range, beside other single keys",
            window: 100,
            batches: vec![
                (1, 10, vec![writes(&["a..a\0"]), writes(&["a..c"]), writes(&["b..b\0"])]),
                (0, 20, vec![txn(9, &["b..b\0"], &[])]),
            ],
            asked: (0, 0),
            expected: Some((1, 10, 2, "b..b\0", 1)),
        },
        Row {
            name: "a range over single keys",
            window: 100,
            batches: vec![
                (1, 10, vec![writes(&["a..a\0"]), writes(&["d..d\0"]), writes(&["b..b\0"])]),
                (0, 20, vec![txn(9, &["a..c"], &[])]),
            ],
            asked: (0, 0),
            expected: Some((1, 10, 2, "b..b\0", 1)),
        },
        Row {
            name: "a single key that nobody wrote",
            window: 100,
            batches: vec![
                (1, 10, vec![writes(&["a..a\0", "c..c\0"])]),
                (0, 20, vec![txn(9, &["b..b\0"], &[])]),
            ],
            asked: (0, 0),
            expected: None,
        },
        Row { name: "no batch", window: 100, batches: vec![], asked: (0, 0), expected: None },
    ];
    rows.iter().for_each(Row::check);
}
