//! The conflict set against a scan over all committed writes.

use conflict::{ConflictSet, SetStop};
use rattle_std::alloc::Global;
use stepmap::MAX_LIMIT;
use tests::cases::{count, run};
use tests::drawn::KeySpace;
use tests::plain::{PlainBatch, PlainRange, PlainReply, PlainTxn};
use tests::random::Random;
use tests::scan::Scan;
use tests::steps::{Steps, united};

/// The windows of the chains: from one version to more than any chain has.
const WINDOWS: [i64; 6] = [1, 7, 100, 5_000, 5_000_000, 1 << 40];

/// A chain of random batches over one set of keys.
struct Chain {
    space: KeySpace,
    version: i64,
    window: i64,
    txns_most: usize,
    ranges_most: usize,
    steps_most: i64,
}

impl Chain {
    fn drawn(random: &mut Random) -> Self {
        let window = random.pick(&WINDOWS);
        Chain {
            space: KeySpace::drawn(random),
            version: -1,
            window,
            txns_most: random.pick(&[1, 3, 8, 40]),
            ranges_most: random.pick(&[1, 2, 4, 12]),
            steps_most: if random.one_in(3) {
                window
            } else {
                1 + window / random.pick(&[1, 3, 20])
            },
        }
    }

    /// Draws the next batch. Most snapshots are about as far back as the window, some anywhere or
    /// ahead.
    fn next(&mut self, random: &mut Random) -> PlainBatch {
        let previous = self.version;
        self.version += random.between(1, self.steps_most.min(1 << 40));
        let back = self.window + self.window / 4;
        let snapshots = match random.below(8) {
            0 => (0, self.version),
            1 => (self.version, self.version + 3),
            2 => (self.version - self.window, self.version - self.window + 1),
            3 => (previous, previous),
            _ => (self.version - back, self.version - 1),
        };
        let txns = (0..random.index(self.txns_most + 1))
            .map(|_| self.space.txn(random, self.ranges_most, snapshots))
            .collect();
        PlainBatch { previous, version: self.version, received: -1, txns }
    }
}

fn set(window: i64, limit: usize) -> ConflictSet {
    ConflictSet::new(Global, window, limit).expect("memory is ample")
}

/// Draws how many batches a chain has: mostly few, at most 1,000.
fn batches(random: &mut Random) -> u64 {
    let most = random.pick(&[3, 30, 100, 300, 1_000]);
    1 + random.below(most)
}

#[test]
fn verdicts_and_reports_are_those_of_a_scan() {
    run("verdicts_and_reports_are_those_of_a_scan", count(1_000_000, 40_000), |random| {
        let mut chain = Chain::drawn(random);
        let mut set = set(chain.window, MAX_LIMIT);
        let mut scan = Scan::new(chain.window);
        let mut txns = 0;
        for _ in 0..batches(random) {
            let batch = chain.next(random);
            txns += batch.txns.len() as u64;
            let reply = set.resolve(&batch.batch()).expect("the limit is ample");
            assert_eq!(PlainReply::of(&reply), scan.resolve(&batch), "{batch:?}");
        }
        txns
    });
}

/// Many different keys, so that the tree of boundaries has several levels, and snapshots not far
/// back.
#[test]
fn verdicts_over_many_boundaries() {
    run("verdicts_over_many_boundaries", count(1_000_000, 30_000), |random| {
        let mut set = set(5_000_000, MAX_LIMIT);
        let mut scan = Scan::new(5_000_000);
        let numbers = random.pick(&[5_000, 100_000, 10_000_000]);
        let (singles, most) = (random.below(5), random.pick(&[1, 10, 1_000]));
        let range = |random: &mut Random| {
            let key = |number: u64| number.to_be_bytes()[4..].to_vec();
            let number = random.below(numbers);
            if random.below(4) < singles {
                PlainRange::single(key(number))
            } else {
                PlainRange::new(key(number), key(number + 1 + random.below(most)))
            }
        };
        let txns = 100;
        for version in 0..100 {
            let txn = |random: &mut Random| PlainTxn {
                snapshot: random.between((version - 4).max(0), version),
                marked: random.one_in(2),
                reads: (0..random.index(3)).map(|_| range(random)).collect(),
                writes: (0..random.index(3)).map(|_| range(random)).collect(),
            };
            let batch = PlainBatch {
                previous: version - 1,
                version,
                received: -1,
                txns: (0..txns).map(|_| txn(random)).collect(),
            };
            let reply = set.resolve(&batch.batch()).expect("the limit is ample");
            assert_eq!(PlainReply::of(&reply), scan.resolve(&batch));
        }
        100 * txns
    });
}

/// Many transactions of one batch, so that most conflicts are within it.
#[test]
fn check_within_a_batch_is_that_of_pairs() {
    run("check_within_a_batch_is_that_of_pairs", count(1_000_000, 20_000), |random| {
        let space = KeySpace::drawn(random);
        let ranges_most = random.pick(&[1, 2, 6]);
        let txns_most = random.pick(&[5, 70, 400, 1_500]);
        let txns: Vec<_> = (0..1 + random.index(txns_most))
            .map(|_| space.txn(random, ranges_most, (0, 200)))
            .collect();
        let batch = PlainBatch { previous: -1, version: 100, received: -1, txns };
        let reply = set(5_000_000, MAX_LIMIT).resolve(&batch.batch()).expect("the limit is ample");
        assert_eq!(PlainReply::of(&reply), Scan::new(5_000_000).resolve(&batch));
        batch.txns.len() as u64
    });
}

/// With a small limit: the boundaries and the stop are those of the step function, and the stop is
/// final.
#[test]
fn boundaries_and_stops_are_those_of_the_step_function() {
    run(
        "boundaries_and_stops_are_those_of_the_step_function",
        count(2_000_000, 20_000),
        |random| {
            let mut chain = Chain::drawn(random);
            let limit = random.pick(&[1, 2, 3, 5, 9, 20, 60, 300, 2_000]);
            let mut set = set(chain.window, limit);
            let mut scan = Scan::new(chain.window);
            let mut steps = Steps::new(limit);
            let mut txns = 0;
            for _ in 0..batches(random) {
                let batch = chain.next(random);
                txns += 1 + batch.txns.len() as u64;
                let expected = scan.resolve(&batch);
                let writes = united(scan.written_at(batch.version).into_iter().cloned());
                steps.edge = scan.edge(batch.version);
                if !steps.prepare(writes.len()) {
                    stays_stopped(&mut set, &mut chain, &batch, random);
                    break;
                }
                writes.iter().for_each(|write| steps.write(write, batch.version));
                steps.sweep(3 * writes.len() + 10);
                let reply = set.resolve(&batch.batch()).expect("the limit isn't reached");
                assert_eq!(PlainReply::of(&reply), expected, "{batch:?}");
                assert_eq!(set.boundaries(), steps.boundaries.len());
            }
            txns
        },
    );
}

/// With a small limit: a batch is refused exactly where the step function has no room after a
/// sweep, and leaves no trace.
#[test]
fn refused_batches_leave_no_trace() {
    run("refused_batches_leave_no_trace", count(1_000_000, 20_000), |random| {
        let mut chain = Chain::drawn(random);
        let limit = random.pick(&[1, 2, 3, 5, 9, 20, 60, 300]);
        let mut set = set(chain.window, limit);
        let mut scan = Scan::new(chain.window);
        let mut steps = Steps::new(limit);
        let mut txns = 0;
        for _ in 0..batches(random).min(200) {
            let batch = chain.next(random);
            txns += 1 + batch.txns.len() as u64;
            let (mut scanned, mut stepped) = (scan.clone(), steps.clone());
            let expected = scanned.resolve(&batch);
            let writes = united(scanned.written_at(batch.version).into_iter().cloned());
            stepped.edge = scanned.edge(batch.version);
            let fits = stepped.prepare(writes.len());
            let before = (set.boundaries(), set.edge(), set.version());
            match set.try_resolve(&batch.batch()) {
                Ok(reply) => {
                    assert!(fits, "{batch:?}");
                    assert_eq!(PlainReply::of(&reply), expected, "{batch:?}");
                    writes.iter().for_each(|write| stepped.write(write, batch.version));
                    stepped.sweep(3 * writes.len() + 10);
                    (scan, steps) = (scanned, stepped);
                    assert_eq!(set.boundaries(), steps.boundaries.len());
                }
                Err(stop) => {
                    assert_eq!(stop, SetStop::ArenaFull);
                    assert!(!fits, "{batch:?}");
                    assert_eq!((set.boundaries(), set.edge(), set.version()), before);
                }
            }
        }
        txns
    });
}

fn stays_stopped(
    set: &mut ConflictSet,
    chain: &mut Chain,
    batch: &PlainBatch,
    random: &mut Random,
) {
    assert_eq!(set.resolve(&batch.batch()).err(), Some(SetStop::ArenaFull), "{batch:?}");
    let boundaries = set.boundaries();
    for _ in 0..5 {
        chain.version += chain.window;
        let far = chain.next(random);
        assert_eq!(set.resolve(&far.batch()).err(), Some(SetStop::ArenaFull));
        assert_eq!(
            set.resolve(&PlainBatch::empty(far.previous, far.version).batch()).err(),
            Some(SetStop::ArenaFull)
        );
        assert_eq!(set.boundaries(), boundaries);
    }
}

/// Keys further apart than the window: the sweep keeps up with the writes, whatever the keys.
#[test]
fn boundaries_stay_few_with_a_short_window() {
    run("boundaries_stay_few_with_a_short_window", count(1_000_000, 20_000), |random| {
        let space = KeySpace::drawn(random);
        let mut set = set(1, MAX_LIMIT);
        for version in (10..10_000).step_by(10) {
            let mut txn = space.txn(random, 3, (version, version));
            txn.reads.clear();
            let writes = united(txn.writes.clone()).len();
            let batch =
                PlainBatch { previous: version - 10, version, received: -1, txns: vec![txn] };
            assert!(set.resolve(&batch.batch()).is_ok());
            // What one batch writes, and what the sweep hasn't looked at yet of the one before.
            assert!(set.boundaries() <= 1 + 2 * writes + 2 * 3);
        }
        1_000
    });
}

/// A range that is empty meets nothing, wherever it is, and still makes a transaction too old.
#[test]
fn empty_ranges_meet_nothing() {
    run("empty_ranges_meet_nothing", count(100_000, 2_000), |random| {
        let space = KeySpace::drawn(random);
        let mut set = set(100, MAX_LIMIT);
        let mut write = space.txn(random, 8, (0, 0));
        write.reads.clear();
        write.writes.push(PlainRange::new("", [255; 12]));
        let empty = |random: &mut Random| {
            let key = space.key(random);
            PlainRange::new(key.clone(), key)
        };
        let mut read = space.txn(random, 8, (0, 150));
        read.reads = (0..1 + random.index(8)).map(|_| empty(random)).collect();
        let batch =
            PlainBatch { previous: -1, version: 50, received: -1, txns: vec![write, read.clone()] };
        let later = PlainBatch { previous: 50, version: 150, received: -1, txns: vec![read] };
        let mut scan = Scan::new(100);
        for batch in [batch, later] {
            let reply = PlainReply::of(&set.resolve(&batch.batch()).expect("the limit is ample"));
            assert_eq!(reply, scan.resolve(&batch));
            assert!(reply.entries.iter().all(|entry| entry.verdict != keyspace::Verdict::Conflict));
        }
        3
    });
}
