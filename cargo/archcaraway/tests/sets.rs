//! The conflict set: its errors, and its replies beside those of a plain scan.

use archcaraway::{
    BatchBuilder, ConflictSet, MAX_LIMIT, MAX_WINDOW, NewError, ResolveError, Stop, Txn, Verdict,
    WINDOW,
};

#[test]
fn numbers_of_a_set() {
    for (window, limit, expected) in [
        (1, 1, Ok(())),
        (MAX_WINDOW, 1, Ok(())),
        (0, 1, Err(NewError::Window(0))),
        (-1, 0, Err(NewError::Window(-1))),
        (MAX_WINDOW + 1, 1, Err(NewError::Window(1_099_511_627_777))),
        (1, 0, Err(NewError::Limit(0))),
        (1, MAX_LIMIT + 1, Err(NewError::Limit(16_777_217))),
    ] {
        assert_eq!(ConflictSet::new(window, limit).map(|_| ()), expected, "{window} {limit}");
    }
}

#[test]
fn a_version_that_is_not_above_the_last() {
    let mut set = ConflictSet::new(WINDOW, MAX_LIMIT).expect("the numbers are right");
    let batch = |version| BatchBuilder::new(-1, version).build().expect("it is within the limits");
    assert_eq!(set.version(), -1);
    assert!(set.resolve(&batch(100)).is_ok());
    for version in [100, 99, 0] {
        let error = ResolveError::Version { version, last: 100 };
        assert_eq!(set.resolve(&batch(version)), Err(error));
    }
    assert!(set.resolve(&batch(101)).is_ok());
    assert_eq!((set.version(), set.boundaries(), set.stop()), (101, 1, None));
}

#[test]
fn a_stop_is_final() {
    let mut set = ConflictSet::new(WINDOW, 3).expect("the numbers are right");
    let write = |version, key: &'static str| {
        let batch = BatchBuilder::new(-1, version).txn(Txn::at(0).write_key(key));
        batch.build().expect("it is within the limits")
    };
    assert!(set.resolve(&write(100, "k")).is_ok());
    let stopped = Err(ResolveError::Stop(Stop::ArenaFull));
    assert_eq!(set.resolve(&write(200, "m")), stopped);
    assert_eq!(set.resolve(&write(300, "k")), stopped);
    assert_eq!(set.resolve(&write(1, "k")), stopped);
    assert_eq!((set.version(), set.boundaries(), set.stop()), (100, 3, Some(Stop::ArenaFull)));
}

#[test]
fn a_batch_that_does_not_fit_is_refused() {
    let mut set = ConflictSet::new(WINDOW, 3).expect("the numbers are right");
    let write = |version, key: &'static str| {
        let batch = BatchBuilder::new(-1, version).txn(Txn::at(0).write_key(key));
        batch.build().expect("it is within the limits")
    };
    assert!(set.try_resolve(&write(100, "k")).is_ok());
    for _ in 0..2 {
        assert_eq!(set.try_resolve(&write(200, "m")), Err(ResolveError::Full));
        assert_eq!((set.version(), set.edge(), set.boundaries(), set.stop()), (100, 0, 3, None));
    }
    // The set still remembers the write at 100, and takes a batch that needs no boundary.
    let read = BatchBuilder::new(-1, 200).txn(Txn::at(99).read_key("k"));
    let reply = set.try_resolve(&read.build().expect("it is within the limits"));
    assert_eq!(reply.expect("it fits").verdict(0), Some(Verdict::Conflict));
    // Later the window has moved, and the write at 100 makes room.
    assert!(set.try_resolve(&write(101 + WINDOW, "m")).is_ok());
    assert_eq!(set.boundaries(), 3);
    // The same batch stops a set that resolves it.
    let stopped = Err(ResolveError::Stop(Stop::ArenaFull));
    assert_eq!(set.resolve(&write(102 + WINDOW, "k")), stopped);
    assert_eq!(set.try_resolve(&write(103 + 2 * WINDOW, "k")), stopped);
}

type Keys = (Vec<u8>, Vec<u8>);

struct Judged {
    snapshot: i64,
    report: bool,
    reads: Vec<Keys>,
    writes: Vec<Keys>,
}

/// All writes, in order, as `docs/FOUNDATIONDB.md` judges by them.
struct Scan {
    window: i64,
    writes: Vec<(Keys, i64)>,
}

impl Scan {
    fn resolve(&mut self, version: i64, txns: &[Judged]) -> Vec<(Verdict, Vec<usize>)> {
        let mut committed = Vec::new();
        let verdicts = txns.iter().map(|txn| {
            let judged = self.judge(version, txn, &committed);
            if judged.0 == Verdict::Committed {
                committed.extend(txn.writes.iter().cloned());
            }
            judged
        });
        let verdicts = verdicts.collect();
        self.writes.extend(committed.into_iter().map(|keys| (keys, version)));
        verdicts
    }

    fn judge(&self, version: i64, txn: &Judged, committed: &[Keys]) -> (Verdict, Vec<usize>) {
        if !txn.reads.is_empty() && txn.snapshot < (version - self.window).max(0) {
            return (Verdict::TooOld, Vec::new());
        }
        let hits = |read: &Keys| {
            self.writes.iter().any(|(write, at)| *at > txn.snapshot && overlap(read, write))
        };
        let meets = |read: &Keys| committed.iter().any(|write| overlap(read, write));
        let mut places: Vec<_> = (0..txn.reads.len()).filter(|at| hits(&txn.reads[*at])).collect();
        if places.is_empty() {
            places.extend(txn.reads.iter().position(meets));
        }
        match (places.is_empty(), txn.report) {
            (true, _) => (Verdict::Committed, Vec::new()),
            (false, true) => (Verdict::Conflict, places),
            (false, false) => (Verdict::Conflict, Vec::new()),
        }
    }
}

fn overlap(one: &Keys, other: &Keys) -> bool {
    one.0 < one.1 && other.0 < other.1 && one.0 < other.1 && other.0 < one.1
}

/// Numbers of xorshift64.
struct Random(u64);

impl Random {
    fn below(&mut self, bound: u64) -> u64 {
        self.0 ^= self.0 << 13;
        self.0 ^= self.0 >> 7;
        self.0 ^= self.0 << 17;
        (self.0 >> 16) % bound
    }

    fn key(&mut self) -> Vec<u8> {
        (0..self.below(4)).map(|_| [0, b'a', b'b', 255][self.below(4) as usize]).collect()
    }

    fn range(&mut self) -> Keys {
        let (one, other) = (self.key(), self.key());
        match self.below(3) {
            0 => (one.clone(), [&one[..], &[0]].concat()),
            _ => (one.clone().min(other.clone()), one.max(other)),
        }
    }

    fn txn(&mut self, version: i64) -> Judged {
        Judged {
            snapshot: (version - self.below(300) as i64).max(0),
            report: self.below(2) == 0,
            reads: (0..self.below(4)).map(|_| self.range()).collect(),
            writes: (0..self.below(3)).map(|_| self.range()).collect(),
        }
    }
}

#[test]
fn random_batches_beside_a_plain_scan() {
    let mut seen = [0; 3];
    for seed in 1..=8 {
        let mut random = Random(0x9e37_79b9_7f4a_7c15 + seed);
        let mut set = ConflictSet::new(200, 1_000).expect("the numbers are right");
        let mut scan = Scan { window: 200, writes: Vec::new() };
        let (mut previous, mut version) = (-1, 0);
        for _ in 0..150 {
            let txns: Vec<_> = (0..random.below(8)).map(|_| random.txn(version)).collect();
            let batch = BatchBuilder::new(previous, version).txns(txns.iter().map(|judged| {
                let txn = Txn::at(judged.snapshot);
                let txn = judged.reads.iter().fold(txn, |txn, (begin, end)| txn.read((begin, end)));
                let writes = judged.writes.iter();
                let txn = writes.fold(txn, |txn, (begin, end)| txn.write((begin, end)));
                if judged.report { txn.report() } else { txn }
            }));
            let reply = set.resolve(&batch.build().expect("it is within the limits"));
            let reply = reply.expect("there is room");
            let expected = scan.resolve(version, &txns);
            let conflicts = |index| reply.conflicts(index).collect::<Vec<_>>();
            let found = reply.verdicts().enumerate().map(|(at, verdict)| (verdict, conflicts(at)));
            assert_eq!(found.collect::<Vec<_>>(), expected, "seed {seed}, version {version}");
            for (verdict, _) in expected {
                seen[verdict as usize] += 1;
            }
            previous = version;
            version += 1 + random.below(40) as i64;
        }
    }
    assert!(seen.iter().all(|count| *count > 100), "each verdict is common: {seen:?}");
}
