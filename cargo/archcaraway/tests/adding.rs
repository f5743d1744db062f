//! Batches that grow: transactions that are refused alone, dropped, and appended.

use archcaraway::{
    Batch, BatchBuilder, BuildError, ConflictSet, MAX_LIMIT, MAX_RANGES, MAX_SINGLE_KEY_LENGTH,
    MAX_TXNS, RangeError, Txn, Verdict, WINDOW,
};
use std::thread;

fn filled(keys: &[&str]) -> BatchBuilder {
    let mut builder = BatchBuilder::new(-1, 100);
    for key in keys {
        let txn = Txn::at(7).read((*key, "z")).write_key(key).report();
        builder.add(&txn).expect("it is within the limits");
    }
    builder
}

fn built(builder: &BatchBuilder) -> Batch {
    builder.clone().build().expect("it is within the limits")
}

fn with_ranges(reads: usize, writes: usize) -> Txn<'static> {
    let txn = (0..reads).fold(Txn::at(0), |txn, _| txn.read_key("k"));
    (0..writes).fold(txn, |txn, _| txn.write_key("k"))
}

#[test]
fn a_refused_transaction_spoils_nothing() {
    let long = vec![b'k'; MAX_SINGLE_KEY_LENGTH + 1];
    let length =
        RangeError::KeyLength { length: MAX_SINGLE_KEY_LENGTH + 1, limit: MAX_SINGLE_KEY_LENGTH };
    let snapshot = BuildError::Snapshot { txn: 2, snapshot: -1 };
    let count = MAX_RANGES + 1;
    let range = |error| BuildError::Range { txn: 2, error };
    let mut builder = filled(&["a", "b"]);
    for (txn, expected) in [
        (Txn::at(-1), snapshot),
        (with_ranges(count, 0), BuildError::ReadCount { txn: 2, count }),
        (with_ranges(0, count), BuildError::WriteCount { txn: 2, count }),
        (Txn::at(0).read_key("k").write_key(&long), range(length)),
        (Txn::at(0).read_key("k").read(("b", "a")), range(RangeError::Inverted)),
    ] {
        assert_eq!(builder.add(&txn), Err(expected));
        assert_eq!(built(&builder), built(&filled(&["a", "b"])));
    }
    let most = with_ranges(MAX_RANGES, MAX_RANGES);
    assert_eq!(builder.add(&most), Ok(()));
    assert_eq!(built(&builder).len(), 3);
}

#[test]
fn what_txn_refused_is_kept() {
    let mut builder = BatchBuilder::new(-1, 100).txn(Txn::at(-1));
    assert_eq!(builder.add(&Txn::at(0)), Ok(()));
    let refused = BuildError::Snapshot { txn: 0, snapshot: -1 };
    let mut other = filled(&["a"]);
    assert_eq!(other.append(&builder), Err(refused));
    assert_eq!(built(&other), built(&filled(&["a"])));
    assert_eq!(builder.build(), Err(refused));
}

#[test]
fn the_last_transaction_is_dropped() {
    let mut builder = filled(&["a", "b", "c"]);
    builder.drop_last();
    assert_eq!(built(&builder), built(&filled(&["a", "b"])));
    assert_eq!((builder.len(), builder.room()), (2, MAX_TXNS - 2));
    let txn = Txn::at(7).read(("d", "z")).write_key("d").report();
    builder.add(&txn).expect("it is within the limits");
    assert_eq!(built(&builder), built(&filled(&["a", "b", "d"])));
    for _ in 0..5 {
        builder.drop_last();
    }
    assert!(builder.is_empty());
    assert_eq!(built(&builder), built(&filled(&[])));
}

#[test]
fn builders_are_appended() {
    let mut builder = filled(&["a"]);
    let other = filled(&["b", "c"]);
    for keys in [&["a", "b", "c"][..], &["a", "b", "c", "b", "c"]] {
        builder.append(&other).expect("it is within the limits");
        assert_eq!(built(&builder), built(&filled(keys)));
    }
    assert_eq!(built(&other), built(&filled(&["b", "c"])));
    builder.append(&filled(&[])).expect("it is empty");
    assert_eq!(builder.len(), 5);
}

#[test]
fn there_is_room_for_so_many() {
    let full = BatchBuilder::new(-1, 100).txns((0..MAX_TXNS).map(|_| Txn::at(0)));
    let mut builder = full.clone();
    assert_eq!(builder.room(), 0);
    assert_eq!(builder.add(&Txn::at(0)), Err(BuildError::TxnCount));
    assert_eq!(builder.append(&filled(&["a"])), Err(BuildError::TxnCount));
    assert_eq!(builder.append(&filled(&[])), Ok(()));
    assert_eq!(built(&builder), built(&full));
    builder.drop_last();
    assert_eq!(builder.append(&filled(&["a"])), Ok(()));
    assert_eq!(built(&builder).len(), MAX_TXNS);
}

#[test]
fn threads_fill_what_one_appends() {
    let parts: Vec<BatchBuilder> = thread::scope(|scope| {
        let workers: Vec<_> = (0..8)
            .map(|worker| {
                scope.spawn(move || {
                    let mut part = BatchBuilder::new(-1, 0);
                    for number in 0..100 {
                        let key = format!("{worker}/{number}");
                        part.add(&Txn::at(0).write_key(&key)).expect("it is within the limits");
                    }
                    part
                })
            })
            .collect();
        workers.into_iter().map(|worker| worker.join().expect("it doesn't panic")).collect()
    });
    let mut builder = BatchBuilder::new(-1, 100);
    for part in &parts {
        builder.append(part).expect("it is within the limits");
    }
    builder.add(&Txn::at(0).read_key("7/99")).expect("it is within the limits");
    let mut set = ConflictSet::new(WINDOW, MAX_LIMIT).expect("there is memory");
    let reply = set.resolve(&built(&builder)).expect("it fits");
    assert_eq!(reply.len(), 801);
    assert_eq!(reply.verdict(799), Some(Verdict::Committed));
    assert_eq!(reply.verdict(800), Some(Verdict::Conflict));
}
