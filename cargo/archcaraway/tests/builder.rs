//! Ranges, transactions and batches at their limits and beyond.

use archcaraway::{
    Batch, BatchBuilder, BuildError, MAX_KEY_LENGTH, MAX_RANGES, MAX_SINGLE_KEY_LENGTH, MAX_TXNS,
    Range, RangeError, Txn,
};
use keyspace::{Key, Sequence};
use rattle_std::alloc::Global;

fn one(txn: Txn<'_>) -> Result<Batch, BuildError> {
    BatchBuilder::new(-1, 100).txn(txn).build()
}

#[test]
fn versions_at_their_limits() {
    for (previous, version, received, expected) in [
        (-1, 0, -1, Ok(())),
        (-1, i64::MAX, i64::MAX - 1, Ok(())),
        (-2, 0, -1, Err(BuildError::Previous { previous: -2 })),
        (i64::MIN, i64::MIN, i64::MIN, Err(BuildError::Previous { previous: i64::MIN })),
        (-1, -1, -1, Err(BuildError::Version { previous: -1, version: -1 })),
        (5, 5, 0, Err(BuildError::Version { previous: 5, version: 5 })),
        (5, 4, 0, Err(BuildError::Version { previous: 5, version: 4 })),
        (0, 5, -2, Err(BuildError::Received { received: -2, version: 5 })),
        (0, 5, 5, Err(BuildError::Received { received: 5, version: 5 })),
    ] {
        let built = BatchBuilder::new(previous, version).received(received).build();
        assert_eq!(built.map(|_| ()), expected, "{previous} {version} {received}");
    }
}

#[test]
fn versions_come_before_transactions() {
    let built = BatchBuilder::new(7, 7).txn(Txn::at(-1)).build();
    assert_eq!(built, Err(BuildError::Version { previous: 7, version: 7 }));
}

#[test]
fn snapshot() {
    assert!(one(Txn::at(0)).is_ok());
    assert!(one(Txn::at(i64::MAX)).is_ok());
    assert_eq!(one(Txn::at(-1)), Err(BuildError::Snapshot { txn: 0, snapshot: -1 }));
}

#[test]
fn keys_of_a_range() {
    let longest = vec![7; MAX_KEY_LENGTH];
    let too_long = vec![7; MAX_KEY_LENGTH + 1];
    let refused = RangeError::KeyLength { length: 10_002, limit: 10_001 };
    assert!(Range::new("", &longest).is_ok());
    assert!(Range::new(&longest, &longest).is_ok());
    assert_eq!(Range::new("", &too_long), Err(refused));
    assert_eq!(Range::new(&too_long, &too_long), Err(refused));
    assert_eq!(Range::owned("", too_long.clone()), Err(refused));
    let built = one(Txn::at(0).read(("", &too_long)));
    assert_eq!(built, Err(BuildError::Range { txn: 0, error: refused }));
}

#[test]
fn single_keys() {
    let longest = vec![7; MAX_SINGLE_KEY_LENGTH];
    let too_long = vec![7; MAX_SINGLE_KEY_LENGTH + 1];
    let refused = RangeError::KeyLength { length: 10_001, limit: 10_000 };
    let range = Range::single(&longest).expect("its end has 10,001 bytes");
    assert_eq!((range.begin().len(), range.end().len()), (10_000, 10_001));
    assert_eq!(Range::single(&too_long), Err(refused));
    assert_eq!(Range::owned_single(too_long.clone()), Err(refused));
    assert_eq!(Range::try_from(too_long.as_slice()), Err(refused));
    for txn in [Txn::at(0).read_key(&too_long), Txn::at(0).write_key(&too_long)] {
        assert_eq!(one(txn), Err(BuildError::Range { txn: 0, error: refused }));
    }
}

#[test]
fn inverted_ranges() {
    assert_eq!(Range::new("b", "a"), Err(RangeError::Inverted));
    assert_eq!(Range::new("a\0", "a"), Err(RangeError::Inverted));
    assert_eq!(Range::owned("b", "a"), Err(RangeError::Inverted));
    let built = BatchBuilder::new(-1, 0)
        .txn(Txn::at(0).write(("a", "b")))
        .txn(Txn::at(0).write(("b", "a")).read(("c", "b")))
        .txn(Txn::at(-1))
        .build();
    assert_eq!(built, Err(BuildError::Range { txn: 1, error: RangeError::Inverted }));
}

#[test]
fn counts_of_ranges() {
    let add = |count: usize, write: bool| {
        let range = Range::single("k").expect("it is short");
        (0..count).fold(Txn::at(0), |txn, _| match write {
            true => txn.write(range.clone()),
            false => txn.read(range.clone()),
        })
    };
    assert!(one(add(MAX_RANGES, false)).is_ok());
    assert!(one(add(MAX_RANGES, true)).is_ok());
    assert_eq!(one(add(1_025, false)), Err(BuildError::ReadCount { txn: 0, count: 1_025 }));
    assert_eq!(one(add(1_025, true)), Err(BuildError::WriteCount { txn: 0, count: 1_025 }));
}

#[test]
fn counts_of_transactions() {
    let build = |count| BatchBuilder::new(-1, 0).txns((0..count).map(|_| Txn::at(0))).build();
    assert_eq!(build(MAX_TXNS).map(|batch| batch.len()), Ok(4_096));
    assert_eq!(build(MAX_TXNS + 1), Err(BuildError::TxnCount));
}

#[test]
fn conversions_into_ranges() {
    let range = Range::new("a", "b").expect("it is a range");
    let same = [
        Range::try_from(("a", "b")),
        Range::try_from((b"a", b"b")),
        Range::try_from((&b"a"[..], "b")),
        Range::try_from("a".."b"),
        Range::try_from(&b"a"[..]..&b"b"[..]),
        Range::try_from((b"a".to_vec(), b"b".to_vec())),
        Range::try_from(b"a".to_vec()..b"b".to_vec()),
        Range::owned("a", "b"),
        Ok(range.clone().into_owned()),
    ];
    for converted in same {
        assert_eq!(converted.as_ref(), Ok(&range));
    }
    assert_eq!(Range::try_from(&b"k"[..]), Range::single("k"));
    assert_eq!(format!("{range:?}"), r#"["a", "b")"#);
}

#[test]
fn empty_and_single_ranges() {
    for (begin, end, empty, single) in
        [("a", "a", true, false), ("", "", true, false), ("a", "a\0", false, true)]
    {
        let range = Range::new(begin, end).expect("it is a range");
        assert_eq!((range.is_empty(), range.is_single()), (empty, single), "{range:?}");
        assert_eq!((range.begin(), &*range.end()), (begin.as_bytes(), end.as_bytes()));
    }
}

#[test]
fn a_batch_shows_what_it_was_built_from() {
    let batch = BatchBuilder::new(3, 9)
        .received(5)
        .txn(Txn::at(1).read(("a", "c")).read_key("k").write(("x", "x")).report())
        .txn(Txn::at(2))
        .build()
        .expect("it is within the limits");
    assert_eq!((batch.previous(), batch.version(), batch.received()), (3, 9, 5));
    let first = batch.txn(0).expect("there are two");
    assert_eq!((first.snapshot(), first.wants_report()), (1, true));
    assert!(first.reads().map(Ok).eq([Range::new("a", "c"), Range::single("k")]));
    assert!(first.writes().map(Ok).eq([Range::new("x", "x")]));
    let second = batch.txn(1).expect("there are two");
    assert_eq!((second.snapshot(), second.wants_report(), second.reads().len()), (2, false, 0));
    assert_eq!(batch.txn(2), None);
    assert_eq!(batch.clone(), batch);
    assert!(format!("{batch:?}").contains(r#"reads: [["a", "c"), ["k", "k\x00")]"#));
}

/// The builder's tables are those that the proved constructors make.
#[test]
fn a_batch_is_that_of_the_proved_constructors() {
    let keys: [&[u8]; 6] = [b"", b"\0", b"a", b"a\0", b"a\0\0", b"b"];
    let pairs = keys.iter().flat_map(|begin| keys.iter().map(move |end| (*begin, *end)));
    let pairs: Vec<_> = pairs.filter(|(begin, end)| begin <= end).collect();
    let built = BatchBuilder::new(-1, 50).txns((1..pairs.len()).map(|count| {
        let txn = pairs[..count].iter().fold(Txn::at(7), |txn, pair| txn.read(*pair));
        pairs[count..].iter().fold(txn, |txn, pair| txn.write(*pair)).report()
    }));

    let key = |bytes: &[u8]| Key::checked(bytes.to_vec().into()).expect("it is short");
    let ranges = |pairs: &[(&[u8], &[u8])]| {
        let made = pairs.iter().map(|(begin, end)| keyspace::Range::checked(key(begin), key(end)));
        Sequence::new(made.collect::<Result<Vec<_>, _>>().expect("they are ranges").into())
    };
    let txns = (1..pairs.len()).map(|count| {
        keyspace::Txn::checked(7, true, ranges(&pairs[..count]), ranges(&pairs[count..]))
    });
    let txns: Vec<_> = txns.collect::<Result<_, _>>().expect("they are within the limits");
    let proved = keyspace::Batch::checked(Global, -1, 50, -1, txns.into());

    let frame = wire::encode_batch(Global, &proved.expect("it is within the limits"));
    let built = built.build().expect("it is within the limits");
    let frame = frame.expect("it is short");
    assert_eq!(built.encode().as_deref(), Ok(frame.as_slice()));
}
