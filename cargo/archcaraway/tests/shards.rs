//! Several resolvers by key range: split points, clips and combined replies, and their errors.

use archcaraway::{
    BalanceError, Batch, BatchBuilder, CombineError, ConflictSet, MAX_KEY_LENGTH, MAX_LIMIT,
    MAX_SPLIT_POINTS, Reply, ShardReply, SplitPoints, SplitPointsError, Txn, Verdict, WINDOW,
    combine,
};

fn batch(previous: i64, version: i64, txns: impl IntoIterator<Item = Txn<'static>>) -> Batch {
    let batch = BatchBuilder::new(previous, version).txns(txns);
    batch.build().expect("it is within the limits")
}

fn points(keys: &[&str]) -> SplitPoints {
    SplitPoints::new(keys).expect("the keys rise")
}

fn sets(points: &SplitPoints) -> Vec<ConflictSet> {
    let set = |_| ConflictSet::new(WINDOW, MAX_LIMIT).expect("there is memory");
    (0..points.shards()).map(set).collect()
}

fn resolve(points: &SplitPoints, sets: &mut [ConflictSet], batch: &Batch) -> Vec<ShardReply> {
    let clips = points.clip(batch).expect("there is memory");
    let each = clips.into_iter().zip(sets);
    each.map(|(clip, set)| ShardReply {
        reply: set.resolve(&clip.batch).expect("there is room"),
        reads: clip.reads,
    })
    .collect()
}

#[test]
fn split_points() {
    let made = points(&["h", "p"]);
    assert_eq!((made.shards(), made.keys().len()), (3, 2));
    assert!(made.keys().eq([b"h", b"p"]));
    assert_eq!(["", "g", "h", "p", "z"].map(|key| made.shard_of(key)), [0, 0, 1, 2, 2]);
    assert_eq!(format!("{made:?}"), r#"["h", "p"]"#);

    let error = |keys: &[&[u8]]| SplitPoints::new(keys).expect_err("the keys are no split points");
    assert_eq!(error(&[b""]), SplitPointsError::NotRising { index: 0 });
    assert_eq!(error(&[b"a", b"a"]), SplitPointsError::NotRising { index: 1 });
    let long = vec![b'x'; MAX_KEY_LENGTH + 1];
    assert_eq!(error(&[b"a", &long]), SplitPointsError::KeyLength { index: 1 });
    let many = (0..=MAX_SPLIT_POINTS as u8).map(|byte| [byte + 1]);
    assert_eq!(SplitPoints::new(many.clone()).err(), Some(SplitPointsError::TooMany));
    assert_eq!(
        SplitPoints::new(many.take(MAX_SPLIT_POINTS)).map(|made| made.shards()).ok(),
        Some(64)
    );
}

#[test]
fn balanced_split_points() {
    let sample = batch(
        -1,
        100,
        [Txn::at(0).read(("a", "z")).read(("b", "z")).write_key("c").write_key("d")],
    );
    let keys = |shards| {
        SplitPoints::balanced([&sample], shards)
            .map(|made| made.keys().map(<[u8]>::to_vec).collect::<Vec<_>>())
    };
    assert_eq!(keys(2), Ok(vec![b"c".to_vec()]));
    assert_eq!(keys(1), Ok(Vec::new()));
    assert_eq!(keys(64).map(|keys| keys.len()), Ok(4));
    assert_eq!(keys(0), Err(BalanceError::ShardCount(0)));
    assert_eq!(keys(65), Err(BalanceError::ShardCount(65)));
}

/// The first shard reports its read ranges 0 and 1, which are 0 and 2 of the transaction.
#[test]
fn report_of_two_shards() {
    let points = points(&["m"]);
    let mut sets = sets(&points);
    let writes = batch(-1, 100, [Txn::at(0).write(("a", "b")).write(("c", "d")).write(("x", "y"))]);
    combine(&writes, resolve(&points, &mut sets, &writes)).expect("each reply fits");
    let reads = Txn::at(50).read(("a", "b")).read(("x", "z")).read(("c", "e")).read(("e", "f"));
    let reads = batch(100, 200, [reads.report()]);
    let replies = resolve(&points, &mut sets, &reads);
    assert_eq!(replies[0].reads.of(0), Some(&[0, 2, 3][..]));
    assert_eq!((replies[1].reads.of(0), replies[1].reads.of(1)), (Some(&[1][..]), None));
    let reply = combine(&reads, replies).expect("each reply fits");
    assert_eq!((reply.version(), reply.verdict(0)), (200, Some(Verdict::Conflict)));
    assert!(reply.conflicts(0).eq([0, 1, 2]));
}

#[test]
fn replies_that_do_not_fit() {
    let points = points(&["m"]);
    let sent = batch(-1, 100, [Txn::at(0).read_key("a").report()]);
    let combined = |change: &dyn Fn(usize, Reply) -> Reply| {
        let replies = resolve(&points, &mut sets(&points), &sent).into_iter().enumerate();
        let changed = |(index, shard): (usize, ShardReply)| ShardReply {
            reply: change(index, shard.reply),
            ..shard
        };
        combine(&sent, replies.map(changed))
    };
    let other = |previous, version, txns: Vec<Txn<'static>>| {
        ConflictSet::new(WINDOW, MAX_LIMIT)
            .expect("there is memory")
            .resolve(&batch(previous, version, txns))
            .expect("there is room")
    };
    assert!(combined(&|_, reply| reply).is_ok());
    let version = |index, reply| {
        if index == 1 { other(100, 200, vec![Txn::at(0)]) } else { reply }
    };
    assert_eq!(combined(&version), Err(CombineError::Version { index: 1 }));
    let count = |_, _| other(-1, 100, Vec::new());
    assert_eq!(combined(&count), Err(CombineError::Count { index: 0 }));
    assert_eq!(combine(&sent, []), Err(CombineError::NoReply));
}
