//! Calls that may answer `Memory`, far beyond a thousand chunks or items: with ample memory none of
//! them does.

use arena::{Arena, MAX_LENGTH};
use conflict::ConflictSet;
use json_lines::{Scratch, read_batch, write_batch};
use keys::{HashedRange, RangeRef};
use keyspace::{Verdict, sort_by_version};
use rattle_std::alloc::Global;
use resolver::Core;
use shards::{ShardReply, SplitPoints, clip_all, combine};
use stepmap::{KeyLengths, MAX_LIMIT, StepMap};
use tests::plain::{PlainAnswer, PlainBatch, PlainEntry, PlainRange, PlainReply, PlainTxn, key};
use tests::random::Random;
use tests::spelling::{batch_frame, reply_frame};
use wire::{
    StdSink, StdSource, WireError, decode_batch, decode_reply, encode_batch, encode_reply, upgrade,
};

const MAX_BODY_LENGTH: usize = 4_194_304;

fn number(number: u64) -> Vec<u8> {
    number.to_be_bytes()[4..].to_vec()
}

fn singles(numbers: impl Iterator<Item = u64>) -> Vec<PlainRange> {
    numbers.map(|at| PlainRange::single(number(at))).collect()
}

fn txn(reads: Vec<PlainRange>, writes: Vec<PlainRange>) -> PlainTxn {
    PlainTxn { snapshot: 0, marked: true, reads, writes }
}

fn set() -> ConflictSet {
    ConflictSet::new(Global, 1_000, MAX_LIMIT).expect("memory is ample")
}

/// Slots for 2,000,000 short keys are 3,907 chunks, and each of the longest keys takes one more.
#[test]
fn arena_with_room_for_millions() {
    let mut arena = Arena::new(Global);
    assert_eq!(arena.reserve(&vec![MAX_LENGTH; 3_000]), Ok(()));
    assert_eq!(arena.reserve_slots(32, 2_000_000), Ok(()));
    assert_eq!(arena.reserve(&vec![5; 2_000_000]), Ok(()));
    for at in 0..2_000_000 {
        assert!(arena.place(at, &number(at)).is_ok());
    }
    assert_eq!(arena.live(), 2_000_000);
}

/// One call makes room for 1,000,000 ranges.
#[test]
fn step_map_with_room_for_millions() {
    let mut map = StepMap::new(Global, MAX_LIMIT).expect("memory is ample");
    let keys: Vec<_> =
        (0..1_000_000).map(|at| (number(at), [number(at), vec![0]].concat())).collect();
    let ranges = || keys.iter().map(|(begin, end)| RangeRef::new(begin, end));
    let lengths: Vec<_> = ranges().map(KeyLengths::of).collect();
    assert_eq!(map.prepare(&lengths), Ok(()));
    ranges().for_each(|range| map.write(HashedRange::of(range), 7));
    assert_eq!(map.boundaries(), 2_000_001);
}

/// Batches of 1,000 transactions, half of which write 1,024 keys, and half read as many.
#[test]
fn batches_of_a_million_ranges() {
    let keys = |from: u64| singles(1_024 * from..1_024 * (from + 1));
    let writers = (0..500).map(|index| txn(Vec::new(), keys(index)));
    let readers = |first: u64| (first..first + 500).map(|index| txn(keys(index), Vec::new()));
    let first =
        PlainBatch { txns: writers.chain(readers(500)).collect(), ..PlainBatch::empty(-1, 10) };
    let second =
        PlainBatch { txns: readers(0).chain(readers(250)).collect(), ..PlainBatch::empty(10, 20) };
    let mut set = set();
    let reply = set.resolve(&first.batch()).expect("memory is ample");
    assert!(reply.entries.as_slice().iter().all(|entry| entry.verdict == Verdict::Committed));
    assert_eq!(set.boundaries(), 1 + 2 * 512_000);
    let reply = PlainReply::of(&set.resolve(&second.batch()).expect("memory is ample"));
    for (reader, entry) in (0..500).chain(250..750).zip(&reply.entries) {
        let expected =
            if reader < 500 { (Verdict::Conflict, 1_024) } else { (Verdict::Committed, 0) };
        assert_eq!((entry.verdict, entry.places.len()), expected);
    }
}

/// A range takes at least three bytes of a frame, so that 1,359 transactions with 1,024 ranges fit.
#[test]
fn frame_with_the_most_ranges() {
    let batch = |txns| PlainBatch {
        txns: vec![txn(Vec::new(), vec![PlainRange::single(""); 1_024]); txns],
        ..PlainBatch::empty(-1, 0)
    };
    let most = batch(1_359);
    let frame = encode_batch(Global, &most.batch()).expect("it is within the limit");
    assert!(frame.as_slice() == batch_frame(&most, 2));
    let (decoded, used) = decode_batch(Global, &frame).expect("it is within the limit");
    assert!(PlainBatch::of(&decoded) == most && used == frame.len());
    assert_eq!(encode_batch(Global, &batch(1_360).batch()).err(), Some(WireError::Long));
}

/// 4,095 entries with 2,091,004 indices fill a frame.
#[test]
fn longest_reply() {
    let entry =
        |places: u16| PlainEntry { verdict: Verdict::Conflict, places: (0..places).collect() };
    let reply = |longer: usize| PlainReply {
        version: 1,
        entries: (0..4_095).map(|index| entry(if index < longer { 511 } else { 510 })).collect(),
    };
    let longest = reply(2_554);
    let frame = encode_reply(Global, &longest.reply()).expect("it is within the limit");
    assert_eq!(frame.len(), 4 + MAX_BODY_LENGTH);
    assert!(frame.as_slice() == reply_frame(&longest));
    let (decoded, used) = decode_reply(Global, &frame).expect("it is within the limit");
    assert!(PlainReply::of(&decoded) == longest && used == frame.len());
    let longer = reply(2_555);
    assert_eq!(encode_reply(Global, &longer.reply()).err(), Some(WireError::Long));
    assert_eq!(decode_reply(Global, &reply_frame(&longer)).err(), Some(WireError::Long));
}

/// Two proxies take no answer and acknowledge none. Then they ask for each again.
#[test]
fn two_hundred_thousand_kept_replies() {
    let mut core = Core::new(Global, 2, 1_000, MAX_LIMIT).expect("memory is ample");
    let batch = |version: i64| PlainBatch::empty(version - 1, version).batch();
    for version in (0..200_000).chain(0..200_000) {
        assert_eq!(core.admit(version as usize % 2, batch(version)), Ok(()));
    }
    assert_eq!(core.owed(), 400_000);
    for version in (0..200_000).chain(0..200_000) {
        let expected = PlainAnswer::Reply(PlainReply { version, entries: Vec::new() });
        assert_eq!(core.give(version as usize % 2).as_ref().map(PlainAnswer::of), Some(expected));
    }
}

/// 1,024 held batches, each with keys of 40,000 bytes together.
#[test]
fn held_batches_with_long_keys() {
    let mut core = Core::new(Global, 1, 5_000, MAX_LIMIT).expect("memory is ample");
    let long = |at: i64| {
        PlainRange::new(
            [vec![b'k'; 9_996], number(at as u64)].concat(),
            [vec![b'l'; 9_996], number(at as u64)].concat(),
        )
    };
    let batch = |version: i64| PlainBatch {
        txns: vec![txn(vec![long(version)], vec![long(version)])],
        ..PlainBatch::empty(version - 1, version)
    };
    for version in (0..=1_024).rev() {
        assert_eq!(core.owed(), 0);
        assert_eq!(core.admit(0, batch(version).batch()), Ok(()));
    }
    for version in 0..=1_024 {
        // Each reads what those before it wrote. Only a write at version 0 isn't above the
        // snapshot.
        let (verdict, places) = if version <= 1 {
            (Verdict::Committed, Vec::new())
        } else {
            (Verdict::Conflict, vec![0])
        };
        let expected = PlainAnswer::Reply(PlainReply {
            version,
            entries: vec![PlainEntry { verdict, places }],
        });
        assert_eq!(core.give(0).as_ref().map(PlainAnswer::of), Some(expected));
    }
}

/// A line of 300,000 ranges.
#[test]
fn long_line() {
    let keys = |index: u64| singles(1_024 * index..1_024 * (index + 1));
    let batch = PlainBatch {
        txns: (0..150).map(|index| txn(keys(index), keys(index))).collect(),
        ..PlainBatch::empty(-1, 10)
    };
    let line = write_batch(Global, &batch.batch()).expect("memory is ample");
    let read = read_batch(Global, &line, &mut Scratch::new(Global)).expect("it was written");
    assert!(PlainBatch::of(&read) == batch);
}

/// The largest batch by counts of transactions, in 64 shards, and its replies as one.
#[test]
fn most_shards_of_the_largest_batch() {
    let points: Vec<_> = (1..64).map(|shard| key(&number(64 * shard))).collect();
    let points = SplitPoints::checked(points.into()).expect("the keys rise");
    let mut txns: Vec<_> =
        (0..4_096).map(|at| txn(singles(at..at + 1), singles(at..at + 1))).collect();
    txns[4_000] = txn(singles(0..1_024), singles(0..1_024));
    let batch = PlainBatch { txns, ..PlainBatch::empty(-1, 10) };
    let clipped = clip_all(Global, &batch.batch(), &points).expect("memory is ample").into_std();
    assert_eq!(clipped.len(), 64);
    let resolved = clipped.into_iter().map(|clipped| ShardReply {
        reply: set().resolve(&clipped.batch).expect("memory is ample"),
        reads: clipped.reads,
    });
    let reply = combine(Global, &batch.batch(), &resolved.collect::<Vec<_>>())
        .expect("each reply is one to the batch");
    let reply = PlainReply::of(&reply);
    let conflicts: Vec<_> =
        (0..4_096).filter(|index| reply.entries[*index].verdict == Verdict::Conflict).collect();
    assert_eq!(conflicts, [4_000]);
    // Each of the 16 shards that it reads reports the first of its ranges.
    assert_eq!(reply.entries[4_000].places, (0..16).map(|shard| 64 * shard).collect::<Vec<u16>>());
}

#[test]
fn a_million_replies_in_order() {
    let mut versions: Vec<i64> = (0..1_000_000).collect();
    Random::new(3).shuffle(&mut versions);
    let mut replies: Vec<_> = versions
        .iter()
        .map(|version| PlainReply { version: *version, entries: Vec::new() }.reply())
        .collect();
    assert_eq!(sort_by_version(Global, &mut replies), Ok(()));
    assert!((0..).zip(&replies).all(|(version, reply)| reply.version == version));
}

#[test]
fn upgrade_of_twenty_thousand_frames() {
    let batch = |version: i64| PlainBatch {
        txns: vec![txn(Vec::new(), singles(0..3))],
        ..PlainBatch::empty(version - 1, version)
    };
    let frames = |form: u8| {
        (0..20_000).flat_map(move |version| batch_frame(&batch(version), form)).collect::<Vec<_>>()
    };
    let (old, mut writer) = (frames(1), StdSink::new(Vec::new()));
    assert_eq!(upgrade(Global, &mut StdSource::new(&old[..]), &mut writer), Ok(20_000));
    assert!(writer.into_inner() == frames(2));
}
