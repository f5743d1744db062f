//! The largest of each limit of `docs/LIMITS.md`, with ample memory.

use conflict::ConflictSet;
use keys::{HashedRange, Key, KeyError, Range, RangeRef};
use keyspace::{Batch, LimitError, Txn, Verdict};
use rattle_std::alloc::Global;
use resolver::{Core, Stop};
use stepmap::{KeyLengths, MAX_LIMIT, StepMap};
use tests::cases::is_long;
use tests::plain::{PlainAnswer, PlainBatch, PlainRange, PlainReply, PlainTxn, key};
use tests::random::Random;
use tests::scan::Scan;
use tests::spelling::batch_frame;
use wire::{WireError, decode_batch, encode_batch, encode_batch_1};

const MAX_BODY_LENGTH: usize = 4_194_304;

fn txn(reads: Vec<PlainRange>, writes: Vec<PlainRange>) -> PlainTxn {
    PlainTxn { snapshot: 0, marked: true, reads, writes }
}

fn number(number: u64) -> Vec<u8> {
    number.to_be_bytes()[4..].to_vec()
}

/// A step map with 2,000,000 boundaries beside the one at the empty key: the writes come in no
/// order, and each stays apart.
#[test]
fn step_map_of_two_million_boundaries() {
    let writes: u64 = 1_000_000;
    let mut map = StepMap::new(Global, MAX_LIMIT).expect("memory is ample");
    // An odd step goes through all numbers below a power of two, each once.
    let power = writes.next_power_of_two();
    let keys: Vec<u64> =
        (0..power).map(|index| index * 700_001 % power).filter(|key| *key < writes).collect();
    for batch in keys.chunks(4_096) {
        let ranges: Vec<_> = batch.iter().map(|key| PlainRange::single(number(*key))).collect();
        let borrowed = || ranges.iter().map(|range| RangeRef::new(&range.begin, &range.end));
        let lengths: Vec<_> = borrowed().map(KeyLengths::of).collect();
        assert_eq!(map.prepare(&lengths), Ok(()));
        borrowed()
            .zip(batch)
            .for_each(|(range, key)| map.write(HashedRange::of(range), *key as i64));
    }
    assert_eq!(map.boundaries() as u64, 1 + 2 * writes);
    for key in 0..writes {
        let mut at = number(key);
        assert_eq!(map.at(&at), key as i64);
        at.push(0);
        assert_eq!(map.at(&at), -1);
    }
    let all = PlainRange::new("", [255; 9]).range();
    assert_eq!(map.greatest_in(&all), writes as i64 - 1);
    map.raise(writes as i64);
    map.sweep(usize::MAX);
    assert_eq!(map.boundaries(), 1);
}

/// A batch of 4,096 transactions, one of which has 1,024 read ranges and 1,024 write ranges.
#[test]
fn largest_batch() {
    let random = &mut Random::new(1);
    let mut txns: Vec<_> = (0..4_096)
        .map(|_| {
            let mut key = || number(random.below(20_000));
            txn(
                vec![PlainRange::single(key()), PlainRange::single(key())],
                vec![PlainRange::single(key())],
            )
        })
        .collect();
    let many = |step: u64| {
        (0..1_024).map(|index| PlainRange::single(number(step * index))).collect::<Vec<_>>()
    };
    txns[3_000] = txn(many(30), Vec::new());
    txns[3_500] = txn(Vec::new(), many(19));
    txns[4_000] = txn(many(7), many(11));
    let first = PlainBatch { previous: -1, version: 10, received: -1, txns };
    let second = PlainBatch { previous: 10, version: 20, ..first.clone() };
    let mut set = ConflictSet::new(Global, 100, MAX_LIMIT).expect("memory is ample");
    let mut scan = Scan::new(100);
    for batch in [&first, &second] {
        let reply = set.resolve(&batch.batch()).expect("memory is ample");
        assert_eq!(PlainReply::of(&reply), scan.resolve(batch));
        for version in [1, 2] {
            let (decoded, _) = decode_batch(Global, &batch_frame(batch, version))
                .expect("it is within the limits");
            assert_eq!(PlainBatch::of(&decoded), *batch);
        }
    }
    assert!(scan.written_at(10).len() > 2_000);
}

/// One more of each is refused by name.
#[test]
fn beyond_the_limits_of_a_batch() {
    let empty = |ranges: usize| PlainTxn {
        snapshot: 0,
        marked: false,
        reads: vec![PlainRange::new("", ""); ranges],
        writes: Vec::new(),
    };
    let checked = |txns: usize| {
        let batch = PlainBatch { txns: vec![empty(0); txns], ..PlainBatch::empty(-1, 0) };
        let txns: Vec<_> = batch
            .txns
            .iter()
            .map(|txn| {
                Txn::checked(txn.snapshot, false, sequence(0), sequence(0))
                    .expect("it is within the limits")
            })
            .collect();
        Batch::checked(Global, -1, 0, -1, txns.into()).map(|batch| batch.txns.len())
    };
    assert_eq!((checked(4_096), checked(4_097)), (Ok(4_096), Err(LimitError::Count)));
    let ranges = |reads, writes| {
        Txn::checked(0, true, sequence(reads), sequence(writes))
            .map(|txn| txn.reads.len() + txn.writes.len())
    };
    assert_eq!(
        (ranges(1_024, 1_024), ranges(1_025, 0), ranges(0, 1_025)),
        (Ok(2_048), Err(LimitError::Count), Err(LimitError::Count))
    );
    assert_eq!(ranges(0, 0), Ok(0));
    assert_eq!(Txn::checked(-1, true, sequence(0), sequence(0)).err(), Some(LimitError::Version));
    for (previous, version, received) in
        [(-2, 0, -1), (0, 0, -1), (-1, -1, -1), (-1, 0, 0), (-1, 0, -2), (5, 4, -1)]
    {
        assert_eq!(
            Batch::checked(Global, previous, version, received, Vec::new().into()).err(),
            Some(LimitError::Version)
        );
    }
}

fn sequence(count: usize) -> keyspace::Sequence<Range> {
    keyspace::Sequence::new(
        (0..count).map(|_| PlainRange::new("a", "b").range()).collect::<Vec<_>>().into(),
    )
}

/// A batch whose frame in that version has a body of `length` bytes.
fn batch_of_length(length: usize, version: u8) -> PlainBatch {
    let ranges = |count: usize, byte: u8| {
        (0..count)
            .map(|index| {
                PlainRange::new([vec![byte; 9_990], number(index as u64)].concat(), [byte + 1; 3])
            })
            .collect::<Vec<_>>()
    };
    let mut batch = PlainBatch::empty(-1, 100);
    batch.txns = vec![txn(ranges(209, b'a'), ranges(209, b'c'))];
    let left = length - (batch_frame(&batch, version).len() - 4);
    // A range takes 4 bytes, and one more in version 2, beside its keys.
    let beside = if version == 1 { 4 } else { 5 };
    let keys = left - 2 * beside;
    batch.txns[0].reads.push(PlainRange::new("", vec![b'x'; keys / 2]));
    batch.txns[0].writes.push(PlainRange::new("", vec![b'y'; keys - keys / 2]));
    batch
}

#[test]
fn longest_frame() {
    for version in [1, 2] {
        let encoder = if version == 1 { encode_batch_1 } else { encode_batch };
        let batch = batch_of_length(MAX_BODY_LENGTH, version);
        let frame = encoder(Global, &batch.batch()).expect("it is within the limit");
        assert_eq!(frame.len(), 4 + MAX_BODY_LENGTH);
        assert!(frame.as_slice() == batch_frame(&batch, version));
        let (decoded, used) = decode_batch(Global, &frame).expect("it is within the limit");
        assert!(PlainBatch::of(&decoded) == batch && used == frame.len());
        let reply = ConflictSet::new(Global, 100, MAX_LIMIT)
            .and_then(|mut set| set.resolve(&decoded))
            .expect("memory is ample");
        assert_eq!(reply.entries.as_slice()[0].verdict, Verdict::Committed);
        let longer = batch_of_length(MAX_BODY_LENGTH + 1, version);
        assert_eq!(encoder(Global, &longer.batch()).err(), Some(WireError::Long));
        assert_eq!(
            decode_batch(Global, &batch_frame(&longer, version)).err(),
            Some(WireError::Long)
        );
    }
}

/// 1,024 batches are held and then processed, whatever the order in which they came; one more stops
/// the resolver.
#[test]
fn most_held_batches() {
    let mut order: Vec<i64> = (1..=1_024).collect();
    Random::new(2).shuffle(&mut order);
    let admit = |core: &mut Core, version: i64| {
        core.admit(version as usize % 64, PlainBatch::empty(version - 1, version).batch())
    };
    let held = || {
        let mut core = Core::new(Global, 64, 100, MAX_LIMIT).expect("memory is ample");
        order.iter().for_each(|version| assert_eq!(admit(&mut core, *version), Ok(())));
        assert_eq!(core.owed(), 0);
        core
    };
    let mut core = held();
    assert_eq!((admit(&mut core, 0), core.owed()), (Ok(()), 1_025));
    for version in 0..=1_024 {
        let expected = PlainAnswer::Reply(PlainReply { version, entries: Vec::new() });
        assert_eq!(core.give(version as usize % 64).as_ref().map(PlainAnswer::of), Some(expected));
    }
    let mut core = held();
    assert_eq!(admit(&mut core, 2_000), Err(Stop::GateFull));
    assert_eq!((admit(&mut core, 0), core.finish()), (Err(Stop::GateFull), Err(Stop::GateFull)));
}

/// Keys of 10,000 bytes, single, shared to the last byte, and read by ranges that end with the key
/// right after.
#[test]
fn longest_keys() {
    let long = |last: u8| [vec![b'k'; 9_999], vec![last]].concat();
    let mut set = ConflictSet::new(Global, 1_000, MAX_LIMIT).expect("memory is ample");
    let mut scan = Scan::new(1_000);
    let most = if is_long() { 256 } else { 64 };
    for version in 0..most {
        let write = PlainRange::single(long(version as u8));
        let reads = (0..3)
            .map(|back| PlainRange::single(long((version as u8).wrapping_sub(back))))
            .collect();
        let wide =
            PlainRange::new(long(version as u8 / 2), PlainRange::single(long(version as u8)).end);
        let batch = PlainBatch {
            previous: version - 1,
            version,
            received: -1,
            txns: vec![txn(reads, vec![write]), txn(vec![wide], Vec::new())],
        };
        let reply = set.resolve(&batch.batch()).expect("memory is ample");
        assert_eq!(PlainReply::of(&reply), scan.resolve(&batch));
    }
    assert_eq!(key(&[7; 10_001]).as_bytes().len(), 10_001);
    assert_eq!(Key::checked(vec![7; 10_002].into()).err(), Some(KeyError::KeyLength));
}

/// Keys of ranges and single keys at their limits in frames of both versions, and one byte longer.
#[test]
fn longest_keys_in_frames() {
    let framed = |write: PlainRange, version: u8| {
        batch_frame(
            &PlainBatch { txns: vec![txn(Vec::new(), vec![write])], ..PlainBatch::empty(-1, 100) },
            version,
        )
    };
    let answer = |frame: &[u8]| {
        decode_batch(Global, frame).map(|(batch, used)| {
            (PlainBatch::of(&batch).txns[0].writes[0].end.len(), used == frame.len())
        })
    };
    for version in [1, 2] {
        let range = |length| framed(PlainRange::new("", vec![b'a'; length]), version);
        assert_eq!(
            (answer(&range(10_001)), answer(&range(10_002))),
            (Ok((10_001, true)), Err(WireError::KeyLength))
        );
        let single = |length| framed(PlainRange::single(vec![b'a'; length]), version);
        assert_eq!(
            (answer(&single(10_000)), answer(&single(10_001))),
            (Ok((10_001, true)), Err(WireError::KeyLength))
        );
    }
}

/// A range whose begin is after its end is refused, and one whose begin is its end isn't.
#[test]
fn begin_and_end_of_a_range() {
    for (begin, end) in
        [("b", "a"), ("a\0", "a"), ("ab", "a"), ("\u{7f}", ""), ("b", "azzzzzzzzzzzz")]
    {
        assert_eq!(
            Range::checked(key(begin.as_bytes()), key(end.as_bytes())).err(),
            Some(KeyError::Inverted)
        );
        assert!(Range::checked(key(end.as_bytes()), key(begin.as_bytes())).is_ok());
        assert!(
            Range::checked(key(end.as_bytes()), key(end.as_bytes()))
                .is_ok_and(|range| range.is_empty())
        );
    }
}
