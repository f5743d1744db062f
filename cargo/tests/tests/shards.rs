//! Clips, combinations and chains of shards against plain definitions.

use conflict::ConflictSet;
use keyspace::Verdict;
use rattle_std::alloc::Global;
use shards::{
    BalanceError, Clipped, CombineError, Misfit, ReadIndices, ShardReply, SplitPoints,
    SplitPointsError,
};
use shards::{balanced, clip, clip_all, clip_in_place, combine, number_all};
use stepmap::MAX_LIMIT;
use tests::cases::{count, run};
use tests::drawn::{KeySpace, any_batch};
use tests::notation::batch;
use tests::plain::{PlainBatch, PlainEntry, PlainRange, PlainReply, PlainTxn, key};
use tests::random::Random;
use tests::spelling::batch_frame;
use wire::{StdSource, read_frames};

pub(crate) type Keys = Vec<Vec<u8>>;

fn checked(points: &Keys) -> Result<SplitPoints, SplitPointsError> {
    SplitPoints::checked(points.iter().map(|point| key(point)).collect::<Vec<_>>().into())
}

pub(crate) fn split(points: &Keys) -> SplitPoints {
    checked(points).expect("the keys rise")
}

pub(crate) fn keys<const N: usize>(points: [&str; N]) -> Keys {
    points.iter().map(|point| point.as_bytes().to_vec()).collect()
}

/// Draws some keys of the space that rise from the empty key on.
pub(crate) fn points(space: &KeySpace, random: &mut Random) -> Keys {
    let most = random.pick(&[1, 2, 3, 8, 64]);
    let mut points: Keys =
        (0..random.index(most)).map(|_| space.key(random)).filter(|key| !key.is_empty()).collect();
    points.sort();
    points.dedup();
    points
}

/// A shard by its first key and the key where it ends.
pub(crate) struct Shard {
    from: Vec<u8>,
    to: Option<Vec<u8>>,
}

pub(crate) fn shards_of(points: &Keys) -> Vec<Shard> {
    let from = std::iter::once(Vec::new()).chain(points.iter().cloned());
    let to = points.iter().cloned().map(Some).chain(std::iter::once(None));
    from.zip(to).map(|(from, to)| Shard { from, to }).collect()
}

impl Shard {
    pub(crate) fn has(&self, key: &[u8]) -> bool {
        *self.from <= *key && self.to.as_ref().is_none_or(|to| key < to)
    }

    /// Returns the keys that both hold, if there are any. An empty range stays as it is in the
    /// shard of its key.
    fn clip(&self, range: &PlainRange) -> Option<PlainRange> {
        if range.is_empty() {
            return self.has(&range.begin).then(|| range.clone());
        }
        let begin = (&range.begin).max(&self.from);
        let end = self.to.as_ref().map_or(&range.end, |to| to.min(&range.end));
        (begin < end).then(|| PlainRange::new(begin.clone(), end.clone()))
    }

    /// Returns the clips of the ranges, each with the index of its range.
    fn clips(&self, ranges: &[PlainRange]) -> Vec<(u16, PlainRange)> {
        (0..).zip(ranges).filter_map(|(index, range)| Some((index, self.clip(range)?))).collect()
    }

    pub(crate) fn clip_batch(&self, batch: &PlainBatch) -> (PlainBatch, Vec<Vec<u16>>) {
        let reads: Vec<_> = batch.txns.iter().map(|txn| self.clips(&txn.reads)).collect();
        let txns = batch.txns.iter().zip(&reads).map(|(txn, reads)| PlainTxn {
            snapshot: txn.snapshot,
            marked: txn.marked,
            reads: reads.iter().map(|(_, range)| range.clone()).collect(),
            writes: self.clips(&txn.writes).into_iter().map(|(_, range)| range).collect(),
        });
        let clipped = PlainBatch { txns: txns.collect(), ..*batch };
        (
            clipped,
            reads.iter().map(|reads| reads.iter().map(|(index, _)| *index).collect()).collect(),
        )
    }
}

pub(crate) fn indices(reads: &ReadIndices) -> Vec<Vec<u16>> {
    (0..reads.len()).map(|index| reads.txn(index).to_vec()).collect()
}

fn plain(clipped: &Clipped) -> (PlainBatch, Vec<Vec<u16>>) {
    (PlainBatch::of(&clipped.batch), indices(&clipped.reads))
}

fn clipped(batch: &PlainBatch, points: &SplitPoints) -> Vec<Clipped> {
    clip_all(Global, &batch.batch(), points).expect("memory is ample").into_std()
}

/// Shards end at the split points, and a transaction stays at its index, also in a shard that has
/// none of its ranges. Each clip is the batch of a shard, and the original indices of its reads.
#[test]
fn clips_by_hand() {
    let rows: [(&[&str], &str, &[(&str, &[&[u16]])]); 4] = [
        // The shards are [,h), [h,p) and [p,..).
        (
            &["h", "p"],
            "0>100 received 0: m R[a,z) W[b,i) @50",
            &[
                ("0>100 received 0: m R[a,h) W[b,h) @50", &[&[0]]),
                ("0>100 received 0: m R[h,p) W[h,i) @50", &[&[0]]),
                ("0>100 received 0: m R[p,z) @50", &[&[0]]),
            ],
        ),
        (
            &["m"],
            "0>100: R[a,m) R[m,n) R[l,n)",
            &[("0>100: R[a,m) R[l,m)", &[&[0, 2]]), ("0>100: R[m,n) R[m,n)", &[&[1, 2]])],
        ),
        (
            &["h", "m"],
            "0>100: R[m,m) R[h,h) R[a,a)",
            &[("0>100: R[a,a)", &[&[2]]), ("0>100: R[h,h)", &[&[1]]), ("0>100: R[m,m)", &[&[0]])],
        ),
        (
            &["m"],
            "0>100: R[a,b) W[x,y) @7; W[c,d)",
            &[("0>100: R[a,b) @7; W[c,d)", &[&[0], &[]]), ("0>100: W[x,y) @7; @0", &[&[], &[]])],
        ),
    ];
    for (points, text, expected) in rows {
        let points: Keys = points.iter().map(|point| point.as_bytes().to_vec()).collect();
        let found: Vec<_> = clipped(&batch(text), &split(&points)).iter().map(plain).collect();
        let expected: Vec<_> = expected
            .iter()
            .map(|(text, reads)| (batch(text), reads.iter().map(|txn| txn.to_vec()).collect()))
            .collect();
        assert_eq!(found, expected, "{text}");
    }
}

#[test]
fn clips_are_those_of_a_plain_definition() {
    run("clips_are_those_of_a_plain_definition", count(10_000_000, 1_000_000), |random| {
        let batch = any_batch(random, 30, 6);
        let space = KeySpace::drawn(random);
        let mut points = points(&space, random);
        // Split points at the ends of ranges.
        for range in batch.txns.iter().flat_map(|txn| txn.reads.iter().chain(&txn.writes)) {
            if points.len() < 63 && random.one_in(4) {
                points.push(if random.one_in(2) { range.begin.clone() } else { range.end.clone() });
            }
        }
        points.retain(|point| !point.is_empty());
        points.sort();
        points.dedup();
        let split = split(&points);
        let all = clipped(&batch, &split);
        let expected: Vec<_> =
            shards_of(&points).iter().map(|shard| shard.clip_batch(&batch)).collect();
        assert_eq!(all.iter().map(plain).collect::<Vec<_>>(), expected, "{points:?} {batch:?}");
        let numbers =
            number_all(Global, &batch.batch(), &split).expect("memory is ample").into_std();
        assert!(
            numbers.iter().map(indices).eq(expected.iter().map(|(_, reads)| reads.clone())),
            "{points:?} {batch:?}"
        );
        let shard = random.index(split.shard_count());
        assert_eq!(
            plain(&clip(Global, &batch.batch(), &split, shard).expect("memory is ample")),
            expected[shard]
        );
        // The same in the buffer of a frame.
        let frame = batch_frame(&batch, random.pick(&[1, 2]));
        let found = read_frames(Global, StdSource::new(&frame[..]))
            .next_unordered()
            .expect("the frame is complete");
        let clip = clip_in_place(Global, found.expect("the frame is there"), &split, shard)
            .expect("memory is ample");
        assert_eq!(plain(&clip), expected[shard], "{points:?} {batch:?}");
        assert_eq!(
            format!("{:?}", clip.batch.txns.ranks()),
            format!("{:?}", expected[shard].0.batch().txns.ranks())
        );
        1 + batch.txns.len() as u64
    });
}

#[test]
fn each_key_lies_in_the_shard_that_has_it() {
    run("each_key_lies_in_the_shard_that_has_it", count(1_000_000, 100_000), |random| {
        let space = KeySpace::drawn(random);
        let points = points(&space, random);
        let key = if random.one_in(3) && !points.is_empty() {
            points[random.index(points.len())].clone()
        } else {
            space.key(random)
        };
        let having: Vec<_> = (0..)
            .zip(shards_of(&points))
            .filter(|(_, shard)| shard.has(&key))
            .map(|(index, _)| index)
            .collect();
        assert_eq!(having, [split(&points).shard_of(&key)], "{points:?} {key:?}");
        1
    });
}

#[test]
fn bad_split_points_are_refused() {
    assert_eq!(checked(&keys(["b", "a"])).err(), Some(SplitPointsError::NotRising(1)));
    assert_eq!(checked(&keys(["a", "b", "b", "a"])).err(), Some(SplitPointsError::NotRising(2)));
    assert_eq!(checked(&keys(["", "b"])).err(), Some(SplitPointsError::NotRising(0)));
    let many: Keys = (1..=64).map(|byte| vec![byte]).collect();
    assert_eq!(checked(&many).err(), Some(SplitPointsError::TooMany));
    assert_eq!(split(&many[1..].to_vec()).shard_count(), 64);
    assert_eq!(split(&keys([])).shard_count(), 1);
    assert_eq!(
        SplitPointsError::NotRising(2).to_string(),
        "split point 2 isn't after the one before"
    );
}

/// Returns the split points that are picked from the sample.
fn picked(sample: &[PlainBatch], shards: usize) -> Result<Keys, BalanceError> {
    let batches: Vec<_> = sample.iter().map(PlainBatch::batch).collect();
    let points = balanced(Global, &batches.iter().collect::<Vec<_>>(), shards)?;
    Ok(points.points().iter().map(|point| point.as_bytes().to_vec()).collect())
}

/// Returns where the ranges of the sample begin, once per range.
fn begins(sample: &[PlainBatch]) -> Keys {
    let txns = sample.iter().flat_map(|batch| &batch.txns);
    txns.flat_map(|txn| txn.reads.iter().chain(&txn.writes))
        .map(|range| range.begin.clone())
        .collect()
}

/// No shard has more than its part of the ranges, besides those that begin with its first key.
#[test]
fn picked_points_spread_the_ranges() {
    run("picked_points_spread_the_ranges", count(1_000_000, 100_000), |random| {
        let sample: Vec<_> = (0..random.index(4)).map(|_| any_batch(random, 8, 4)).collect();
        let shards = random.pick(&[1, 2, 3, 5, 16, 64]);
        let (points, begins) = (picked(&sample, shards).expect("memory is ample"), begins(&sample));
        assert!(
            points.len() < shards && points.iter().all(|point| begins.contains(point)),
            "{points:?} {sample:?}"
        );
        for shard in shards_of(&points) {
            let inside =
                begins.iter().filter(|begin| shard.has(begin) && **begin != shard.from).count();
            assert!(inside * shards <= begins.len(), "{points:?} {sample:?}");
        }
        assert!(checked(&points).is_ok());
        1
    });
}

#[test]
fn picked_points_by_hand() {
    let sample = |begins: &str| {
        let range = |begin: char| PlainRange::new(begin.to_string(), "~");
        let txn = |begin| PlainTxn {
            snapshot: 0,
            marked: false,
            reads: vec![range(begin)],
            writes: Vec::new(),
        };
        vec![PlainBatch { txns: begins.chars().map(txn).collect(), ..PlainBatch::empty(0, 10) }]
    };
    assert_eq!(picked(&sample("bdfaec"), 3), Ok(keys(["c", "e"])));
    // Six ranges begin with k. The shards after it share what comes after it.
    assert_eq!(picked(&sample("akkkkkkxyz"), 4), Ok(keys(["k", "y", "z"])));
    // Fewer different keys than shards.
    assert_eq!(picked(&sample("ab"), 64), Ok(keys(["a", "b"])));
    assert_eq!(picked(&sample("ab"), 1), Ok(keys([])));
    assert_eq!(picked(&[], 64), Ok(keys([])));
    let empty = PlainTxn {
        snapshot: 0,
        marked: false,
        reads: vec![PlainRange::new("", "z")],
        writes: Vec::new(),
    };
    assert_eq!(
        picked(&[PlainBatch { txns: vec![empty; 5], ..PlainBatch::empty(0, 10) }], 2),
        Ok(keys([]))
    );
    // Reads and writes count. Each of a, b, c and d begins one range, and k begins three.
    let mixed = [batch("0>100: R[k,l) R[a,b) W[k,l); R[k,m) W[c,d) W[b,e) W[d,z)")];
    assert_eq!(picked(&mixed, 2), Ok(keys(["d"])));
    assert_eq!(picked(&mixed, 64), Ok(keys(["a", "b", "c", "d", "k"])));
    assert_eq!(picked(&sample("ab"), 0), Err(BalanceError::ShardCount));
    assert_eq!(picked(&sample("ab"), 65), Err(BalanceError::ShardCount));
    assert_eq!(BalanceError::ShardCount.to_string(), "the number of shards isn't from 1 to 64");
}

fn rank(verdict: Verdict) -> usize {
    [Verdict::Conflict, Verdict::TooOld, Verdict::Committed]
        .iter()
        .position(|other| *other == verdict)
        .expect("it is listed")
}

/// Combines entries by the definition: the least verdict, and all that is reported.
pub(crate) fn combined(entries: &[(PlainEntry, Vec<u16>)]) -> PlainEntry {
    let verdict = entries
        .iter()
        .map(|(entry, _)| entry.verdict)
        .min_by_key(|verdict| rank(*verdict))
        .expect("there is a shard");
    let reported = |index: u16| {
        entries
            .iter()
            .any(|(entry, reads)| entry.places.iter().any(|place| reads[*place as usize] == index))
    };
    PlainEntry { verdict, places: (0..1_024).filter(|index| reported(*index)).collect() }
}

fn reply_of(random: &mut Random, batch: &PlainBatch) -> PlainReply {
    let entry = |txn: &PlainTxn| {
        let verdict = random.pick(&[
            Verdict::Conflict,
            Verdict::TooOld,
            Verdict::Committed,
            Verdict::Committed,
        ]);
        let places = (0..txn.reads.len() as u16)
            .filter(|_| verdict == Verdict::Conflict && random.one_in(2))
            .collect();
        PlainEntry { verdict, places }
    };
    PlainReply { version: batch.version, entries: batch.txns.iter().map(entry).collect() }
}

#[test]
fn combinations_are_those_of_a_plain_definition() {
    run("combinations_are_those_of_a_plain_definition", count(10_000_000, 1_000_000), |random| {
        let batch = any_batch(random, 30, 6);
        let points = points(&KeySpace::drawn(random), random);
        let all = clipped(&batch, &split(&points));
        let replies: Vec<_> =
            all.iter().map(|clipped| reply_of(random, &PlainBatch::of(&clipped.batch))).collect();
        let expected: Vec<_> = (0..batch.txns.len())
            .map(|index| {
                let entry = |(reply, clipped): (&PlainReply, &Clipped)| {
                    (reply.entries[index].clone(), clipped.reads.txn(index).to_vec())
                };
                combined(&replies.iter().zip(&all).map(entry).collect::<Vec<_>>())
            })
            .collect();
        let mut each: Vec<_> = all
            .into_iter()
            .zip(&replies)
            .map(|(clipped, reply)| ShardReply { reply: reply.reply(), reads: clipped.reads })
            .collect();
        random.shuffle(&mut each);
        let reply = combine(Global, &batch.batch(), &each).expect("each reply is one to the batch");
        assert_eq!(
            PlainReply::of(&reply),
            PlainReply { version: batch.version, entries: expected }
        );
        1 + batch.txns.len() as u64
    });
}

/// The replies of other batches are refused, and the first of them is named.
#[test]
fn misfits_are_named() {
    let txn = |reads: &[(&str, &str)]| PlainTxn {
        snapshot: 0,
        marked: true,
        reads: reads.iter().map(|(begin, end)| PlainRange::new(*begin, *end)).collect(),
        writes: Vec::new(),
    };
    let batch = PlainBatch {
        previous: 0,
        version: 10,
        received: -1,
        txns: vec![txn(&[("a", "b"), ("x", "y")])],
    };
    let split = split(&keys(["m"]));
    let conflict =
        |places: &[u16]| PlainEntry { verdict: Verdict::Conflict, places: places.to_vec() };
    let result = |replies: [PlainReply; 2]| {
        let all = clipped(&batch, &split).into_iter().zip(replies);
        let each: Vec<_> = all
            .map(|(clipped, reply)| ShardReply { reply: reply.reply(), reads: clipped.reads })
            .collect();
        combine(Global, &batch.batch(), &each).map(|reply| PlainReply::of(&reply))
    };
    let reply = |version, places: &[u16]| PlainReply { version, entries: vec![conflict(places)] };
    assert_eq!(result([reply(10, &[0]), reply(10, &[0])]), Ok(reply(10, &[0, 1])));
    assert_eq!(
        result([reply(10, &[0]), reply(11, &[0])]),
        Err(CombineError::Misfit(1, Misfit::Version))
    );
    assert_eq!(
        result([reply(9, &[0]), reply(11, &[0])]),
        Err(CombineError::Misfit(0, Misfit::Version))
    );
    assert_eq!(
        result([reply(10, &[0, 1]), reply(10, &[])]),
        Err(CombineError::Misfit(0, Misfit::Place))
    );
    assert_eq!(
        result([reply(10, &[]), PlainReply { version: 10, entries: Vec::new() }]),
        Err(CombineError::Misfit(1, Misfit::Count))
    );
    assert_eq!(combine(Global, &batch.batch(), &[]).err(), Some(CombineError::NoReply));
    assert_eq!(
        CombineError::Misfit(1, Misfit::Version).to_string(),
        "reply of shard 1 has the version of another batch"
    );
}

fn hand(snapshot: i64, marked: bool, reads: &[(&str, &str)], writes: &[(&str, &str)]) -> PlainTxn {
    let ranges = |ranges: &[(&str, &str)]| {
        ranges.iter().map(|(begin, end)| PlainRange::new(*begin, *end)).collect()
    };
    PlainTxn { snapshot, marked, reads: ranges(reads), writes: ranges(writes) }
}

/// Resolves one transaction per batch by a conflict set per shard, and returns the combined
/// entries.
fn resolved(points: &Keys, txns: &[PlainTxn]) -> Vec<PlainEntry> {
    let split = split(points);
    let mut sets: Vec<_> = (0..split.shard_count())
        .map(|_| ConflictSet::new(Global, 5_000_000, MAX_LIMIT).expect("memory is ample"))
        .collect();
    let batches = (0..).zip(txns).map(|(index, txn)| PlainBatch {
        previous: 100 * index,
        version: 100 * (index + 1),
        received: -1,
        txns: vec![txn.clone()],
    });
    batches
        .map(|batch| {
            let all = clipped(&batch, &split).into_iter().zip(&mut sets);
            let each: Vec<_> = all
                .map(|(clipped, set)| ShardReply {
                    reply: set.resolve(&clipped.batch).expect("the limit is ample"),
                    reads: clipped.reads,
                })
                .collect();
            PlainReply::of(
                &combine(Global, &batch.batch(), &each).expect("each reply is one to the batch"),
            )
            .entries
            .remove(0)
        })
        .collect()
}

/// The first shard reports its read ranges 0 and 1, which are 0 and 2 of the transaction, and the
/// second its range 0, which is 1.
#[test]
fn report_of_two_shards() {
    let txns = [
        hand(0, false, &[], &[("a", "b"), ("c", "d"), ("x", "y")]),
        hand(50, true, &[("a", "b"), ("x", "z"), ("c", "e"), ("e", "f")], &[]),
    ];
    for points in [keys(["m"]), keys([])] {
        assert_eq!(
            resolved(&points, &txns)[1],
            PlainEntry { verdict: Verdict::Conflict, places: vec![0, 1, 2] }
        );
    }
}

/// The shard below m commits the second transaction and remembers its write of c, though the other
/// shard rejects it. So the third is rejected, which one resolver commits. Then the third has no
/// write, and the fourth is committed.
#[test]
fn rejected_write_stays_in_one_shard() {
    let txns = [
        hand(0, false, &[], &[("x", "y")]),
        hand(50, false, &[("x", "y")], &[("c", "d")]),
        hand(150, false, &[("c", "d")], &[("b", "c")]),
        hand(250, false, &[("b", "c")], &[("a", "b")]),
    ];
    let verdicts = |points: Vec<_>| {
        resolved(&points, &txns).iter().map(|entry| entry.verdict).collect::<Vec<_>>()
    };
    let (committed, conflict) = (Verdict::Committed, Verdict::Conflict);
    assert_eq!(verdicts(keys(["m"])), [committed, conflict, conflict, committed]);
    assert_eq!(verdicts(keys([])), [committed, conflict, committed, conflict]);
}

/// What all shards commit meets no write that clients received as committed and that the snapshot
/// doesn't include.
#[test]
fn what_all_shards_commit_is_current() {
    run("what_all_shards_commit_is_current", count(1_000_000, 50_000), |random| {
        let space = KeySpace::drawn(random);
        let split = split(&points(&space, random));
        let window = random.pick(&[7, 100, 5_000_000]);
        let mut sets: Vec<_> = (0..split.shard_count())
            .map(|_| ConflictSet::new(Global, window, MAX_LIMIT).expect("memory is ample"))
            .collect();
        let (mut writes, mut version, mut txns) = (Vec::<(i64, PlainRange)>::new(), -1, 0);
        for _ in 0..1 + random.index(30) {
            let previous = version;
            version += random.between(1, 10);
            let drawn = (0..random.index(8))
                .map(|_| space.txn(random, 3, (version - 12, version - 1)))
                .collect();
            let batch = PlainBatch { previous, version, received: -1, txns: drawn };
            let all = clipped(&batch, &split).into_iter().zip(&mut sets);
            let each: Vec<_> = all
                .map(|(clipped, set)| ShardReply {
                    reply: set.resolve(&clipped.batch).expect("the limit is ample"),
                    reads: clipped.reads,
                })
                .collect();
            let reply = PlainReply::of(
                &combine(Global, &batch.batch(), &each).expect("each reply is one to the batch"),
            );
            for (txn, entry) in batch.txns.iter().zip(&reply.entries) {
                if entry.verdict == Verdict::Committed {
                    let missed = |read: &PlainRange| {
                        writes.iter().any(|(at, write)| *at > txn.snapshot && write.meets(read))
                    };
                    assert!(!txn.reads.iter().any(missed), "{txn:?}");
                    assert!(txn.reads.is_empty() || txn.snapshot >= (version - window).max(0));
                    writes.extend(txn.writes.iter().map(|write| (version, write.clone())));
                }
            }
            txns += 1 + batch.txns.len() as u64;
        }
        txns
    });
}
