//! The order of keys, their heads and hashes, and the ranks of ranges.

use keys::{
    GapRuns, Key, RangeList, RangeRef, common_prefix_len, head_after, key_hash, key_head,
    same_bytes,
};
use keyspace::Txns;
use rattle_std::alloc::Global;
use std::collections::{BTreeMap, BTreeSet};
use tests::cases::{count, run};
use tests::drawn::KeySpace;
use tests::notation::batch;
use tests::plain::{PlainBatch, PlainRange, key};
use tests::random::Random;

struct Ranges(Vec<PlainRange>);

impl RangeList for Ranges {
    fn len(&self) -> usize {
        self.0.len()
    }

    fn range(&self, index: usize) -> RangeRef<'_> {
        RangeRef::new(&self.0[index].begin, &self.0[index].end)
    }
}

/// Draws a key of the space, or one of any bytes and any length.
fn any_key(space: &KeySpace, random: &mut Random) -> Vec<u8> {
    if random.one_in(2) {
        return space.key(random);
    }
    let most = random.pick(&[1, 9, 40, 100]);
    (0..random.index(most)).map(|_| random.number() as u8).collect()
}

#[test]
fn keys_are_sorted_as_their_bytes() {
    run("keys_are_sorted_as_their_bytes", count(5_000_000, 50_000), |random| {
        let space = KeySpace::drawn(random);
        let mut bytes: Vec<_> =
            (0..1 + random.index(500)).map(|_| any_key(&space, random)).collect();
        let mut keys: Vec<Key> = bytes.iter().map(|bytes| key(bytes)).collect();
        bytes.sort();
        keys.sort();
        assert!(keys.iter().map(Key::as_bytes).eq(bytes.iter().map(Vec::as_slice)));
        bytes.len() as u64
    });
}

#[test]
fn heads_and_common_prefixes_are_those_of_the_bytes() {
    run("heads_and_common_prefixes_are_those_of_the_bytes", count(20_000_000, 200_000), |random| {
        let space = KeySpace::drawn(random);
        for _ in 0..1_000 {
            let (one, other) = (any_key(&space, random), any_key(&space, random));
            let head = |bytes: &[u8]| {
                (0..8).fold(0, |head, index| {
                    head << 8 | u64::from(bytes.get(index).copied().unwrap_or(0))
                })
            };
            assert_eq!(key_head(&one), head(&one));
            if key_head(&one) < key_head(&other) {
                assert!(one < other, "{one:?} {other:?}");
            }
            let behind = random.index(one.len() + 4);
            assert_eq!(
                head_after(&one, behind),
                head(one.get(behind..).unwrap_or(&[])),
                "{one:?} {behind}"
            );
            let common = one.iter().zip(&other).take_while(|(one, other)| one == other).count();
            assert_eq!(common_prefix_len(&one, &other), common, "{one:?} {other:?}");
            let (one, other) = (key_head(&one), key_head(&other));
            let same = one
                .to_be_bytes()
                .iter()
                .zip(other.to_be_bytes())
                .take_while(|(one, other)| **one == *other)
                .count();
            assert_eq!(same_bytes(one, other), same);
        }
        1_000
    });
}

/// A front of a key is the key of its first bytes, at each length that takes memory or doesn't.
#[test]
fn fronts_and_copies_are_the_bytes() {
    for length in 0..200 {
        let bytes: Vec<_> = (0..length as u8).collect();
        for count in 0..=length {
            let front = Key::front(Global, &bytes, count).expect("memory is ample");
            assert_eq!(front.as_bytes(), &bytes[..count]);
            assert_eq!(front.copy(Global).expect("memory is ample"), front);
        }
        assert_eq!(Key::copied(Global, &bytes).expect("memory is ample").as_bytes(), bytes);
    }
}

/// Copies of a range, as it is and as it is borrowed, have its keys.
#[test]
fn copies_of_a_range_are_equal() {
    let range = PlainRange::new("a", "b").range();
    let borrowed = range.as_ref();
    assert_eq!((borrowed.begin(), borrowed.end()), (&b"a"[..], &b"b"[..]));
    for copy in [range.copy(Global), borrowed.to_range(Global)] {
        let copy = copy.expect("memory is ample");
        assert_eq!((&copy.begin, &copy.end), (&range.begin, &range.end));
        assert!(copy.meets(&range) && copy.holds(b"a") && !copy.holds(b"b"));
    }
}

#[test]
fn ranges_hold_and_meet_as_their_keys_say() {
    run("ranges_hold_and_meet_as_their_keys_say", count(10_000_000, 100_000), |random| {
        let space = KeySpace::drawn(random);
        let (one, other) = (space.range(random), space.range(random));
        let (range, beside) = (one.range(), other.range());
        assert_eq!(range.meets(&beside), one.meets(&other), "{one:?} {other:?}");
        assert_eq!(range.is_empty(), one.is_empty());
        assert_eq!(range.as_ref().is_single(), one.is_single());
        assert_eq!(range.as_ref().single_hash(), one.is_single().then(|| key_hash(&one.begin)));
        let asked = space.key(random);
        assert_eq!(range.holds(&asked), one.begin <= asked && asked < one.end);
        1
    });
}

/// Begins are numbered in order. A run goes from the number of its begin to that of the first begin
/// at or after its end.
#[test]
fn ranks_are_the_numbers_of_sorted_begins() {
    run("ranks_are_the_numbers_of_sorted_begins", count(10_000_000, 100_000), |random| {
        let space = KeySpace::drawn(random);
        let most = random.pick(&[3, 30, 300, 3_000]);
        let ranges = Ranges((0..random.index(most)).map(|_| space.range(random)).collect());
        let (ranks, order) = GapRuns::with_order(Global, &ranges).expect("memory is ample");
        let filled = |index: &usize| !ranges.0[*index].is_empty();
        let begins: BTreeSet<_> =
            (0..ranges.len()).filter(filled).map(|index| &ranges.0[index].begin).collect();
        let sorted: Vec<_> = begins.iter().copied().collect();
        assert_eq!(ranks.begin_count(), sorted.len());
        for (range, run) in ranges.0.iter().zip(ranks.runs()) {
            let number = |key| sorted.partition_point(|begin| *begin < key) as u32;
            let expected = (number(&range.begin), number(&range.end));
            assert!(
                if range.is_empty() { run.0 == run.1 } else { *run == expected },
                "{range:?} {run:?}"
            );
        }
        // The order is that of the begins, and has each range that isn't empty once.
        assert!(
            order
                .windows(2)
                .all(|pair| ranges.0[pair[0] as usize].begin <= ranges.0[pair[1] as usize].begin)
        );
        let mut indices: Vec<_> = order.iter().map(|index| *index as usize).collect();
        indices.sort_unstable();
        assert!(indices.into_iter().eq((0..ranges.len()).filter(filled)));
        1 + ranges.len() as u64
    });
}

/// Two ranges meet exactly if their runs have a number in common.
#[test]
fn runs_overlap_as_ranges_meet() {
    run("runs_overlap_as_ranges_meet", count(20_000_000, 300_000), |random| {
        let space = KeySpace::drawn(random);
        let ranges = Ranges((0..random.index(60)).map(|_| space.range(random)).collect());
        let (ranks, _) = GapRuns::with_order(Global, &ranges).expect("memory is ample");
        for (one, run) in ranges.0.iter().zip(ranks.runs()) {
            for (other, beside) in ranges.0.iter().zip(ranks.runs()) {
                assert_eq!(
                    run.0.max(beside.0) < run.1.min(beside.1),
                    one.meets(other),
                    "{one:?} {other:?}"
                );
            }
        }
        1 + (ranges.len() * ranges.len()) as u64
    });
}

/// The hashes of single keys, computed from the definition by another program. No other range has
/// one.
#[test]
fn hashes_by_hand() {
    for (key, hash) in [
        ("", 0),
        ("a", 0xf916_ab45),
        ("user/000001", 0x7a68_6317),
        ("user/000002", 0xcc8b_c6f8),
        ("0123456789abcdefghijklmnopqrstuvwxyzABCD", 0x1489_20b3),
        ("0123456789abcdefghijklmnopqrstuvwxyzABCE", 0xd3e1_6820),
    ] {
        assert_eq!(key_hash(key.as_bytes()), hash, "{key}");
        assert_eq!(PlainRange::single(key).range().as_ref().single_hash(), Some(hash), "{key}");
    }
    for end in ["a", "a\0\0", "b"] {
        assert_eq!(PlainRange::new("a", end).range().as_ref().single_hash(), None);
    }
    let txns = batch("0>1: R[b,d) R[m,m) R[a] W[a,c); R[user/000001]").batch().txns;
    let reads = [(0, 0), (0, 1), (0, 2), (1, 0)];
    let hashes = reads.map(|(txn, read)| txns.hash(txns.read_index(txn, read) as usize));
    assert_eq!(hashes, [None, None, Some(0xf916_ab45), Some(0x7a68_6317)]);
}

/// Five ranges with five begins, and an empty one. Then a batch without ranges.
#[test]
fn ranks_by_hand() {
    for (text, order, writes, runs) in [
        (
            "0>1: R[b,d) R[m,m) W[a,c); W[aa,y); R[c,d) W[,a)",
            &[5, 2, 3, 0, 4][..],
            &[5, 2, 3][..],
            &[(3, 5), (0, 0), (1, 4), (2, 5), (4, 5), (0, 1)][..],
        ),
        ("0>1", &[], &[], &[]),
    ] {
        let txns = batch(text).batch().txns;
        let (ranks, found) = GapRuns::with_order(Global, &txns.ranges()).expect("memory is ample");
        assert_eq!((found.as_slice(), txns.write_order()), (order, writes));
        assert_eq!((ranks.runs(), txns.ranks().runs()), (runs, runs));
    }
}

/// Keys of up to 38 bytes have hashes that seldom agree, whichever byte differs.
#[test]
fn hashes_report_short_keys_apart() {
    run("hashes_tell_short_keys_apart", count(3_000_000, 30_000), |random| {
        let length = 1 + random.index(38);
        let bytes: Vec<u8> = (0..length).map(|_| random.number() as u8).collect();
        let hashes: BTreeSet<_> = (0..length)
            .map(|place| {
                let mut other = bytes.clone();
                other[place] ^= 1 + random.below(255) as u8;
                key_hash(&other)
            })
            .collect();
        assert!(hashes.len() + 1 >= length, "{bytes:?}");
        length as u64
    });
}

/// The first thousand numbers, as text, fall into most of the cells that a thousand random hashes
/// would fill.
#[test]
fn hashes_of_numbers_spread() {
    let cells: BTreeSet<_> =
        (0..1_000).map(|number| key_hash(format!("user/{number:06}").as_bytes()) >> 20).collect();
    assert!(cells.len() >= 600, "{}", cells.len());
}

/// Each written key has one number, and its run holds that alone. Two written keys touch exactly if
/// no number is between theirs. A key that is read has the run of an equal written one, or shares
/// no number with any. The order has each written index once, in the order of the keys.
fn assert_singles_are_ranked(ranges: &Ranges, txns: &Txns, is_write: &[bool]) {
    let runs = txns.ranks().runs();
    let written = |index: &usize| is_write[*index];
    let numbers: BTreeMap<_, _> = (0..ranges.len())
        .filter(written)
        .map(|index| (ranges.0[index].begin.clone(), runs[index]))
        .collect();
    let gaps: BTreeSet<_> = numbers.values().map(|run| run.0).collect();
    assert_eq!(gaps.len(), numbers.len());
    assert!(
        numbers
            .values()
            .all(|run| run.0 + 1 == run.1 && run.1 as usize <= txns.ranks().begin_count())
    );
    for (range, run) in ranges.0.iter().zip(runs) {
        match numbers.get(&range.begin) {
            Some(number) => assert_eq!(run, number, "{range:?}"),
            None => {
                assert!(!gaps.iter().any(|gap| (run.0..run.1).contains(gap)), "{range:?} {run:?}")
            }
        }
    }
    for ((key, run), (next, later)) in numbers.iter().zip(numbers.iter().skip(1)) {
        assert_eq!(
            run.1 == later.0,
            PlainRange::single(key.clone()).end == *next,
            "{key:?} {next:?}"
        );
    }
    let order = txns.write_order();
    assert!(
        order
            .windows(2)
            .all(|pair| ranges.0[pair[0] as usize].begin <= ranges.0[pair[1] as usize].begin)
    );
    let mut indices: Vec<_> = order.iter().map(|index| *index as usize).collect();
    indices.sort_unstable();
    assert!(indices.into_iter().eq((0..ranges.len()).filter(written)));
}

/// A batch that contains only single keys ranks those that may equal a written one.
#[test]
fn batches_of_single_keys_rank_what_they_write() {
    run("batches_of_single_keys_rank_what_they_write", count(1_000_000, 20_000), |random| {
        let space = KeySpace::drawn(random);
        let txns = (0..1 + random.index(20))
            .map(|_| {
                let mut txn = space.txn(random, 4, (0, 9));
                txn.reads
                    .iter_mut()
                    .chain(&mut txn.writes)
                    .for_each(|range| *range = PlainRange::single(space.key(random)));
                txn
            })
            .collect();
        let batch = PlainBatch { previous: -1, version: 9, received: -1, txns };
        let txns = batch.batch().txns;
        let (mut all, mut is_write) = (Vec::new(), Vec::new());
        for txn in &batch.txns {
            all.extend(txn.reads.iter().chain(&txn.writes).cloned());
            is_write.resize(is_write.len() + txn.reads.len(), false);
            is_write.resize(all.len(), true);
        }
        let ranges = Ranges(all);
        assert_singles_are_ranked(&ranges, &txns, &is_write);
        1 + ranges.len() as u64
    });
}

/// A batch keeps its ranges with their ranks, their hashes, and the order of those that it writes.
#[test]
fn batches_rank_and_hash_their_ranges() {
    run("batches_rank_and_hash_their_ranges", count(1_000_000, 20_000), |random| {
        let space = KeySpace::drawn(random);
        let txns = (0..random.index(20)).map(|_| space.txn(random, 4, (0, 9))).collect();
        let batch = PlainBatch { previous: -1, version: 9, received: -1, txns };
        let txns = batch.batch().txns;
        let (mut all, mut is_write) = (Vec::new(), Vec::new());
        for (index, txn) in batch.txns.iter().enumerate() {
            for read in 0..txn.reads.len() {
                assert_eq!(txns.read_index(index, read) as usize, all.len() + read);
            }
            all.extend(txn.reads.iter().chain(&txn.writes).cloned());
            is_write.resize(is_write.len() + txn.reads.len(), false);
            is_write.resize(all.len(), true);
            assert_eq!(txns.snapshot(index), txn.snapshot);
        }
        let ranges = Ranges(all);
        let (ranks, order) = GapRuns::with_order(Global, &ranges).expect("memory is ample");
        if ranges.len() == 0 || (0..ranges.len()).any(|index| !ranges.range(index).is_single()) {
            assert_eq!(
                (txns.ranks().runs(), txns.ranks().begin_count()),
                (ranks.runs(), ranks.begin_count())
            );
            assert!(order.iter().filter(|index| is_write[**index as usize]).eq(txns.write_order()));
        } else {
            assert_singles_are_ranked(&ranges, &txns, &is_write);
        }
        for index in 0..ranges.len() {
            let range = ranges.range(index);
            assert_eq!(
                (txns.hash(index), txns.hashed_range(index).hash()),
                (range.single_hash(), range.single_hash())
            );
            assert_eq!(
                (txns.hashed_range(index).begin(), txns.hashed_range(index).end()),
                (range.begin(), range.end())
            );
        }
        1 + ranges.len() as u64
    });
}
