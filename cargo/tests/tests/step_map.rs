//! The step map against boundaries in a `BTreeMap`, and the filter against all writes.

use keys::{HashedRange, RangeRef};
use rattle_std::alloc::Global;
use rattle_std::vec::Vec as KitVec;
use std::collections::BTreeMap;
use stepmap::{Filter, KeyLengths, QueryList, RangeQuery, StepError, StepMap, SweepEnd};
use tests::cases::{count, run};
use tests::drawn::KeySpace;
use tests::plain::PlainRange;
use tests::random::Random;
use tests::steps::Steps;

/// Queries whose ranges are plain.
struct Queries(Vec<(PlainRange, i64)>);

impl Queries {
    fn range(&self, index: usize) -> RangeRef<'_> {
        RangeRef::new(&self.0[index].0.begin, &self.0[index].0.end)
    }
}

impl QueryList for Queries {
    fn len(&self) -> usize {
        self.0.len()
    }

    fn hash(&self, index: usize) -> Option<u32> {
        self.range(index).single_hash()
    }

    fn version(&self, index: usize) -> i64 {
        self.0[index].1
    }

    fn query(&self, index: usize) -> RangeQuery<'_> {
        RangeQuery {
            range: self.range(index),
            version: self.version(index),
            hash: self.hash(index),
        }
    }
}

fn lengths_of(ranges: &[PlainRange]) -> Vec<KeyLengths> {
    ranges.iter().map(|range| KeyLengths::of(RangeRef::new(&range.begin, &range.end))).collect()
}

/// Draws ranges that lie apart and aren't empty, as one batch writes them, or any others.
fn written(space: &KeySpace, random: &mut Random) -> Vec<PlainRange> {
    let ranges = space.ranges(random, 6).into_iter().filter(|range| !range.is_empty());
    if random.one_in(2) { tests::steps::united(ranges) } else { ranges.collect() }
}

fn write(
    map: &mut StepMap,
    steps: &mut Steps,
    ranges: &[PlainRange],
    version: i64,
    random: &mut Random,
) {
    let prepared = map.prepare(&lengths_of(ranges));
    if !steps.prepare(ranges.len()) {
        assert_eq!(prepared, Err(StepError::Full));
        return;
    }
    assert_eq!(prepared, Ok(()));
    for range in ranges {
        // While ranges are ready it does nothing, so that the write still needs no memory.
        if random.one_in(8) {
            assert_eq!(map.trim(Global), Ok(()));
        }
        let borrowed = RangeRef::new(&range.begin, &range.end);
        // The hashes of single keys may be noted first, as the conflict set does.
        if let (Some(hash), true) = (borrowed.single_hash(), random.one_in(2)) {
            map.note_key(hash, version);
        }
        map.write(HashedRange::of(borrowed), version);
        steps.write(range, version);
        assert_eq!(map.boundaries(), steps.boundaries.len());
    }
}

/// Compares the two at a boundary, right before and right after it.
fn compare_at(map: &StepMap, steps: &Steps, random: &mut Random) {
    let index = random.index(steps.boundaries.len());
    let mut key = steps.boundaries.keys().nth(index).expect("the index is below the count").clone();
    assert_eq!(map.at(&key), steps.at(&key), "{key:?}");
    key.push(0);
    assert_eq!(map.at(&key), steps.at(&key), "{key:?}");
    key.pop();
    if let Some(last) = key.pop() {
        assert_eq!(map.at(&key), steps.at(&key), "{key:?}");
        if last > 0 {
            key.extend([last - 1, 255, 255]);
            assert_eq!(map.at(&key), steps.at(&key), "{key:?}");
        }
    }
}

/// Asks for the ranges, at once and one by one, with versions up to one above all.
fn ask(map: &StepMap, steps: &Steps, ranges: Vec<PlainRange>, version: i64, random: &mut Random) {
    let queries =
        Queries(ranges.into_iter().map(|range| (range, random.between(-1, version + 1))).collect());
    let mut answers = KitVec::new(Global);
    map.exceeds_each(&queries, &mut answers).expect("memory is ample");
    assert_eq!(answers.len(), queries.len());
    for ((range, version), answer) in queries.0.iter().zip(&answers) {
        let greatest = steps.greatest_in(range);
        assert_eq!(map.greatest_in(&range.range()), greatest, "{range:?}");
        assert_eq!(
            map.exceeds(&range.range(), *version),
            !range.is_empty() && greatest > *version,
            "{range:?}"
        );
        assert_eq!(*answer, !range.is_empty() && greatest > *version, "{range:?}");
    }
}

#[test]
fn step_map_is_boundaries_in_order() {
    run("step_map_is_boundaries_in_order", count(10_000_000, 150_000), |random| {
        let space = KeySpace::drawn(random);
        let limit = random.pick(&[1, 3, 10, 100, 1_000, 100_000]);
        let mut map = StepMap::new(Global, limit).expect("memory is ample");
        let mut steps = Steps::new(limit);
        let mut version = 0;
        let calls = 10 + random.below(2_000);
        // How often the map is swept, in tenths.
        let sweeps = random.below(4);
        let trims = random.pick(&[4, 100, 1_000_000]);
        for _ in 0..calls {
            version += random.between(0, 3);
            if random.one_in(trims) {
                assert_eq!(map.trim(Global), Ok(()));
            }
            match random.below(10) {
                kind if kind < sweeps => {
                    let looks = random.pick(&[0, 1, 2, 5, 50, 5_000]);
                    let end = if steps.sweep(looks) { SweepEnd::Round } else { SweepEnd::Stopped };
                    assert_eq!(map.sweep(looks), end);
                }
                4 => {
                    steps.edge += random.between(0, (version - steps.edge).max(0));
                    map.raise(steps.edge);
                }
                5 | 6 => ask(&map, &steps, space.ranges(random, 40), version, random),
                7 => compare_at(&map, &steps, random),
                _ => {
                    let ranges = written(&space, random);
                    write(&mut map, &mut steps, &ranges, version, random);
                }
            }
            assert_eq!(map.boundaries(), steps.boundaries.len());
        }
        (0..20).for_each(|_| compare_at(&map, &steps, random));
        calls
    });
}

/// Enough boundaries that nodes of the tree split, join and empty, at its front, its back and
/// inside.
#[test]
fn large_step_map_is_boundaries_in_order() {
    run("large_step_map_is_boundaries_in_order", count(2_000_000, 40_000), |random| {
        let mut map = StepMap::new(Global, 1_000_000).expect("memory is ample");
        let mut steps = Steps::new(1_000_000);
        let keys = random.pick(&[1_000, 20_000, 1_000_000]);
        let number = |number: u64| number.to_be_bytes()[5..].to_vec();
        let rising = random.one_in(3);
        let writes = 10_000;
        for version in 1..=writes {
            let at = if rising { 40 * version as u64 } else { random.below(keys) };
            let wide = random.pick(&[1, 1, 1, 2, 30, 3_000]);
            let range = if random.one_in(2) {
                PlainRange::single(number(at))
            } else {
                PlainRange::new(number(at), number(at + wide))
            };
            // The model's own write takes time in proportion to all boundaries, so wide ones are
            // rare.
            write(&mut map, &mut steps, &[range], version, random);
            if version % 500 == 0 {
                steps.edge = version - random.between(0, 2_000).min(version);
                map.raise(steps.edge);
                let looks = random.index(2 * steps.boundaries.len());
                let end = if steps.sweep(looks) { SweepEnd::Round } else { SweepEnd::Stopped };
                assert_eq!(map.sweep(looks), end);
                if random.one_in(2) {
                    assert_eq!(map.trim(Global), Ok(()));
                }
                (0..50).for_each(|_| compare_at(&map, &steps, random));
                let singles = random.below(5);
                let asked = |random: &mut Random| {
                    let at = random.below(keys);
                    if random.below(4) < singles {
                        PlainRange::single(number(at))
                    } else {
                        PlainRange::new(number(at), number(at + 3))
                    }
                };
                ask(&map, &steps, (0..100).map(|_| asked(random)).collect(), version, random);
            }
        }
        for (key, version) in &steps.boundaries {
            assert_eq!(map.at(key), *version);
        }
        writes as u64
    });
}

/// No bound is below a write of its key.
#[test]
fn filter_bounds_every_write() {
    run("filter_bounds_every_write", count(5_000_000, 50_000), |random| {
        let space = KeySpace::drawn(random);
        let mut filter = Filter::new(Global).expect("memory is ample");
        let (mut keys, mut newest_range, mut newest_key) = (BTreeMap::new(), -1, -1);
        let calls = 10 + random.below(3_000) as i64;
        // Cells have several keys each only while ranges are rare and cells are few.
        let (ranges, doublings) =
            (random.pick(&[10, 1_000, 1_000_000]), random.pick(&[20, 1_000, 1_000_000]));
        for version in 0..calls {
            if random.one_in(ranges) {
                filter.write_range(version);
                newest_range = version;
            } else if random.one_in(doublings) {
                filter.reserve(random.pick(&[0, 300, 1_000, 5_000])).expect("memory is ample");
            } else {
                let key = space.key(random);
                // A write may be older than those before it.
                let version = version - random.between(0, 3).min(version);
                filter.write_key(keys::key_hash(&key), version);
                let newest: &mut i64 = keys.entry(key).or_insert(version);
                *newest = version.max(*newest);
                newest_key = newest_key.max(version);
            }
            assert_eq!(
                (filter.newest_range(), filter.is_useful()),
                (newest_range, newest_range < newest_key)
            );
            let asked = space.key(random);
            let written = keys.get(&asked).copied().unwrap_or(-1).max(newest_range);
            assert!((written..=version).contains(&filter.bound(&asked)), "{asked:?}");
        }
        for (key, version) in &keys {
            assert!(filter.bound(key) >= *version);
        }
        calls as u64
    });
}
