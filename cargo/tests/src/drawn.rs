//! Random keys, ranges, transactions and batches.

use crate::plain::{PlainBatch, PlainRange, PlainTxn};
use crate::random::Random;

/// Which keys and ranges the cases of one chain have.
#[derive(Clone, Debug)]
pub struct KeySpace {
    prefixes: Vec<Vec<u8>>,
    letters: &'static [u8],
    // How many letters come after the prefix, at most.
    letters_most: usize,
    // How many zero bytes come at the end, at most.
    zeros_most: usize,
    // How often a range is a single key, empty or wide, in tenths.
    single: u64,
    empty: u64,
    wide: u64,
}

const LETTERS: [&[u8]; 4] = [b"ab", b"\0a\xff", b"abcdefgh", b"\0\x01\x7f\x80\xfe\xff"];

impl KeySpace {
    /// Draws one. Keys are short, or long with shared prefixes; some end in zero bytes. Single
    /// keys, empty ranges or wide ranges may be frequent.
    pub fn drawn(random: &mut Random) -> Self {
        let mut space = KeySpace {
            prefixes: vec![Vec::new()],
            letters: random.pick(&LETTERS),
            letters_most: 1 + random.index(4),
            zeros_most: if random.one_in(3) { 3 } else { 0 },
            single: random.below(11),
            empty: if random.one_in(4) { 3 } else { 0 },
            wide: if random.one_in(4) { 5 } else { 0 },
        };
        if random.one_in(3) {
            let length = random.pick(&[7, 8, 9, 31, 32, 33, 37, 38, 39, 64, 100, 300]);
            space.prefixes = (0..1 + random.index(3)).map(|_| prefix(random, length)).collect();
        }
        space
    }

    pub fn key(&self, random: &mut Random) -> Vec<u8> {
        let mut key = self.prefixes[random.index(self.prefixes.len())].clone();
        if random.one_in(16) {
            key.truncate(random.index(key.len() + 1));
        }
        for _ in 0..random.index(self.letters_most + 1) {
            key.push(random.pick(self.letters));
        }
        key.resize(key.len() + random.index(self.zeros_most + 1), 0);
        key
    }

    pub fn range(&self, random: &mut Random) -> PlainRange {
        let (one, other) = (self.key(random), self.key(random));
        let kind = random.below(10);
        if kind < self.single {
            return PlainRange::single(one);
        }
        if random.below(10) < self.empty {
            return PlainRange::new(one.clone(), one);
        }
        if random.below(10) < self.wide {
            let wide = random.pick(&[&b""[..], b"\0", b"a"]);
            return PlainRange::new(wide, [&b"\xff\xff\xff"[..], &one].concat());
        }
        PlainRange::new((&one).min(&other).clone(), one.max(other))
    }

    pub fn ranges(&self, random: &mut Random, most: usize) -> Vec<PlainRange> {
        (0..random.index(most + 1)).map(|_| self.range(random)).collect()
    }

    /// Draws a transaction with at most `ranges_most` read ranges and write ranges, and a snapshot
    /// from the first to the second.
    pub fn txn(&self, random: &mut Random, ranges_most: usize, snapshots: (i64, i64)) -> PlainTxn {
        PlainTxn {
            snapshot: random.between(snapshots.0.max(0), snapshots.1.max(0)),
            marked: random.one_in(2),
            reads: self.ranges(random, ranges_most),
            writes: self.ranges(random, ranges_most),
        }
    }
}

// Bytes most of which are equal, so that prefixes differ early, in the middle, late or not at all.
fn prefix(random: &mut Random, length: usize) -> Vec<u8> {
    let mut bytes = vec![b'p'; length];
    let place = random.index(length);
    bytes[place] = random.pick(b"apz\0");
    bytes
}

/// Draws any batch, for frames: its versions need no chain.
pub fn any_batch(random: &mut Random, txns_most: usize, ranges_most: usize) -> PlainBatch {
    let space = KeySpace::drawn(random);
    let version = match random.below(4) {
        0 => random.between(0, 3),
        1 => i64::MAX - random.between(0, 3),
        _ => (random.number() >> 1 >> random.below(62)) as i64,
    };
    let below = |random: &mut Random| {
        if random.one_in(3) { version - 1 } else { random.between(-1, (version - 1).min(1_000)) }
    };
    let (previous, received) = (below(random), below(random));
    let snapshots = (0, version.min(1 << 40));
    let txns = (0..random.index(txns_most + 1))
        .map(|_| space.txn(random, ranges_most, snapshots))
        .collect();
    PlainBatch { previous, version, received, txns }
}
