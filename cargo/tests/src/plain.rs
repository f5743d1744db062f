//! Batches and replies as plain vectors, and how the crates' own are made of them and read.

use keyspace::{
    Answer, Batch, Entry, Key, Places, Range, RangesRef, Reply, Sequence, Txn, Verdict,
};
use rattle_std::alloc::Global;

/// A range from a begin key up to an end key that isn't in it.
#[derive(Clone, Debug, PartialEq, Eq)]
pub struct PlainRange {
    pub begin: Vec<u8>,
    pub end: Vec<u8>,
}

/// A transaction: its snapshot, whether it requests a report, and its ranges.
#[derive(Clone, Debug, PartialEq, Eq)]
pub struct PlainTxn {
    pub snapshot: i64,
    pub marked: bool,
    pub reads: Vec<PlainRange>,
    pub writes: Vec<PlainRange>,
}

#[derive(Clone, Debug, PartialEq, Eq)]
pub struct PlainBatch {
    pub previous: i64,
    pub version: i64,
    pub received: i64,
    pub txns: Vec<PlainTxn>,
}

/// A verdict, and the indices of the reported read ranges.
#[derive(Clone, Debug, PartialEq, Eq)]
pub struct PlainEntry {
    pub verdict: Verdict,
    pub places: Vec<u16>,
}

#[derive(Clone, Debug, PartialEq, Eq)]
pub struct PlainReply {
    pub version: i64,
    pub entries: Vec<PlainEntry>,
}

#[derive(Clone, Debug, PartialEq, Eq)]
pub enum PlainAnswer {
    Reply(PlainReply),
    Never(i64),
    Held(i64),
}

impl PlainRange {
    pub fn new(begin: impl Into<Vec<u8>>, end: impl Into<Vec<u8>>) -> Self {
        PlainRange { begin: begin.into(), end: end.into() }
    }

    /// Returns the range of this key alone.
    pub fn single(key: impl Into<Vec<u8>>) -> Self {
        let begin = key.into();
        let mut end = begin.clone();
        end.push(0);
        PlainRange { begin, end }
    }

    pub fn is_empty(&self) -> bool {
        self.begin == self.end
    }

    pub fn is_single(&self) -> bool {
        *self == PlainRange::single(self.begin.clone())
    }

    /// Returns whether some string of bytes is in both: the later of the begins is, if it is before
    /// both ends.
    pub fn meets(&self, other: &PlainRange) -> bool {
        let begin = (&self.begin).max(&other.begin);
        begin < &self.end && begin < &other.end
    }

    /// Returns the same range as the crates have it.
    pub fn range(&self) -> Range {
        Range::checked(key(&self.begin), key(&self.end)).expect("the range is within the limits")
    }
}

/// Returns a key of these bytes as the crates have it.
pub fn key(bytes: &[u8]) -> Key {
    Key::checked(bytes.to_vec().into()).expect("the key is within the limits")
}

fn ranges_of(ranges: &[PlainRange]) -> Sequence<Range> {
    Sequence::new(ranges.iter().map(PlainRange::range).collect::<Vec<_>>().into())
}

fn plain_ranges(ranges: &RangesRef<'_>) -> Vec<PlainRange> {
    (0..ranges.len())
        .map(|index| ranges.get(index))
        .map(|range| PlainRange::new(range.begin(), range.end()))
        .collect()
}

impl PlainTxn {
    fn txn(&self) -> Txn {
        Txn::checked(self.snapshot, self.marked, ranges_of(&self.reads), ranges_of(&self.writes))
            .expect("the transaction is within the limits")
    }
}

impl PlainBatch {
    /// Returns a batch without transactions, whose proxy has received nothing.
    pub fn empty(previous: i64, version: i64) -> Self {
        PlainBatch { previous, version, received: -1, txns: Vec::new() }
    }

    /// Returns the same batch as the crates have it.
    pub fn batch(&self) -> Batch {
        let txns: Vec<_> = self.txns.iter().map(PlainTxn::txn).collect();
        Batch::checked(Global, self.previous, self.version, self.received, txns.into())
            .expect("the batch is within the limits")
    }

    /// Reads a batch of the crates.
    pub fn of(batch: &Batch) -> Self {
        let txns = (0..batch.txns.len()).map(|index| batch.txns.txn(index)).map(|txn| PlainTxn {
            snapshot: txn.snapshot,
            marked: txn.marked,
            reads: plain_ranges(&txn.reads),
            writes: plain_ranges(&txn.writes),
        });
        PlainBatch {
            previous: batch.previous,
            version: batch.version,
            received: batch.received,
            txns: txns.collect(),
        }
    }
}

impl PlainReply {
    /// Returns the same reply as the crates have it.
    pub fn reply(&self) -> Reply {
        let entry = |entry: &PlainEntry| {
            Entry::new(entry.verdict, Places::new(entry.places.clone().into()))
        };
        Reply::new(
            self.version,
            Sequence::new(self.entries.iter().map(entry).collect::<Vec<_>>().into()),
        )
    }

    /// Reads a reply of the crates.
    pub fn of(reply: &Reply) -> Self {
        let entry = |entry: &Entry| PlainEntry {
            verdict: entry.verdict,
            places: entry.places.as_slice().to_vec(),
        };
        PlainReply {
            version: reply.version,
            entries: reply.entries.as_slice().iter().map(entry).collect(),
        }
    }
}

impl PlainAnswer {
    /// Returns the same answer as the crates have it.
    pub fn answer(&self) -> Answer {
        match self {
            PlainAnswer::Reply(reply) => Answer::Reply(reply.reply()),
            PlainAnswer::Never(version) => Answer::Never(*version),
            PlainAnswer::Held(version) => Answer::Held(*version),
        }
    }

    /// Reads an answer of the crates.
    pub fn of(answer: &Answer) -> Self {
        match answer {
            Answer::Reply(reply) => PlainAnswer::Reply(PlainReply::of(reply)),
            Answer::Never(version) => PlainAnswer::Never(*version),
            Answer::Held(version) => PlainAnswer::Held(*version),
        }
    }
}
