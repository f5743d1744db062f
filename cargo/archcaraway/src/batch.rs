//! Batches, and the transactions in them.

// Conditions of the proved functions that are called here, and after `=>` how each is met:
//
// - `keyspace::Txns::txn`
//   - `within`: the index is that of a transaction
//     => `txn` and `txns` ask for fewer than `len`
// - `keyspace::RangesRef::get`
//   - `within`: the index is that of a range
//     => `ranges_of` counts up to `len`
// - `keyspace::RangesRef::slice`
//   - `ordered`, `within`
//     => from 0 to `len`
// - `wire::decode_batch`, `encode_batch`, `encode_batch_1`, `read_frames`, `Frames::next`
//   - none beside that of their reader
//     => `wire_error`

use crate::build_error::BuildError;
use crate::range::Range;
use crate::tables::Tables;
use crate::wire_error::{Noting, WireError, into_std, wire_error};
use keyspace::RangesRef;
use rattle_std::alloc::Global;
use std::alloc::{Layout, handle_alloc_error};
use std::fmt;
use std::io::Read;

/// Transactions of one commit proxy that are judged together and commit at one version.
///
/// A [`BatchBuilder`](crate::BatchBuilder) makes it, or [`decode`](Batch::decode) reads it from a
/// frame. Like those of std's collections, its `Clone` ends the process if an allocation fails.
pub struct Batch(keyspace::Batch);

impl Batch {
    /// Reads the frame at the front of the bytes. Returns its batch and the length of the frame.
    ///
    /// Reads frames of both versions, and ignores the bytes after the frame. The batch has a copy
    /// of the frame, so no key is allocated alone.
    pub fn decode(bytes: &[u8]) -> Result<(Self, usize), WireError> {
        let (batch, length) = wire::decode_batch(Global, bytes).map_err(wire_error)?;
        Ok((Batch(batch), length))
    }

    /// Reads the next frame of a reader, of either version, and no byte after it.
    ///
    /// Returns `None` if the input ends before the frame begins.
    pub fn read(reader: impl Read) -> Result<Option<Self>, WireError> {
        let mut noting = Noting::new(reader);
        let found = wire::read_frames(Global, wire::StdSource::new(&mut noting)).next();
        Ok(found.map_err(|fault| noting.error(fault))?.map(Batch))
    }

    /// Returns the batch as a frame of version 2.
    ///
    /// The only errors are [`WireError::Long`], for a body of more than 4 MiB, and
    /// [`WireError::Memory`].
    pub fn encode(&self) -> Result<Vec<u8>, WireError> {
        into_std(wire::encode_batch(Global, &self.0))
    }

    /// Returns the batch as a frame of version 1, which spells each single key as two keys.
    ///
    /// The errors are those of [`encode`](Batch::encode).
    pub fn encode_version_1(&self) -> Result<Vec<u8>, WireError> {
        into_std(wire::encode_batch_1(Global, &self.0))
    }

    /// Returns the version of the batch before this one on the chain, or -1 for the first.
    pub fn previous(&self) -> i64 {
        self.0.previous
    }

    /// Returns the version at which the transactions commit.
    pub fn version(&self) -> i64 {
        self.0.version
    }

    /// Returns the last version whose reply the proxy has received, or -1.
    pub fn received(&self) -> i64 {
        self.0.received
    }

    /// Returns the number of transactions, at most [`MAX_TXNS`](crate::MAX_TXNS).
    pub fn len(&self) -> usize {
        self.0.txns.len()
    }

    /// Returns whether the batch has no transactions.
    pub fn is_empty(&self) -> bool {
        self.len() == 0
    }

    /// Returns the transaction at an index, or `None` if there is none.
    pub fn txn(&self, index: usize) -> Option<TxnRef<'_>> {
        (index < self.len()).then(|| TxnRef(self.0.txns.txn(index)))
    }

    /// Returns the transactions, in the order in which they are judged.
    pub fn txns(&self) -> impl ExactSizeIterator<Item = TxnRef<'_>> + DoubleEndedIterator {
        (0..self.len()).map(|index| TxnRef(self.0.txns.txn(index)))
    }

    pub(crate) fn over(batch: keyspace::Batch) -> Self {
        Batch(batch)
    }

    pub(crate) fn inner(&self) -> &keyspace::Batch {
        &self.0
    }

    pub(crate) fn into_inner(self) -> keyspace::Batch {
        self.0
    }

    fn try_clone(&self) -> Result<Self, BuildError> {
        let mut tables = Tables::default();
        for txn in self.txns() {
            for range in txn.reads().chain(txn.writes()) {
                tables.put_range(&range)?;
            }
            tables.put_row(txn.snapshot(), txn.wants_report(), txn.writes().len())?;
        }
        tables.batch(self.previous(), self.version(), self.received())
    }
}

impl Clone for Batch {
    fn clone(&self) -> Self {
        // The batch is within all limits, so the only error is that of memory.
        self.try_clone().unwrap_or_else(|_| handle_alloc_error(Layout::new::<Self>()))
    }
}

impl PartialEq for Batch {
    fn eq(&self, other: &Self) -> bool {
        let versions = |batch: &Self| (batch.previous(), batch.version(), batch.received());
        versions(self) == versions(other) && self.txns().eq(other.txns())
    }
}

impl Eq for Batch {}

impl fmt::Debug for Batch {
    fn fmt(&self, f: &mut fmt::Formatter<'_>) -> fmt::Result {
        f.debug_struct("Batch")
            .field("previous", &self.previous())
            .field("version", &self.version())
            .field("received", &self.received())
            .field("txns", &self.txns().collect::<Vec<_>>())
            .finish()
    }
}

/// A transaction of a batch. Its keys are borrowed from the batch.
pub struct TxnRef<'a>(keyspace::TxnRef<'a>);

impl<'a> TxnRef<'a> {
    /// Returns the version at which the transaction has read.
    pub fn snapshot(&self) -> i64 {
        self.0.snapshot
    }

    /// Returns whether the transaction requests a report.
    pub fn wants_report(&self) -> bool {
        self.0.marked
    }

    /// Returns the read ranges, in the order given.
    pub fn reads(
        &self,
    ) -> impl ExactSizeIterator<Item = Range<'a>> + DoubleEndedIterator + use<'a> {
        ranges_of(&self.0.reads)
    }

    /// Returns the write ranges, in the order given.
    pub fn writes(
        &self,
    ) -> impl ExactSizeIterator<Item = Range<'a>> + DoubleEndedIterator + use<'a> {
        ranges_of(&self.0.writes)
    }
}

fn ranges_of<'a>(
    ranges: &RangesRef<'a>,
) -> impl ExactSizeIterator<Item = Range<'a>> + DoubleEndedIterator + use<'a> {
    let ranges = ranges.slice(0, ranges.len());
    (0..ranges.len()).map(move |index| Range::of(&ranges.get(index)))
}

impl PartialEq for TxnRef<'_> {
    fn eq(&self, other: &Self) -> bool {
        self.snapshot() == other.snapshot()
            && self.wants_report() == other.wants_report()
            && self.reads().eq(other.reads())
            && self.writes().eq(other.writes())
    }
}

impl Eq for TxnRef<'_> {}

impl fmt::Debug for TxnRef<'_> {
    fn fmt(&self, f: &mut fmt::Formatter<'_>) -> fmt::Result {
        f.debug_struct("Txn")
            .field("snapshot", &self.snapshot())
            .field("report", &self.wants_report())
            .field("reads", &self.reads().collect::<Vec<_>>())
            .field("writes", &self.writes().collect::<Vec<_>>())
            .finish()
    }
}
