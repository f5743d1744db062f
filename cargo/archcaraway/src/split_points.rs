//! Several resolvers by key range: split points, and what each shard gets of a batch.

// Conditions of the proved functions that are called here, and after `=>` how each is met:
//
// - `keyspace::Key::copied`
//   - `short`: at most `MAX_KEY_LENGTH` bytes
//     => `SplitPointsError::KeyLength`
// - `shards::ReadIndices::txn`
//   - `within`: the index is that of a transaction
//     => `ReadIndices::of` asks for fewer than `len`
// - `shards::SplitPoints::checked`, `shard_count`, `shard_of`, `points`, `shards::balanced`,
//   `shards::clip_all`: none

use crate::MAX_KEY_LENGTH;
use crate::batch::Batch;
use keyspace::Key;
use rattle_std::alloc::Global;
use rattle_std::vec;
use shards::MAX_SPLIT_POINTS;
use std::error::Error;
use std::fmt;

/// Keys that split all keys into shards, one per resolver.
///
/// The first shard begins at the empty key, and each other one at a split point.
///
/// ```
/// use archcaraway::{BatchBuilder, ConflictSet, MAX_LIMIT, SplitPoints, Txn, Verdict, WINDOW};
/// use archcaraway::{ShardReply, combine};
///
/// let points = SplitPoints::new(["m"])?;
/// let mut sets = [ConflictSet::new(WINDOW, MAX_LIMIT)?, ConflictSet::new(WINDOW, MAX_LIMIT)?];
/// let batch = BatchBuilder::new(-1, 100)
///     .txn(Txn::at(0).write(("a", "z")))
///     .txn(Txn::at(0).read_key("b").read_key("x").report())
///     .build()?;
///
/// let mut replies = Vec::new();
/// for (clip, set) in points.clip(&batch)?.into_iter().zip(&mut sets) {
///     let reply = set.resolve(&clip.batch)?;
///     replies.push(ShardReply { reply, reads: clip.reads });
/// }
/// let reply = combine(&batch, replies)?;
/// assert!(reply.verdicts().eq([Verdict::Committed, Verdict::Conflict]));
/// // Each shard reports its own read range.
/// assert!(reply.conflicts(1).eq([0, 1]));
/// # Ok::<(), Box<dyn std::error::Error>>(())
/// ```
pub struct SplitPoints(shards::SplitPoints);

impl SplitPoints {
    /// Takes keys as split points: up to 63, strictly rising from the empty key on.
    pub fn new<K: AsRef<[u8]>>(
        keys: impl IntoIterator<Item = K>,
    ) -> Result<Self, SplitPointsError> {
        let mut points = vec::Vec::new(Global);
        for (index, key) in keys.into_iter().enumerate() {
            let key = key.as_ref();
            if index == MAX_SPLIT_POINTS {
                return Err(SplitPointsError::TooMany);
            }
            if key.len() > MAX_KEY_LENGTH {
                return Err(SplitPointsError::KeyLength { index });
            }
            let key = Key::copied(Global, key).map_err(|_| SplitPointsError::Memory)?;
            points.push(key).map_err(|_| SplitPointsError::Memory)?;
        }
        match shards::SplitPoints::checked(points) {
            Ok(points) => Ok(SplitPoints(points)),
            Err(shards::SplitPointsError::TooMany) => Err(SplitPointsError::TooMany),
            Err(shards::SplitPointsError::NotRising(index)) => {
                Err(SplitPointsError::NotRising { index })
            }
        }
    }

    /// Picks split points that spread the read and write ranges of a sample evenly over this many
    /// shards, 1 to 64.
    ///
    /// A range counts in the shard of its begin key. In each shard, at most one range in `shards`
    /// begins after the shard's first key. There are fewer shards if the sample has too few
    /// different begin keys.
    pub fn balanced<'a>(
        sample: impl IntoIterator<Item = &'a Batch>,
        shards: usize,
    ) -> Result<Self, BalanceError> {
        let mut batches = vec::Vec::new(Global);
        for batch in sample {
            batches.push(batch.inner()).map_err(|_| BalanceError::Memory)?;
        }
        match shards::balanced(Global, &batches, shards) {
            Ok(points) => Ok(SplitPoints(points)),
            Err(shards::BalanceError::ShardCount) => Err(BalanceError::ShardCount(shards)),
            Err(shards::BalanceError::Memory) => Err(BalanceError::Memory),
        }
    }

    /// Returns the split points, in order.
    pub fn keys(&self) -> impl ExactSizeIterator<Item = &[u8]> + DoubleEndedIterator {
        self.0.points().iter().map(|point| point.as_bytes())
    }

    /// Returns the number of shards: one more than the split points.
    pub fn shards(&self) -> usize {
        self.0.shard_count()
    }

    /// Returns the number of the shard that has the key, from 0. A split point is in the shard that
    /// begins there.
    pub fn shard_of<K: AsRef<[u8]> + ?Sized>(&self, key: &K) -> usize {
        self.0.shard_of(key.as_ref())
    }

    /// Clips the batch to every shard, in the order of the shards. Each key is copied once.
    pub fn clip(&self, batch: &Batch) -> Result<Vec<Clip>, ClipError> {
        let clips = shards::clip_all(Global, batch.inner(), &self.0).map_err(|_| ClipError)?;
        let mut each = Vec::new();
        each.try_reserve_exact(clips.len()).map_err(|_| ClipError)?;
        each.extend(clips.into_iter().map(Clip::over));
        Ok(each)
    }
}

impl fmt::Debug for SplitPoints {
    fn fmt(&self, f: &mut fmt::Formatter<'_>) -> fmt::Result {
        let keys = self.keys().map(|key| format!("{}", key.escape_ascii()));
        f.debug_list().entries(keys).finish()
    }
}

/// A batch clipped to a shard.
#[derive(Debug)]
pub struct Clip {
    /// The batch for the resolver of the shard: the same versions, and each transaction at its
    /// index, with the ranges that go to the shard, cut to it.
    pub batch: Batch,
    /// Which read ranges the shard's transactions have: [`combine`](crate::combine) needs it beside
    /// the shard's reply.
    pub reads: ReadIndices,
}

impl Clip {
    fn over(clipped: shards::Clipped) -> Self {
        Clip { batch: Batch::over(clipped.batch), reads: ReadIndices(clipped.reads) }
    }
}

/// The indices of the read ranges of a clipped batch, per transaction, in the batch as it was sent.
pub struct ReadIndices(shards::ReadIndices);

impl ReadIndices {
    /// Returns those of the transaction at an index, or `None` if there is none.
    pub fn of(&self, txn: usize) -> Option<&[u16]> {
        (txn < self.0.len()).then(|| self.0.txn(txn))
    }

    pub(crate) fn into_inner(self) -> shards::ReadIndices {
        self.0
    }
}

impl fmt::Debug for ReadIndices {
    fn fmt(&self, f: &mut fmt::Formatter<'_>) -> fmt::Result {
        let each = (0..self.0.len()).map(|txn| self.0.txn(txn));
        f.debug_list().entries(each).finish()
    }
}

/// Why keys are no split points.
#[derive(Clone, Copy, Debug, PartialEq, Eq, Hash)]
pub enum SplitPointsError {
    /// There are more than 63 keys.
    TooMany,
    /// The key at this index is the first that is not after the one before it, or the first key is
    /// empty.
    NotRising {
        /// The index of the key.
        index: usize,
    },
    /// The key at this index is longer than [`MAX_KEY_LENGTH`] bytes.
    KeyLength {
        /// The index of the key.
        index: usize,
    },
    /// An allocation failed.
    Memory,
}

impl fmt::Display for SplitPointsError {
    fn fmt(&self, f: &mut fmt::Formatter<'_>) -> fmt::Result {
        match self {
            SplitPointsError::TooMany => f.write_str("more than 63 split points"),
            SplitPointsError::NotRising { index } => {
                write!(f, "split point {index} is not after the one before")
            }
            SplitPointsError::KeyLength { index } => {
                write!(f, "split point {index} is longer than {MAX_KEY_LENGTH} bytes")
            }
            SplitPointsError::Memory => f.write_str("allocation failed"),
        }
    }
}

impl Error for SplitPointsError {}

/// Why a sample gives no split points.
#[derive(Clone, Copy, Debug, PartialEq, Eq, Hash)]
pub enum BalanceError {
    /// This number of shards is not 1 to 64.
    ShardCount(usize),
    /// An allocation failed.
    Memory,
}

impl fmt::Display for BalanceError {
    fn fmt(&self, f: &mut fmt::Formatter<'_>) -> fmt::Result {
        match self {
            BalanceError::ShardCount(found) => write!(f, "{found} shards are not 1 to 64"),
            BalanceError::Memory => f.write_str("allocation failed"),
        }
    }
}

impl Error for BalanceError {}

/// A batch was not clipped: an allocation failed, or the keys of a shard have more than 4 GiB.
#[derive(Clone, Copy, Debug, PartialEq, Eq, Hash)]
pub struct ClipError;

impl fmt::Display for ClipError {
    fn fmt(&self, f: &mut fmt::Formatter<'_>) -> fmt::Result {
        f.write_str("allocation failed")
    }
}

impl Error for ClipError {}
