//! The replies of all shards as one.

// Conditions of the proved functions that are called here, and after `=>` how each is met:
//
// - `shards::combine`
//   - none; but each shard must have its reply, and it can't tell if one is missing
//     => the caller's, as the docs of `combine` say

use crate::batch::Batch;
use crate::reply::Reply;
use crate::split_points::ReadIndices;
use rattle_std::alloc::Global;
use rattle_std::vec;
use std::error::Error;
use std::fmt;

/// The reply of a shard's resolver to a clipped batch, with the indices of
/// [`Clip`](crate::Clip) beside that batch.
#[derive(Debug)]
pub struct ShardReply {
    /// The reply to the clipped batch.
    pub reply: Reply,
    /// The indices from the clip.
    pub reads: ReadIndices,
}

/// Combines the replies of all shards to a batch, in any order.
///
/// A transaction is committed if all shards commit it. Its report has the read ranges that some
/// shard reports, numbered as in the batch. **Pass one reply per shard**: if one is missing, a
/// transaction may be committed that this shard rejected.
pub fn combine(
    batch: &Batch,
    replies: impl IntoIterator<Item = ShardReply>,
) -> Result<Reply, CombineError> {
    let mut each = vec::Vec::new(Global);
    for shard in replies {
        let shard =
            shards::ShardReply { reply: shard.reply.into_inner(), reads: shard.reads.into_inner() };
        each.push(shard).map_err(|_| CombineError::Memory)?;
    }
    match shards::combine(Global, batch.inner(), &each) {
        Ok(reply) => Ok(Reply::over(reply)),
        Err(shards::CombineError::NoReply) => Err(CombineError::NoReply),
        Err(shards::CombineError::Memory) => Err(CombineError::Memory),
        Err(shards::CombineError::Misfit(index, cause)) => Err(match cause {
            shards::Misfit::Version => CombineError::Version { index },
            shards::Misfit::Count => CombineError::Count { index },
            shards::Misfit::Place => CombineError::Place { index },
        }),
    }
}

/// Why replies have no combination. The index is that of the first reply that does not fit.
#[derive(Clone, Copy, Debug, PartialEq, Eq, Hash)]
pub enum CombineError {
    /// There is no reply at all.
    NoReply,
    /// A reply has the version of another batch.
    Version {
        /// The index of the reply.
        index: usize,
    },
    /// A reply, or the indices beside it, have another number of transactions.
    Count {
        /// The index of the reply.
        index: usize,
    },
    /// A reply reports a read range that the clipped transaction does not have.
    Place {
        /// The index of the reply.
        index: usize,
    },
    /// An allocation failed.
    Memory,
}

impl fmt::Display for CombineError {
    fn fmt(&self, f: &mut fmt::Formatter<'_>) -> fmt::Result {
        match self {
            CombineError::NoReply => f.write_str("no reply"),
            CombineError::Version { index } => {
                write!(f, "reply {index} has the version of another batch")
            }
            CombineError::Count { index } => {
                write!(f, "reply {index} has another number of transactions")
            }
            CombineError::Place { index } => {
                write!(f, "reply {index} reports a read range that is not there")
            }
            CombineError::Memory => f.write_str("allocation failed"),
        }
    }
}

impl Error for CombineError {}
