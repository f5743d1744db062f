//! Why a transaction conflicts.

// Conditions of the proved functions that are called here, and after `=>` how each is met:
//
// - `explanations::History::new`
//   - `least_window`: the window is 1 or more
//     => `check_window`: `NewError::Window`
// - `explanations::ProcessedBatch::new`
//   - `entries`: the reply has one entry per transaction
//     => `PushError::Reply`
// - `explanations::History::push`, `explain`: none

use crate::batch::Batch;
use crate::range::Range;
use crate::reply::Reply;
use crate::stop::{NewError, check_window};
use explanations::ProcessedBatch;
use rattle_std::alloc::Global;
use std::error::Error;
use std::fmt;

/// The batches of a chain that may still explain a conflict, with their replies.
///
/// Give it each batch with its reply, in the order of versions, as a [`ConflictSet`] of the same
/// window resolves them. Then it explains the conflicts of the newest batch.
///
/// ```
/// use archcaraway::{BatchBuilder, ConflictSet, History, MAX_LIMIT, Txn, WINDOW};
///
/// let mut set = ConflictSet::new(WINDOW, MAX_LIMIT)?;
/// let mut history = History::new(WINDOW)?;
/// let first = BatchBuilder::new(-1, 100).txn(Txn::at(0).write(("a", "c"))).build()?;
/// let second = BatchBuilder::new(100, 200)
///     .txn(Txn::at(100).write_key("b"))
///     .txn(Txn::at(99).read_key("b"))
///     .build()?;
/// for (proxy, batch) in [(3, first), (5, second)] {
///     let reply = set.resolve(&batch)?;
///     history.push(proxy, batch, reply)?;
/// }
///
/// let explanation = history.explain(1, 0).expect("the transaction conflicts");
/// assert_eq!((explanation.newest.proxy, explanation.newest.version), (5, 200));
/// assert_eq!((explanation.newest.txn, explanation.further), (0, 1));
/// assert_eq!(explanation.newest.range.begin(), b"b");
/// # Ok::<(), Box<dyn std::error::Error>>(())
/// ```
///
/// [`ConflictSet`]: crate::ConflictSet
pub struct History {
    history: explanations::History,
    version: i64,
}

impl History {
    /// Creates a history of no batches.
    ///
    /// `window` is how far back a transaction may read, in versions: 1 to
    /// [`MAX_WINDOW`](crate::MAX_WINDOW), that of the set.
    pub fn new(window: i64) -> Result<Self, NewError> {
        check_window(window)?;
        Ok(History { history: explanations::History::new(Global, window), version: -1 })
    }

    /// Adds the batch that was resolved last, with the number of its proxy and its reply, and drops
    /// the batches that explain nothing any more.
    ///
    /// After an error the history is unchanged.
    pub fn push(&mut self, proxy: usize, batch: Batch, reply: Reply) -> Result<(), PushError> {
        let (version, last) = (batch.version(), self.version);
        if version <= last {
            return Err(PushError::Version { version, last });
        }
        if reply.version() != version || reply.len() != batch.len() {
            return Err(PushError::Reply);
        }
        let (batch, reply) = (batch.into_inner(), reply.into_inner());
        let processed =
            ProcessedBatch::new(Global, proxy, batch, reply).map_err(|_| PushError::Memory)?;
        self.history.push(processed).map_err(|_| PushError::Memory)?;
        self.version = version;
        Ok(())
    }

    /// Explains why a read range of the newest batch is in conflict, by the index of its
    /// transaction and its own index there. Returns `None` if no write explains it, or if there is
    /// no such range.
    ///
    /// A transaction that is too old may lack explanations, by batches that were dropped.
    pub fn explain(&self, txn: usize, read: usize) -> Option<Explanation<'_>> {
        let explanation = self.history.explain(txn, read)?;
        let newest = &explanation.newest;
        Some(Explanation {
            newest: Write {
                proxy: newest.proxy,
                version: newest.version,
                txn: newest.txn,
                range: Range::of(&newest.range),
            },
            further: explanation.further,
        })
    }

    /// Returns the version of the newest batch, or -1 if there is none.
    pub fn version(&self) -> i64 {
        self.version
    }
}

impl fmt::Debug for History {
    fn fmt(&self, f: &mut fmt::Formatter<'_>) -> fmt::Result {
        f.debug_struct("History").field("version", &self.version).finish_non_exhaustive()
    }
}

/// Why a read range is in conflict. The keys are borrowed from the history.
#[derive(Clone, Debug, PartialEq, Eq)]
pub struct Explanation<'a> {
    /// The newest write that the range conflicts with: that of the highest version, in one batch
    /// that of the last transaction, in one transaction the last of its ranges.
    pub newest: Write<'a>,
    /// The number of further writes that it conflicts with.
    pub further: usize,
}

/// A write range of a committed transaction.
#[derive(Clone, Debug, PartialEq, Eq)]
pub struct Write<'a> {
    /// The number of the proxy that sent the batch.
    pub proxy: usize,
    /// The version of the batch.
    pub version: i64,
    /// The index of the transaction in the batch.
    pub txn: usize,
    /// The range that it wrote.
    pub range: Range<'a>,
}

/// Why a batch was not added to a history.
#[derive(Clone, Copy, Debug, PartialEq, Eq, Hash)]
pub enum PushError {
    /// The version of the batch is not above that of the batch added last.
    Version {
        /// The version of the batch.
        version: i64,
        /// The version of the batch added last.
        last: i64,
    },
    /// The reply has another version than the batch, or another number of transactions.
    Reply,
    /// An allocation failed.
    Memory,
}

impl fmt::Display for PushError {
    fn fmt(&self, f: &mut fmt::Formatter<'_>) -> fmt::Result {
        match self {
            PushError::Version { version, last } => {
                write!(f, "version {version} is not above {last}, which was added last")
            }
            PushError::Reply => f.write_str("the reply is not one to the batch"),
            PushError::Memory => f.write_str("allocation failed"),
        }
    }
}

impl Error for PushError {}
