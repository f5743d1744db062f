//! The conflict set, for whoever has a chain of versions already.

// Conditions of the proved functions that are called here, and after `=>` how each is met:
//
// - `conflict::ConflictSet::new`
//   - `least_window`, `most_window`, `least_limit`, `most_limit`
//     => `check_set`: `NewError::Window`, `NewError::Limit`
// - `conflict::ConflictSet::new_at`
//   - the same, and `least_version`
//     => `check_set`, `check_version`: `NewError::Version`
// - `conflict::ConflictSet::resolve`
//   - `rising`: the version is above that of the batch resolved last
//     => `ResolveError::Version`, by the field `version`
// - `conflict::ConflictSet::try_resolve`
//   - the same
//     => the same
// - `conflict::ConflictSet::boundaries`, `bytes_held`, `limit`, `edge`, `trim`: none

use crate::batch::Batch;
use crate::reply::Reply;
use crate::stop::{NewError, Stop, check_set, check_version, stop_of_set};
use conflict::SetStop;
use rattle_std::alloc::Global;
use std::error::Error;
use std::fmt;

/// The committed writes of the batches resolved so far, as far back as the window.
///
/// Give it each batch once, in the order of versions. It does not look at the previous version of a
/// batch: [`Core`](crate::Core) orders batches that arrive out of order.
///
/// ```
/// use archcaraway::{BatchBuilder, ConflictSet, MAX_LIMIT, Txn, Verdict, WINDOW};
///
/// let mut set = ConflictSet::new(WINDOW, MAX_LIMIT)?;
/// let write = BatchBuilder::new(-1, 100).txn(Txn::at(0).write_key("k")).build()?;
/// let read = BatchBuilder::new(100, 200).txn(Txn::at(99).read_key("k")).build()?;
/// assert_eq!(set.resolve(&write)?.verdict(0), Some(Verdict::Committed));
/// assert_eq!(set.resolve(&read)?.verdict(0), Some(Verdict::Conflict));
/// # Ok::<(), Box<dyn std::error::Error>>(())
/// ```
pub struct ConflictSet {
    set: conflict::ConflictSet,
    version: i64,
    stop: Option<Stop>,
}

impl ConflictSet {
    /// Creates a set that has resolved nothing.
    ///
    /// `window` is how far back it remembers writes, in versions: 1 to
    /// [`MAX_WINDOW`](crate::MAX_WINDOW), usually [`WINDOW`](crate::WINDOW). It never keeps more
    /// than `limit` boundaries: 1 to [`MAX_LIMIT`](crate::MAX_LIMIT). A write range within the
    /// window needs two at most.
    pub fn new(window: i64, limit: usize) -> Result<Self, NewError> {
        check_set(window, limit)?;
        let set = conflict::ConflictSet::new(Global, window, limit);
        Ok(ConflictSet { set: set.map_err(|_| NewError::Memory)?, version: -1, stop: None })
    }

    /// Creates a set that starts at a version, from -1 on, for a store that has been written
    /// before.
    ///
    /// What was written up to the version is not known: each read range with a snapshot below it
    /// conflicts, unless the range is empty. The first batch has a greater version. At -1 this is
    /// [`new`](ConflictSet::new); at any other version the limit must be 3 or more.
    ///
    /// ```
    /// use archcaraway::{BatchBuilder, ConflictSet, MAX_LIMIT, Txn, Verdict, WINDOW};
    ///
    /// let mut set = ConflictSet::new_at(WINDOW, MAX_LIMIT, 1_000)?;
    /// let batch = BatchBuilder::new(1_000, 1_001)
    ///     .txn(Txn::at(900).read_key("k"))
    ///     .txn(Txn::at(1_000).read_key("k"))
    ///     .build()?;
    /// let reply = set.resolve(&batch)?;
    /// assert!(reply.verdicts().eq([Verdict::Conflict, Verdict::Committed]));
    /// # Ok::<(), Box<dyn std::error::Error>>(())
    /// ```
    pub fn new_at(window: i64, limit: usize, version: i64) -> Result<Self, NewError> {
        check_set(window, limit)?;
        check_version(version)?;
        match conflict::ConflictSet::new_at(Global, window, limit, version) {
            Ok(set) => Ok(ConflictSet { set, version, stop: None }),
            Err(SetStop::Memory) => Err(NewError::Memory),
            Err(SetStop::ArenaFull) => Err(NewError::LimitAtVersion(limit)),
        }
    }

    /// Judges a batch after all writes in the set, and adds the writes that the batch commits.
    ///
    /// After [`ResolveError::Version`] the set is unchanged. A stop is final: every later call
    /// returns it.
    pub fn resolve(&mut self, batch: &Batch) -> Result<Reply, ResolveError> {
        self.check(batch)?;
        let resolved = self.set.resolve(batch.inner());
        self.settle(batch, resolved)
    }

    /// Judges a batch as [`resolve`](ConflictSet::resolve) does, but refuses it if the set has no
    /// room for its writes.
    ///
    /// After [`ResolveError::Full`] and [`ResolveError::Version`] the set is unchanged, and has not
    /// stopped. Then resolve fewer transactions, or the batch at a later version, when boundaries
    /// have left the window; or create a set at its version by [`new_at`](ConflictSet::new_at).
    /// [`Stop::Memory`] is final, as there.
    ///
    /// If there is no room without a sweep, the call looks at every boundary.
    ///
    /// ```
    /// use archcaraway::{BatchBuilder, ConflictSet, ResolveError, Txn};
    ///
    /// let mut set = ConflictSet::new(10, 3)?;
    /// let two = Txn::at(0).write_key("a").write_key("c");
    /// let batch = BatchBuilder::new(-1, 1).txn(two).build()?;
    /// assert_eq!(set.try_resolve(&batch).unwrap_err(), ResolveError::Full);
    /// let smaller = BatchBuilder::new(-1, 1).txn(Txn::at(0).write_key("a")).build()?;
    /// assert!(set.try_resolve(&smaller).is_ok());
    /// # Ok::<(), Box<dyn std::error::Error>>(())
    /// ```
    pub fn try_resolve(&mut self, batch: &Batch) -> Result<Reply, ResolveError> {
        self.check(batch)?;
        match self.set.try_resolve(batch.inner()) {
            Err(SetStop::ArenaFull) => Err(ResolveError::Full),
            resolved => self.settle(batch, resolved),
        }
    }

    // Returns why the set doesn't take the batch, if it doesn't.
    fn check(&self, batch: &Batch) -> Result<(), ResolveError> {
        if let Some(stop) = self.stop {
            return Err(ResolveError::Stop(stop));
        }
        let (version, last) = (batch.version(), self.version);
        if version <= last {
            return Err(ResolveError::Version { version, last });
        }
        Ok(())
    }

    // Remembers what became of the batch.
    fn settle(
        &mut self,
        batch: &Batch,
        resolved: Result<keyspace::Reply, SetStop>,
    ) -> Result<Reply, ResolveError> {
        match resolved {
            Ok(reply) => {
                self.version = batch.version();
                Ok(Reply::over(reply))
            }
            Err(stop) => {
                let stop = stop_of_set(stop);
                self.stop = Some(stop);
                Err(ResolveError::Stop(stop))
            }
        }
    }

    /// Returns the number of boundaries, at most the limit. One is at the empty key.
    pub fn boundaries(&self) -> usize {
        self.set.boundaries()
    }

    /// Returns about how many bytes of memory the boundaries and the filter of single keys have
    /// used.
    ///
    /// Memory of removed boundaries counts until [`trim`](ConflictSet::trim). Vectors that are kept
    /// from batch to batch, and what the allocator adds, do not count.
    pub fn bytes_held(&self) -> usize {
        self.set.bytes_held()
    }

    /// Returns how many boundaries there may be.
    pub fn limit(&self) -> usize {
        self.set.limit()
    }

    /// Returns the edge: what was written below this version is forgotten, or will be.
    pub fn edge(&self) -> i64 {
        self.set.edge()
    }

    /// Returns the version of the batch resolved last, or that at which the set started.
    pub fn version(&self) -> i64 {
        self.version
    }

    /// Returns the stop, if the set has stopped.
    pub fn stop(&self) -> Option<Stop> {
        self.stop
    }

    /// Frees memory that the set does not need for its boundaries, for example after most of them
    /// have left the window. It copies them, so it takes about as long as writing each once, and
    /// for a moment there is memory for both.
    ///
    /// The set stays as it is, also after an error, and also if it has stopped.
    ///
    /// ```
    /// use archcaraway::{BatchBuilder, ConflictSet, MAX_LIMIT, Txn};
    ///
    /// let mut set = ConflictSet::new(10, MAX_LIMIT)?;
    /// set.resolve(&BatchBuilder::new(-1, 1).txn(Txn::at(0).write_key("a")).build()?)?;
    /// let boundaries = set.boundaries();
    /// set.trim()?;
    /// assert_eq!(set.boundaries(), boundaries);
    /// # Ok::<(), Box<dyn std::error::Error>>(())
    /// ```
    pub fn trim(&mut self) -> Result<(), TrimError> {
        self.set.trim().map_err(|_| TrimError)
    }
}

impl fmt::Debug for ConflictSet {
    fn fmt(&self, f: &mut fmt::Formatter<'_>) -> fmt::Result {
        f.debug_struct("ConflictSet")
            .field("version", &self.version)
            .field("boundaries", &self.boundaries())
            .field("stop", &self.stop)
            .finish_non_exhaustive()
    }
}

/// Why a batch was not resolved.
#[derive(Clone, Copy, Debug, PartialEq, Eq, Hash)]
pub enum ResolveError {
    /// The version of the batch is not above that of the batch resolved last.
    Version {
        /// The version of the batch.
        version: i64,
        /// The version of the batch resolved last.
        last: i64,
    },
    /// The batch does not fit the limit, and [`ConflictSet::try_resolve`] has refused it: the set
    /// is unchanged.
    Full,
    /// The set has stopped.
    Stop(Stop),
}

impl fmt::Display for ResolveError {
    fn fmt(&self, f: &mut fmt::Formatter<'_>) -> fmt::Result {
        match self {
            ResolveError::Version { version, last } => {
                write!(f, "version {version} is not above {last}, which was resolved last")
            }
            ResolveError::Full => f.write_str("the batch needs more boundaries than the limit"),
            ResolveError::Stop(stop) => stop.fmt(f),
        }
    }
}

impl Error for ResolveError {}

impl From<Stop> for ResolveError {
    fn from(stop: Stop) -> Self {
        ResolveError::Stop(stop)
    }
}

/// An allocation failed in [`ConflictSet::trim`]: the set is unchanged, and has not stopped.
#[derive(Clone, Copy, Debug, PartialEq, Eq, Hash)]
pub struct TrimError;

impl fmt::Display for TrimError {
    fn fmt(&self, f: &mut fmt::Formatter<'_>) -> fmt::Result {
        f.write_str("allocation failed")
    }
}

impl Error for TrimError {}
