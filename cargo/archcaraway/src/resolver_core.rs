//! The resolver over values: many proxies, one thread.

// Conditions of the proved functions that are called here, and after `=>` how each is met:
//
// - `resolver::Core::new`
//   - `least_proxies`, `most_proxies`
//     => `check_proxies`: `NewError::Proxies`
//   - `least_window`, `most_window`, `least_limit`, `most_limit`
//     => `check_set`: `NewError::Window`, `NewError::Limit`
// - `resolver::Core::new_at`
//   - the same, and `least_version`
//     => the same, and `check_version`: `NewError::Version`
// - `resolver::Core::admit`
//   - `known`: there is such a proxy
//     => `check_proxy`: `CoreError::Proxy`
// - `resolver::Core::give`
//   - `known`: there is such a proxy
//     => `check_proxy`: `CoreError::Proxy`
// - `resolver::Core::owes`
//   - `known`: there is such a proxy
//     => `next` asks only of those that there are
// - `resolver::Core::finish`, `owed`, `held`, `version`, `set`, `proxies`, `stop`: none

use crate::batch::Batch;
use crate::reply::Answer;
use crate::stop::{NewError, Stop, check_proxies, check_set, check_version, stop_of};
use rattle_std::alloc::Global;
use std::error::Error;
use std::fmt;

/// A resolver for many proxies, called by one thread.
///
/// It orders batches along the chain of versions, holds those that come too early, answers repeats
/// by the kept reply, and owes each proxy its answers.
///
/// ```
/// use archcaraway::{Answer, BatchBuilder, Core, MAX_LIMIT, Txn, Verdict, WINDOW};
///
/// let mut core = Core::new(2, WINDOW, MAX_LIMIT)?;
/// // The batch of proxy 1 is held until that of proxy 0 has come.
/// core.admit(1, BatchBuilder::new(0, 100).txn(Txn::at(0).write_key("k")).build()?)?;
/// assert_eq!(core.give(1)?, None);
/// core.admit(0, BatchBuilder::new(-1, 0).build()?)?;
/// assert_eq!(core.owed(), 2);
/// let answer = core.give(1)?.expect("its previous version has come");
/// assert_eq!(answer.reply().and_then(|reply| reply.verdict(0)), Some(Verdict::Committed));
/// # Ok::<(), Box<dyn std::error::Error>>(())
/// ```
pub struct Core(resolver::Core);

impl Core {
    /// Creates a resolver for this many proxies, 1 to [`MAX_PROXIES`](crate::MAX_PROXIES).
    ///
    /// `window` and `limit` are those of [`ConflictSet::new`](crate::ConflictSet::new).
    pub fn new(proxies: usize, window: i64, limit: usize) -> Result<Self, NewError> {
        check_proxies(proxies)?;
        check_set(window, limit)?;
        let core = resolver::Core::new(Global, proxies, window, limit);
        Ok(Core(core.map_err(|_| NewError::Memory)?))
    }

    /// Creates a resolver that starts at a version, from -1 on, for a store that has been written
    /// before.
    ///
    /// The first batch follows that version. A batch with a lower previous version is answered
    /// with [`Answer::Never`], and one with a higher one is held. What was written up to the
    /// version is not known, as in [`ConflictSet::new_at`](crate::ConflictSet::new_at).
    ///
    /// ```
    /// use archcaraway::{Answer, BatchBuilder, Core, MAX_LIMIT, WINDOW};
    ///
    /// let mut core = Core::new_at(1, WINDOW, MAX_LIMIT, 1_000_000_000)?;
    /// core.admit(0, BatchBuilder::new(999_999_999, 1_000_000_000).build()?)?;
    /// core.admit(0, BatchBuilder::new(1_000_000_000, 1_000_000_001).build()?)?;
    /// assert_eq!(core.give(0)?, Some(Answer::Never(1_000_000_000)));
    /// assert!(matches!(core.give(0)?, Some(Answer::Reply(_))));
    /// # Ok::<(), Box<dyn std::error::Error>>(())
    /// ```
    pub fn new_at(
        proxies: usize,
        window: i64,
        limit: usize,
        version: i64,
    ) -> Result<Self, NewError> {
        check_proxies(proxies)?;
        check_set(window, limit)?;
        check_version(version)?;
        match resolver::Core::new_at(Global, proxies, window, limit, version) {
            Ok(core) => Ok(Core(core)),
            Err(resolver::Stop::ArenaFull) => Err(NewError::LimitAtVersion(limit)),
            Err(_) => Err(NewError::Memory),
        }
    }

    /// Takes a batch of a proxy: holds it, or answers it and the batches that waited for it.
    ///
    /// If there is no such proxy, the core is unchanged and the batch is dropped. A stop is final:
    /// every later call returns it. The answers made before it can still be given.
    pub fn admit(&mut self, proxy: usize, batch: Batch) -> Result<(), CoreError> {
        self.check_proxy(proxy)?;
        Ok(self.0.admit(proxy, batch.into_inner()).map_err(stop_of)?)
    }

    /// Answers every batch that is still held with [`Answer::Held`], in order of arrival.
    ///
    /// A stop is final, as that of [`admit`](Core::admit) is.
    pub fn finish(&mut self) -> Result<(), Stop> {
        self.0.finish().map_err(stop_of)
    }

    /// Removes and returns the oldest answer owed to a proxy, or `None` if none is owed.
    pub fn give(&mut self, proxy: usize) -> Result<Option<Answer>, CoreError> {
        self.check_proxy(proxy)?;
        Ok(self.0.give(proxy).map(Answer::over))
    }

    /// Returns the number of answers owed to all proxies.
    pub fn owed(&self) -> usize {
        self.0.owed()
    }

    /// Returns the lowest proxy that is owed an answer, or `None` if none is.
    pub fn next(&self) -> Option<usize> {
        (0..self.proxies()).find(|proxy| self.0.owes(*proxy))
    }

    /// Returns the number of batches that wait for their previous version.
    pub fn held(&self) -> usize {
        self.0.held()
    }

    /// Returns the version of the batch processed last, or that at which the core started.
    pub fn version(&self) -> i64 {
        self.0.version()
    }

    /// Returns the number of boundaries of the conflict set.
    pub fn boundaries(&self) -> usize {
        self.0.set().boundaries()
    }

    /// Returns about how many bytes of memory the conflict set has used, as
    /// [`ConflictSet::bytes_held`](crate::ConflictSet::bytes_held) does. Batches that are held and
    /// answers that are owed do not count.
    pub fn bytes_held(&self) -> usize {
        self.0.set().bytes_held()
    }

    /// Returns how many boundaries the conflict set may have.
    pub fn limit(&self) -> usize {
        self.0.set().limit()
    }

    /// Returns the edge of the conflict set: what was written below this version is forgotten, or
    /// will be.
    pub fn edge(&self) -> i64 {
        self.0.set().edge()
    }

    /// Returns the number of proxies.
    pub fn proxies(&self) -> usize {
        self.0.proxies()
    }

    /// Returns the stop, if the core has stopped.
    pub fn stop(&self) -> Option<Stop> {
        self.0.stop().map(stop_of)
    }

    fn check_proxy(&self, proxy: usize) -> Result<(), CoreError> {
        let proxies = self.proxies();
        if proxy < proxies { Ok(()) } else { Err(CoreError::Proxy { proxy, proxies }) }
    }
}

impl fmt::Debug for Core {
    fn fmt(&self, f: &mut fmt::Formatter<'_>) -> fmt::Result {
        f.debug_struct("Core")
            .field("proxies", &self.proxies())
            .field("owed", &self.owed())
            .field("stop", &self.stop())
            .finish_non_exhaustive()
    }
}

/// Why a core has taken or given nothing.
#[derive(Clone, Copy, Debug, PartialEq, Eq, Hash)]
pub enum CoreError {
    /// There is no such proxy.
    Proxy {
        /// The number of the proxy.
        proxy: usize,
        /// The number of proxies. They are numbered from 0.
        proxies: usize,
    },
    /// The core has stopped.
    Stop(Stop),
}

impl fmt::Display for CoreError {
    fn fmt(&self, f: &mut fmt::Formatter<'_>) -> fmt::Result {
        match self {
            CoreError::Proxy { proxy, proxies } => {
                write!(f, "proxy {proxy} is not one of {proxies}, numbered from 0")
            }
            CoreError::Stop(stop) => stop.fmt(f),
        }
    }
}

impl Error for CoreError {}

impl From<Stop> for CoreError {
    fn from(stop: Stop) -> Self {
        CoreError::Stop(stop)
    }
}
