//! Batches from transactions.

// Conditions of the proved functions that are called by way of `Tables`, and after `=>` how each is
// met:
//
// - `keyspace::Batch::new`
//   - `previous_from`, `rises`, `received_from`, `received_before`
//     => `check_versions`

use crate::MAX_TXNS;
use crate::batch::Batch;
use crate::build_error::BuildError;
use crate::tables::Tables;
use crate::txn::Txn;

/// Makes a [`Batch`] from its versions and transactions.
///
/// The first limit that [`txn`](BatchBuilder::txn) exceeds is kept, and
/// [`build`](BatchBuilder::build) reports it. [`add`](BatchBuilder::add) and
/// [`append`](BatchBuilder::append) report theirs at once and leave the builder as it was, so that
/// a bad transaction spoils nothing.
///
/// ```
/// use archcaraway::{BatchBuilder, BuildError, Txn};
///
/// let batch = BatchBuilder::new(100, 200)
///     .received(100)
///     .txn(Txn::at(150).read(("a", "b")).write_key("k").report())
///     .build()?;
/// assert_eq!(batch.len(), 1);
///
/// let refused = BatchBuilder::new(200, 300).txn(Txn::at(-1)).build();
/// assert_eq!(refused.unwrap_err(), BuildError::Snapshot { txn: 0, snapshot: -1 });
/// # Ok::<(), BuildError>(())
/// ```
#[derive(Clone, Debug)]
#[must_use = "a batch is made by `build`"]
pub struct BatchBuilder {
    previous: i64,
    version: i64,
    received: i64,
    tables: Tables,
    error: Option<BuildError>,
}

impl BatchBuilder {
    /// Begins the batch that follows version `previous` on the chain and commits at `version`.
    ///
    /// The first batch of a chain has `previous` -1.
    pub fn new(previous: i64, version: i64) -> Self {
        BatchBuilder { previous, version, received: -1, tables: Tables::default(), error: None }
    }

    /// Sets the last version whose reply the proxy has received, which is -1 at first.
    ///
    /// A [`Core`](crate::Core) or [`Resolver`](crate::Resolver) drops the proxy's kept replies up
    /// to this version.
    pub fn received(mut self, received: i64) -> Self {
        self.received = received;
        self
    }

    /// Adds a transaction. Transactions are judged in the order in which they are added.
    pub fn txn(mut self, txn: Txn<'_>) -> Self {
        if self.error.is_none() {
            self.error = self.tables.add(&txn).err();
        }
        self
    }

    /// Adds transactions in order.
    pub fn txns<'a>(self, txns: impl IntoIterator<Item = Txn<'a>>) -> Self {
        txns.into_iter().fold(self, BatchBuilder::txn)
    }

    /// Adds a transaction after the others, or reports the limit that it exceeds. Then the builder
    /// is as before, and [`build`](BatchBuilder::build) doesn't report it.
    ///
    /// ```
    /// use archcaraway::{BatchBuilder, BuildError, MAX_TXNS, Txn};
    ///
    /// let mut builder = BatchBuilder::new(-1, 100);
    /// builder.add(&Txn::at(0).write_key("a"))?;
    /// let refused = builder.add(&Txn::at(0).read(("b", "a")));
    /// assert!(matches!(refused, Err(BuildError::Range { txn: 1, .. })));
    /// builder.add(&Txn::at(0).write_key("b"))?;
    /// builder.drop_last();
    /// assert_eq!((builder.len(), builder.room()), (1, MAX_TXNS - 1));
    /// assert_eq!(builder.build()?.len(), 1);
    /// # Ok::<(), BuildError>(())
    /// ```
    pub fn add(&mut self, txn: &Txn<'_>) -> Result<(), BuildError> {
        self.tables.add(txn)
    }

    /// Appends the transactions of another builder, which another thread may have filled, and which
    /// keeps them. Its versions are not looked at.
    ///
    /// Reports the limit that the other builder has kept, or that all transactions exceed together.
    /// Then this builder is as before.
    pub fn append(&mut self, other: &BatchBuilder) -> Result<(), BuildError> {
        match other.error {
            Some(error) => Err(error),
            None => self.tables.append(&other.tables),
        }
    }

    /// Removes the last transaction, if there is one.
    pub fn drop_last(&mut self) {
        self.tables.cut(self.len().saturating_sub(1));
    }

    /// Returns the number of transactions.
    pub fn len(&self) -> usize {
        self.tables.len()
    }

    /// Returns `true` if there are no transactions.
    pub fn is_empty(&self) -> bool {
        self.len() == 0
    }

    /// Returns how many more transactions may be added.
    pub fn room(&self) -> usize {
        MAX_TXNS - self.len()
    }

    /// Makes the batch, or reports the first limit that is exceeded: of the versions, then of the
    /// transactions in order.
    pub fn build(self) -> Result<Batch, BuildError> {
        self.check_versions()?;
        match self.error {
            Some(error) => Err(error),
            None => self.tables.batch(self.previous, self.version, self.received),
        }
    }

    fn check_versions(&self) -> Result<(), BuildError> {
        let Self { previous, version, received, .. } = *self;
        if previous < -1 {
            return Err(BuildError::Previous { previous });
        }
        if version <= previous {
            return Err(BuildError::Version { previous, version });
        }
        if received < -1 || version <= received {
            return Err(BuildError::Received { received, version });
        }
        Ok(())
    }
}
