//! Transactions before they are in a batch.

use crate::range::{Range, RangeError};

/// A transaction for a [`BatchBuilder`](crate::BatchBuilder): a snapshot, read and write ranges.
///
/// A range is given as a [`Range`] or as keys that convert into one. If they don't, or if another
/// limit is exceeded, [`BatchBuilder::build`](crate::BatchBuilder::build) reports it.
///
/// ```
/// use archcaraway::{Range, Txn};
///
/// let txn = Txn::at(41)
///     .read(("user/1/", "user/1/~"))
///     .read(b"a".as_slice()..b"b".as_slice())
///     .write(Range::single("user/1/name")?)
///     .report();
/// # Ok::<(), archcaraway::RangeError>(())
/// ```
#[derive(Clone, Debug, PartialEq, Eq)]
#[must_use = "a transaction is judged in a batch"]
pub struct Txn<'a> {
    pub(crate) snapshot: i64,
    pub(crate) report: bool,
    pub(crate) reads: Vec<Range<'a>>,
    pub(crate) writes: Vec<Range<'a>>,
    // the first keys that were no range
    pub(crate) error: Option<RangeError>,
}

impl<'a> Txn<'a> {
    /// Creates a transaction that has read at this version, without ranges.
    pub fn at(snapshot: i64) -> Self {
        Txn { snapshot, report: false, reads: Vec::new(), writes: Vec::new(), error: None }
    }

    /// Adds a read range.
    pub fn read<R>(mut self, range: R) -> Self
    where
        R: TryInto<Range<'a>, Error: Into<RangeError>>,
    {
        if let Some(range) = self.accept(range) {
            self.reads.push(range);
        }
        self
    }

    /// Adds a write range.
    pub fn write<R>(mut self, range: R) -> Self
    where
        R: TryInto<Range<'a>, Error: Into<RangeError>>,
    {
        if let Some(range) = self.accept(range) {
            self.writes.push(range);
        }
        self
    }

    /// Adds a read range of one key.
    pub fn read_key<K: AsRef<[u8]> + ?Sized>(self, key: &'a K) -> Self {
        self.read(key.as_ref())
    }

    /// Adds a write range of one key.
    pub fn write_key<K: AsRef<[u8]> + ?Sized>(self, key: &'a K) -> Self {
        self.write(key.as_ref())
    }

    /// Requests a report: if the transaction conflicts, the reply lists which read ranges do.
    pub fn report(mut self) -> Self {
        self.report = true;
        self
    }

    fn accept<R>(&mut self, range: R) -> Option<Range<'a>>
    where
        R: TryInto<Range<'a>, Error: Into<RangeError>>,
    {
        match range.try_into() {
            Ok(range) => Some(range),
            Err(error) => {
                self.error.get_or_insert(error.into());
                None
            }
        }
    }
}
