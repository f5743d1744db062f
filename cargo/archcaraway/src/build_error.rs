//! Why a batch was not built.

use crate::range::RangeError;
use crate::{MAX_RANGES, MAX_TXNS};
use std::error::Error;
use std::fmt;

/// Why a batch was not built. `txn` is the index of the transaction at fault.
#[derive(Clone, Copy, Debug, PartialEq, Eq, Hash)]
pub enum BuildError {
    /// The previous version is below -1.
    Previous {
        /// The previous version.
        previous: i64,
    },
    /// The version is not above the previous version.
    Version {
        /// The previous version.
        previous: i64,
        /// The version.
        version: i64,
    },
    /// The last received version is below -1, or not below the version.
    Received {
        /// The last received version.
        received: i64,
        /// The version.
        version: i64,
    },
    /// There are more than [`MAX_TXNS`] transactions.
    TxnCount,
    /// A snapshot is negative.
    Snapshot {
        /// The index of the transaction.
        txn: usize,
        /// Its snapshot.
        snapshot: i64,
    },
    /// Keys are no range.
    Range {
        /// The index of the transaction.
        txn: usize,
        /// What is wrong with its first such keys.
        error: RangeError,
    },
    /// A transaction has more than [`MAX_RANGES`] read ranges.
    ReadCount {
        /// The index of the transaction.
        txn: usize,
        /// The number of its read ranges.
        count: usize,
    },
    /// A transaction has more than [`MAX_RANGES`] write ranges.
    WriteCount {
        /// The index of the transaction.
        txn: usize,
        /// The number of its write ranges.
        count: usize,
    },
    /// The keys have more than 4 GiB together.
    KeyBytes,
    /// An allocation failed.
    Memory,
}

impl fmt::Display for BuildError {
    fn fmt(&self, f: &mut fmt::Formatter<'_>) -> fmt::Result {
        match self {
            BuildError::Previous { previous } => {
                write!(f, "previous version {previous} is below -1")
            }
            BuildError::Version { previous, version } => {
                write!(f, "version {version} is not above previous version {previous}")
            }
            BuildError::Received { received, version } => write!(
                f,
                "last received version {received} is below -1 or not below version {version}"
            ),
            BuildError::TxnCount => write!(f, "batch has more than {MAX_TXNS} transactions"),
            BuildError::Snapshot { txn, snapshot } => {
                write!(f, "transaction {txn}: snapshot {snapshot} is negative")
            }
            BuildError::Range { txn, error } => write!(f, "transaction {txn}: {error}"),
            BuildError::ReadCount { txn, count } => {
                write!(f, "transaction {txn}: {count} read ranges, more than {MAX_RANGES}")
            }
            BuildError::WriteCount { txn, count } => {
                write!(f, "transaction {txn}: {count} write ranges, more than {MAX_RANGES}")
            }
            BuildError::KeyBytes => f.write_str("keys have more than 4 GiB together"),
            BuildError::Memory => f.write_str("allocation failed"),
        }
    }
}

impl Error for BuildError {}
