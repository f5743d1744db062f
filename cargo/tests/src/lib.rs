//! What the tests share: random cases, and simple models that know nothing of the crates'
//! structures.
//!
//! - [`plain`]: batches and replies as plain vectors.
//! - [`scan`]: the verdicts of `docs/FOUNDATIONDB.md`, by a scan over all committed writes.
//! - [`reference`]: the chain rules of that page, over the scan.
//! - [`steps`]: the step function of that page, over a `BTreeMap`.
//! - [`spelling`]: frames, read and written by the tables of `docs/WIRE.md`.
//! - [`notation`]: batches and answers as the worked rows write them.
//! - [`failing`]: a writer that fails.
//! - [`printing`]: lines of answers, and how a run has ended, in words.
//! - [`playing`]: runs of `replay` over readers in memory.
//! - [`shelf`]: the complete program `replay`, over files in memory.
#![forbid(unsafe_code)]

pub mod cases;
pub mod drawn;
pub mod failing;
pub mod notation;
pub mod plain;
pub mod playing;
pub mod printing;
pub mod random;
pub mod reference;
pub mod scan;
pub mod shelf;
pub mod spelling;
pub mod steps;
