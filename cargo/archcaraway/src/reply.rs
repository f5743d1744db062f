//! Replies: the verdicts on a batch, with the read ranges in conflict.

// Conditions of the proved functions that are called here, and after `=>` how each is met:
//
// - `wire::decode_reply`, `encode_reply`, `read_reply`
//   - none beside that of their reader
//     => `wire_error`
// - `keyspace::Reply::copy`, `Places::as_slice`, `Sequence::as_slice`: none

use crate::wire_error::{Noting, WireError, into_std, wire_error};
use keyspace::Entry;
use rattle_std::alloc::Global;
use std::alloc::{Layout, handle_alloc_error};
use std::fmt;
use std::io::Read;

/// The verdict on a transaction.
#[derive(Clone, Copy, Debug, PartialEq, Eq, Hash)]
pub enum Verdict {
    /// The transaction may commit. Its writes count for the transactions after it.
    Committed,
    /// A read range overlaps a write that the transaction's snapshot does not include.
    Conflict,
    /// The transaction has a read range, and its snapshot is older than the window.
    TooOld,
}

impl fmt::Display for Verdict {
    fn fmt(&self, f: &mut fmt::Formatter<'_>) -> fmt::Result {
        f.pad(match self {
            Verdict::Committed => "committed",
            Verdict::Conflict => "conflict",
            Verdict::TooOld => "too old",
        })
    }
}

impl From<keyspace::Verdict> for Verdict {
    fn from(verdict: keyspace::Verdict) -> Self {
        match verdict {
            keyspace::Verdict::Committed => Verdict::Committed,
            keyspace::Verdict::Conflict => Verdict::Conflict,
            keyspace::Verdict::TooOld => Verdict::TooOld,
        }
    }
}

/// The reply to a batch: a verdict on each transaction, in the order of the batch.
///
/// Like those of std's collections, its `Clone` ends the process if an allocation fails.
pub struct Reply(keyspace::Reply);

impl Reply {
    /// Reads the frame at the front of the bytes. Returns its reply and the length of the frame.
    pub fn decode(bytes: &[u8]) -> Result<(Self, usize), WireError> {
        let (reply, length) = wire::decode_reply(Global, bytes).map_err(wire_error)?;
        Ok((Reply(reply), length))
    }

    /// Reads the next frame of a reader, and no byte after it.
    ///
    /// Returns `None` if the input ends before the frame begins.
    pub fn read(reader: impl Read) -> Result<Option<Self>, WireError> {
        let mut noting = Noting::new(reader);
        let found = wire::read_reply(Global, &mut wire::StdSource::new(&mut noting));
        Ok(found.map_err(|fault| noting.error(fault))?.map(Reply))
    }

    /// Returns the reply as a frame.
    ///
    /// The only errors are [`WireError::Memory`] and [`WireError::Long`]. The reply to a batch that
    /// has a frame is never too long.
    pub fn encode(&self) -> Result<Vec<u8>, WireError> {
        into_std(wire::encode_reply(Global, &self.0))
    }

    /// Returns the version of the batch.
    pub fn version(&self) -> i64 {
        self.0.version
    }

    /// Returns the number of verdicts, which is that of the batch's transactions.
    pub fn len(&self) -> usize {
        self.entries().len()
    }

    /// Returns whether there are no verdicts.
    pub fn is_empty(&self) -> bool {
        self.entries().is_empty()
    }

    /// Returns the verdicts, in the order of the transactions.
    pub fn verdicts(&self) -> impl ExactSizeIterator<Item = Verdict> + DoubleEndedIterator {
        self.entries().iter().map(|entry| entry.verdict.into())
    }

    /// Returns the verdict on the transaction at an index, or `None` if there is none.
    pub fn verdict(&self, index: usize) -> Option<Verdict> {
        self.entries().get(index).map(|entry| entry.verdict.into())
    }

    /// Returns the report of the transaction at an index: which of its read ranges conflict, as
    /// increasing indices.
    ///
    /// There are none unless the transaction requests a report and its verdict is
    /// [`Verdict::Conflict`].
    pub fn conflicts(
        &self,
        index: usize,
    ) -> impl ExactSizeIterator<Item = usize> + DoubleEndedIterator {
        let entry = self.entries().get(index);
        let places = entry.map_or(&[][..], |entry| entry.places.as_slice());
        places.iter().map(|place| usize::from(*place))
    }

    pub(crate) fn over(reply: keyspace::Reply) -> Self {
        Reply(reply)
    }

    pub(crate) fn into_inner(self) -> keyspace::Reply {
        self.0
    }

    fn entries(&self) -> &[Entry] {
        self.0.entries.as_slice()
    }
}

impl Clone for Reply {
    fn clone(&self) -> Self {
        let copied = self.0.copy(Global);
        Reply(copied.unwrap_or_else(|_| handle_alloc_error(Layout::new::<Self>())))
    }
}

impl PartialEq for Reply {
    fn eq(&self, other: &Self) -> bool {
        fn parts(entry: &Entry) -> (keyspace::Verdict, &[u16]) {
            (entry.verdict, entry.places.as_slice())
        }
        self.version() == other.version()
            && self.entries().iter().map(parts).eq(other.entries().iter().map(parts))
    }
}

impl Eq for Reply {}

impl fmt::Debug for Reply {
    fn fmt(&self, f: &mut fmt::Formatter<'_>) -> fmt::Result {
        let entries = (0..self.len()).map(|index| (self.verdict(index), self.conflicts(index)));
        let shown = entries
            .filter_map(|(verdict, conflicts)| Some((verdict?, conflicts.collect::<Vec<_>>())));
        f.debug_struct("Reply")
            .field("version", &self.version())
            .field("verdicts", &shown.collect::<Vec<_>>())
            .finish()
    }
}

/// What a proxy receives for a batch.
#[derive(Clone, Debug, PartialEq, Eq)]
pub enum Answer {
    /// The reply to the batch.
    Reply(Reply),
    /// The batch of this version is a repeat whose reply is no longer kept: no reply will come.
    Never(i64),
    /// The batch of this version was still held when all input had ended.
    Held(i64),
}

impl Answer {
    /// Returns the version of the batch that is answered.
    pub fn version(&self) -> i64 {
        match self {
            Answer::Reply(reply) => reply.version(),
            Answer::Never(version) | Answer::Held(version) => *version,
        }
    }

    /// Returns the reply, if there is one.
    pub fn reply(&self) -> Option<&Reply> {
        match self {
            Answer::Reply(reply) => Some(reply),
            Answer::Never(_) | Answer::Held(_) => None,
        }
    }

    pub(crate) fn over(answer: keyspace::Answer) -> Self {
        match answer {
            keyspace::Answer::Reply(reply) => Answer::Reply(Reply::over(reply)),
            keyspace::Answer::Never(version) => Answer::Never(version),
            keyspace::Answer::Held(version) => Answer::Held(version),
        }
    }
}
