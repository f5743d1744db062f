//! Half-open ranges of keys.

use crate::{MAX_KEY_LENGTH, MAX_SINGLE_KEY_LENGTH};
use keyspace::RangeRef;
use std::borrow::Cow;
use std::convert::Infallible;
use std::error::Error;
use std::{fmt, ops};

/// The keys from `begin`, included, to `end`, excluded. The range is empty if the two are equal.
///
/// A range borrows its keys or owns them. Its limits are checked when it is made: a key has at most
/// [`MAX_KEY_LENGTH`] bytes, and `begin` is not after `end`.
///
/// ```
/// use archcaraway::{Range, RangeError};
///
/// assert_eq!(Range::new("k", "k\0")?, Range::single("k")?);
/// assert_eq!(Range::new(b"b", b"a"), Err(RangeError::Inverted));
/// # Ok::<(), RangeError>(())
/// ```
#[derive(Clone, PartialEq, Eq, Hash)]
pub struct Range<'a> {
    keys: Keys<'a>,
}

// A range of one key is always `Single`, so equality can be derived.
#[derive(Clone, PartialEq, Eq, Hash)]
pub(crate) enum Keys<'a> {
    Single(Cow<'a, [u8]>),
    Between(Cow<'a, [u8]>, Cow<'a, [u8]>),
}

impl<'a> Range<'a> {
    /// Creates the range `[begin, end)`, which borrows both keys.
    pub fn new<B, E>(begin: &'a B, end: &'a E) -> Result<Self, RangeError>
    where
        B: AsRef<[u8]> + ?Sized,
        E: AsRef<[u8]> + ?Sized,
    {
        between(begin.as_ref().into(), end.as_ref().into())
    }

    /// Creates the range of one key, up to the key right after it, and borrows the key.
    ///
    /// The key has at most [`MAX_SINGLE_KEY_LENGTH`] bytes.
    pub fn single<K: AsRef<[u8]> + ?Sized>(key: &'a K) -> Result<Self, RangeError> {
        single(key.as_ref().into())
    }

    /// Returns the first key of the range.
    pub fn begin(&self) -> &[u8] {
        match &self.keys {
            Keys::Single(key) | Keys::Between(key, _) => key,
        }
    }

    /// Returns the key at which the range ends. It is allocated if the range is a single key.
    pub fn end(&self) -> Cow<'_, [u8]> {
        match &self.keys {
            Keys::Single(key) => Cow::Owned([key, &[0][..]].concat()),
            Keys::Between(_, end) => Cow::Borrowed(end),
        }
    }

    /// Returns whether the range has no key.
    pub fn is_empty(&self) -> bool {
        matches!(&self.keys, Keys::Between(begin, end) if begin == end)
    }

    /// Returns whether the range is a single key.
    pub fn is_single(&self) -> bool {
        matches!(self.keys, Keys::Single(_))
    }

    /// Returns the same range with owned keys. Borrowed keys are copied.
    pub fn into_owned(self) -> Range<'static> {
        let keys = match self.keys {
            Keys::Single(key) => Keys::Single(owned(key)),
            Keys::Between(begin, end) => Keys::Between(owned(begin), owned(end)),
        };
        Range { keys }
    }

    pub(crate) fn keys(&self) -> &Keys<'a> {
        &self.keys
    }

    // The range of a batch has the limits already.
    pub(crate) fn of(range: &RangeRef<'a>) -> Self {
        let begin = Cow::Borrowed(range.begin());
        let keys = if range.is_single() {
            Keys::Single(begin)
        } else {
            Keys::Between(begin, Cow::Borrowed(range.end()))
        };
        Range { keys }
    }
}

impl Range<'static> {
    /// Creates the range `[begin, end)`, which takes both keys.
    pub fn owned(begin: impl Into<Vec<u8>>, end: impl Into<Vec<u8>>) -> Result<Self, RangeError> {
        between(Cow::Owned(begin.into()), Cow::Owned(end.into()))
    }

    /// Creates the range of one key, as [`Range::single`] does, and takes the key.
    pub fn owned_single(key: impl Into<Vec<u8>>) -> Result<Self, RangeError> {
        single(Cow::Owned(key.into()))
    }
}

fn between<'a>(begin: Cow<'a, [u8]>, end: Cow<'a, [u8]>) -> Result<Range<'a>, RangeError> {
    check_length(&begin, MAX_KEY_LENGTH)?;
    check_length(&end, MAX_KEY_LENGTH)?;
    if end < begin {
        return Err(RangeError::Inverted);
    }
    let keys = match end.split_last() {
        Some((0, front)) if *front == *begin => Keys::Single(begin),
        _ => Keys::Between(begin, end),
    };
    Ok(Range { keys })
}

fn single(key: Cow<'_, [u8]>) -> Result<Range<'_>, RangeError> {
    check_length(&key, MAX_SINGLE_KEY_LENGTH)?;
    Ok(Range { keys: Keys::Single(key) })
}

fn check_length(key: &[u8], limit: usize) -> Result<(), RangeError> {
    let length = key.len();
    if length > limit {
        return Err(RangeError::KeyLength { length, limit });
    }
    Ok(())
}

fn owned(key: Cow<'_, [u8]>) -> Cow<'static, [u8]> {
    Cow::Owned(key.into_owned())
}

impl<'a, B, E> TryFrom<(&'a B, &'a E)> for Range<'a>
where
    B: AsRef<[u8]> + ?Sized,
    E: AsRef<[u8]> + ?Sized,
{
    type Error = RangeError;

    fn try_from((begin, end): (&'a B, &'a E)) -> Result<Self, RangeError> {
        Range::new(begin, end)
    }
}

impl<'a, K: AsRef<[u8]> + ?Sized> TryFrom<ops::Range<&'a K>> for Range<'a> {
    type Error = RangeError;

    fn try_from(keys: ops::Range<&'a K>) -> Result<Self, RangeError> {
        Range::new(keys.start, keys.end)
    }
}

impl TryFrom<(Vec<u8>, Vec<u8>)> for Range<'static> {
    type Error = RangeError;

    fn try_from((begin, end): (Vec<u8>, Vec<u8>)) -> Result<Self, RangeError> {
        Range::owned(begin, end)
    }
}

impl TryFrom<ops::Range<Vec<u8>>> for Range<'static> {
    type Error = RangeError;

    fn try_from(keys: ops::Range<Vec<u8>>) -> Result<Self, RangeError> {
        Range::owned(keys.start, keys.end)
    }
}

/// The single key of these bytes.
impl<'a> TryFrom<&'a [u8]> for Range<'a> {
    type Error = RangeError;

    fn try_from(key: &'a [u8]) -> Result<Self, RangeError> {
        Range::single(key)
    }
}

impl fmt::Debug for Range<'_> {
    fn fmt(&self, f: &mut fmt::Formatter<'_>) -> fmt::Result {
        let (begin, end) = (self.begin(), self.end());
        write!(f, "[\"{}\", \"{}\")", begin.escape_ascii(), end.escape_ascii())
    }
}

/// Why two keys are no range.
#[derive(Clone, Copy, Debug, PartialEq, Eq, Hash)]
pub enum RangeError {
    /// A key is too long.
    KeyLength {
        /// The length of the key, in bytes.
        length: usize,
        /// The greatest length that it may have: [`MAX_KEY_LENGTH`], or [`MAX_SINGLE_KEY_LENGTH`]
        /// for a single key.
        limit: usize,
    },
    /// The begin key is after the end key.
    Inverted,
}

impl fmt::Display for RangeError {
    fn fmt(&self, f: &mut fmt::Formatter<'_>) -> fmt::Result {
        match self {
            RangeError::KeyLength { length, limit } => {
                write!(f, "key of {length} bytes is longer than {limit} bytes")
            }
            RangeError::Inverted => f.write_str("begin key is after end key"),
        }
    }
}

impl Error for RangeError {}

// So that a call may take a `Range` itself where it takes what converts into one.
impl From<Infallible> for RangeError {
    fn from(never: Infallible) -> Self {
        match never {}
    }
}
