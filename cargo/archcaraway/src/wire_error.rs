//! Why bytes are no frame, or a value has none.

// Conditions of the proved functions that are called here, and after `=>` how each is met:
//
// - `wire::StdSource` of a reader
//   - a read returns at most the length of its buffer
//     => `Noting::read` refuses a greater number

use rattle_std::vec;
use std::error::Error;
use std::fmt;
use std::io::{self, Read};
use wire::WireError as Fault;

/// Why bytes are no frame of a batch or a reply, or why a value has no frame.
///
/// A decoder reports the first fault from left to right.
#[derive(Clone, Copy, Debug, PartialEq, Eq, Hash)]
pub enum WireError {
    /// The input ends inside a frame.
    Short,
    /// The body has more than 4,194,304 bytes.
    Long,
    /// The kind is not the expected one, or a verdict is none of the three.
    Kind,
    /// The body has bytes after its last field.
    Trailing,
    /// A version or a snapshot is outside its limits.
    Version,
    /// The byte that requests a report is above 1, or the indices of conflicting read ranges are
    /// too high or do not increase.
    Marks,
    /// A count is above its limit, or a verdict other than conflict has a report.
    Count,
    /// A key is too long.
    KeyLength,
    /// A begin key is after its end key.
    Inverted,
    /// The body ends inside a field.
    Cut,
    /// The form of a range is above 1.
    Form,
    /// A single key is spelled as two keys, which version 2 excludes.
    Spelling,
    /// An allocation failed.
    Memory,
    /// The reader failed, with an error of this kind.
    Read(io::ErrorKind),
}

impl fmt::Display for WireError {
    fn fmt(&self, f: &mut fmt::Formatter<'_>) -> fmt::Result {
        f.write_str(match self {
            WireError::Short => "input ends inside a frame",
            WireError::Long => "body of a frame is longer than 4,194,304 bytes",
            WireError::Kind => "frame is not of the expected kind",
            WireError::Trailing => "body has bytes after its last field",
            WireError::Version => "version or snapshot is outside its limits",
            WireError::Marks => "report is requested or listed in a wrong way",
            WireError::Count => "count is above its limit",
            WireError::KeyLength => "key is too long",
            WireError::Inverted => "begin key is after end key",
            WireError::Cut => "body ends inside a field",
            WireError::Form => "range is of an unknown form",
            WireError::Spelling => "single key is spelled as two keys",
            WireError::Memory => "allocation failed",
            WireError::Read(kind) => return write!(f, "reader failed: {kind}"),
        })
    }
}

impl Error for WireError {}

/// Returns the fault of a decoder or an encoder.
pub(crate) fn wire_error(fault: Fault) -> WireError {
    with_kind(fault, io::ErrorKind::Other)
}

// `Write` comes from no function of `wire` that is called here.
fn with_kind(fault: Fault, kind: io::ErrorKind) -> WireError {
    match fault {
        Fault::Short => WireError::Short,
        Fault::Long => WireError::Long,
        Fault::Kind => WireError::Kind,
        Fault::Trailing => WireError::Trailing,
        Fault::Version => WireError::Version,
        Fault::Marks => WireError::Marks,
        Fault::Count => WireError::Count,
        Fault::KeyLength => WireError::KeyLength,
        Fault::Inverted => WireError::Inverted,
        Fault::Cut => WireError::Cut,
        Fault::Form => WireError::Form,
        Fault::Spelling => WireError::Spelling,
        Fault::Memory => WireError::Memory,
        Fault::Read | Fault::Write => WireError::Read(kind),
    }
}

/// Returns the bytes that an encoder made. They are not copied.
pub(crate) fn into_std(encoded: Result<vec::Vec<u8>, Fault>) -> Result<Vec<u8>, WireError> {
    encoded.map(vec::Vec::into_std).map_err(wire_error)
}

/// A reader that notes the kind of its last error, and returns no more than it was asked for.
pub(crate) struct Noting<R> {
    reader: R,
    kind: io::ErrorKind,
}

impl<R> Noting<R> {
    pub(crate) fn new(reader: R) -> Self {
        Noting { reader, kind: io::ErrorKind::Other }
    }

    /// Returns the error of a function that has read from this.
    pub(crate) fn error(&self, fault: Fault) -> WireError {
        with_kind(fault, self.kind)
    }
}

impl<R: Read> Read for Noting<R> {
    fn read(&mut self, buffer: &mut [u8]) -> io::Result<usize> {
        let count = self.reader.read(buffer).and_then(|count| {
            if count > buffer.len() {
                return Err(io::ErrorKind::InvalidData.into());
            }
            Ok(count)
        });
        count.inspect_err(|error| self.kind = error.kind())
    }
}
