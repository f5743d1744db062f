//! The allocator, and its refusals.

use std::collections::TryReserveError;
use std::io;

/// Memory was refused.
#[derive(Clone, Copy, Debug, PartialEq, Eq, Hash)]
pub struct AllocError;

/// Memory was refused. The value could not be placed, and is handed back.
#[derive(Clone, Copy, Debug, PartialEq, Eq, Hash)]
pub struct AllocFailed<T> {
    pub value: T,
}

impl From<TryReserveError> for AllocError {
    fn from(_refused: TryReserveError) -> Self {
        AllocError
    }
}

impl<T> From<AllocFailed<T>> for AllocError {
    fn from(_refused: AllocFailed<T>) -> Self {
        AllocError
    }
}

impl From<AllocError> for io::Error {
    fn from(_refused: AllocError) -> Self {
        io::ErrorKind::OutOfMemory.into()
    }
}

impl<T> From<AllocFailed<T>> for io::Error {
    fn from(_refused: AllocFailed<T>) -> Self {
        io::ErrorKind::OutOfMemory.into()
    }
}

pub trait Allocator {}

/// The allocator of the process. It takes no room, in a call from C too.
#[derive(Clone, Copy, Debug, Default, PartialEq, Eq, PartialOrd, Ord, Hash)]
#[repr(C)]
pub struct Global;

impl Allocator for Global {}
