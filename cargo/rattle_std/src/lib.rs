//! What the erased crates use of the proved toolchain's `std` and crates, over Rust's own.
//!
//! Each module has the name and the calls of the one that it replaces. Nothing here is proved: the
//! crate's own tests and the comparison of both editions test it.
#![forbid(unsafe_code)]

#[macro_use]
mod macros;

pub mod alloc;
pub mod arrayvec;
pub mod atomic_table;
pub mod boxed;
pub mod byteorder;
mod casts;
pub mod clap;
pub mod collections;
pub mod crossbeam_utils;
pub mod env;
pub mod fs;
pub mod hex;
pub mod io;
pub mod itoa;
pub mod json;
pub mod rt;
pub mod snapshot;
pub mod string;
pub mod sync;
pub mod thread;
pub mod vec;

pub use std::{
    array, cell, cmp, convert, error, fmt, hash, iter, marker, mem, num, ops, os, process, slice,
    str, time,
};

/// The names that each erased file has in scope.
pub mod prelude {
    pub use crate::boxed::Box;
    pub use crate::casts::CastUnsigned;
    pub use crate::rt::{AllocGlobal, Eprint, HostRuntime, Input};
    pub use crate::string::String;
    pub use crate::vec::{SliceWith, Vec};
}
