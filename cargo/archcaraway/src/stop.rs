//! Why nothing is made, and why nothing more is taken.

use crate::{MAX_CAPACITY, MAX_LIMIT, MAX_PROXIES, MAX_WINDOW};
use conflict::SetStop;
use std::error::Error;
use std::fmt;

/// Why a set, a core or a resolver takes no more batches. A stop is final.
#[derive(Clone, Copy, Debug, PartialEq, Eq, Hash)]
pub enum Stop {
    /// An allocation failed.
    Memory,
    /// A batch came too early, and 1,024 such batches are held already. A conflict set never stops
    /// for this.
    GateFull,
    /// The writes within the window need more boundaries than the limit.
    ArenaFull,
}

impl fmt::Display for Stop {
    fn fmt(&self, f: &mut fmt::Formatter<'_>) -> fmt::Result {
        f.write_str(match self {
            Stop::Memory => "allocation failed",
            Stop::GateFull => "too many batches wait for their previous version",
            Stop::ArenaFull => "writes within the window exceed the limit of boundaries",
        })
    }
}

impl Error for Stop {}

pub(crate) fn stop_of_set(stop: SetStop) -> Stop {
    match stop {
        SetStop::Memory => Stop::Memory,
        SetStop::ArenaFull => Stop::ArenaFull,
    }
}

pub(crate) fn stop_of(stop: resolver::Stop) -> Stop {
    match stop {
        resolver::Stop::Memory => Stop::Memory,
        resolver::Stop::GateFull => Stop::GateFull,
        resolver::Stop::ArenaFull => Stop::ArenaFull,
    }
}

/// Why no set, core or resolver is made.
#[derive(Clone, Copy, Debug, PartialEq, Eq, Hash)]
pub enum NewError {
    /// The number of proxies is not 1 to [`MAX_PROXIES`].
    Proxies(usize),
    /// The capacity of the lanes is not 1 to [`MAX_CAPACITY`].
    Capacity(usize),
    /// The window is not 1 to [`MAX_WINDOW`] versions.
    Window(i64),
    /// The limit is not 1 to [`MAX_LIMIT`] boundaries.
    Limit(usize),
    /// The limit is below 3, which a start at a version other than -1 needs.
    LimitAtVersion(usize),
    /// The version to start at is below -1.
    Version(i64),
    /// An allocation failed.
    Memory,
}

impl fmt::Display for NewError {
    fn fmt(&self, f: &mut fmt::Formatter<'_>) -> fmt::Result {
        match self {
            NewError::Proxies(found) => write!(f, "{found} proxies are not 1 to {MAX_PROXIES}"),
            NewError::Capacity(found) => write!(f, "capacity {found} is not 1 to {MAX_CAPACITY}"),
            NewError::Window(found) => write!(f, "window {found} is not 1 to {MAX_WINDOW}"),
            NewError::Limit(found) => write!(f, "limit {found} is not 1 to {MAX_LIMIT}"),
            NewError::LimitAtVersion(found) => {
                write!(f, "limit {found} is below 3, too small for a start at a version")
            }
            NewError::Version(found) => write!(f, "version {found} is below -1"),
            NewError::Memory => f.write_str("allocation failed"),
        }
    }
}

impl Error for NewError {}

pub(crate) fn check_proxies(proxies: usize) -> Result<(), NewError> {
    check((1..=MAX_PROXIES).contains(&proxies), NewError::Proxies(proxies))
}

pub(crate) fn check_capacity(capacity: usize) -> Result<(), NewError> {
    check((1..=MAX_CAPACITY).contains(&capacity), NewError::Capacity(capacity))
}

/// Checks the window, and then the limit.
pub(crate) fn check_set(window: i64, limit: usize) -> Result<(), NewError> {
    check_window(window)?;
    check((1..=MAX_LIMIT).contains(&limit), NewError::Limit(limit))
}

pub(crate) fn check_window(window: i64) -> Result<(), NewError> {
    check((1..=MAX_WINDOW).contains(&window), NewError::Window(window))
}

pub(crate) fn check_version(version: i64) -> Result<(), NewError> {
    check(version >= -1, NewError::Version(version))
}

fn check(holds: bool, error: NewError) -> Result<(), NewError> {
    if holds { Ok(()) } else { Err(error) }
}
