//! What refusals and structures print.

use arena::{Arena, ArenaError};
use chain::ChainError;
use conflict::SetStop;
use keys::KeyError;
use keyspace::LimitError;
use lane::LaneError;
use rattle_std::alloc::Global;
use resolver::{OpenError, Stop};
use std::fmt::Display;
use stepmap::StepError;
use wire::WireError;

fn printed<T: Display>(rows: &[(T, &str)]) {
    for (refusal, text) in rows {
        assert_eq!(refusal.to_string(), *text);
    }
}

#[test]
fn refusals_of_wire() {
    printed(&[
        (WireError::Short, "1 Short"),
        (WireError::Long, "2 Long"),
        (WireError::Kind, "3 Kind"),
        (WireError::Trailing, "4 Trailing"),
        (WireError::Version, "5 Version"),
        (WireError::Marks, "6 Marks"),
        (WireError::Count, "7 Count"),
        (WireError::KeyLength, "8 KeyLength"),
        (WireError::Inverted, "9 Inverted"),
        (WireError::Cut, "10 Cut"),
        (WireError::Memory, "11 Memory"),
        (WireError::Read, "12 Read"),
        (WireError::Form, "13 Form"),
        (WireError::Spelling, "14 Spelling"),
        (WireError::Write, "15 Write"),
    ]);
}

#[test]
fn refusals_of_structures() {
    printed(&[(ArenaError::Memory, "1 Memory"), (ArenaError::TooLong, "2 TooLong")]);
    printed(&[(ChainError::Memory, "1 Memory"), (ChainError::GateFull, "2 GateFull")]);
    printed(&[(LaneError::Memory, "1 Memory")]);
    printed(&[(StepError::Memory, "1 Memory"), (StepError::Full, "2 Full")]);
}

#[test]
fn stops() {
    printed(&[(SetStop::Memory, "1 Memory"), (SetStop::ArenaFull, "2 ArenaFull")]);
    printed(&[
        (Stop::Memory, "1 Memory"),
        (Stop::GateFull, "2 GateFull"),
        (Stop::ArenaFull, "3 ArenaFull"),
    ]);
    printed(&[(OpenError::Memory, "1 Memory")]);
}

#[test]
fn limits_of_values() {
    printed(&[
        (KeyError::KeyLength, "key is longer than 10,001 bytes"),
        (KeyError::Inverted, "begin is after end"),
    ]);
    printed(&[
        (LimitError::Version, "version or snapshot is outside its limits"),
        (LimitError::Count, "too many transactions or ranges"),
        (LimitError::Memory, "memory was refused"),
    ]);
}

/// An arena prints the number of its live records. The second record is in the chunk of the first.
#[test]
fn arena_prints_its_count() {
    let mut arena: Arena<u32> = Arena::new(Global);
    for (key, text) in [(&b"key"[..], "Arena { live: 1 }"), (b"another", "Arena { live: 2 }")] {
        arena.place(1, key).expect("memory is ample");
        assert_eq!(format!("{arena:?}"), text);
    }
}
