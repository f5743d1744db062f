//! Archcaraway is a transaction resolver: the part of FoundationDB 7.1 that decides whether each
//! transaction of a batch commits, by its read and write conflict ranges. Its sources are proved in
//! Rattle, which is Rust with contracts. rustc compiles this edition from the same sources, with
//! the clauses erased. **This edition is tested, not proved.**
//!
//! The crate is for the commit path of a database with optimistic concurrency control. It has no
//! network, no persistence and no recovery. Each condition of the proved functions that it calls is
//! checked at run time, and reported as an error if it does not hold.
//!
//! | item | use it if |
//! |---|---|
//! | [`ConflictSet`] | you have one chain of versions, and give each batch once, in order |
//! | [`Core`] | you have many proxies in one thread, whose batches come early, late or twice |
//! | [`open`], [`open_at`], [`Resolver`], [`Client`] | you have many proxies, each in a thread |
//! | [`SplitPoints`], [`combine`] | you have several resolvers, each for a range of keys |
//! | [`History`] | you want to know which write a transaction conflicts with |
//!
//! A [`BatchBuilder`] makes a [`Batch`] of [`Txn`]s with [`Range`]s. A [`Reply`] has a [`Verdict`]
//! for each transaction. The proxies of a core or a resolver receive it in an [`Answer`].
//!
//! If an allocation fails, a call returns an error. As in Rust's own collections, some calls end
//! the process instead: adding a range to a [`Txn`], cloning, [`open`] and [`open_at`].
//!
//! # Judge a batch
//!
//! ```
//! use archcaraway::{BatchBuilder, ConflictSet, MAX_LIMIT, Txn, Verdict, WINDOW};
//!
//! let mut set = ConflictSet::new(WINDOW, MAX_LIMIT)?;
//! let first = BatchBuilder::new(-1, 100)
//!     .txn(Txn::at(0).write(("a", "b")).write(("e", "f")))
//!     .build()?;
//! set.resolve(&first)?;
//!
//! let second = BatchBuilder::new(100, 200)
//!     .txn(Txn::at(99).read(("a", "b")).read(("c", "d")).read(("e", "f")).report())
//!     .txn(Txn::at(100).read(("a", "b")).write_key("c"))
//!     .txn(Txn::at(200).read(("c", "d")))
//!     .build()?;
//! let reply = set.resolve(&second)?;
//! let verdicts: Vec<Verdict> = reply.verdicts().collect();
//! assert_eq!(verdicts, [Verdict::Conflict, Verdict::Committed, Verdict::Conflict]);
//! // Two read ranges of the first transaction overlap writes above its snapshot.
//! assert!(reply.conflicts(0).eq([0, 2]));
//! # Ok::<(), Box<dyn std::error::Error>>(())
//! ```
//!
//! # Many proxies in threads
//!
//! ```
//! use archcaraway::{Answer, BatchBuilder, MAX_LIMIT, Txn, Verdict, WINDOW, open};
//! use std::thread;
//!
//! let (mut resolver, mut clients) = open(3, 16, WINDOW, MAX_LIMIT)?;
//! thread::scope(|scope| {
//!     scope.spawn(|| resolver.run());
//!     for client in &mut clients {
//!         scope.spawn(move || {
//!             // The chain is -1, 10, 20, ..., and proxy 0 has the first batch, proxy 1 the next.
//!             for turn in 0..100 {
//!                 let number = 3 * turn + client.proxy() as i64;
//!                 let previous = if number == 0 { -1 } else { 10 * number };
//!                 let batch = BatchBuilder::new(previous, 10 * (number + 1))
//!                     .txn(Txn::at(0).write_key("k"))
//!                     .build()
//!                     .expect("it is within the limits");
//!                 client.send(batch).expect("the resolver runs");
//!                 let Some(Answer::Reply(reply)) = client.receive() else {
//!                     panic!("the chain has no gap");
//!                 };
//!                 assert_eq!(reply.verdict(0), Some(Verdict::Committed));
//!             }
//!             client.close();
//!             assert_eq!(client.receive(), None);
//!         });
//!     }
//! });
//! assert!(resolver.settle(&mut clients)?.complete);
//! # Ok::<(), Box<dyn std::error::Error>>(())
//! ```
//!
//! # Frames in and out
//!
//! ```
//! use archcaraway::{Batch, BatchBuilder, ConflictSet, MAX_LIMIT, Reply, Txn, WINDOW};
//! use std::io::Write;
//!
//! let mut input = Vec::new();
//! let batch = BatchBuilder::new(-1, 100).txn(Txn::at(0).write(("a", "b"))).build()?;
//! input.write_all(&batch.encode()?)?;
//! let batch = BatchBuilder::new(100, 200).txn(Txn::at(0).read_key("a")).build()?;
//! input.write_all(&batch.encode_version_1()?)?;
//!
//! let mut set = ConflictSet::new(WINDOW, MAX_LIMIT)?;
//! let mut output = Vec::new();
//! let mut reader = &input[..];
//! while let Some(batch) = Batch::read(&mut reader)? {
//!     output.write_all(&set.resolve(&batch)?.encode()?)?;
//! }
//!
//! let (first, length) = Reply::decode(&output)?;
//! let (second, _) = Reply::decode(&output[length..])?;
//! assert_eq!((first.version(), second.version()), (100, 200));
//! # Ok::<(), Box<dyn std::error::Error>>(())
//! ```

#![forbid(unsafe_code)]
#![warn(missing_docs, missing_debug_implementations)]

mod batch;
mod build_error;
mod builder;
mod client;
mod combining;
mod conflict_set;
mod history;
mod range;
mod reply;
mod resolver_core;
mod service;
mod split_points;
mod stop;
mod tables;
mod txn;
mod waiting;
mod wire_error;

pub use batch::{Batch, TxnRef};
pub use build_error::BuildError;
pub use builder::BatchBuilder;
pub use client::{Client, TryReceiveError, TrySendError};
pub use combining::{CombineError, ShardReply, combine};
pub use conflict_set::{ConflictSet, ResolveError, TrimError};
pub use history::{Explanation, History, PushError, Write};
pub use range::{Range, RangeError};
pub use reply::{Answer, Reply, Verdict};
pub use resolver_core::{Core, CoreError};
pub use service::{Account, Resolver, SettleError, Turn, open, open_at};
pub use split_points::{BalanceError, Clip, ClipError, ReadIndices, SplitPoints, SplitPointsError};
pub use stop::{NewError, Stop};
pub use txn::Txn;
pub use wire_error::WireError;

#[doc(inline)]
pub use {
    ::conflict::MAX_WINDOW,
    ::keyspace::{MAX_KEY_LENGTH, MAX_RANGES, MAX_TXNS, WINDOW},
    ::lane::MAX_CAPACITY,
    ::resolver::MAX_PROXIES,
    ::shards::MAX_SPLIT_POINTS,
    ::stepmap::MAX_LIMIT,
};

/// The greatest length of a single key, in bytes. The range of a key ends with one byte more.
pub const MAX_SINGLE_KEY_LENGTH: usize = MAX_KEY_LENGTH - 1;

// Runs the example of the README.
#[cfg(doctest)]
#[doc = include_str!("../README.md")]
struct Readme;
