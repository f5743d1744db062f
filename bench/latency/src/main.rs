// SPDX-License-Identifier: Apache-2.0
//! `archcaraway-latency FILE`: prints the nanoseconds that each batch of a file takes in one thread
//! of the Cargo edition.
//!
//! A batch is decoded, resolved and freed. Standard error gets the number of boundaries at the end.
#![forbid(unsafe_code)]

use std::io::Write;
use std::process::ExitCode;
use std::time::Instant;
use std::{env, fs, io};

use conflict::ConflictSet;
use keyspace::WINDOW;
use rattle_std::alloc::Global;
use stepmap::MAX_LIMIT;

/// Decodes and resolves the first batch, and returns the length of its frame.
fn resolve_first(set: &mut ConflictSet, bytes: &[u8]) -> Result<usize, String> {
    let Ok((batch, length)) = wire::decode_batch(Global, bytes) else {
        return Err("a frame is refused".to_string());
    };
    match set.resolve(&batch) {
        Ok(_) => Ok(length),
        Err(_) => Err(format!("the batch of version {} stops the set", batch.version)),
    }
}

fn run(path: &str) -> Result<(), String> {
    let file = fs::read(path).map_err(|error| error.to_string())?;
    let Ok(mut set) = ConflictSet::new(Global, WINDOW, MAX_LIMIT) else {
        return Err("an allocation failed".to_string());
    };
    let mut out = io::BufWriter::new(io::stdout().lock());
    let mut bytes = &file[..];
    while !bytes.is_empty() {
        let start = Instant::now();
        let length = resolve_first(&mut set, bytes)?;
        writeln!(out, "{}", start.elapsed().as_nanos()).map_err(|error| error.to_string())?;
        bytes = &bytes[length..];
    }
    eprintln!("{} boundaries", set.boundaries());
    out.flush().map_err(|error| error.to_string())
}

fn main() -> ExitCode {
    let Some(path) = env::args().nth(1) else {
        eprintln!("usage: archcaraway-latency FILE");
        return ExitCode::from(2);
    };
    if let Err(fault) = run(&path) {
        eprintln!("archcaraway-latency: {fault}");
        return ExitCode::FAILURE;
    }
    ExitCode::SUCCESS
}
