//! Decodes a file of batch frames, resolves the batches in one thread, and prints how long each
//! took.

use conflict::ConflictSet;
use keyspace::{Batch, WINDOW};
use rattle_std::alloc::Global;
use std::time::Instant;
use std::{env, fs};
use stepmap::MAX_LIMIT;

/// What a round gives.
struct Round {
    decoding: f64,
    resolving: f64,
    /// A sum of all verdicts in order, to compare two forms of the code by.
    verdicts: u64,
    boundaries: usize,
}

// A function that is never inlined, so that a profile shows decoding apart from resolving.
#[inline(never)]
fn decode(mut bytes: &[u8]) -> Vec<Batch> {
    let mut batches = Vec::new();
    while !bytes.is_empty() {
        let Ok((batch, length)) = wire::decode_batch(Global, bytes) else {
            panic!("the frame of batch {} is refused", batches.len());
        };
        batches.push(batch);
        bytes = &bytes[length..];
    }
    batches
}

// Resolves the batches, and returns the sum of their verdicts. It is never inlined either.
#[inline(never)]
fn resolve(set: &mut ConflictSet, batches: &[Batch]) -> u64 {
    let mut verdicts = 0_u64;
    for batch in batches {
        let Ok(reply) = set.resolve(batch) else {
            panic!("the batch of version {} stops the set", batch.version);
        };
        for entry in reply.entries.as_slice() {
            verdicts = verdicts.wrapping_mul(31).wrapping_add(entry.verdict as u64);
        }
    }
    verdicts
}

fn round(bytes: &[u8]) -> Round {
    let start = Instant::now();
    let batches = decode(bytes);
    let decoding = start.elapsed().as_secs_f64();
    let Ok(mut set) = ConflictSet::new(Global, WINDOW, MAX_LIMIT) else {
        panic!("no set");
    };
    let start = Instant::now();
    let verdicts = resolve(&mut set, &batches);
    Round {
        decoding,
        resolving: start.elapsed().as_secs_f64(),
        verdicts,
        boundaries: set.boundaries(),
    }
}

fn main() {
    let words: Vec<String> = env::args().collect();
    let bytes = fs::read(&words[1]).expect("the first word names a file");
    let count =
        words.get(2).map_or(3, |word| word.parse().expect("the second word is a number of rounds"));
    let rounds: Vec<Round> = (0..count).map(|_| round(&bytes)).collect();
    let least = |seconds: fn(&Round) -> f64| rounds.iter().map(seconds).fold(f64::MAX, f64::min);
    println!(
        "decode {:.3} s, detect {:.3} s, verdicts {:016x}, {} boundaries",
        least(|round| round.decoding),
        least(|round| round.resolving),
        rounds[0].verdicts,
        rounds[0].boundaries
    );
}
