//! Resolves the batches of a file of frames, explains every conflict, and prints how long each took
//! and what the kept batches take.

use conflict::ConflictSet;
use explanations::{History, ProcessedBatch};
use keyspace::{Batch, Reply, Verdict, WINDOW};
use rattle_std::alloc::Global;
use std::time::Instant;
use std::{env, fs};
use stepmap::MAX_LIMIT;

fn decode(mut bytes: &[u8]) -> Vec<Batch> {
    let mut batches = Vec::new();
    while !bytes.is_empty() {
        let Ok((batch, length)) = wire::decode_batch(Global, bytes) else {
            panic!("the frame of batch {} is refused", batches.len());
        };
        batches.push(batch);
        bytes = &bytes[length..];
    }
    batches
}

/// How many read ranges were asked for and explained, and how many further writes there were.
#[derive(Default)]
struct Found {
    conflicts: usize,
    asked: usize,
    explained: usize,
    further: usize,
}

impl Found {
    /// Explains each read range of each transaction of the newest batch that is in conflict.
    fn add(&mut self, history: &History, reads: &[usize]) {
        for (txn, reads) in reads.iter().enumerate() {
            self.conflicts += usize::from(*reads > 0);
            for read in 0..*reads {
                self.asked += 1;
                if let Some(explanation) = history.explain(txn, read) {
                    self.explained += 1;
                    self.further += explanation.further;
                }
            }
        }
    }
}

/// Returns of each transaction how many read ranges are to be explained: none if it isn't in
/// conflict.
fn reads_in_conflict(batch: &Batch, reply: &Reply) -> Vec<usize> {
    let entries = reply.entries.as_slice().iter().enumerate();
    let reads = |index| batch.txns.txn(index).reads.len();
    entries
        .map(|(index, entry)| if entry.verdict == Verdict::Conflict { reads(index) } else { 0 })
        .collect()
}

/// Returns how much memory the process has in use, in bytes.
fn resident() -> usize {
    let pages = fs::read_to_string("/proc/self/statm").expect("the system tells its pages");
    let pages = pages.split(' ').nth(1).and_then(|pages| pages.parse().ok());
    4_096 * pages.unwrap_or(0_usize)
}

fn main() {
    let path = env::args().nth(1).expect("the first word names a file");
    let bytes = fs::read(path).expect("the file is read");
    let before = resident();
    let batches = decode(&bytes);
    let kept = resident() - before;
    let count = batches.len();
    let Ok(mut set) = ConflictSet::new(Global, WINDOW, MAX_LIMIT) else {
        panic!("no set");
    };
    let mut history = History::new(Global, WINDOW);
    let mut found = Found::default();
    let (mut resolving, mut pushing, mut explaining) = (0.0, 0.0, 0.0);
    for batch in batches {
        let start = Instant::now();
        let Ok(reply) = set.resolve(&batch) else {
            panic!("the batch of version {} stops the set", batch.version);
        };
        resolving += start.elapsed().as_secs_f64();
        let reads = reads_in_conflict(&batch, &reply);
        let start = Instant::now();
        let Ok(processed) = ProcessedBatch::new(Global, 0, batch, reply) else {
            panic!("memory is refused");
        };
        assert!(history.push(processed).is_ok());
        pushing += start.elapsed().as_secs_f64();
        let start = Instant::now();
        found.add(&history, &reads);
        explaining += start.elapsed().as_secs_f64();
    }
    println!(
        "{count} batches of {} bytes each in memory, {} conflicts, {} of {} read ranges \
         explained, {} further writes",
        kept / count,
        found.conflicts,
        found.explained,
        found.asked,
        found.further
    );
    println!(
        "resolve {resolving:.3} s, push {pushing:.3} s, explain {explaining:.3} s, {:.1} us per \
         read range",
        1e6 * explaining / found.asked as f64
    );
}
