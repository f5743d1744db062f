//! The chain rules of `docs/FOUNDATIONDB.md`, over a scan.

use crate::plain::{PlainAnswer, PlainBatch, PlainReply};
use crate::scan::Scan;
use std::collections::BTreeMap;

/// The greatest number of held batches, as `docs/LIMITS.md` says.
pub const MAX_HELD: usize = 1_024;

/// A resolver that keeps everything and looks through it.
#[derive(Clone, Debug)]
pub struct Reference {
    scan: Scan,
    version: i64,
    // In order of arrival.
    held: Vec<(usize, PlainBatch)>,
    kept: BTreeMap<(usize, i64), PlainReply>,
    /// The answers to each proxy, in order.
    pub answers: Vec<Vec<PlainAnswer>>,
}

impl Reference {
    pub fn new(proxies: usize, window: i64) -> Self {
        Reference {
            scan: Scan::new(window),
            version: -1,
            held: Vec::new(),
            kept: BTreeMap::new(),
            answers: vec![Vec::new(); proxies],
        }
    }

    /// Takes a batch of a proxy. Returns false if it has to be held and the gate is full; then it
    /// is lost.
    pub fn take(&mut self, proxy: usize, batch: &PlainBatch) -> bool {
        if batch.previous > self.version {
            self.held.push((proxy, batch.clone()));
            return self.held.len() <= MAX_HELD;
        }
        self.answer(proxy, batch);
        while let Some(index) = self.next_due() {
            let (proxy, batch) = self.held.remove(index);
            self.answer(proxy, &batch);
        }
        true
    }

    /// Answers what is still held.
    pub fn finish(&mut self) {
        for (proxy, batch) in std::mem::take(&mut self.held) {
            self.answers[proxy].push(PlainAnswer::Held(batch.version));
        }
    }

    pub fn held(&self) -> usize {
        self.held.len()
    }

    /// Returns the number of answers to all proxies.
    pub fn count(&self) -> usize {
        self.answers.iter().map(Vec::len).sum()
    }

    // The least previous version leaves first, among equals the earliest arrival.
    fn next_due(&self) -> Option<usize> {
        (0..self.held.len())
            .filter(|index| self.held[*index].1.previous <= self.version)
            .min_by_key(|index| self.held[*index].1.previous)
    }

    fn answer(&mut self, proxy: usize, batch: &PlainBatch) {
        let answer = if batch.previous == self.version {
            let reply = self.scan.resolve(batch);
            self.version = batch.version;
            self.kept.retain(|(other, version), _| *other != proxy || *version > batch.received);
            self.kept.insert((proxy, batch.version), reply.clone());
            PlainAnswer::Reply(reply)
        } else {
            match self.kept.get(&(proxy, batch.version)) {
                Some(reply) => PlainAnswer::Reply(reply.clone()),
                None => PlainAnswer::Never(batch.version),
            }
        };
        self.answers[proxy].push(answer);
    }
}
