//! Verdicts by a scan over all committed writes: the rules "edge" to "report" of
//! `docs/FOUNDATIONDB.md`, word for word.

use crate::plain::{PlainBatch, PlainEntry, PlainRange, PlainReply, PlainTxn};
use keyspace::Verdict;

/// All committed writes, each with the version of its batch, in the order of these.
#[derive(Clone, Debug)]
pub struct Scan {
    window: i64,
    writes: Vec<(i64, PlainRange)>,
}

impl Scan {
    pub fn new(window: i64) -> Self {
        Scan { window, writes: Vec::new() }
    }

    /// Returns the edge of a batch of this version.
    pub fn edge(&self, version: i64) -> i64 {
        (version - self.window).max(0)
    }

    /// Judges a batch whose version is above those before it, and keeps what it commits.
    pub fn resolve(&mut self, batch: &PlainBatch) -> PlainReply {
        let mut earlier: Vec<PlainRange> = Vec::new();
        let mut entries = Vec::new();
        for txn in &batch.txns {
            let entry = self.judge(self.edge(batch.version), &earlier, txn);
            if entry.verdict == Verdict::Committed {
                earlier.extend(txn.writes.iter().cloned());
            }
            entries.push(entry);
        }
        self.writes.extend(earlier.into_iter().map(|write| (batch.version, write)));
        PlainReply { version: batch.version, entries }
    }

    /// Returns the write ranges committed at this version.
    pub fn written_at(&self, version: i64) -> Vec<&PlainRange> {
        self.writes
            .iter()
            .rev()
            .take_while(|write| write.0 >= version)
            .filter(|write| write.0 == version)
            .map(|write| &write.1)
            .collect()
    }

    fn judge(&self, edge: i64, earlier: &[PlainRange], txn: &PlainTxn) -> PlainEntry {
        if !txn.reads.is_empty() && txn.snapshot < edge {
            return PlainEntry { verdict: Verdict::TooOld, places: Vec::new() };
        }
        let hits = places(&txn.reads, |read| self.is_hit(read, txn.snapshot));
        let batch = places(&txn.reads, |read| earlier.iter().any(|write| write.meets(read)));
        if hits.is_empty() && batch.is_empty() {
            return PlainEntry { verdict: Verdict::Committed, places: Vec::new() };
        }
        let report = if hits.is_empty() { batch[..1].to_vec() } else { hits };
        PlainEntry {
            verdict: Verdict::Conflict,
            places: if txn.marked { report } else { Vec::new() },
        }
    }

    fn is_hit(&self, read: &PlainRange, snapshot: i64) -> bool {
        self.writes
            .iter()
            .rev()
            .take_while(|write| write.0 > snapshot)
            .any(|write| write.1.meets(read))
    }
}

fn places(reads: &[PlainRange], is_met: impl Fn(&PlainRange) -> bool) -> Vec<u16> {
    (0..).zip(reads).filter(|(_, read)| is_met(read)).map(|(place, _)| place).collect()
}
