// SPDX-License-Identifier: Apache-2.0
//! `btree [--latency] FILE`: prints the verdicts of each batch, or the nanoseconds that each batch
//! took.
//!
//! A step function from keys to versions in one `BTreeMap`, as a user of the standard library would
//! write it.
#![forbid(unsafe_code)]

use std::collections::BTreeMap;
use std::io::Write;
use std::ops::Bound::{Excluded, Included, Unbounded};
use std::process::ExitCode;
use std::time::Instant;

const WINDOW: i64 = 5_000_000;

struct Range {
    begin: Vec<u8>,
    end: Vec<u8>,
}

struct Txn {
    snapshot: i64,
    reads: Vec<Range>,
    writes: Vec<Range>,
}

struct Batch {
    previous: i64,
    version: i64,
    txns: Vec<Txn>,
}

#[derive(Clone, Copy, PartialEq)]
enum Verdict {
    Conflict,
    TooOld,
    Committed,
}

type Fault = &'static str;

struct Body<'a>(&'a [u8]);

impl<'a> Body<'a> {
    fn take(&mut self, size: usize) -> Result<&'a [u8], Fault> {
        let (taken, rest) = self.0.split_at_checked(size).ok_or("Cut")?;
        self.0 = rest;
        Ok(taken)
    }
    fn u8(&mut self) -> Result<u8, Fault> {
        Ok(self.take(1)?[0])
    }
    fn u16(&mut self) -> Result<u16, Fault> {
        Ok(u16::from_be_bytes(self.take(2)?.try_into().unwrap()))
    }
    fn i64(&mut self) -> Result<i64, Fault> {
        Ok(i64::from_be_bytes(self.take(8)?.try_into().unwrap()))
    }
    fn key(&mut self) -> Result<Vec<u8>, Fault> {
        let size = self.u16()?;
        if size > 10_001 {
            return Err("KeyLength");
        }
        Ok(self.take(size as usize)?.to_vec())
    }
    fn ranges(&mut self, count: u16) -> Result<Vec<Range>, Fault> {
        let mut ranges = Vec::with_capacity(count as usize);
        for _ in 0..count {
            let begin = self.key()?;
            let end = self.key()?;
            if begin > end {
                return Err("Inverted");
            }
            ranges.push(Range { begin, end });
        }
        Ok(ranges)
    }
    fn txn(&mut self) -> Result<Txn, Fault> {
        let snapshot = self.i64()?;
        if snapshot < 0 {
            return Err("Version");
        }
        if self.u8()? > 1 {
            return Err("Marks");
        }
        let reads = self.u16()?;
        if reads > 1024 {
            return Err("Count");
        }
        let writes = self.u16()?;
        if writes > 1024 {
            return Err("Count");
        }
        Ok(Txn { snapshot, reads: self.ranges(reads)?, writes: self.ranges(writes)? })
    }
}

/// Decodes the frame at the front of `bytes` and removes it.
fn decode(bytes: &mut &[u8]) -> Result<Batch, Fault> {
    let (size, rest) = bytes.split_first_chunk::<4>().ok_or("Short")?;
    let size = u32::from_be_bytes(*size) as usize;
    if size > 4_194_304 {
        return Err("Long");
    }
    let (body, rest) = rest.split_at_checked(size).ok_or("Short")?;
    *bytes = rest;
    let mut body = Body(body);
    if body.u8()? != 1 {
        return Err("Kind");
    }
    let previous = body.i64()?;
    if previous < -1 {
        return Err("Version");
    }
    let version = body.i64()?;
    if version < 0 || version <= previous {
        return Err("Version");
    }
    let received = body.i64()?;
    if received < -1 || received >= version {
        return Err("Version");
    }
    let count = body.u16()?;
    if count > 4096 {
        return Err("Count");
    }
    let mut txns = Vec::with_capacity(count as usize);
    for _ in 0..count {
        txns.push(body.txn()?);
    }
    if !body.0.is_empty() {
        return Err("Trailing");
    }
    Ok(Batch { previous, version, txns })
}

struct ConflictSet {
    /// The version of a boundary is that of all keys up to the next one. The empty key is always a
    /// boundary.
    steps: BTreeMap<Vec<u8>, i64>,
    /// The key at which the sweep continues.
    resume: Vec<u8>,
}

impl ConflictSet {
    fn new() -> Self {
        ConflictSet { steps: BTreeMap::from([(Vec::new(), -1)]), resume: Vec::new() }
    }

    /// Whether the range has a version above the snapshot.
    fn above(&self, range: &Range, snapshot: i64) -> bool {
        for (key, version) in
            self.steps.range::<[u8], _>((Unbounded, Excluded(&range.end[..]))).rev()
        {
            if *version > snapshot {
                return true;
            }
            if *key <= range.begin {
                break;
            }
        }
        false
    }

    fn write(&mut self, begin: &[u8], end: &[u8], version: i64) {
        let (last, after) =
            self.steps.range::<[u8], _>((Unbounded, Included(end))).next_back().unwrap();
        let (closed, after) = (last == end, *after);
        let inside: Vec<Vec<u8>> = self
            .steps
            .range::<[u8], _>((Excluded(begin), Excluded(end)))
            .map(|(key, _)| key.clone())
            .collect();
        for key in inside {
            self.steps.remove(&key);
        }
        if let Some(old) = self.steps.get_mut(begin) {
            *old = version;
        } else {
            self.steps.insert(begin.to_vec(), version);
        }
        if !closed {
            self.steps.insert(end.to_vec(), after);
        }
    }

    /// Visits `count` boundaries from where it stopped. Removes those whose version and the
    /// previous boundary's version are below the edge.
    fn sweep(&mut self, edge: i64, count: usize) {
        let from = std::mem::take(&mut self.resume);
        let before = self.steps.range::<[u8], _>((Unbounded, Excluded(&from[..]))).next_back();
        let mut low = before.is_some_and(|(_, version)| *version < edge);
        let mut gone = Vec::new();
        let mut looked = 0;
        for (key, version) in self.steps.range::<[u8], _>((Included(&from[..]), Unbounded)) {
            if looked == count {
                self.resume = key.clone();
                break;
            }
            if low && *version < edge {
                gone.push(key.clone());
            }
            low = *version < edge;
            looked += usize::from(!key.is_empty());
        }
        for key in gone {
            self.steps.remove(&key);
        }
    }

    fn resolve(&mut self, batch: &Batch, verdicts: &mut Vec<Verdict>) {
        verdicts.clear();
        let edge = (batch.version - WINDOW).max(0);
        // The united writes of this batch so far, from begin to end; none touches another.
        let mut fresh: BTreeMap<&[u8], &[u8]> = BTreeMap::new();
        for txn in &batch.txns {
            if !txn.reads.is_empty() && txn.snapshot < edge {
                verdicts.push(Verdict::TooOld);
                continue;
            }
            let conflict = txn.reads.iter().any(|read| {
                read.begin < read.end
                    && (fresh
                        .range::<[u8], _>((Unbounded, Excluded(&read.end[..])))
                        .next_back()
                        .is_some_and(|(_, end)| **end > read.begin[..])
                        || self.above(read, txn.snapshot))
            });
            if conflict {
                verdicts.push(Verdict::Conflict);
                continue;
            }
            verdicts.push(Verdict::Committed);
            for write in txn.writes.iter().filter(|write| write.begin < write.end) {
                let (mut begin, mut end) = (&write.begin[..], &write.end[..]);
                while let Some((&b, &e)) =
                    fresh.range::<[u8], _>((Unbounded, Included(end))).next_back()
                {
                    if e < begin {
                        break;
                    }
                    begin = begin.min(b);
                    end = end.max(e);
                    fresh.remove(b);
                }
                fresh.insert(begin, end);
            }
        }
        for (begin, end) in &fresh {
            self.write(begin, end, batch.version);
        }
        self.sweep(edge, 3 * fresh.len() + 10);
    }
}

fn next(bytes: &mut &[u8], version: &mut i64) -> Result<Batch, Fault> {
    let batch = decode(bytes)?;
    if batch.previous != *version {
        return Err("not one chain");
    }
    *version = batch.version;
    Ok(batch)
}

fn write_verdicts(out: &mut impl Write, version: i64, verdicts: &[Verdict]) -> Result<(), Fault> {
    write!(out, "0 {version}").map_err(|_| "cannot write")?;
    if verdicts.is_empty() {
        out.write_all(b" empty").map_err(|_| "cannot write")?;
    }
    for verdict in verdicts {
        let word: &[u8] = match verdict {
            Verdict::Conflict => b" conflict",
            Verdict::TooOld => b" tooold",
            Verdict::Committed => b" committed",
        };
        out.write_all(word).map_err(|_| "cannot write")?;
    }
    out.write_all(
        b"
",
    )
    .map_err(|_| "cannot write")
}

fn run(file: &[u8], latency: bool) -> Result<(), Fault> {
    let mut bytes = file;
    let mut version = -1;
    let mut set = ConflictSet::new();
    let mut verdicts = Vec::new();
    let mut out = std::io::BufWriter::with_capacity(1 << 20, std::io::stdout().lock());
    while !bytes.is_empty() {
        let start = Instant::now();
        let batch = next(&mut bytes, &mut version)?;
        set.resolve(&batch, &mut verdicts);
        if latency {
            writeln!(out, "{}", start.elapsed().as_nanos()).map_err(|_| "cannot write")?;
        } else {
            write_verdicts(&mut out, version, &verdicts)?;
        }
    }
    // The process ends here: freeing the set is no part of the work.
    std::mem::forget(set);
    out.flush().map_err(|_| "cannot write")
}

fn main() -> ExitCode {
    let arguments: Vec<String> = std::env::args().skip(1).collect();
    let (path, latency) = match &arguments[..] {
        [path] => (path, false),
        [option, path] if option == "--latency" => (path, true),
        _ => {
            eprintln!("btree: usage: btree [--latency] FILE");
            return ExitCode::from(2);
        }
    };
    let done = std::fs::read(path).map_err(|_| "cannot read").and_then(|file| run(&file, latency));
    if let Err(fault) = done {
        eprintln!("btree: {fault}");
        return ExitCode::FAILURE;
    }
    ExitCode::SUCCESS
}
