// SPDX-License-Identifier: Apache-2.0
//! `bplus [--latency] FILE`: prints the verdicts of each batch, or the nanoseconds that each batch
//! took.
#![forbid(unsafe_code)]

use std::io::Write;
use std::process::ExitCode;
use std::time::Instant;

mod arena;
mod batch;
mod tree;
use batch::{Batch, ConflictSet, Range, Txn, Verdict};

type Fault = &'static str;

struct Body<'a>(&'a [u8]);

impl<'a> Body<'a> {
    fn take(&mut self, size: usize) -> Result<&'a [u8], Fault> {
        let (taken, rest) = self.0.split_at_checked(size).ok_or("Cut")?;
        self.0 = rest;
        Ok(taken)
    }
    fn u8(&mut self) -> Result<u8, Fault> {
        Ok(self.take(1)?[0])
    }
    fn u16(&mut self) -> Result<u16, Fault> {
        Ok(u16::from_be_bytes(self.take(2)?.try_into().unwrap()))
    }
    fn i64(&mut self) -> Result<i64, Fault> {
        Ok(i64::from_be_bytes(self.take(8)?.try_into().unwrap()))
    }
    fn key(&mut self) -> Result<&'a [u8], Fault> {
        let size = self.u16()?;
        if size > 10_001 {
            return Err("KeyLength");
        }
        self.take(size as usize)
    }
}

fn decode<'a>(bytes: &mut &'a [u8]) -> Result<Batch<'a>, Fault> {
    let (size, rest) = bytes.split_first_chunk::<4>().ok_or("Short")?;
    let size = u32::from_be_bytes(*size) as usize;
    if size > 4_194_304 {
        return Err("Long");
    }
    let (body, rest) = rest.split_at_checked(size).ok_or("Short")?;
    *bytes = rest;
    let mut body = Body(body);
    if body.u8()? != 1 {
        return Err("Kind");
    }
    let previous = body.i64()?;
    let version = body.i64()?;
    let _received = body.i64()?;
    let count = body.u16()?;
    let mut txns = Vec::with_capacity(count as usize);
    let mut ranges = Vec::new();
    for _ in 0..count {
        let snapshot = body.i64()?;
        body.u8()?;
        let reads = body.u16()?;
        let writes = body.u16()?;
        txns.push(Txn { snapshot, first: ranges.len() as u32, reads, writes });
        for _ in 0..reads as usize + writes as usize {
            let begin = body.key()?;
            let end = body.key()?;
            if begin > end {
                return Err("Inverted");
            }
            ranges.push(Range { begin, end });
        }
    }
    if !body.0.is_empty() {
        return Err("Trailing");
    }
    Ok(Batch { previous, version, txns, ranges })
}

fn next<'a>(bytes: &mut &'a [u8], version: &mut i64) -> Result<Batch<'a>, Fault> {
    let batch = decode(bytes)?;
    if batch.previous != *version {
        return Err("not one chain");
    }
    *version = batch.version;
    Ok(batch)
}

fn write_verdicts(out: &mut impl Write, version: i64, verdicts: &[Verdict]) -> Result<(), Fault> {
    write!(out, "0 {version}").map_err(|_| "cannot write")?;
    if verdicts.is_empty() {
        out.write_all(b" empty").map_err(|_| "cannot write")?;
    }
    for verdict in verdicts {
        let word: &[u8] = match verdict {
            Verdict::Conflict => b" conflict",
            Verdict::TooOld => b" tooold",
            Verdict::Committed => b" committed",
        };
        out.write_all(word).map_err(|_| "cannot write")?;
    }
    out.write_all(
        b"
",
    )
    .map_err(|_| "cannot write")
}

fn run(file: &[u8], latency: bool) -> Result<(), Fault> {
    let mut bytes = file;
    let mut version = -1;
    let mut set = ConflictSet::new();
    let mut verdicts = Vec::new();
    let mut out = std::io::BufWriter::with_capacity(1 << 20, std::io::stdout().lock());
    while !bytes.is_empty() {
        let start = Instant::now();
        let batch = next(&mut bytes, &mut version)?;
        set.resolve(&batch, &mut verdicts);
        if latency {
            writeln!(out, "{}", start.elapsed().as_nanos()).map_err(|_| "cannot write")?;
        } else {
            write_verdicts(&mut out, version, &verdicts)?;
        }
    }
    // The process ends here: freeing the set is no part of the work.
    std::mem::forget(set);
    out.flush().map_err(|_| "cannot write")
}

fn main() -> ExitCode {
    let arguments: Vec<String> = std::env::args().skip(1).collect();
    let (path, latency) = match &arguments[..] {
        [path] => (path, false),
        [option, path] if option == "--latency" => (path, true),
        _ => {
            eprintln!("bplus: usage: bplus [--latency] FILE");
            return ExitCode::from(2);
        }
    };
    let done = std::fs::read(path).map_err(|_| "cannot read").and_then(|file| run(&file, latency));
    if let Err(fault) = done {
        eprintln!("bplus: {fault}");
        return ExitCode::FAILURE;
    }
    ExitCode::SUCCESS
}
