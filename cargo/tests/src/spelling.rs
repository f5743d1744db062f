//! Frames by the tables of `docs/WIRE.md`, written and read field by field, in the reading order of
//! that page.

use crate::plain::{PlainBatch, PlainEntry, PlainRange, PlainReply, PlainTxn};
use keyspace::Verdict;
use wire::WireError;

/// Writes the frame of a batch in version 1 or 2.
pub fn batch_frame(batch: &PlainBatch, version: u8) -> Vec<u8> {
    let mut body = vec![if version == 1 { 1 } else { 3 }];
    for number in [batch.previous, batch.version, batch.received] {
        body.extend(number.to_be_bytes());
    }
    body.extend((batch.txns.len() as u16).to_be_bytes());
    for txn in &batch.txns {
        body.extend(txn.snapshot.to_be_bytes());
        body.push(u8::from(txn.marked));
        body.extend((txn.reads.len() as u16).to_be_bytes());
        body.extend((txn.writes.len() as u16).to_be_bytes());
        for range in txn.reads.iter().chain(&txn.writes) {
            put_range(&mut body, range, version);
        }
    }
    framed(&body)
}

/// Writes the frame of a reply.
pub fn reply_frame(reply: &PlainReply) -> Vec<u8> {
    let mut body = vec![2];
    body.extend(reply.version.to_be_bytes());
    body.extend((reply.entries.len() as u16).to_be_bytes());
    for entry in &reply.entries {
        body.push(match entry.verdict {
            Verdict::Conflict => 0,
            Verdict::TooOld => 1,
            Verdict::Committed => 2,
        });
        body.extend((entry.places.len() as u16).to_be_bytes());
        body.extend(entry.places.iter().flat_map(|place| place.to_be_bytes()));
    }
    framed(&body)
}

/// Puts the length before a body.
pub fn framed(body: &[u8]) -> Vec<u8> {
    [&(body.len() as u32).to_be_bytes()[..], body].concat()
}

fn put_range(body: &mut Vec<u8>, range: &PlainRange, version: u8) {
    if version == 2 && range.is_single() {
        body.push(1);
        put_key(body, &range.begin);
        return;
    }
    if version == 2 {
        body.push(0);
    }
    put_key(body, &range.begin);
    put_key(body, &range.end);
}

fn put_key(body: &mut Vec<u8>, key: &[u8]) {
    body.extend((key.len() as u16).to_be_bytes());
    body.extend(key);
}

/// Reads the frame of a batch at the front of the bytes. Returns the batch, the version of its form
/// and the bytes used.
pub fn read_batch(bytes: &[u8]) -> Result<(PlainBatch, u8, usize), WireError> {
    let mut body = body_of(bytes)?;
    let version = match body.u8()? {
        1 => 1,
        3 => 2,
        _ => return Err(WireError::Kind),
    };
    let previous = body.version(|previous| previous >= -1)?;
    let own = body.version(|own| own >= 0 && own > previous)?;
    let received = body.version(|received| received >= -1 && received < own)?;
    let count = body.count(4_096)?;
    let txns: Result<_, _> = (0..count).map(|_| body.txn(version)).collect();
    let batch = PlainBatch { previous, version: own, received, txns: txns? };
    Ok((batch, version, body.end(bytes)?))
}

/// Reads the frame of a reply at the front of the bytes. Returns the reply and the bytes used.
pub fn read_reply(bytes: &[u8]) -> Result<(PlainReply, usize), WireError> {
    let mut body = body_of(bytes)?;
    if body.u8()? != 2 {
        return Err(WireError::Kind);
    }
    let version = body.version(|version| version >= 0)?;
    let count = body.count(4_096)?;
    let entries: Result<_, _> = (0..count).map(|_| body.entry()).collect();
    let reply = PlainReply { version, entries: entries? };
    Ok((reply, body.end(bytes)?))
}

// What is left of a body.
struct Body<'a>(&'a [u8]);

fn body_of(bytes: &[u8]) -> Result<Body<'_>, WireError> {
    let (length, rest) = bytes.split_first_chunk().ok_or(WireError::Short)?;
    let length = u32::from_be_bytes(*length) as usize;
    if length > 4_194_304 {
        return Err(WireError::Long);
    }
    rest.get(..length).map(Body).ok_or(WireError::Short)
}

impl Body<'_> {
    fn field<const N: usize>(&mut self) -> Result<[u8; N], WireError> {
        let (field, rest) = self.0.split_first_chunk().ok_or(WireError::Cut)?;
        self.0 = rest;
        Ok(*field)
    }

    fn u8(&mut self) -> Result<u8, WireError> {
        Ok(self.field::<1>()?[0])
    }

    fn u16(&mut self) -> Result<u16, WireError> {
        Ok(u16::from_be_bytes(self.field()?))
    }

    fn version(&mut self, holds: impl Fn(i64) -> bool) -> Result<i64, WireError> {
        let version = i64::from_be_bytes(self.field()?);
        if holds(version) { Ok(version) } else { Err(WireError::Version) }
    }

    fn count(&mut self, most: u16) -> Result<u16, WireError> {
        let count = self.u16()?;
        if count <= most { Ok(count) } else { Err(WireError::Count) }
    }

    fn key(&mut self, most: usize) -> Result<Vec<u8>, WireError> {
        let length = usize::from(self.u16()?);
        if length > most {
            return Err(WireError::KeyLength);
        }
        let (key, rest) = self.0.split_at_checked(length).ok_or(WireError::Cut)?;
        self.0 = rest;
        Ok(key.to_vec())
    }

    fn range(&mut self, version: u8) -> Result<PlainRange, WireError> {
        let form = if version == 1 { 0 } else { self.u8()? };
        if form > 1 {
            return Err(WireError::Form);
        }
        if form == 1 {
            return Ok(PlainRange::single(self.key(10_000)?));
        }
        let range = PlainRange::new(self.key(10_001)?, self.key(10_001)?);
        if range.begin > range.end {
            return Err(WireError::Inverted);
        }
        if version == 2 && range.is_single() {
            return Err(WireError::Spelling);
        }
        Ok(range)
    }

    fn txn(&mut self, version: u8) -> Result<PlainTxn, WireError> {
        let snapshot = self.version(|snapshot| snapshot >= 0)?;
        let marks = self.u8()?;
        if marks > 1 {
            return Err(WireError::Marks);
        }
        let (reads, writes) = (self.count(1_024)?, self.count(1_024)?);
        let reads: Result<_, _> = (0..reads).map(|_| self.range(version)).collect();
        let reads = reads?;
        let writes: Result<_, _> = (0..writes).map(|_| self.range(version)).collect();
        Ok(PlainTxn { snapshot, marked: marks == 1, reads, writes: writes? })
    }

    fn entry(&mut self) -> Result<PlainEntry, WireError> {
        let verdict = match self.u8()? {
            0 => Verdict::Conflict,
            1 => Verdict::TooOld,
            2 => Verdict::Committed,
            _ => return Err(WireError::Kind),
        };
        let count = self.count(if verdict == Verdict::Conflict { 1_024 } else { 0 })?;
        let mut places: Vec<u16> = Vec::new();
        for _ in 0..count {
            let place = self.u16()?;
            if place >= 1_024 || places.last().is_some_and(|last| place <= *last) {
                return Err(WireError::Marks);
            }
            places.push(place);
        }
        Ok(PlainEntry { verdict, places })
    }

    // Returns how many bytes the frame has, if nothing of its body is left over.
    fn end(&self, bytes: &[u8]) -> Result<usize, WireError> {
        if !self.0.is_empty() {
            return Err(WireError::Trailing);
        }
        let length = bytes.first_chunk().map_or(0, |length| u32::from_be_bytes(*length));
        Ok(4 + length as usize)
    }
}
