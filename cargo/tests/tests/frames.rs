//! Frames against the tables of `docs/WIRE.md`: complete, cut, changed, in a stream, and upgraded.

use keyspace::Verdict;
use rattle_std::alloc::Global;
use std::io::{Error, ErrorKind, Read, Result as IoResult, Write};
use tests::cases::{count, run};
use tests::drawn::any_batch;
use tests::plain::{PlainBatch, PlainEntry, PlainRange, PlainReply, PlainTxn};
use tests::random::Random;
use tests::spelling::{batch_frame, framed, read_batch, read_reply, reply_frame};
use wire::{
    Sink, StdSink, StdSource, WireError, decode_batch, decode_reply, encode_batch, encode_batch_1,
    encode_reply, read_frames, upgrade, write_all,
};

/// The vectors of the page, in hexadecimal.
const BATCHES: [&str; 4] = [
    "0000001b 01 ffffffffffffffff 0000000000000000 ffffffffffffffff 0000",
    "0000002e 01 0000000000000000 0000000000000064 ffffffffffffffff 0001 0000000000000000 00 0000 \
     0001 0001 61 0001 62",
    "0000002f 03 0000000000000000 0000000000000064 ffffffffffffffff 0001 0000000000000000 00 0000 \
     0001 00 0001 61 0001 62",
    "0000002c 03 0000000000000000 0000000000000064 ffffffffffffffff 0001 0000000000000000 00 0000 \
     0001 01 0001 6b",
];
const REPLIES: [&str; 3] = [
    "0000000b 02 0000000000000000 0000",
    "00000013 02 0000000000000064 0002 02 0000 00 0001 0000",
    "0000000e 02 0000000000000064 0001 02 0000",
];

fn bytes_of(vector: &str) -> Vec<u8> {
    let digits: Vec<u8> = vector.bytes().filter(|byte| *byte != b' ').collect();
    digits
        .chunks(2)
        .map(|pair| {
            pair.iter().fold(0, |byte, digit| {
                byte << 4 | char::from(*digit).to_digit(16).expect("it is a digit") as u8
            })
        })
        .collect()
}

fn encoded(batch: &PlainBatch, version: u8) -> Vec<u8> {
    let encoder = if version == 1 { encode_batch_1 } else { encode_batch };
    encoder(Global, &batch.batch()).expect("the batch is short").into_std()
}

/// Compares what `decode_batch` answers with what the tables say, and encodes what it has decoded.
fn decodes_by_the_tables(bytes: &[u8]) -> Option<WireError> {
    match (decode_batch(Global, bytes), read_batch(bytes)) {
        (Ok((batch, used)), Ok((expected, version, length))) => {
            let batch = PlainBatch::of(&batch);
            assert_eq!((&batch, used), (&expected, length));
            assert_eq!(encoded(&batch, version), bytes[..used]);
            None
        }
        (Err(fault), Err(expected)) => {
            assert_eq!(fault, expected, "{bytes:?}");
            Some(fault)
        }
        (found, expected) => panic!("{bytes:?}: {found:?} and not {expected:?}"),
    }
}

fn reply_decodes_by_the_tables(bytes: &[u8]) -> Option<WireError> {
    match (decode_reply(Global, bytes), read_reply(bytes)) {
        (Ok((reply, used)), Ok((expected, length))) => {
            let reply = PlainReply::of(&reply);
            assert_eq!((&reply, used), (&expected, length));
            assert_eq!(
                encode_reply(Global, &reply.reply()).expect("the reply is short").as_slice(),
                &bytes[..used]
            );
            None
        }
        (Err(fault), Err(expected)) => {
            assert_eq!(fault, expected, "{bytes:?}");
            Some(fault)
        }
        (found, expected) => panic!("{bytes:?}: {found:?} and not {expected:?}"),
    }
}

/// Cuts a frame at every byte. With its own length it is `Short`; with the length of the remaining
/// bytes it is `Cut`.
fn cut_everywhere(frame: &[u8], decodes: impl Fn(&[u8]) -> Option<WireError>) {
    for length in 0..frame.len() {
        assert_eq!(decodes(&frame[..length]), Some(WireError::Short));
        if length >= 4 {
            assert_eq!(decodes(&framed(&frame[4..length])), Some(WireError::Cut));
        }
    }
    assert_eq!(decodes(frame), None);
    assert_eq!(decodes(&[frame, b"\0"].concat()), None);
    assert_eq!(decodes(&framed(&[&frame[4..], b"\0"].concat())), Some(WireError::Trailing));
}

/// Flips some of the bits of each byte in turn, in `flips` ways at each.
fn flip_everywhere(
    frame: &[u8],
    flips: u64,
    random: &mut Random,
    decodes: impl Fn(&[u8]) -> Option<WireError>,
) {
    let mut changed = frame.to_vec();
    for place in 0..frame.len() {
        for flip in 0..flips {
            let bits = if flips == 255 { 1 + flip as u8 } else { 1 + random.below(255) as u8 };
            changed[place] ^= bits;
            decodes(&changed);
            changed[place] ^= bits;
        }
    }
}

/// Changes a frame in several ways at once; in half of the cases its length still fits.
fn edit(frame: &[u8], random: &mut Random) -> Vec<u8> {
    let mut body = frame[4..].to_vec();
    for _ in 0..1 + random.index(4) {
        let place = random.index(body.len() + 1);
        match random.below(4) {
            0 => body.insert(place, random.pick(&[0, 1, 2, 3, 4, 0x27, 255])),
            1 if place < body.len() => drop(body.remove(place)),
            2 if place < body.len() => {
                body[place] = random.pick(&[0, 1, 2, 3, 4, 16, 17, 0x27, 0x7f, 0x80, 255])
            }
            _ => {
                let until = body.len().min(place + random.index(12));
                let piece = body[place..until].to_vec();
                body.splice(place..place, piece);
            }
        }
    }
    let mut edited = framed(&body);
    if random.one_in(2) {
        edited[..4].copy_from_slice(&frame[..4]);
    }
    edited
}

fn small_batch(random: &mut Random) -> PlainBatch {
    let (txns_most, ranges_most) = random.pick(&[(0, 0), (1, 1), (3, 3), (10, 2), (2, 20)]);
    any_batch(random, txns_most, ranges_most)
}

fn small_reply(random: &mut Random) -> PlainReply {
    let entry = |random: &mut Random| {
        let verdict = random.pick(&[
            Verdict::Conflict,
            Verdict::Conflict,
            Verdict::TooOld,
            Verdict::Committed,
        ]);
        let chance = random.pick(&[2, 40, 500]);
        let places = if verdict == Verdict::Conflict {
            (0..1_024).filter(|_| random.one_in(chance)).collect()
        } else {
            Vec::new()
        };
        PlainEntry { verdict, places }
    };
    PlainReply {
        version: any_batch(random, 0, 0).version,
        entries: (0..random.index(6)).map(|_| entry(random)).collect(),
    }
}

#[test]
fn vectors_cut_and_changed_everywhere() {
    let random = &mut Random::new(0);
    for frame in BATCHES.map(bytes_of) {
        cut_everywhere(&frame, decodes_by_the_tables);
        flip_everywhere(&frame, 255, random, decodes_by_the_tables);
        assert_eq!(reply_decodes_by_the_tables(&frame), Some(WireError::Kind));
    }
    for frame in REPLIES.map(bytes_of) {
        cut_everywhere(&frame, reply_decodes_by_the_tables);
        flip_everywhere(&frame, 255, random, reply_decodes_by_the_tables);
        assert_eq!(decodes_by_the_tables(&frame), Some(WireError::Kind));
    }
}

#[test]
fn batches_are_spelled_by_the_tables() {
    run("batches_are_spelled_by_the_tables", count(1_000_000, 20_000), |random| {
        let batch = small_batch(random);
        for version in [1, 2] {
            let frame = batch_frame(&batch, version);
            assert_eq!(encoded(&batch, version), frame);
            assert_eq!(decodes_by_the_tables(&frame), None);
        }
        1
    });
}

#[test]
fn replies_are_spelled_by_the_tables() {
    run("replies_are_spelled_by_the_tables", count(300_000, 5_000), |random| {
        let reply = small_reply(random);
        let frame = reply_frame(&reply);
        assert_eq!(
            encode_reply(Global, &reply.reply()).expect("the reply is short").as_slice(),
            frame
        );
        assert_eq!(reply_decodes_by_the_tables(&frame), None);
        let copy = reply.reply().copy(Global).expect("memory is ample");
        assert_eq!(PlainReply::of(&copy), reply);
        1
    });
}

/// Counts decoded frames.
#[test]
fn random_frames_cut_and_flipped_everywhere() {
    run("random_frames_cut_and_flipped_everywhere", count(20_000_000, 400_000), |random| {
        let batch = small_batch(random);
        let reply = reply_frame(&small_reply(random));
        let frames = [batch_frame(&batch, 1), batch_frame(&batch, 2)];
        let mut decoded = 0;
        // Long keys are left to the test of edits, since these decode each frame as often as it has
        // bytes.
        for frame in frames.iter().filter(|frame| frame.len() < 2_000) {
            cut_everywhere(frame, decodes_by_the_tables);
            flip_everywhere(frame, 4, random, decodes_by_the_tables);
            decoded += 6 * frame.len() as u64;
        }
        if reply.len() < 2_000 {
            cut_everywhere(&reply, reply_decodes_by_the_tables);
            flip_everywhere(&reply, 4, random, reply_decodes_by_the_tables);
            decoded += 6 * reply.len() as u64;
        }
        1 + decoded
    });
}

#[test]
fn random_frames_edited() {
    run("random_frames_edited", count(20_000_000, 200_000), |random| {
        let (batch, reply) = (small_batch(random), reply_frame(&small_reply(random)));
        let frames = [batch_frame(&batch, 1), batch_frame(&batch, 2)];
        for _ in 0..50 {
            for frame in &frames {
                decodes_by_the_tables(&edit(frame, random));
            }
            reply_decodes_by_the_tables(&edit(&reply, random));
        }
        150
    });
}

/// Random bytes after a length that fits.
#[test]
fn any_bytes_decode_by_the_tables() {
    run("any_bytes_decode_by_the_tables", count(50_000_000, 500_000), |random| {
        let length = random.index(60);
        let few = random.one_in(2);
        let byte = |random: &mut Random| {
            if few { random.pick(&[0, 0, 0, 1, 2, 3]) } else { random.number() as u8 }
        };
        let mut bytes: Vec<u8> = (0..length).map(|_| byte(random)).collect();
        if random.one_in(4) {
            decodes_by_the_tables(&bytes);
        }
        bytes = framed(&bytes);
        decodes_by_the_tables(&bytes);
        reply_decodes_by_the_tables(&bytes);
        1
    });
}

/// A reader that gives at most 20 bytes per call, is interrupted now and then, and may fail at the
/// end of its bytes.
struct Pieces<'a> {
    bytes: &'a [u8],
    fails: bool,
    random: Random,
}

impl Read for Pieces<'_> {
    fn read(&mut self, buffer: &mut [u8]) -> IoResult<usize> {
        if self.random.one_in(3) {
            return Err(ErrorKind::Interrupted.into());
        }
        if self.bytes.is_empty() && self.fails {
            return Err(Error::other("the reader fails"));
        }
        let most = self.bytes.len().min(buffer.len());
        let count = if most == 0 { 0 } else { 1 + self.random.index(most.min(20)) };
        buffer[..count].copy_from_slice(&self.bytes[..count]);
        self.bytes = &self.bytes[count..];
        Ok(count)
    }
}

/// Frames of batches after one another, of which the last may be cut, and what `Frames` answers.
struct Stream {
    bytes: Vec<u8>,
    entire: Vec<PlainBatch>,
    fault: Option<WireError>,
}

impl Stream {
    fn drawn(random: &mut Random, fails: bool) -> Self {
        let entire: Vec<_> = (0..random.index(5)).map(|_| small_batch(random)).collect();
        let mut bytes: Vec<u8> =
            entire.iter().flat_map(|batch| batch_frame(batch, 1 + random.below(2) as u8)).collect();
        let next = batch_frame(&small_batch(random), 1 + random.below(2) as u8);
        let (more, fault) = match random.below(3) {
            0 => (Vec::new(), None),
            1 => (next[..1 + random.index(next.len() - 1)].to_vec(), Some(WireError::Short)),
            _ => {
                let edited = [edit(&next, random), vec![0; 8]].concat();
                let fault = read_batch(&edited).err();
                if fault.is_none() { (Vec::new(), None) } else { (edited, fault) }
            }
        };
        // A reader that fails is found to fail where more bytes are wanted.
        let fault = if fails && fault.is_none_or(|fault| fault == WireError::Short) {
            Some(WireError::Read)
        } else {
            fault
        };
        bytes.extend(more);
        Stream { bytes, entire, fault }
    }

    fn reader(&self, fails: bool, random: &mut Random) -> StdSource<Pieces<'_>> {
        StdSource::new(Pieces { bytes: &self.bytes, fails, random: Random::new(random.number()) })
    }
}

#[test]
fn frames_of_readers_that_cut_and_fail() {
    run("frames_of_readers_that_cut_and_fail", count(1_000_000, 20_000), |random| {
        let fails = random.one_in(3);
        let stream = Stream::drawn(random, fails);
        let mut frames = read_frames(Global, stream.reader(fails, random));
        let ordered = random.one_in(2);
        let mut next = || match ordered {
            true => frames.next(),
            false => Ok(frames
                .next_unordered()?
                .map(|batch| batch.order(Global).expect("memory is ample"))),
        };
        for batch in &stream.entire {
            let found = next().expect("the frame is whole").expect("the frame is there");
            assert_eq!(PlainBatch::of(&found), *batch);
        }
        for _ in 0..3 {
            match (next(), stream.fault) {
                (Ok(None), None) => {}
                (Err(fault), Some(expected)) => assert_eq!(fault, expected),
                (found, expected) => panic!("{found:?} and not {expected:?}"),
            }
        }
        1
    });
}

/// A writer that takes some bytes per call, is interrupted now and then, and fails once it has
/// `most` bytes.
struct Short {
    written: Vec<u8>,
    most: usize,
    random: Random,
}

impl Write for Short {
    fn write(&mut self, bytes: &[u8]) -> IoResult<usize> {
        if self.random.one_in(3) {
            return Err(ErrorKind::Interrupted.into());
        }
        let most = bytes.len().min(self.most - self.written.len());
        if most == 0 && !bytes.is_empty() {
            return if self.random.one_in(2) {
                Ok(0)
            } else {
                Err(Error::other("the writer fails"))
            };
        }
        let count = if most == 0 { 0 } else { 1 + self.random.index(most) };
        self.written.extend(&bytes[..count]);
        Ok(count)
    }

    fn flush(&mut self) -> IoResult<()> {
        Ok(())
    }
}

/// `upgrade` writes each batch before a fault as a frame of version 2, and a prefix of these frames
/// to a writer that fails.
#[test]
fn upgrades_of_streams() {
    run("upgrades_of_streams", count(500_000, 10_000), |random| {
        let stream = Stream::drawn(random, false);
        let expected: Vec<u8> =
            stream.entire.iter().flat_map(|batch| batch_frame(batch, 2)).collect();
        let most = if random.one_in(2) { usize::MAX } else { random.index(expected.len() + 2) };
        let mut reader = stream.reader(false, random);
        let mut writer =
            StdSink::new(Short { written: Vec::new(), most, random: Random::new(random.number()) });
        let answer = upgrade(Global, &mut reader, &mut writer);
        let written = writer.into_inner().written;
        if most < expected.len() {
            assert_eq!(answer, Err(WireError::Write));
            assert_eq!(written, expected[..most]);
        } else {
            assert_eq!(answer, stream.fault.map_or(Ok(stream.entire.len() as u64), Err));
            assert_eq!(written, expected);
        }
        1
    });
}

/// A reader and writer that is interrupted `interruptions` times before each byte.
struct Interrupted<'a> {
    bytes: &'a [u8],
    interruptions: u32,
    left: u32,
}

impl Interrupted<'_> {
    fn interrupt(&mut self) -> IoResult<()> {
        if self.left == 0 {
            self.left = self.interruptions;
            return Ok(());
        }
        self.left -= 1;
        Err(ErrorKind::Interrupted.into())
    }
}

impl Read for Interrupted<'_> {
    fn read(&mut self, buffer: &mut [u8]) -> IoResult<usize> {
        self.interrupt()?;
        let count = self.bytes.len().min(buffer.len()).min(1);
        buffer[..count].copy_from_slice(&self.bytes[..count]);
        self.bytes = &self.bytes[count..];
        Ok(count)
    }
}

impl Write for Interrupted<'_> {
    fn write(&mut self, bytes: &[u8]) -> IoResult<usize> {
        self.interrupt()?;
        Ok(bytes.len().min(1))
    }

    fn flush(&mut self) -> IoResult<()> {
        self.interrupt()
    }
}

/// A call is tried again up to 1,000 times, and no more.
#[test]
fn interruptions_up_to_the_limit() {
    let frame = bytes_of(BATCHES[1]);
    for interruptions in [0, 1, 999, 1_000, 1_001, 5_000] {
        let interrupted = || Interrupted { bytes: &frame, interruptions, left: interruptions };
        let read = read_frames(Global, StdSource::new(interrupted()))
            .next()
            .map(|batch| batch.map(|batch| batch.version));
        assert_eq!(read, if interruptions <= 1_000 { Ok(Some(100)) } else { Err(WireError::Read) });
        let mut sink = StdSink::new(interrupted());
        assert_eq!(write_all(&mut sink, &frame).is_ok(), interruptions <= 1_000);
        assert_eq!(StdSink::new(interrupted()).flush().is_ok(), interruptions <= 1_000);
    }
}

/// A batch of version 1 that is too long in version 2 is refused, after the frames before it are
/// written.
#[test]
fn upgrade_outgrows_its_frame() {
    let mut batch = PlainBatch::empty(-1, 100);
    let long = |byte: u8| PlainRange::new(vec![byte; 9_990], vec![byte + 1; 9_990]);
    batch.txns = vec![PlainTxn {
        snapshot: 0,
        marked: false,
        reads: vec![long(b'a'); 209],
        writes: Vec::new(),
    }];
    let left = 4_194_304 + 4 - batch_frame(&batch, 1).len();
    batch.txns[0]
        .writes
        .push(PlainRange::new(vec![b'x'; left / 2 - 4], vec![b'y'; left - left / 2]));
    let frame = batch_frame(&batch, 1);
    assert_eq!(frame.len(), 4 + 4_194_304);
    let bytes = [&bytes_of(BATCHES[1]), &frame[..]].concat();
    let mut reader = StdSource::new(&bytes[..]);
    let mut writer = StdSink::new(Vec::new());
    assert_eq!(upgrade(Global, &mut reader, &mut writer), Err(WireError::Long));
    assert_eq!(writer.into_inner(), bytes_of(BATCHES[2]));
}
