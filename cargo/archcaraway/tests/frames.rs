//! Frames in and out. Expected values are those of `docs/WIRE.md`.

use archcaraway::{Batch, BatchBuilder, Reply, Txn, Verdict, WireError};
use std::io::{self, Read};

const EMPTY_BATCH: &str = "0000001b 01 ffffffffffffffff 0000000000000000 ffffffffffffffff 0000";
const ONE_WRITE: &str = "0000002e 01 0000000000000000 0000000000000064 ffffffffffffffff 0001 \
    0000000000000000 00 0000 0001 0001 61 0001 62";
const ONE_WRITE_2: &str = "0000002f 03 0000000000000000 0000000000000064 ffffffffffffffff 0001 \
    0000000000000000 00 0000 0001 00 0001 61 0001 62";
const SINGLE_KEY_2: &str = "0000002c 03 0000000000000000 0000000000000064 ffffffffffffffff 0001 \
    0000000000000000 00 0000 0001 01 0001 6b";
const COMMITTED_AND_CONFLICT: &str = "00000013 02 0000000000000064 0002 02 0000 00 0001 0000";

fn bytes(hex: &str) -> Vec<u8> {
    let digits: Vec<u8> = hex.bytes().filter(u8::is_ascii_hexdigit).collect();
    let pairs = digits.chunks(2).map(|pair| std::str::from_utf8(pair).expect("they are digits"));
    pairs.map(|pair| u8::from_str_radix(pair, 16).expect("it is a byte")).collect()
}

fn one_write(txn: Txn<'_>) -> Batch {
    BatchBuilder::new(0, 100).txn(txn).build().expect("it is within the limits")
}

#[test]
fn batches_as_frames() {
    let empty = BatchBuilder::new(-1, 0).build().expect("it is within the limits");
    let empty_2 = EMPTY_BATCH.replacen(" 01 ", " 03 ", 1);
    let write = one_write(Txn::at(0).write(("a", "b")));
    let single = one_write(Txn::at(0).write_key("k"));
    for (batch, first, second) in [
        (&empty, Some(EMPTY_BATCH), &*empty_2),
        (&write, Some(ONE_WRITE), ONE_WRITE_2),
        (&single, None, SINGLE_KEY_2),
    ] {
        assert_eq!(batch.encode(), Ok(bytes(second)));
        assert_eq!(Batch::decode(&bytes(second)), Ok((batch.clone(), bytes(second).len())));
        let frame = batch.encode_version_1().expect("it is short");
        assert!(first.is_none_or(|hex| frame == bytes(hex)));
        assert_eq!(Batch::decode(&frame), Ok((batch.clone(), frame.len())));
    }
}

#[test]
fn bytes_after_a_frame_are_ignored() {
    let two = [bytes(EMPTY_BATCH), bytes(ONE_WRITE)].concat();
    let (first, length) = Batch::decode(&two).expect("it is a frame");
    assert_eq!((first.version(), length), (0, 31));
    let (second, length) = Batch::decode(&two[length..]).expect("it is a frame");
    assert_eq!((second.version(), length), (100, 50));
}

#[test]
fn replies_as_frames() {
    let frame = bytes(COMMITTED_AND_CONFLICT);
    let (reply, length) = Reply::decode(&frame).expect("it is a frame");
    assert_eq!((reply.version(), reply.len(), length), (100, 2, 23));
    assert!(reply.verdicts().eq([Verdict::Committed, Verdict::Conflict]));
    assert_eq!((reply.verdict(1), reply.verdict(2)), (Some(Verdict::Conflict), None));
    assert_eq!(reply.conflicts(0).len(), 0);
    assert!(reply.conflicts(1).eq([0]));
    assert_eq!(reply.conflicts(2).len(), 0);
    assert_eq!(reply.encode(), Ok(frame));
    assert_eq!(reply.clone(), reply);
}

#[test]
fn faults_of_batches() {
    let empty = |from: &str, to: &str| EMPTY_BATCH.replacen(from, to, 1);
    let write = |from: &str, to: &str| ONE_WRITE.replacen(from, to, 1);
    let write_2 = |from: &str, to: &str| ONE_WRITE_2.replacen(from, to, 1);
    for (hex, fault) in [
        (String::new(), WireError::Short),
        ("00400001".into(), WireError::Long),
        ("00000000".into(), WireError::Cut),
        ("00000001 02".into(), WireError::Kind),
        (COMMITTED_AND_CONFLICT.into(), WireError::Kind),
        (empty("0000001b", "0000001c") + "00", WireError::Trailing),
        (empty("ffffffffffffffff", "fffffffffffffffe"), WireError::Version),
        (write("00 0000 0001", "02 0000 0001"), WireError::Marks),
        (write("0000 0001 0001", "0401 0001 0001"), WireError::Count),
        (write("0001 61", "2712 61"), WireError::KeyLength),
        (write("61 0001 62", "62 0001 61"), WireError::Inverted),
        (write_2("00 0001 61", "02 0001 61"), WireError::Form),
        ("00000030".to_owned() + &write_2("61 0001 62", "6b 0002 6b00")[8..], WireError::Spelling),
    ] {
        assert_eq!(Batch::decode(&bytes(&hex)), Err(fault), "{hex}");
    }
}

#[test]
fn faults_of_replies() {
    let reply = |from: &str, to: &str| COMMITTED_AND_CONFLICT.replacen(from, to, 1);
    for (hex, fault) in [
        (EMPTY_BATCH.into(), WireError::Kind),
        (reply("0000000000000064", "ffffffffffffffff"), WireError::Version),
        (reply("02 0000 00", "03 0000 00"), WireError::Kind),
        (reply("0001 0000", "0001 0400"), WireError::Marks),
        (reply("00000013", "00000014") + "00", WireError::Trailing),
    ] {
        assert_eq!(Reply::decode(&bytes(&hex)), Err(fault), "{hex}");
    }
}

#[test]
fn a_batch_that_no_frame_holds() {
    let key = vec![0; 10_000];
    let reads = (0..500).fold(Txn::at(0), |txn, _| txn.read_key(&key));
    let batch = one_write(reads);
    assert_eq!(batch.encode(), Err(WireError::Long));
    assert_eq!(batch.encode_version_1(), Err(WireError::Long));
}

/// Gives one byte at a time, with an interruption before each, and fails at the end.
struct Slow<'a>(&'a [u8], bool, io::ErrorKind);

impl Read for Slow<'_> {
    fn read(&mut self, buffer: &mut [u8]) -> io::Result<usize> {
        self.1 = !self.1;
        if self.1 {
            return Err(io::ErrorKind::Interrupted.into());
        }
        if self.0.is_empty() {
            return Err(self.2.into());
        }
        self.0.read(&mut buffer[..1])
    }
}

#[test]
fn frames_of_a_reader() {
    let input = [bytes(EMPTY_BATCH), bytes(ONE_WRITE_2), bytes("0000")].concat();
    let mut reader = &input[..];
    let versions = [0, 100].map(Some).map(Ok);
    for expected in versions.into_iter().chain([Err(WireError::Short)]) {
        let read = Batch::read(&mut reader).map(|batch| batch.map(|batch| batch.version()));
        assert_eq!(read, expected);
    }
    assert_eq!(Batch::read(&b""[..]), Ok(None));

    let mut slow = Slow(&input[..81], false, io::ErrorKind::ConnectionReset);
    assert_eq!(Batch::read(&mut slow).map(|batch| batch.is_some()), Ok(true));
    assert_eq!(Batch::read(&mut slow), Err(WireError::Read(io::ErrorKind::ConnectionReset)));
}

/// Returns that it has read more bytes than the buffer has.
struct Lying;

impl Read for Lying {
    fn read(&mut self, buffer: &mut [u8]) -> io::Result<usize> {
        Ok(buffer.len() + 1)
    }
}

#[test]
fn a_reader_that_lies() {
    assert_eq!(Batch::read(Lying), Err(WireError::Read(io::ErrorKind::InvalidData)));
    assert_eq!(Reply::read(Lying), Err(WireError::Read(io::ErrorKind::InvalidData)));
}

#[test]
fn replies_of_a_reader() {
    let input = bytes(COMMITTED_AND_CONFLICT);
    let mut reader = &input[..];
    let read = Reply::read(&mut reader).expect("it is a frame");
    assert_eq!(read, Reply::decode(&input).ok().map(|(reply, _)| reply));
    assert_eq!(Reply::read(&mut reader), Ok(None));
    let mut slow = Slow(&input[..5], false, io::ErrorKind::TimedOut);
    assert_eq!(Reply::read(&mut slow), Err(WireError::Read(io::ErrorKind::TimedOut)));
}
