//! Which failures of a reader or a writer are tried again, and how often a call reaches the reader
//! or the writer; and that a frame is read in as many calls as the reader needs, and no more.

use rattle_std::alloc::Global;
use std::cell::Cell;
use std::io::{ErrorKind, Read, Result as IoResult, Write};
use tests::plain::{PlainBatch, PlainRange, PlainTxn};
use tests::spelling::batch_frame;
use wire::{
    Failed, Sink, Source, StdSink, StdSource, WireError, read_frames, upgrade, write_all,
    write_and_flush,
};

/// Fails `failures` times in this way, and then answers. Counts the calls.
struct Failing<'a> {
    kind: ErrorKind,
    failures: u32,
    calls: &'a Cell<u32>,
}

impl Failing<'_> {
    fn call(&mut self) -> IoResult<()> {
        self.calls.set(self.calls.get() + 1);
        if self.failures == 0 {
            return Ok(());
        }
        self.failures -= 1;
        Err(self.kind.into())
    }
}

impl Read for Failing<'_> {
    fn read(&mut self, buffer: &mut [u8]) -> IoResult<usize> {
        self.call()?;
        buffer[0] = 7;
        Ok(1)
    }
}

impl Write for Failing<'_> {
    fn write(&mut self, bytes: &[u8]) -> IoResult<usize> {
        self.call()?;
        Ok(bytes.len())
    }

    fn flush(&mut self) -> IoResult<()> {
        self.call()
    }
}

/// What a call of each kind answers, and how often it reaches the reader or the writer.
fn tries(kind: ErrorKind, failures: u32) -> Vec<(bool, u32)> {
    let calls = Cell::new(0);
    let failing = || Failing { kind, failures, calls: &calls };
    let read = StdSource::new(failing()).read(&mut [0]).is_ok();
    let reads = calls.replace(0);
    let written = StdSink::new(failing()).write(b"a").is_ok();
    let writes = calls.replace(0);
    let flushed = StdSink::new(failing()).flush().is_ok();
    let flushes = calls.replace(0);
    vec![(read, reads), (written, writes), (flushed, flushes)]
}

/// A failure other than an interruption is reported at once: the next call, and not this one, tries
/// again.
#[test]
fn only_interruptions_are_retried() {
    for kind in [
        ErrorKind::WouldBlock,
        ErrorKind::TimedOut,
        ErrorKind::BrokenPipe,
        ErrorKind::UnexpectedEof,
        ErrorKind::Other,
    ] {
        assert_eq!(tries(kind, 1), [(false, 1); 3], "{kind:?}");
    }
    assert_eq!(tries(ErrorKind::Interrupted, 0), [(true, 1); 3]);
    assert_eq!(tries(ErrorKind::Interrupted, 1), [(true, 2); 3]);
    assert_eq!(tries(ErrorKind::Interrupted, 1_000), [(true, 1_001); 3]);
    assert_eq!(tries(ErrorKind::Interrupted, 1_001), [(false, 1_001); 3]);
}

/// `write_all` and `write_and_flush` stop at the first failure.
#[test]
fn failed_write_is_the_last() {
    for kind in [ErrorKind::WouldBlock, ErrorKind::TimedOut] {
        let calls = Cell::new(0);
        let sink = || StdSink::new(Failing { kind, failures: 1, calls: &calls });
        assert_eq!(write_all(&mut sink(), b"ab"), Err(Failed));
        assert_eq!(calls.replace(0), 1);
        assert_eq!(write_and_flush(&mut sink(), b"ab"), Err(Failed));
        assert_eq!(calls.replace(0), 1);
    }
}

/// Once the reader has failed, `Frames` fails, though the reader has bytes now.
#[test]
fn failed_read_is_the_last() {
    let frame = batch_frame(&PlainBatch::empty(-1, 0), 1);
    let calls = Cell::new(0);
    let fails = Failing { kind: ErrorKind::Other, failures: 1, calls: &calls };
    let mut frames = read_frames(Global, StdSource::new(FailsFirst { fails, bytes: &frame }));
    assert!(matches!(frames.next(), Err(WireError::Read)));
    assert!(matches!(frames.next(), Err(WireError::Read)));
    assert_eq!(calls.get(), 1);
}

/// A reader that gives its bytes once `fails` has failed as often as it does.
struct FailsFirst<'a> {
    fails: Failing<'a>,
    bytes: &'a [u8],
}

impl Read for FailsFirst<'_> {
    fn read(&mut self, buffer: &mut [u8]) -> IoResult<usize> {
        self.fails.call()?;
        self.bytes.read(buffer)
    }
}

/// Gives at most `step` bytes in each call, and fails in this way instead of the end. Counts the
/// calls.
struct Steps<'a> {
    bytes: &'a [u8],
    step: usize,
    end: Option<ErrorKind>,
    calls: &'a Cell<u32>,
}

impl Read for Steps<'_> {
    fn read(&mut self, buffer: &mut [u8]) -> IoResult<usize> {
        self.calls.set(self.calls.get() + 1);
        if let (true, Some(kind)) = (self.bytes.is_empty(), self.end) {
            return Err(kind.into());
        }
        let count = self.bytes.len().min(buffer.len()).min(self.step);
        buffer[..count].copy_from_slice(&self.bytes[..count]);
        self.bytes = &self.bytes[count..];
        Ok(count)
    }
}

fn batch(previous: i64, writes: usize) -> PlainBatch {
    let write = |index: usize| PlainRange::single(index.to_be_bytes());
    let txns = vec![PlainTxn {
        snapshot: 0,
        marked: false,
        reads: Vec::new(),
        writes: (0..writes).map(write).collect(),
    }];
    PlainBatch { previous, version: previous + 10, received: -1, txns }
}

/// A frame of a reader that gives a byte per call takes a call per byte, and one more only at the
/// end of the input.
#[test]
fn one_call_per_piece() {
    let frame = batch_frame(&batch(0, 1_000), 2);
    for step in [1, 7, 4_096] {
        let calls = Cell::new(0);
        let mut frames = read_frames(
            Global,
            StdSource::new(Steps { bytes: &frame, step, end: None, calls: &calls }),
        );
        assert!(matches!(frames.next(), Ok(Some(_))));
        let pieces =
            4_u32.div_ceil(step.min(4) as u32) + (frame.len() as u32 - 4).div_ceil(step as u32);
        assert_eq!(calls.replace(0), pieces);
        assert!(matches!(frames.next(), Ok(None)));
        assert_eq!(calls.get(), 1);
    }
}

/// If reading fails after some frames, `upgrade` has written each of them, whatever the failure is
/// called.
#[test]
fn upgrade_writes_what_came_before_a_failed_read() {
    let frames: Vec<Vec<u8>> = (0..4).map(|index| batch_frame(&batch(10 * index, 3), 1)).collect();
    let expected: Vec<Vec<u8>> =
        (0..4).map(|index| batch_frame(&batch(10 * index, 3), 2)).collect();
    for kind in [ErrorKind::WouldBlock, ErrorKind::TimedOut] {
        for complete in 0..=4 {
            for rest in [0, 1, 5, 30] {
                let next = frames.get(complete).map_or(&[][..], |frame| &frame[..rest]);
                let bytes = [frames[..complete].concat().as_slice(), next].concat();
                let calls = Cell::new(0);
                let mut reader = StdSource::new(Steps {
                    bytes: &bytes,
                    step: 9,
                    end: Some(kind),
                    calls: &calls,
                });
                let mut sink = StdSink::new(Vec::new());
                assert_eq!(upgrade(Global, &mut reader, &mut sink), Err(WireError::Read));
                assert_eq!(sink.into_inner(), expected[..complete].concat());
            }
        }
    }
}
