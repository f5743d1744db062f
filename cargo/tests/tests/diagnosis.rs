//! What is found in a file after a failed run, against a plain walk over its bytes, and the lines
//! about it by hand.

use rattle_std::alloc::Global;
use replay_diagnosis::{
    FileBatches, Finding, Position, RunFinding, examine, write_remedy, write_run_remedy,
};
use std::io::{Error, ErrorKind, Read, Result as IoResult};
use std::sync::atomic::{AtomicU64, Ordering};
use tests::cases::{count, run};
use tests::drawn::any_batch;
use tests::plain::{PlainBatch, PlainReply};
use tests::random::Random;
use tests::spelling::{batch_frame, framed, read_batch, read_reply, reply_frame};
use wire::{Failed, Sink, StdSource, WireError};

/// A reader that gives bytes in pieces and fails after them, if it is to.
struct Pieces<'a> {
    bytes: &'a [u8],
    fails: bool,
    most: usize,
}

impl Read for Pieces<'_> {
    fn read(&mut self, buffer: &mut [u8]) -> IoResult<usize> {
        if self.bytes.is_empty() && self.fails {
            return Err(Error::from(ErrorKind::IsADirectory));
        }
        let taken = buffer.len().min(self.most);
        self.bytes.read(&mut buffer[..taken])
    }
}

/// A writer that takes this many bytes and then fails. It counts the calls that it takes.
struct Narrow {
    room: usize,
    bytes: Vec<u8>,
    calls: usize,
}

impl Sink for Narrow {
    fn write(&mut self, bytes: &[u8]) -> Result<usize, Failed> {
        let taken = bytes.len().min(self.room);
        if taken == 0 {
            return Err(Failed);
        }
        self.room -= taken;
        self.bytes.extend(&bytes[..taken]);
        self.calls += 1;
        Ok(taken)
    }

    fn flush(&mut self) -> Result<(), Failed> {
        Ok(())
    }
}

fn examined(bytes: &[u8], fails: bool, most: usize) -> Result<FileBatches, Finding> {
    examine(Global, &mut StdSource::new(Pieces { bytes, fails, most }))
}

fn found(bytes: &[u8]) -> Result<FileBatches, Finding> {
    examined(bytes, false, usize::MAX)
}

/// Returns what a file contains, as the tables of `docs/WIRE.md` read it.
fn walked(bytes: &[u8], fails: bool) -> Result<FileBatches, Finding> {
    let mut position = Position { frame: 1, offset: 0 };
    let mut least_previous: Option<i64> = None;
    loop {
        let rest = &bytes[position.offset as usize..];
        let fault = match read_batch(rest) {
            Ok((batch, _, length)) => {
                least_previous =
                    Some(least_previous.map_or(batch.previous, |least| least.min(batch.previous)));
                position =
                    Position { frame: position.frame + 1, offset: position.offset + length as u64 };
                continue;
            }
            Err(WireError::Short) if fails => return Err(Finding::Unreadable(position)),
            Err(_) if rest.is_empty() => return Ok(FileBatches { least_previous }),
            Err(fault) => fault,
        };
        if position.offset == 0 && rest[0] == b'{' {
            return Err(Finding::Json);
        }
        if fault == WireError::Short {
            let settled =
                rest.first_chunk().map_or(4, |length| 4 + u64::from(u32::from_be_bytes(*length)));
            return Err(Finding::Truncated { position, missing: settled - rest.len() as u64 });
        }
        if read_reply(rest).is_ok() {
            return Err(Finding::Reply(position));
        }
        return Err(Finding::NotAFrame(position, fault));
    }
}

/// Returns what may follow the frames of batches in a file.
fn tail(random: &mut Random) -> Vec<u8> {
    let frame = batch_frame(&any_batch(random, 3, 2), 1 + random.below(2) as u8);
    match random.below(7) {
        0 => frame[..random.index(frame.len())].to_vec(),
        1 => {
            let mut changed = frame;
            let place = random.index(changed.len());
            changed[place] ^= 1 << random.below(8);
            changed
        }
        2 => reply_frame(&PlainReply { version: random.between(0, 9), entries: Vec::new() }),
        3 => b"{\"previous\":-1}\n"[..1 + random.index(16)].to_vec(),
        4 => framed(&vec![random.below(4) as u8; random.index(40)]),
        5 => (0..random.index(20)).map(|_| random.below(256) as u8).collect(),
        _ => Vec::new(),
    }
}

/// How often each finding came.
#[derive(Default)]
struct Kinds([AtomicU64; 6]);

impl Kinds {
    fn add(&self, found: &Result<FileBatches, Finding>) {
        let kind = match found {
            Ok(_) => 0,
            Err(Finding::Json) => 1,
            Err(Finding::Reply(_)) => 2,
            Err(Finding::Truncated { .. }) => 3,
            Err(Finding::NotAFrame(..)) => 4,
            Err(Finding::Unreadable(_)) => 5,
            Err(other) => panic!("{other:?}"),
        };
        self.0[kind].fetch_add(1, Ordering::Relaxed);
    }
}

#[test]
fn files_are_walked() {
    let kinds = Kinds::default();
    run("files_are_walked", count(2_000_000, 20_000), |random| {
        let frames = random.index(4);
        let mut bytes = Vec::new();
        for _ in 0..frames {
            bytes.extend(batch_frame(&any_batch(random, 3, 2), 1 + random.below(2) as u8));
        }
        bytes.extend(tail(random));
        if random.one_in(4) {
            bytes.extend(tail(random));
        }
        let fails = random.one_in(8);
        let most = random.pick(&[1, 2, 7, usize::MAX]);
        let found = examined(&bytes, fails, most);
        assert_eq!(found, walked(&bytes, fails), "{bytes:?}");
        kinds.add(&found);
        1
    });
    assert!(kinds.0.iter().all(|times| times.load(Ordering::Relaxed) > 0), "each finding comes");
}

fn following(previous: i64, version: i64) -> Vec<u8> {
    batch_frame(&PlainBatch::empty(previous, version), 2)
}

#[test]
fn findings_by_hand() {
    let frame = following(0, 100);
    assert_eq!(frame.len(), 31);
    let start = Position { frame: 1, offset: 0 };
    let second = Position { frame: 2, offset: 31 };
    let reply = reply_frame(&PlainReply { version: 0, entries: Vec::new() });
    let after = |tail: &[u8]| found(&[&frame[..], tail].concat());

    assert_eq!(found(b""), Ok(FileBatches { least_previous: None }));
    assert_eq!(found(&frame), Ok(FileBatches { least_previous: Some(0) }));
    assert_eq!(after(&following(-1, 0)), Ok(FileBatches { least_previous: Some(-1) }));
    assert_eq!(found(b"{"), Err(Finding::Json));
    assert_eq!(after(b"{"), Err(Finding::Truncated { position: second, missing: 3 }));
    assert_eq!(found(b"[1,2,3]"), Err(Finding::NotAFrame(start, WireError::Long)));
    assert_eq!(found(&reply), Err(Finding::Reply(start)));
    assert_eq!(after(&reply), Err(Finding::Reply(second)));
    assert_eq!(found(&frame[..3]), Err(Finding::Truncated { position: start, missing: 1 }));
    assert_eq!(after(&frame[..4]), Err(Finding::Truncated { position: second, missing: 27 }));
    assert_eq!(after(&frame[..30]), Err(Finding::Truncated { position: second, missing: 1 }));
    assert_eq!(after(&framed(&[4])), Err(Finding::NotAFrame(second, WireError::Kind)));
    assert_eq!(after(&framed(&[3])), Err(Finding::NotAFrame(second, WireError::Cut)));
    assert_eq!(examined(b"", true, 1), Err(Finding::Unreadable(start)));
    assert_eq!(examined(&frame, true, 1), Err(Finding::Unreadable(second)));
}

#[test]
fn batches_of_several_files() {
    let mut batches = FileBatches::none();
    assert_eq!(batches.held_from(), None);
    for (previous, held) in
        [(300, Some(300)), (70, Some(70)), (100, Some(70)), (-1, None), (5, None)]
    {
        let others = found(&following(previous, 1_000)).expect("it is a frame");
        batches.join(&others);
        batches.join(&FileBatches::none());
        assert_eq!(batches.held_from(), held);
    }
}

fn remedy(name: &str, finding: &Finding) -> String {
    let mut out = Narrow { room: usize::MAX, bytes: Vec::new(), calls: 0 };
    write_remedy(Global, &mut out, name, finding).expect("the writer takes all");
    assert_eq!(out.calls, 1, "a line is one write");
    for room in 0..out.bytes.len() {
        let mut narrow = Narrow { room, bytes: Vec::new(), calls: 0 };
        assert_eq!(write_remedy(Global, &mut narrow, name, finding), Err(WireError::Write));
        assert_eq!(narrow.bytes, out.bytes[..room]);
    }
    String::from_utf8(out.bytes).expect("it is text")
}

fn run_remedy(finding: &RunFinding) -> String {
    let mut out = Narrow { room: usize::MAX, bytes: Vec::new(), calls: 0 };
    write_run_remedy(Global, &mut out, finding).expect("the writer takes all");
    assert_eq!(out.calls, 1, "a line is one write");
    let mut narrow = Narrow { room: 2, bytes: Vec::new(), calls: 0 };
    assert_eq!(write_run_remedy(Global, &mut narrow, finding), Err(WireError::Write));
    assert_eq!(narrow.bytes, b"  ");
    String::from_utf8(out.bytes).expect("it is text")
}

#[test]
fn lines_about_files() {
    let start = Position { frame: 1, offset: 0 };
    let third = Position { frame: 3, offset: 162 };
    let last = Position { frame: u64::MAX, offset: u64::MAX };
    for (finding, text) in [
        (Finding::CannotOpen, "can't be opened: check the name and the permissions"),
        (
            Finding::StandardInput,
            "is standard input, which can't be read again: record it to a file, and replay that",
        ),
        (Finding::Memory, "can't be examined for want of memory: free memory"),
        (Finding::Unreadable(start), "can't be read: it is a directory, or its device fails"),
        (Finding::Unreadable(third), "can't be read at frame 3 at byte 162: check its device"),
        (Finding::Json, "is JSON: run `batches encode`, and replay its output"),
        (
            Finding::Reply(start),
            "contains replies, not batches, from frame 1 at byte 0 on: give them to `--check`",
        ),
        (
            Finding::Truncated { position: start, missing: 1 },
            "ends inside frame 1 at byte 0, 1 bytes too early: name a file of batches",
        ),
        (
            Finding::Truncated { position: third, missing: 12 },
            "ends inside frame 3 at byte 162, 12 bytes too early: \
             record it again, or keep the frames before it with `head -c 162`",
        ),
        (
            Finding::NotAFrame(start, WireError::Long),
            "has no frame of a batch as frame 1 at byte 0: name a file of batches",
        ),
        (
            Finding::NotAFrame(last, WireError::Trailing),
            "has no frame of a batch as frame 18446744073709551615 at byte 18446744073709551615: \
             record it again, or keep the frames before it with `head -c 18446744073709551615`",
        ),
    ] {
        assert_eq!(
            remedy("examples/first run", &finding),
            format!("  examples/first run {text}\n")
        );
    }
}

#[test]
fn names_stay_on_their_line() {
    for (name, shown) in [
        ("-", "-"),
        ("", ""),
        ("é\u{1f600}", "é\u{1f600}"),
        ("a\nb\tc\x1b[31m\x7f~ ", "a?b?c?[31m?~ "),
    ] {
        let line = format!("  {shown} can't be opened: check the name and the permissions\n");
        assert_eq!(remedy(name, &Finding::CannotOpen), line);
    }
}

#[test]
fn lines_about_runs() {
    for (finding, text) in [
        (
            RunFinding::AllHeld(70),
            "no batch follows version -1, so all are held: \
             begin the chain with `batches opening --version 70`",
        ),
        (
            RunFinding::GateFull,
            "too many batches wait for one that is missing: \
             make all files one chain, with rising versions in each file",
        ),
        (
            RunFinding::ArenaFull { version: -1, limit: 16_777_216 },
            "version -1 was reached with a limit of 16777216 boundaries: \
             raise `--limit`, or use a smaller `--window`",
        ),
        (RunFinding::Output, "the output can't be written: free its disk, or read it to its end"),
    ] {
        assert_eq!(run_remedy(&finding), format!("  {text}\n"));
    }
}
