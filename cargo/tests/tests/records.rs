//! Answers that are written as they come: the vectors of `docs/vectors.json`, random replies, and
//! writers that fail.

use keyspace::{Answer, Verdict};
use rattle_std::alloc::Global;
use replay_output::{AnswerError, Form, Line, LineFilter, Style, print_line, write_record};
use tests::cases::{count, run};
use tests::drawn::any_batch;
use tests::plain::{PlainEntry, PlainReply};
use tests::random::Random;
use tests::spelling::reply_frame;
use wire::{Failed, Sink};

/// A writer that takes so many bytes and then fails. It keeps what each call gave it.
struct Pieces {
    room: usize,
    pieces: Vec<Vec<u8>>,
}

impl Pieces {
    fn new(room: usize) -> Self {
        Pieces { room, pieces: Vec::new() }
    }

    fn bytes(&self) -> Vec<u8> {
        self.pieces.concat()
    }
}

impl Sink for Pieces {
    fn write(&mut self, bytes: &[u8]) -> Result<usize, Failed> {
        let taken = bytes.len().min(self.room);
        if taken == 0 {
            return Err(Failed);
        }
        self.room -= taken;
        self.pieces.push(bytes[..taken].to_vec());
        Ok(taken)
    }

    fn flush(&mut self) -> Result<(), Failed> {
        Ok(())
    }
}

fn entry(verdict: Verdict, places: &[u16]) -> PlainEntry {
    PlainEntry { verdict, places: places.to_vec() }
}

fn hex(bytes: &[u8]) -> String {
    bytes.iter().map(|byte| format!("{byte:02x}")).collect()
}

fn recorded(answer: &Answer) -> Vec<u8> {
    let mut out = Pieces::new(usize::MAX);
    write_record(Global, &mut out, answer).expect("the writer takes all");
    assert_eq!(out.pieces.len(), 1, "a record is one write");
    out.bytes()
}

#[test]
fn records_of_the_vectors() {
    let reply = |version, entries| Answer::Reply(PlainReply { version, entries }.reply());
    let committed = entry(Verdict::Committed, &[]);
    let rows = [
        (reply(0, vec![]), "0100000000000000000000000b0200000000000000000000"),
        (
            reply(100, vec![committed.clone()]),
            "0100000000000000640000000e0200000000000000640001020000",
        ),
        (
            reply(100, vec![committed, entry(Verdict::Conflict, &[0])]),
            "0100000000000000640000001302000000000000006400020200000000010000",
        ),
        (Answer::Never(100), "020000000000000064"),
        (Answer::Held(300), "03000000000000012c"),
        (Answer::Held(i64::MAX), "037fffffffffffffff"),
    ];
    for (answer, record) in rows {
        assert_eq!(hex(&recorded(&answer)), record);
    }
}

fn any_reply(random: &mut Random) -> PlainReply {
    let any_entry = |random: &mut Random| match random.below(4) {
        0 => entry(Verdict::Committed, &[]),
        1 => entry(Verdict::TooOld, &[]),
        2 => entry(Verdict::Conflict, &[]),
        _ => entry(Verdict::Conflict, &[1, 5, 1_023][..1 + random.index(3)]),
    };
    let entries = (0..random.index(6)).map(|_| any_entry(random)).collect();
    PlainReply { version: any_batch(random, 0, 0).version, entries }
}

#[test]
fn records_of_random_replies() {
    run("records_of_random_replies", count(200_000, 10_000), |random| {
        let reply = any_reply(random);
        let mut record = vec![1];
        record.extend(reply.version.to_be_bytes());
        record.extend(reply_frame(&reply));
        assert_eq!(recorded(&Answer::Reply(reply.reply())), record);
        1
    });
}

#[test]
fn lines_as_the_batch_run_prints_them() {
    run("lines_as_the_batch_run_prints_them", count(200_000, 10_000), |random| {
        let reply = any_reply(random);
        let answer = || match random_kind(reply.version) {
            0 => Answer::Never(reply.version),
            1 => Answer::Held(reply.version),
            _ => Answer::Reply(reply.reply()),
        };
        let proxy = random.index(64);
        for form in [Form::Words, Form::Frames, Form::Json] {
            let entire = line_of(Style::all(form), proxy, answer());
            let out = pieces_of(Style::all(form), proxy, &answer());
            assert_eq!(out, [entire.clone()], "a line is one write");
            let filter = any_filter(random, reply.version);
            let style = Style { form, filter };
            let is_shown = is_shown(&filter, &answer());
            assert_eq!(
                line_of(style, proxy, answer()),
                if is_shown { entire.clone() } else { vec![] }
            );
            assert_eq!(
                pieces_of(style, proxy, &answer()),
                if is_shown { vec![entire] } else { vec![] }
            );
        }
        1
    });
}

/// The line that is kept to be printed.
fn line_of(style: Style, proxy: usize, answer: Answer) -> Vec<u8> {
    let mut out = Pieces::new(usize::MAX);
    let line = Line::new(Global, style, proxy, answer).expect("memory is ample");
    line.text.print(&mut out).expect("the writer takes all");
    out.bytes()
}

/// The writes of the line that is printed at once.
fn pieces_of(style: Style, proxy: usize, answer: &Answer) -> Vec<Vec<u8>> {
    let mut out = Pieces::new(usize::MAX);
    print_line(Global, style, proxy, answer, &mut out).expect("the writer takes all");
    out.pieces
}

/// A filter whose ends are at a version or beside it, or left out.
fn any_filter(random: &mut Random, version: i64) -> LineFilter {
    let mut end = || {
        (random.below(3) > 0)
            .then(|| version.saturating_add(i64::try_from(random.index(3)).unwrap_or(0) - 1))
    };
    let (least, below) = (end().unwrap_or(i64::MIN), end());
    let only = [None, Some(Verdict::Committed), Some(Verdict::Conflict), Some(Verdict::TooOld)]
        [random.index(4)];
    LineFilter { quiet: random.below(8) == 0, only, least, below }
}

/// What `docs/REPLAY.md` says of the options.
fn is_shown(filter: &LineFilter, answer: &Answer) -> bool {
    let (version, verdicts) = match answer {
        Answer::Reply(reply) => {
            (reply.version, reply.entries.as_slice().iter().map(|entry| entry.verdict).collect())
        }
        Answer::Never(version) | Answer::Held(version) => (*version, vec![]),
    };
    let versions = filter.least..=filter.below.map_or(i64::MAX, |below| below.saturating_sub(1));
    let is_empty = filter.below == Some(i64::MIN);
    !filter.quiet
        && !is_empty
        && versions.contains(&version)
        && filter.only.is_none_or(|only| verdicts.contains(&only))
}

/// Chooses the kind of an answer by its version.
fn random_kind(version: i64) -> i64 {
    version % 5
}

#[test]
fn a_failed_write_leaves_a_prefix() {
    run("a_failed_write_leaves_a_prefix", count(2_000, 100), |random| {
        let answer = Answer::Reply(any_reply(random).reply());
        let record = recorded(&answer);
        for room in 0..=record.len() {
            let mut out = Pieces::new(room);
            let written = write_record(Global, &mut out, &answer);
            let expected = if room < record.len() { Err(AnswerError::Write) } else { Ok(()) };
            assert_eq!((written, out.bytes()), (expected, record[..room].to_vec()));
        }
        1
    });
}

/// A record of 9 bytes.
#[test]
fn record_fails_everywhere() {
    for room in 0..=9 {
        let written = write_record(Global, &mut Pieces::new(room), &Answer::Held(300));
        assert_eq!(
            written,
            if room < 9 { Err(AnswerError::Write) } else { Ok(()) },
            "after {room} bytes"
        );
    }
}
