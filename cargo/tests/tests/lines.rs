//! Lines of JSON: written lines are read back, and changed ones are read or refused without a
//! panic.

use json_lines::{Scratch, read_batch, read_reply, write_batch, write_reply};
use keyspace::Verdict;
use rattle_std::alloc::Global;
use tests::cases::{count, run};
use tests::drawn::any_batch;
use tests::plain::{PlainBatch, PlainEntry, PlainRange, PlainReply};
use tests::random::Random;

/// Puts bytes into the keys of a batch that JSON and the form of keys escape, and ones that are no
/// text.
fn with_escapes(batch: &mut PlainBatch, random: &mut Random) {
    let letters = b"\x00\x09\x1f ab\"\\/xX09~\x7f\x80\xc3\xa9\xff";
    for txn in &mut batch.txns {
        for range in txn.reads.iter_mut().chain(&mut txn.writes) {
            let mut key = || (0..random.index(6)).map(|_| random.pick(letters)).collect::<Vec<_>>();
            let (one, other) = (key(), key());
            match random.below(4) {
                0 => *range = PlainRange::single(one),
                1 => *range = PlainRange::new((&one).min(&other).clone(), one.max(other)),
                _ => {}
            }
        }
    }
}

/// Changes some bytes of a line, or cuts it.
fn edit(line: &[u8], random: &mut Random) -> Vec<u8> {
    let mut line = line.to_vec();
    for _ in 0..1 + random.index(3) {
        let place = random.index(line.len());
        match random.below(4) {
            0 => line.truncate(place),
            1 => line[place] = random.pick(b"\"\\[]{},:-0159eaux \x00\xff"),
            2 => drop(line.remove(place)),
            _ => line.insert(place, random.pick(b"\"\\[]{},:-0159eaux ")),
        }
        if line.is_empty() {
            break;
        }
    }
    line
}

#[test]
fn batches_are_read_back() {
    run("batches_are_read_back", count(1_000_000, 20_000), |random| {
        let mut scratch = Scratch::new(Global);
        let mut batch = any_batch(random, 4, 3);
        with_escapes(&mut batch, random);
        let line = write_batch(Global, &batch.batch()).expect("memory is ample");
        assert!(line.is_ascii() && line.iter().all(|byte| *byte >= b' '));
        let read = read_batch(Global, &line, &mut scratch).map(|batch| PlainBatch::of(&batch));
        assert_eq!(read.as_ref().ok(), Some(&batch));
        for _ in 0..4 {
            // What is read from a changed line is a batch, so that it is written and read back.
            if let Ok(other) = read_batch(Global, &edit(&line, random), &mut scratch) {
                let line = write_batch(Global, &other).expect("memory is ample");
                let again = read_batch(Global, &line, &mut scratch).expect("it was written");
                assert_eq!(PlainBatch::of(&again), PlainBatch::of(&other));
            }
        }
        1
    });
}

#[test]
fn replies_are_read_back() {
    run("replies_are_read_back", count(1_000_000, 20_000), |random| {
        let mut scratch = Scratch::new(Global);
        let entry = |random: &mut Random| {
            let verdict = random.pick(&[
                Verdict::Conflict,
                Verdict::Conflict,
                Verdict::TooOld,
                Verdict::Committed,
            ]);
            let chance = random.pick(&[2, 300]);
            let places = if verdict == Verdict::Conflict {
                (0..1_024).filter(|_| random.one_in(chance)).collect()
            } else {
                Vec::new()
            };
            PlainEntry { verdict, places }
        };
        let reply = PlainReply {
            version: any_batch(random, 0, 0).version,
            entries: (0..random.index(5)).map(|_| entry(random)).collect(),
        };
        let line = write_reply(Global, &reply.reply()).expect("memory is ample");
        let read = read_reply(Global, &line, &mut scratch).map(|reply| PlainReply::of(&reply));
        assert_eq!(read.as_ref().ok(), Some(&reply));
        for _ in 0..4 {
            drop(read_reply(Global, &edit(&line, random), &mut scratch));
        }
        1
    });
}

/// Returns the refusal of a line of a batch, as text, or nothing if it is read.
fn refusal(line: &str) -> Option<String> {
    read_batch(Global, line.as_bytes(), &mut Scratch::new(Global))
        .err()
        .map(|refusal| refusal.to_string())
}

/// The program `batches` passes over empty lines, so this one is no row of `json_rows.py`.
#[test]
fn empty_line_is_refused() {
    assert_eq!(refusal("").as_deref(), Some("not JSON"));
}

/// A line at the limits: transactions, ranges of one, and bytes of a single key. The end of a
/// further range has one byte more.
#[test]
fn limits_of_a_line() {
    let line = |txns: usize, ranges: usize, bytes: usize| {
        let key = "k".repeat(bytes);
        let ranges = vec!["\"k\""; ranges].join(",");
        let first =
            format!(r#"{{"snapshot":0,"reads":[{ranges}],"writes":["{key}",["","{key}k"]]}}"#);
        let txns =
            [vec![first.as_str()], vec![r#"{"snapshot":0,"reads":[],"writes":[]}"#; txns - 1]]
                .concat()
                .join(",");
        format!(r#"{{"previous":0,"version":1,"transactions":[{txns}]}}"#)
    };
    for (txns, ranges, bytes, expected) in [
        (4_096, 1_024, 10_000, None),
        (4_097, 1_024, 10_000, Some("transactions: more than 4,096 items")),
        (2, 1_025, 10_000, Some("transactions[0].reads: more than 1,024 items")),
        (2, 1, 10_001, Some("transactions[0].writes[0]: single key is longer than 10,000 bytes")),
    ] {
        assert_eq!(refusal(&line(txns, ranges, bytes)).as_deref(), expected);
    }
}
