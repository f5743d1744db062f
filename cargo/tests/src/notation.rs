//! Batches and answers as the worked rows write them.

use crate::plain::{PlainAnswer, PlainBatch, PlainEntry, PlainRange, PlainReply, PlainTxn};
use keyspace::Verdict;

/// Reads a batch: `100>200 received 100: W[a,b) @0; m R[a,b) R[k] @50`.
///
/// Received is -1 and a snapshot 0 if they aren't given. `R[k]` is the range of one key. Keys have
/// no blanks and none of `,;:])`.
pub fn batch(text: &str) -> PlainBatch {
    let (head, body) = text.split_once(": ").unwrap_or((text, ""));
    let (versions, received) = head.split_once(" received ").unwrap_or((head, "-1"));
    let (previous, version) = versions.split_once('>').expect("versions have a sign between them");
    let txns = body.split(';').filter(|_| !body.is_empty()).map(txn).collect();
    PlainBatch {
        previous: number(previous),
        version: number(version),
        received: number(received),
        txns,
    }
}

fn number(text: &str) -> i64 {
    text.parse().expect("it is a number")
}

fn txn(text: &str) -> PlainTxn {
    let mut txn = PlainTxn { snapshot: 0, marked: false, reads: Vec::new(), writes: Vec::new() };
    for word in text.split_whitespace() {
        match word.split_at(1) {
            ("m", "") => txn.marked = true,
            ("@", snapshot) => txn.snapshot = number(snapshot),
            ("R", keys) => txn.reads.push(range(keys)),
            ("W", keys) => txn.writes.push(range(keys)),
            _ => panic!("no part of a transaction: {word}"),
        }
    }
    txn
}

fn range(text: &str) -> PlainRange {
    let keys = text.strip_prefix('[').expect("a range begins with a bracket");
    if let Some(key) = keys.strip_suffix(']') {
        return PlainRange::single(key);
    }
    let (begin, end) =
        keys.strip_suffix(')').and_then(|keys| keys.split_once(',')).expect("a range has two keys");
    PlainRange::new(begin, end)
}

/// Reads a reply: `100 committed conflict:0,2`, or `100 empty`.
pub fn reply(text: &str) -> PlainReply {
    let (version, words) = text.split_once(' ').expect("a version comes first");
    let words = if words == "empty" { "" } else { words };
    PlainReply { version: number(version), entries: words.split_whitespace().map(entry).collect() }
}

fn entry(word: &str) -> PlainEntry {
    let (verdict, places) = word.split_once(':').unwrap_or((word, ""));
    let verdict = match verdict {
        "conflict" => Verdict::Conflict,
        "tooold" => Verdict::TooOld,
        "committed" => Verdict::Committed,
        _ => panic!("no verdict: {word}"),
    };
    let places = places.split(',').filter(|place| !place.is_empty());
    PlainEntry {
        verdict,
        places: places.map(|place| place.parse().expect("it is an index")).collect(),
    }
}

/// Reads an answer: a reply, `100 never`, or `100 held`.
pub fn answer(text: &str) -> PlainAnswer {
    match text.split_once(' ') {
        Some((version, "never")) => PlainAnswer::Never(number(version)),
        Some((version, "held")) => PlainAnswer::Held(number(version)),
        _ => PlainAnswer::Reply(reply(text)),
    }
}

/// Writes a reply: `100 committed conflict:0,2`, or `100 empty`.
pub fn reply_text(reply: &PlainReply) -> String {
    let mut text = reply.version.to_string();
    if reply.entries.is_empty() {
        text += " empty";
    }
    for entry in &reply.entries {
        text += match entry.verdict {
            Verdict::Conflict => " conflict",
            Verdict::TooOld => " tooold",
            Verdict::Committed => " committed",
        };
        let places: Vec<_> = entry.places.iter().map(u16::to_string).collect();
        if !places.is_empty() {
            text = text + ":" + &places.join(",");
        }
    }
    text
}

/// Writes an answer: a reply, `100 never`, or `100 held`.
pub fn answer_text(answer: &PlainAnswer) -> String {
    match answer {
        PlainAnswer::Reply(reply) => reply_text(reply),
        PlainAnswer::Never(version) => format!("{version} never"),
        PlainAnswer::Held(version) => format!("{version} held"),
    }
}
