//! What `replay_shards` clips and combines, against plain definitions.

use crate::shards::{Keys, combined, indices, keys, points, shards_of, split};
use keyspace::{Batch, Verdict};
use rattle_std::alloc::Global;
use rattle_std::sync::Arc;
use replay_output::{Form, Line, ProxyFailure, Style};
use replay_shards::{
    Answered, Clips, Note, PointsError, ShardStop, clips_each, combine_answered, failure_together,
    first_stop, points_of_sample, read_points,
};
use replay_summary::Outcome;
use resolver::Stop;
use shards::{ReadIndices, SplitPoints, number_all};
use std::io::Cursor;
use tests::cases::{count, run};
use tests::drawn::{KeySpace, any_batch};
use tests::plain::{PlainAnswer, PlainBatch, PlainEntry, PlainRange, PlainReply, PlainTxn};
use tests::playing::{Reader, reader};
use tests::random::Random;
use tests::spelling::batch_frame;
use wire::{Batches, StdSource, WireError, read_frames};

type Reads = Vec<Vec<u16>>;

fn numbered(batch: &PlainBatch, points: &SplitPoints) -> Vec<ReadIndices> {
    number_all(Global, &batch.batch(), points).expect("memory is ample").into_std()
}

/// Returns what the shard may answer to its clip of the batch, in its own numbers.
fn answer_to(random: &mut Random, batch: &PlainBatch, reads: &Reads) -> PlainAnswer {
    let version = batch.version;
    match random.below(12) {
        0 => return PlainAnswer::Never(version),
        1 => return PlainAnswer::Held(version),
        _ => {}
    }
    let entry = |(txn, reads): (&PlainTxn, &Vec<u16>)| {
        let verdict = random.pick(&[
            Verdict::Conflict,
            Verdict::TooOld,
            Verdict::Committed,
            Verdict::Committed,
        ]);
        let reports = txn.marked && verdict == Verdict::Conflict;
        let places = (0..reads.len() as u16).filter(|_| reports && random.one_in(2)).collect();
        PlainEntry { verdict, places }
    };
    PlainAnswer::Reply(PlainReply {
        version,
        entries: batch.txns.iter().zip(reads).map(entry).collect(),
    })
}

fn version_of(answer: &PlainAnswer) -> i64 {
    match answer {
        PlainAnswer::Reply(reply) => reply.version,
        PlainAnswer::Never(version) | PlainAnswer::Held(version) => *version,
    }
}

/// The answer of all shards to one batch, by the definition. Without a note a shard can report
/// nothing.
fn together(version: i64, answers: &[PlainAnswer], reads: &[Option<Reads>]) -> PlainAnswer {
    if answers.iter().any(|answer| matches!(answer, PlainAnswer::Never(_))) {
        return PlainAnswer::Never(version);
    }
    let replies: Vec<_> = answers
        .iter()
        .filter_map(
            |answer| if let PlainAnswer::Reply(reply) = answer { Some(reply) } else { None },
        )
        .collect();
    if replies.len() < answers.len() {
        return PlainAnswer::Held(version);
    }
    let of = |shard: usize, index: usize| {
        reads[shard].as_ref().and_then(|reads| reads.get(index)).cloned().unwrap_or_default()
    };
    let count = replies[0].entries.len();
    let is_in = |(shard, reply): (usize, &&PlainReply)| {
        reply.entries.iter().enumerate().all(|(index, entry)| {
            entry.places.iter().all(|place| usize::from(*place) < of(shard, index).len())
        })
    };
    if replies.iter().any(|reply| reply.entries.len() != count)
        || !replies.iter().enumerate().all(is_in)
    {
        return PlainAnswer::Never(version);
    }
    let entry = |index: usize| {
        combined(
            &replies
                .iter()
                .enumerate()
                .map(|(shard, reply)| (reply.entries[index].clone(), of(shard, index)))
                .collect::<Vec<_>>(),
        )
    };
    PlainAnswer::Reply(PlainReply { version, entries: (0..count).map(entry).collect() })
}

/// What one shard has answered to a proxy, and per batch that was read its version and the note, if
/// there is one.
struct PlainAnswered {
    answers: Vec<PlainAnswer>,
    notes: Vec<(i64, Reads)>,
}

/// The answers of all shards to a proxy, by the definition: of each version the first with the
/// first, the second with the second.
fn together_each(each: &[PlainAnswered]) -> Vec<PlainAnswer> {
    let mut versions: Vec<_> = each[0].answers.iter().map(version_of).collect();
    versions.sort_unstable();
    versions.dedup();
    let mut all = Vec::new();
    for version in versions {
        let of_version = |own: &PlainAnswered| {
            own.answers
                .iter()
                .filter(|answer| version_of(answer) == version)
                .cloned()
                .collect::<Vec<_>>()
        };
        let answers: Vec<_> = each.iter().map(of_version).collect();
        let note = |own: &PlainAnswered| {
            own.notes.iter().find(|note| note.0 == version).map(|note| note.1.clone())
        };
        let reads: Vec<_> = each.iter().map(note).collect();
        for index in 0..answers.iter().map(Vec::len).min().unwrap_or(0) {
            all.push(together(
                version,
                &answers.iter().map(|own| own[index].clone()).collect::<Vec<_>>(),
                &reads,
            ));
        }
    }
    all
}

/// Reads the answer that a line keeps.
fn answer_of(line: &Line) -> PlainAnswer {
    match (&line.reply, line.counted.outcome) {
        (Some(reply), _) => PlainAnswer::Reply(PlainReply::of(reply)),
        (None, Outcome::Held) => PlainAnswer::Held(line.counted.version),
        (None, _) => PlainAnswer::Never(line.counted.version),
    }
}

fn line(answer: &PlainAnswer) -> Line {
    Line::new(Global, Style::all(Form::Kept), 3, answer.answer()).expect("memory is ample")
}

fn combined_lines(answers: &[PlainAnswered], notes: Vec<Vec<Note>>) -> Vec<PlainAnswer> {
    let own = |(own, notes): (&PlainAnswered, Vec<Note>)| Answered {
        lines: own.answers.iter().map(line).collect::<Vec<_>>().into(),
        notes: notes.into(),
    };
    let each: Vec<_> = answers.iter().zip(notes).map(own).collect();
    combine_answered(Global, Style::all(Form::Kept), 3, each.into())
        .expect("memory is ample")
        .iter()
        .map(answer_of)
        .collect()
}

/// Shards answer versions in different orders, and a version comes twice. Some shard lacks the last
/// answers, as after a stop.
#[test]
fn answers_of_all_shards_are_those_of_a_plain_definition() {
    run(
        "answers_of_all_shards_are_those_of_a_plain_definition",
        count(10_000_000, 300_000),
        |random| {
            let points = points(&KeySpace::drawn(random), random);
            let split = split(&points);
            let versions = 1 + random.below(6) as i64;
            let batches: Vec<_> = (0..random.index(8))
                .map(|_| {
                    let version = random.between(0, versions);
                    PlainBatch {
                        previous: version - 1,
                        version,
                        received: -1,
                        ..any_batch(random, 4, 4)
                    }
                })
                .collect();
            let (mut each, mut notes) = (Vec::new(), Vec::new());
            for shard in 0..split.shard_count() {
                let mut own = PlainAnswered { answers: Vec::new(), notes: Vec::new() };
                let mut kept = Vec::new();
                for batch in &batches {
                    let mut all = numbered(batch, &split);
                    let reads = all.swap_remove(shard);
                    own.answers.push(answer_to(random, batch, &indices(&reads)));
                    if batch.txns.iter().any(|txn| txn.marked) {
                        own.notes.push((batch.version, indices(&reads)));
                        kept.push(Note { version: batch.version, reads });
                    }
                }
                random.shuffle(&mut own.answers);
                if random.one_in(4) {
                    own.answers.truncate(random.index(batches.len() + 1));
                }
                each.push(own);
                notes.push(kept);
            }
            assert_eq!(
                combined_lines(&each, notes),
                together_each(&each),
                "{points:?} {batches:?}"
            );
            1 + batches.len() as u64
        },
    );
}

fn txn(marked: bool, reads: &[(&str, &str)]) -> PlainTxn {
    PlainTxn {
        snapshot: 0,
        marked,
        reads: reads.iter().map(|(begin, end)| PlainRange::new(*begin, *end)).collect(),
        writes: Vec::new(),
    }
}

fn conflict(version: i64, places: &[u16]) -> PlainAnswer {
    PlainAnswer::Reply(PlainReply {
        version,
        entries: vec![PlainEntry { verdict: Verdict::Conflict, places: places.to_vec() }],
    })
}

fn committed(version: i64) -> PlainAnswer {
    PlainAnswer::Reply(PlainReply {
        version,
        entries: vec![PlainEntry { verdict: Verdict::Committed, places: Vec::new() }],
    })
}

/// Combines what two shards with the split point m have answered, where the batches that were sent
/// have notes.
fn by_hand(batches: &[PlainBatch], answers: [Vec<PlainAnswer>; 2]) -> Vec<PlainAnswer> {
    let split = split(&keys(["m"]));
    let notes = (0..2).map(|shard| {
        batches
            .iter()
            .map(|batch| Note {
                version: batch.version,
                reads: numbered(batch, &split).swap_remove(shard),
            })
            .collect()
    });
    let each = answers.map(|answers| PlainAnswered { answers, notes: Vec::new() });
    combined_lines(&each, notes.collect())
}

#[test]
fn answers_by_hand() {
    let batch = |version| PlainBatch {
        txns: vec![txn(true, &[("x", "y"), ("a", "z"), ("c", "d")])],
        ..PlainBatch::empty(0, version)
    };
    // The first shard has read ranges 1 and 2, the second 0 and 1.
    assert_eq!(
        by_hand(&[batch(10)], [vec![conflict(10, &[1])], vec![conflict(10, &[0])]]),
        [conflict(10, &[0, 2])]
    );
    assert_eq!(
        by_hand(&[batch(10)], [vec![conflict(10, &[0])], vec![conflict(10, &[1])]]),
        [conflict(10, &[1])]
    );
    // One shard rejects.
    assert_eq!(
        by_hand(&[batch(10)], [vec![committed(10)], vec![conflict(10, &[])]]),
        [conflict(10, &[])]
    );
    // Each shard has answered in an order of its own, and the first has stopped before the last
    // batch.
    let all = by_hand(
        &[batch(10), batch(20)],
        [
            vec![committed(20), conflict(10, &[0])],
            vec![conflict(10, &[1]), committed(20), conflict(30, &[])],
        ],
    );
    assert_eq!(all, [conflict(10, &[1]), committed(20)]);
    // A repeat: the second answer of a shard with the second of the other.
    let all = by_hand(
        &[],
        [vec![committed(10), PlainAnswer::Never(10)], vec![committed(10), committed(10)]],
    );
    assert_eq!(all, [committed(10), PlainAnswer::Never(10)]);
    // `never` before `held`, and `held` before a reply.
    let all = by_hand(
        &[],
        [
            vec![PlainAnswer::Held(10), PlainAnswer::Held(20)],
            vec![PlainAnswer::Never(10), committed(20)],
        ],
    );
    assert_eq!(all, [PlainAnswer::Never(10), PlainAnswer::Held(20)]);
    // Replies to different batches of one version: another number of transactions, or a place that
    // no read range has.
    let empty = PlainAnswer::Reply(PlainReply { version: 10, entries: Vec::new() });
    assert_eq!(by_hand(&[], [vec![committed(10)], vec![empty]]), [PlainAnswer::Never(10)]);
    assert_eq!(
        by_hand(&[batch(10)], [vec![conflict(10, &[2])], vec![conflict(10, &[0])]]),
        [PlainAnswer::Never(10)]
    );
    assert_eq!(
        by_hand(&[], [vec![conflict(10, &[0])], vec![committed(10)]]),
        [PlainAnswer::Never(10)]
    );
    assert_eq!(by_hand(&[], [Vec::new(), vec![committed(10)]]), []);
}

/// Draws a file of a few frames, and perhaps some bytes that are none.
fn file(random: &mut Random) -> (Vec<PlainBatch>, Vec<u8>) {
    let batches: Vec<_> = (0..random.index(5)).map(|_| any_batch(random, 5, 4)).collect();
    let mut file: Vec<u8> =
        batches.iter().flat_map(|batch| batch_frame(batch, random.pick(&[1, 2]))).collect();
    if random.one_in(4) {
        file.extend((0..1 + random.index(9)).map(|_| random.below(256) as u8));
    }
    (batches, file)
}

fn read_all<B: Batches>(stream: &mut B) -> (Vec<PlainBatch>, Option<WireError>) {
    let mut found = Vec::new();
    loop {
        match stream.next() {
            Ok(Some(batch)) => found.push(PlainBatch::of(&batch)),
            Ok(None) => return (found, None),
            Err(cause) => {
                assert_eq!(stream.next().map(|_| ()), Err(cause));
                return (found, Some(cause));
            }
        }
    }
}

#[test]
fn streams_of_clips_are_those_of_a_plain_definition() {
    run("streams_of_clips_are_those_of_a_plain_definition", count(1_000_000, 100_000), |random| {
        let (_, file) = file(random);
        let points = points(&KeySpace::drawn(random), random);
        let shared = Arc::new(Global, split(&points)).expect("memory is ample");
        let (batches, fault) = read_all(&mut read_frames(Global, StdSource::new(&file[..])));
        for (number, shard) in shards_of(&points).iter().enumerate() {
            let readers: Vec<Reader> = vec![reader(file.clone())];
            let mut streams = clips_each(Global, readers.into(), &shared, number)
                .expect("memory is ample")
                .into_std();
            let mut stream: Clips<Reader> = streams.remove(0);
            let (clips, met) = read_all(&mut stream);
            let expected: Vec<_> = batches.iter().map(|batch| shard.clip_batch(batch)).collect();
            assert_eq!(
                clips,
                expected.iter().map(|(clip, _)| clip.clone()).collect::<Vec<_>>(),
                "{points:?}"
            );
            assert_eq!(met, fault);
            let notes: Vec<_> = stream
                .into_notes()
                .iter()
                .map(|note| (note.version, indices(&note.reads)))
                .collect();
            let with_report =
                |(clip, _): &&(PlainBatch, Reads)| clip.txns.iter().any(|txn| txn.marked);
            let expected: Vec<_> = expected
                .iter()
                .filter(with_report)
                .map(|(clip, reads)| (clip.version, reads.clone()))
                .collect();
            assert_eq!(notes, expected, "{points:?}");
        }
        1 + batches.len() as u64
    });
}

fn points_in(text: &[u8], shards: usize) -> Result<Keys, PointsError> {
    let points = read_points(Global, &mut StdSource::new(text), shards)?;
    Ok(points.points().iter().map(|point| point.as_bytes().to_vec()).collect())
}

#[test]
fn points_of_lines() {
    assert_eq!(points_in(b"g\np\n", 3).ok(), Some(keys(["g", "p"])));
    assert_eq!(points_in(b"g\np", 3).ok(), Some(keys(["g", "p"])));
    assert_eq!(points_in(b"", 1).ok(), Some(keys([])));
    let refused =
        |text: &[u8], shards| points_in(text, shards).expect_err("they are refused").to_string();
    assert_eq!(refused(b"g\np\n", 2), "1 split points are wanted, the file has 2");
    assert_eq!(refused(b"g\np\n", 4), "3 split points are wanted, the file has 2");
    assert_eq!(refused(b"p\ng\n", 3), "line 2: the split point isn't after the one before");
    assert_eq!(refused(b"\ng\n", 3), "line 1: the split point isn't after the one before");
    assert!(refused(b"g\n\\q\n", 3).starts_with("line 2: "));
}

/// The sample of one file is all of its batches, if they are few.
#[test]
fn points_of_samples() {
    run("points_of_samples", count(100_000, 10_000), |random| {
        let files: Vec<_> = (0..1 + random.index(3)).map(|_| file(random)).collect();
        let shards = random.pick(&[1, 2, 3, 16]);
        let readers: Vec<Reader> = files.iter().map(|(_, file)| reader(file.clone())).collect();
        let found = points_of_sample(Global, readers.into(), shards).expect("memory is ample");
        let batches: Vec<Batch> = files
            .iter()
            .flat_map(|(_, file)| {
                read_all(&mut read_frames(Global, StdSource::new(Cursor::new(file.clone())))).0
            })
            .map(|batch| batch.batch())
            .collect();
        let expected = shards::balanced(Global, &batches.iter().collect::<Vec<_>>(), shards)
            .expect("memory is ample");
        assert_eq!(format!("{:?}", found.points()), format!("{:?}", expected.points()));
        1
    });
}

#[test]
fn failures_by_hand() {
    let failure = |fault, lost| ProxyFailure { fault, lost };
    let each = [
        failure(None, false),
        failure(Some(WireError::Read), false),
        failure(Some(WireError::Memory), true),
        failure(None, false),
    ];
    assert_eq!(failure_together(&each), failure(Some(WireError::Read), true));
    assert_eq!(failure_together(&each[..2]), failure(Some(WireError::Read), false));
    assert_eq!(failure_together(&[]), failure(None, false));
    let stops = [None, Some(Stop::ArenaFull), Some(Stop::GateFull)];
    assert_eq!(first_stop(&stops), Some(ShardStop { stop: Stop::ArenaFull, shard: 1 }));
    assert_eq!(first_stop(&stops[..1]), None);
}
