//! Replays recorded files with a resolver per shard, and prints what `replay --resolvers` prints:
//! `resolvers POINTS WINDOW LIMIT FILE..`.
//!
//! POINTS has the split points as hexadecimal digits, with commas between them. The file at index
//! p, counted from 0, has the batches of proxy p.

use archcaraway::{Answer, Batch, Core, CoreError, ReadIndices, Reply, Stop, Verdict};
use archcaraway::{ShardReply, SplitPoints, combine};
use std::collections::{HashMap, VecDeque};
use std::error::Error;
use std::fs::File;
use std::io::BufReader;
use std::process::ExitCode;

/// A batch as a proxy sent it, with the read ranges that each shard has of it.
struct Sent {
    proxy: usize,
    batch: Batch,
    reads: Vec<ReadIndices>,
}

/// The answers of a shard by proxy and version.
type Answers = HashMap<(usize, i64), VecDeque<Answer>>;

fn keys(text: &str) -> Result<Vec<Vec<u8>>, Box<dyn Error>> {
    let byte = |digits| Ok(u8::from_str_radix(std::str::from_utf8(digits)?, 16)?);
    text.split(',').map(|key| key.as_bytes().chunks(2).map(byte).collect()).collect()
}

/// Passes a stop over: the core keeps it, and takes nothing more.
fn unless_stopped(result: Result<(), CoreError>) -> Result<(), CoreError> {
    match result {
        Err(CoreError::Stop(_)) => Ok(()),
        other => other,
    }
}

/// Clips the batches of a file to every shard, and gives each core its clips.
fn send_file(
    proxy: usize,
    path: &str,
    points: &SplitPoints,
    cores: &mut [Core],
) -> Result<Vec<Sent>, Box<dyn Error>> {
    let mut file = BufReader::new(File::open(path)?);
    let mut sent = Vec::new();
    while let Some(batch) = Batch::read(&mut file)? {
        let mut reads = Vec::new();
        for (clip, core) in points.clip(&batch)?.into_iter().zip(&mut *cores) {
            unless_stopped(core.admit(proxy, clip.batch))?;
            reads.push(clip.reads);
        }
        sent.push(Sent { proxy, batch, reads });
    }
    Ok(sent)
}

fn take_answers(core: &mut Core) -> Result<Answers, CoreError> {
    unless_stopped(core.finish().map_err(CoreError::from))?;
    let mut answers = Answers::new();
    while let Some(proxy) = core.next() {
        if let Some(answer) = core.give(proxy)? {
            let own = answers.entry((proxy, answer.version()));
            own.or_default().push_back(answer);
        }
    }
    Ok(answers)
}

fn words(reply: &Reply) -> String {
    if reply.is_empty() {
        return "empty".into();
    }
    let words = reply.verdicts().enumerate().map(|(index, verdict)| {
        let places: Vec<String> = reply.conflicts(index).map(|place| place.to_string()).collect();
        let word = match verdict {
            Verdict::Conflict => "conflict",
            Verdict::TooOld => "tooold",
            Verdict::Committed => "committed",
        };
        let between = if places.is_empty() { "" } else { ":" };
        format!("{word}{between}{}", places.join(","))
    });
    words.collect::<Vec<_>>().join(" ")
}

/// Returns the line of a batch that all shards have answered.
fn line(sent: Sent, answers: Vec<Answer>) -> Result<String, Box<dyn Error>> {
    let is = |kind: fn(&Answer) -> bool| answers.iter().any(kind);
    let head = format!("{} {}", sent.proxy, sent.batch.version());
    if is(|answer| matches!(answer, Answer::Never(_))) {
        return Ok(format!("{head} never"));
    }
    if is(|answer| matches!(answer, Answer::Held(_))) {
        return Ok(format!("{head} held"));
    }
    let replies = answers.into_iter().zip(sent.reads).filter_map(|(answer, reads)| match answer {
        Answer::Reply(reply) => Some(ShardReply { reply, reads }),
        Answer::Never(_) | Answer::Held(_) => None,
    });
    Ok(format!("{head} {}", words(&combine(&sent.batch, replies)?)))
}

/// Prints the stop of the first shard that has one.
fn print_stop(cores: &[Core]) -> ExitCode {
    for (shard, core) in cores.iter().enumerate() {
        let Some(stop) = core.stop() else {
            continue;
        };
        let number = match stop {
            Stop::Memory => 1,
            Stop::GateFull => 2,
            Stop::ArenaFull => 3,
        };
        eprintln!("replay: stop {number} {stop:?}\nreplay: shard {shard}");
        return ExitCode::FAILURE;
    }
    ExitCode::SUCCESS
}

fn run(points: &SplitPoints, cores: &mut [Core], paths: &[String]) -> Result<(), Box<dyn Error>> {
    let mut sent = Vec::new();
    for (proxy, path) in paths.iter().enumerate() {
        sent.extend(send_file(proxy, path, points, cores)?);
    }
    let taken: Result<Vec<Answers>, CoreError> = cores.iter_mut().map(take_answers).collect();
    let mut shards = taken?;
    sent.sort_by_key(|sent| (sent.proxy, sent.batch.version()));
    for sent in sent {
        let of = (sent.proxy, sent.batch.version());
        let each = shards.iter_mut().map(|answers| answers.get_mut(&of)?.pop_front());
        if let Some(answers) = each.collect() {
            println!("{}", line(sent, answers)?);
        }
    }
    Ok(())
}

fn main() -> Result<ExitCode, Box<dyn Error>> {
    let arguments: Vec<String> = std::env::args().skip(1).collect();
    let [points, window, limit, paths @ ..] = &arguments[..] else {
        eprintln!("usage: resolvers POINTS WINDOW LIMIT FILE..");
        return Ok(ExitCode::from(2));
    };
    let points = SplitPoints::new(keys(points)?)?;
    let (window, limit) = (window.parse()?, limit.parse()?);
    let core = |_| Core::new(paths.len(), window, limit);
    let mut cores = (0..points.shards()).map(core).collect::<Result<Vec<_>, _>>()?;
    run(&points, &mut cores, paths)?;
    Ok(print_stop(&cores))
}
