//! Replays recorded files, and prints what the program `replay` prints: `replay FILE..`.
//!
//! The file at index p, counted from 0, has the batches of proxy p.

use archcaraway::WireError;
use archcaraway::{Answer, Batch, Core, CoreError, MAX_PROXIES, Reply, Stop, Verdict, WINDOW};
use std::error::Error;
use std::fs::File;
use std::io::BufReader;
use std::process::ExitCode;

const LIMIT: usize = 1_000_000;

/// A file, and why its reading has ended.
struct Input {
    reader: BufReader<File>,
    end: Option<Result<(), WireError>>,
}

/// Takes one batch of each file in turn, to the end of all files or to their faults.
fn admit_all(core: &mut Core, inputs: &mut [Input]) -> Result<(), CoreError> {
    while inputs.iter().any(|input| input.end.is_none()) {
        for (proxy, input) in inputs.iter_mut().enumerate() {
            if input.end.is_some() {
                continue;
            }
            match Batch::read(&mut input.reader) {
                Ok(Some(batch)) => core.admit(proxy, batch)?,
                Ok(None) => input.end = Some(Ok(())),
                Err(fault) => input.end = Some(Err(fault)),
            }
        }
    }
    Ok(core.finish()?)
}

/// Takes the answers owed to a proxy, by version.
fn take_answers(core: &mut Core, proxy: usize) -> Result<Vec<Answer>, CoreError> {
    let mut answers = Vec::new();
    while let Some(answer) = core.give(proxy)? {
        answers.push(answer);
    }
    answers.sort_by_key(Answer::version);
    Ok(answers)
}

fn verdicts(reply: &Reply) -> String {
    let words = reply.verdicts().enumerate().map(|(index, verdict)| {
        let places: Vec<String> = reply.conflicts(index).map(|place| place.to_string()).collect();
        let word = match verdict {
            Verdict::Conflict => "conflict",
            Verdict::TooOld => "tooold",
            Verdict::Committed => "committed",
        };
        let between = if places.is_empty() { "" } else { ":" };
        format!("{word}{between}{}", places.join(","))
    });
    words.collect::<Vec<_>>().join(" ")
}

fn text(answer: &Answer) -> String {
    match answer {
        Answer::Reply(reply) if reply.is_empty() => "empty".into(),
        Answer::Reply(reply) => verdicts(reply),
        Answer::Never(_) => "never".into(),
        Answer::Held(_) => "held".into(),
    }
}

fn stop_number(stop: Stop) -> u8 {
    match stop {
        Stop::Memory => 1,
        Stop::GateFull => 2,
        Stop::ArenaFull => 3,
    }
}

fn fault_number(fault: WireError) -> u8 {
    match fault {
        WireError::Short => 1,
        WireError::Long => 2,
        WireError::Kind => 3,
        WireError::Trailing => 4,
        WireError::Version => 5,
        WireError::Marks => 6,
        WireError::Count => 7,
        WireError::KeyLength => 8,
        WireError::Inverted => 9,
        WireError::Cut => 10,
        WireError::Memory => 11,
        WireError::Read(_) => 12,
        WireError::Form => 13,
        WireError::Spelling => 14,
    }
}

fn run(paths: &[String]) -> Result<ExitCode, Box<dyn Error>> {
    let mut core = Core::new(paths.len(), WINDOW, LIMIT)?;
    let mut inputs = Vec::new();
    for path in paths {
        inputs.push(Input { reader: BufReader::new(File::open(path)?), end: None });
    }
    let admitted = admit_all(&mut core, &mut inputs);
    for proxy in 0..paths.len() {
        for answer in take_answers(&mut core, proxy)? {
            println!("{proxy} {} {}", answer.version(), text(&answer));
        }
    }
    let mut code = ExitCode::SUCCESS;
    for (proxy, input) in inputs.iter().enumerate() {
        if let Some(Err(fault)) = input.end {
            eprintln!("replay: proxy {proxy}: wire {} {fault:?}", fault_number(fault));
            code = ExitCode::FAILURE;
        }
    }
    match admitted {
        Ok(()) => Ok(code),
        Err(CoreError::Stop(stop)) => {
            eprintln!("replay: stop {} {stop:?}", stop_number(stop));
            Ok(ExitCode::FAILURE)
        }
        Err(error) => Err(error.into()),
    }
}

fn main() -> Result<ExitCode, Box<dyn Error>> {
    let paths: Vec<String> = std::env::args().skip(1).collect();
    if !(1..=MAX_PROXIES).contains(&paths.len()) {
        eprintln!("usage: replay FILE.., 1 to {MAX_PROXIES} of them");
        return Ok(ExitCode::from(2));
    }
    run(&paths)
}
