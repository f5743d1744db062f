//! A worker alone, over lanes whose other ends are held here.

use keyspace::{Answer, Batch};
use lane::{Intake, Port, Taken, lane};
use rattle_std::alloc::Global;
use rattle_std::rt::HostRuntime;
use replay_program::{AlwaysOpen, Assignment, Finished, Form, LineFilter, Style, Unshared, work};
use resolver::Client;
use std::thread;
use tests::playing::{file_of, file_of_versions, reader};
use wire::StdSink;

/// A client, and the resolver's ends of its lanes.
fn connect() -> (Client, Intake<Batch>, Port<Answer>) {
    let (send_requests, requests) = lane(Global, 4).expect("memory is ample");
    let (replies, take_replies) = lane(Global, 4).expect("memory is ample");
    (Client { requests: send_requests, replies: take_replies }, requests, replies)
}

/// Works as proxy 0 with a share of 4.
fn worked(client: Client, file: Vec<u8>) -> Finished {
    let style = Style {
        form: Form::Words,
        filter: LineFilter { quiet: false, only: None, least: i64::MIN, below: None },
    };
    let assignment = Assignment { proxy: 0, share: 4, style };
    work(&HostRuntime::new(), Global, assignment, client, reader(file), &Unshared(AlwaysOpen))
}

/// Writes what a worker returns: the lines of its answers, whether one was lost, the fault of its
/// file and the batch unsent.
fn returned(finished: &Finished) -> String {
    let mut out = StdSink::new(Vec::new());
    finished.lines.iter().for_each(|line| line.text.print(&mut out).expect("a vector takes all"));
    let mut text = String::from_utf8(out.into_inner()).expect("lines are text");
    if finished.lost {
        text += "lost\n";
    }
    if let Some(fault) = finished.fault {
        text += &format!("fault {fault}\n");
    }
    if let Some(batch) = &finished.unsent {
        text += &format!("unsent {}\n", batch.version);
    }
    text
}

/// Works on a file with two answers in the reply lane, which is closed. Compares what the worker
/// returns after their lines, and whether it closes its lane. It sends nothing.
fn returns(file: Vec<u8>, expected: &str, closes: bool) {
    let (client, mut requests, mut replies) = connect();
    assert!(
        replies.send(Answer::Never(1)).is_ok() && replies.send(Answer::Held(2)).is_ok(),
        "the lane has room"
    );
    replies.close();
    let finished = worked(client, file);
    assert_eq!(returned(&finished).strip_prefix("0 1 never\n0 2 held\n"), Some(expected));
    match requests.take() {
        Taken::End => assert!(closes),
        Taken::Empty => assert!(!closes),
        Taken::Item(_) => panic!("a batch was sent"),
    }
}

#[test]
fn answers_after_fault() {
    returns(file_of(&[], b"\0"), "fault 1 Short\n", true);
}

#[test]
fn answers_after_end_of_file() {
    returns(Vec::new(), "", true);
}

#[test]
fn stops_sending_at_end_of_answers() {
    returns(file_of(&["-1>0"], b""), "unsent 0\n", false);
}

/// Takes batches up to the end of the lane, and then closes the replies. Returns their versions.
fn versions_taken(mut requests: Intake<Batch>, mut replies: Port<Answer>) -> Vec<i64> {
    let mut versions = Vec::new();
    loop {
        match requests.take() {
            Taken::Item(batch) => versions.push(batch.version),
            Taken::Empty => thread::yield_now(),
            Taken::End => break,
        }
    }
    replies.close();
    versions
}

/// Without answers, four batches are within the share. The others are admitted.
#[test]
fn sends_every_batch_in_order() {
    let (client, requests, replies) = connect();
    let worker = thread::spawn(|| worked(client, file_of_versions(0..20)));
    assert_eq!(versions_taken(requests, replies), (0..20).collect::<Vec<_>>());
    let finished = worker.join().expect("the worker returns");
    assert!(finished.lines.is_empty() && finished.fault.is_none() && finished.unsent.is_none());
    assert_eq!(finished.most_unanswered.count(), 4);
}
