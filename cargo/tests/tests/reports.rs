//! What a run prints at its end: the answers, what failed, and why a run could not start.

use rattle_std::alloc::Global;
use rattle_std::io::BufWriter;
use rattle_std::vec::Vec as KitVec;
use replay_program::{
    Ending, Line, ProxyFailure, Report, StartError, Status, fail_to_start, print_report,
};
use resolver::Stop;
use std::io::Write;
use tests::failing::Failing;
use tests::printing::{ended, received};
use wire::{Sink, StdSink, WireError};

const CLEAN: ProxyFailure = ProxyFailure { fault: None, lost: false };
const SHORT: ProxyFailure = ProxyFailure { fault: Some(WireError::Short), lost: false };
const LOST: ProxyFailure = ProxyFailure { fault: None, lost: true };
const SHORT_AND_LOST: ProxyFailure = ProxyFailure { fault: Some(WireError::Short), lost: true };

/// What comes of a report of these failures, without answers.
fn printed_report(failures: &[ProxyFailure], ending: Ending) -> String {
    let mut received: Vec<KitVec<Line>> = failures.iter().map(|_| KitVec::new(Global)).collect();
    let (mut out, mut error) = (StdSink::new(Vec::new()), StdSink::new(Vec::new()));
    let report =
        print_report(Global, &mut out, &mut error, &mut received, &mut failures.to_vec(), ending);
    ended(report.status, &out.into_inner(), &error.into_inner())
}

#[test]
fn by_proxy_and_the_ending_last() {
    assert_eq!(printed_report(&[CLEAN, CLEAN], Ending::Complete), "done: ");
    let expected = "failed: replay: proxy 0: wire 1 Short\nreplay: proxy 0: memory\n";
    assert_eq!(printed_report(&[SHORT_AND_LOST], Ending::Complete), expected);
    let expected =
        "failed: replay: proxy 1: memory\nreplay: proxy 2: wire 1 Short\nreplay: stop 1 Memory\n";
    assert_eq!(printed_report(&[CLEAN, LOST, SHORT], Ending::Stopped(Stop::Memory)), expected);
}

#[test]
fn ending_of_no_proxy() {
    assert_eq!(
        printed_report(&[], Ending::Stopped(Stop::GateFull)),
        "failed: replay: stop 2 GateFull\n"
    );
    assert_eq!(
        printed_report(&[], Ending::Stopped(Stop::ArenaFull)),
        "failed: replay: stop 3 ArenaFull\n"
    );
    assert_eq!(
        printed_report(&[SHORT], Ending::Incomplete),
        "failed: replay: proxy 0: wire 1 Short\nreplay: incomplete\n"
    );
}

const FAULTS: [WireError; 15] = [
    WireError::Short,
    WireError::Long,
    WireError::Kind,
    WireError::Trailing,
    WireError::Version,
    WireError::Marks,
    WireError::Count,
    WireError::KeyLength,
    WireError::Inverted,
    WireError::Cut,
    WireError::Memory,
    WireError::Read,
    WireError::Form,
    WireError::Spelling,
    WireError::Write,
];

/// The texts of a report are those that the errors themselves display.
#[test]
fn names_as_displayed() {
    for fault in FAULTS {
        for stop in [Stop::Memory, Stop::GateFull, Stop::ArenaFull] {
            let displayed = format!("failed: replay: proxy 0: wire {fault}\nreplay: stop {stop}\n");
            assert_eq!(
                printed_report(
                    &[ProxyFailure { fault: Some(fault), lost: false }],
                    Ending::Stopped(stop)
                ),
                displayed
            );
        }
    }
}

#[test]
fn one_line_a_cause() {
    for (cause, expected) in [
        (StartError::Memory, "failed: replay: start 1 Memory\n"),
        (StartError::Thread, "failed: replay: start 2 Thread\n"),
    ] {
        let mut error = StdSink::new(Vec::new());
        let status = fail_to_start(&mut error, cause);
        assert_eq!(ended(status, b"", &error.into_inner()), expected);
    }
}

#[test]
fn a_stop_decides() {
    assert_eq!(Ending::new(true, None), Ending::Complete);
    assert_eq!(Ending::new(false, None), Ending::Incomplete);
    for complete in [false, true] {
        assert_eq!(Ending::new(complete, Some(Stop::GateFull)), Ending::Stopped(Stop::GateFull));
    }
}

const LINES: &str = "0 7 held\n1 3 never\n1 5 held\n";

/// Reports the answers to two proxies, of which these failed, to two writers. They were received in
/// another order.
fn reported(
    out: &mut impl Sink,
    error: &mut impl Sink,
    mut failures: [ProxyFailure; 2],
    ending: Ending,
) -> Report {
    print_report(
        Global,
        out,
        error,
        &mut received(&["7 held", "5 held; 3 never"]),
        &mut failures,
        ending,
    )
}

#[test]
fn answers_and_failures() {
    for (failures, ending, expected) in [
        ([CLEAN, CLEAN], Ending::Complete, "done: "),
        ([SHORT, CLEAN], Ending::Complete, "failed: replay: proxy 0: wire 1 Short\n"),
        ([CLEAN, LOST], Ending::Complete, "failed: replay: proxy 1: memory\n"),
        ([CLEAN, CLEAN], Ending::Incomplete, "failed: replay: incomplete\n"),
        (
            [LOST, SHORT],
            Ending::Stopped(Stop::Memory),
            "failed: replay: proxy 0: memory\nreplay: proxy 1: wire 1 Short\nreplay: stop 1 \
             Memory\n",
        ),
    ] {
        let (mut out, mut error) = (StdSink::new(Vec::new()), StdSink::new(Vec::new()));
        let report = reported(&mut out, &mut error, failures, ending);
        let found = ended(report.status, &out.into_inner(), &error.into_inner());
        assert_eq!(found.strip_prefix(LINES), Some(expected));
    }
}

/// Prints the answers to this writer where nothing else fails. Returns the status, and whether
/// standard error is empty.
fn printed_to(out: impl Write) -> (Status, bool) {
    let mut error = StdSink::new(Vec::new());
    let report = reported(&mut StdSink::new(out), &mut error, [CLEAN, CLEAN], Ending::Complete);
    (report.status, error.into_inner().is_empty())
}

/// Behind a buffer the flush meets the failure.
#[test]
fn output_fails_everywhere() {
    for room in 0..=LINES.len() {
        let expected = (Status::of(room == LINES.len()), true);
        assert_eq!(printed_to(Failing::after(room)), expected, "after {room} bytes");
        let buffered = BufWriter::new(Global, Failing::after(room)).expect("memory is ample");
        assert_eq!(printed_to(buffered), expected, "buffered, after {room} bytes");
    }
}

#[test]
fn flush_fails() {
    let out = Failing { room: LINES.len(), flushes: false };
    assert_eq!(printed_to(out), (Status::Failed, true));
}

/// Two failures are reported to a standard error that takes n bytes.
#[test]
fn error_output_fails_everywhere() {
    let text = "replay: proxy 0: wire 1 Short\nreplay: incomplete\n";
    for room in 0..=text.len() {
        let mut out = StdSink::new(Vec::new());
        let report = reported(
            &mut out,
            &mut StdSink::new(Failing::after(room)),
            [SHORT, CLEAN],
            Ending::Incomplete,
        );
        assert_eq!(report.reported.is_ok(), room == text.len());
        assert_eq!(
            ended(report.status, &out.into_inner(), b"").strip_prefix(LINES),
            Some("failed: ")
        );
    }
}
