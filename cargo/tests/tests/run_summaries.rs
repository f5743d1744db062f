//! Summaries of a run: with the ranges that conflict most, and beside the answers.

use rattle_std::alloc::Global;
use rattle_std::rt::HostRuntime;
use rattle_std::sync::Arc;
use replay_program::{
    AlwaysOpen, Form, Options, Reports, Status, Style, SummaryForm, SummaryRequest, SummaryWriter,
    Unshared,
};
use replay_program::{replay_and_summarize_over, replay_over, summarize_over};
use std::io::Write;
use std::iter;
use tests::failing::Failing;
use tests::playing::{Reader, file_of, reader};
use tests::printing::ended;
use wire::StdSink;

/// One file: the second transaction of its last batch conflicts by two of its reads, the first by
/// one.
const CONFLICTS: &[&str] = &[
    "-1>0",
    "0>100: W[a,b) W[k,l); W[a,b)",
    "100>200: R[a,b) @99; R[k,kb) R[a,b) R[a,b) @99; R[a,b) @100; W[a,b); R[x,y) R[a,b) @150",
];

/// The summary of that file in words.
const LINES: &str = "proxy 0: batches 3, transactions 7, committed 4, conflict 3, tooold 0, \
    conflict rate 42.9 %, repeats 0, never 0, held 0, versions 0 to 200\n\
    all: batches 3, transactions 7, committed 4, conflict 3, tooold 0, \
    conflict rate 42.9 %, repeats 0, never 0, held 0, versions 0 to 200\n\
    resolver: held at most 0, boundaries 5, at most 5\n";

/// The members of the summary of that file, of the proxy and of all.
const MEMBERS: &str = "\"batches\":3,\"transactions\":7,\"committed\":4,\"conflict\":3,\
    \"tooold\":0,\"conflict_percent\":42.9,\"repeats\":0,\"never\":0,\"held\":0,\
    \"versions\":{\"first\":0,\"last\":200}";

/// How full the resolver was: its boundaries are the empty key, `a`, `b`, `k` and `l`.
const FULL: &str = ",\"most_held\":0,\"boundaries\":5,\"most_boundaries\":5";

fn object(more: &str) -> String {
    format!("{{\"proxies\":[{{\"proxy\":0,{MEMBERS}}}],{MEMBERS}{FULL}{more}}}\n")
}

fn options() -> Options {
    Options {
        capacity: 4,
        window: 5_000_000,
        limit: 1 << 20,
        style: Style::all(Form::Words),
        reports: Reports::Asked,
    }
}

fn readers(files: &[(&[&str], &[u8])]) -> rattle_std::vec::Vec<Reader> {
    files.iter().map(|(batches, rest)| reader(file_of(batches, rest))).collect::<Vec<_>>().into()
}

fn gatekeeper() -> Arc<Unshared<AlwaysOpen>, Global> {
    Arc::new(Global, Unshared(AlwaysOpen)).ok().expect("memory is ample")
}

/// The summary of these files, and how the run has ended.
fn summarized(
    files: &[(&[&str], &[u8])],
    options: Options,
    form: SummaryForm,
    top: Option<usize>,
) -> String {
    let (mut out, mut error) = (StdSink::new(Vec::new()), StdSink::new(Vec::new()));
    let summary = SummaryRequest { form, top };
    let run = summarize_over(
        &HostRuntime::new(),
        Global,
        readers(files),
        options,
        summary,
        &gatekeeper(),
        &mut out,
        &mut error,
    );
    ended(run.status, &out.into_inner(), &error.into_inner())
}

#[test]
fn ranges_under_the_lines() {
    let rows = [
        (None, String::new()),
        (
            Some(0),
            "read ranges in conflict, most first\nwritten ranges in conflict, most first\n"
                .to_owned(),
        ),
        (
            Some(1),
            "read ranges in conflict, most first\n  3 [\"a\",\"b\")\n\
            written ranges in conflict, most first\n  3 [\"a\",\"b\")\n"
                .to_owned(),
        ),
        (
            Some(1000),
            "read ranges in conflict, most first\n  3 [\"a\",\"b\")\n  1 [\"k\",\"kb\")\n\
            written ranges in conflict, most first\n  3 [\"a\",\"b\")\n  1 [\"k\",\"l\")\n"
                .to_owned(),
        ),
    ];
    for (top, ranges) in rows {
        assert_eq!(
            summarized(&[(CONFLICTS, b"")], options(), SummaryForm::Words, top),
            format!("{LINES}{ranges}done: ")
        );
    }
}

#[test]
fn ranges_in_the_object() {
    let rows = [
        (None, ""),
        (Some(0), ",\"hot_reads\":[],\"hot_writes\":[]"),
        (
            Some(1),
            ",\"hot_reads\":[{\"begin\":\"a\",\"end\":\"b\",\"conflicts\":3}],\
            \"hot_writes\":[{\"begin\":\"a\",\"end\":\"b\",\"conflicts\":3}]",
        ),
    ];
    for (top, members) in rows {
        assert_eq!(
            summarized(&[(CONFLICTS, b"")], options(), SummaryForm::Json, top),
            object(members) + "done: "
        );
    }
}

/// A transaction that is too old has no conflict, and a batch that isn't processed has none.
#[test]
fn no_conflicts() {
    let headings = "read ranges in conflict, most first\nwritten ranges in conflict, most first\n";
    let old = Options { window: 1, ..options() };
    let text = summarized(
        &[(&["-1>0", "0>100: W[a,b)", "100>101: R[a,b) @99"], b"")],
        old,
        SummaryForm::Words,
        Some(9),
    );
    assert!(text.contains(" tooold 1,") && text.ends_with(&format!("{headings}done: ")), "{text}");
    let text =
        summarized(&[(&["-1>0", "5>100: R[a,b) @0"], b"")], options(), SummaryForm::Words, Some(9));
    assert!(text.contains(" held 1,") && text.ends_with(&format!("{headings}done: ")), "{text}");
}

/// The ranges are of all proxies. Those before a fault remain.
#[test]
fn ranges_of_several_files() {
    let files: [(&[&str], &[u8]); 2] = [
        (&["-1>0: W[a,b)", "100>200: R[a,b) R[b,c) @99"], b"\0"),
        (&["0>100: W[a,c) W[b,c)"], b""),
    ];
    let text = summarized(&files, options(), SummaryForm::Words, Some(2));
    let ranges = "read ranges in conflict, most first\n  1 [\"a\",\"b\")\n  1 [\"b\",\"c\")\n\
        written ranges in conflict, most first\n  1 [\"a\",\"c\")\n  1 [\"b\",\"c\")\n\
        failed: replay: proxy 0: ";
    assert!(text.contains(ranges), "{text}");
}

/// After a stop, the ranges are those of the batches that were processed before it.
#[test]
fn ranges_after_a_stop() {
    let files: [(&[&str], &[u8]); 1] =
        [(&["-1>100: W[a,b)", "100>101: R[a,b) @99", "101>102: W[c,d) W[e,f) W[g,h)"], b"")];
    let text = summarized(&files, Options { limit: 3, ..options() }, SummaryForm::Words, Some(5));
    let ranges = "read ranges in conflict, most first\n  1 [\"a\",\"b\")\n\
        written ranges in conflict, most first\n  1 [\"a\",\"b\")\n\
        failed: replay: stop 3 ArenaFull\n";
    assert!(text.ends_with(ranges), "{text}");
}

/// The line of the resolver of one file.
fn resolver_line(batches: &[&str], options: Options) -> String {
    let text = summarized(&[(batches, b"")], options, SummaryForm::Words, None);
    let line = text.lines().find(|line| line.starts_with("resolver: ")).expect("a line");
    line.strip_prefix("resolver: held at most ").expect("the number held").to_owned()
}

/// The batches of a file are taken in its order. The empty key is always a boundary.
#[test]
fn how_full_the_resolver_was() {
    let short = Options { window: 1, ..options() };
    let small = Options { limit: 3, ..options() };
    let rows: [(&[&str], Options, &str); 9] = [
        (&[], options(), "0, boundaries 1, at most 1"),
        (&["-1>0: W[a,b)"], options(), "0, boundaries 3, at most 3"),
        // Held at once: two, then one. That one is held to the end.
        (&["5>6: W[a,b)", "7>8", "-1>5: W[c,d)"], options(), "2, boundaries 5, at most 5"),
        // One leaves, one comes.
        (&["0>1", "-1>0", "2>3", "1>2"], options(), "1, boundaries 1, at most 1"),
        // All leave at once.
        (&["2>3", "1>2", "0>1", "-1>0"], options(), "3, boundaries 1, at most 1"),
        // A batch that is held counts once for each time that it comes.
        (&["7>8", "7>8", "-1>0"], options(), "2, boundaries 1, at most 1"),
        // Writes expire.
        (
            &["-1>0: W[a,b) W[c,d) W[e,f)", "0>100: W[a,b)", "100>200: W[a,b)"],
            short,
            "0, boundaries 3, at most 7",
        ),
        // A stop: the batch that would need more boundaries isn't counted.
        (&["-1>0: W[a,b)", "0>1: W[c,d)"], small, "0, boundaries 3, at most 3"),
        (&["-1>0: W[a,b)", "7>8", "0>1: W[c,d)"], small, "1, boundaries 3, at most 3"),
    ];
    for (batches, options, wanted) in rows {
        assert_eq!(resolver_line(batches, options), wanted, "{batches:?}");
    }
}

#[test]
fn ranges_for_a_writer_that_fails() {
    for room in [0, 5, 400] {
        let (mut out, mut error) = (StdSink::new(Failing::after(room)), StdSink::new(Vec::new()));
        let summary = SummaryRequest { form: SummaryForm::Words, top: Some(3) };
        let files = readers(&[(CONFLICTS, b"")]);
        let run = summarize_over(
            &HostRuntime::new(),
            Global,
            files,
            options(),
            summary,
            &gatekeeper(),
            &mut out,
            &mut error,
        );
        assert_eq!(ended(run.status, b"", &error.into_inner()), "failed: ");
    }
}

/// What was printed, written and reported, and how the run has ended, if the answers and the
/// summary go to these writers.
fn replayed<O: Write, T: Write>(
    files: &[(&[&str], &[u8])],
    options: Options,
    form: SummaryForm,
    out: O,
    to: T,
) -> (O, T, String) {
    let (mut out, mut error) = (StdSink::new(out), StdSink::new(Vec::new()));
    let mut summary = SummaryWriter { form, writer: StdSink::new(to) };
    let run = replay_and_summarize_over(
        &HostRuntime::new(),
        Global,
        readers(files),
        options,
        &gatekeeper(),
        &mut out,
        &mut summary,
        &mut error,
    );
    (out.into_inner(), summary.writer.into_inner(), ended(run.status, b"", &error.into_inner()))
}

/// The answers are those without a summary, and the summary is that without answers. If one of
/// several proxies meets a stop, the schedule decides how many batches were held before.
#[test]
fn both_texts() {
    let json = Options { style: Style::all(Form::Json), ..options() };
    let small = Options { limit: 3, ..options() };
    let held: (&[&str], &[u8]) = (&["300>400"], b"");
    let alone = vec![(CONFLICTS, &b""[..])];
    let several = [vec![(CONFLICTS, &b"\0"[..]), held], vec![held, (CONFLICTS, &b""[..])]];
    for options in [options(), json, options().quieted(), small] {
        for files in iter::once(&alone).chain(several.iter().filter(|_| options.limit > 3)) {
            let mut out = StdSink::new(Vec::new());
            let mut error = StdSink::new(Vec::new());
            let run = replay_over(
                &HostRuntime::new(),
                Global,
                readers(files),
                options,
                &gatekeeper(),
                &mut out,
                &mut error,
            );
            let answers = (out.into_inner(), ended(run.status, b"", &error.into_inner()));
            for form in [SummaryForm::Words, SummaryForm::Json] {
                let (out, to, end) = replayed(files, options, form, Vec::new(), Vec::new());
                assert_eq!((out, end.clone()), answers);
                assert_eq!(
                    String::from_utf8(to).expect("a summary is text") + &end,
                    summarized(files, options, form, None)
                );
            }
        }
    }
}

#[test]
fn answers_and_their_summary() {
    let (out, to, end) =
        replayed(&[(CONFLICTS, b"")], options(), SummaryForm::Words, Vec::new(), Vec::new());
    let answers = b"0 0 empty\n0 100 committed committed\n\
        0 200 conflict conflict committed committed conflict\n";
    assert_eq!(out, answers);
    assert_eq!(to, LINES.as_bytes());
    assert_eq!(end, "done: ");
}

/// If one of the two writers fails, the other is given its text, and the status is that of a
/// failure, without a line.
#[test]
fn a_writer_that_fails() {
    let files = [(CONFLICTS, &b""[..])];
    for failing in
        [Failing::after(0), Failing::after(7), Failing { room: usize::MAX, flushes: false }]
    {
        let (_, to, end) = replayed(&files, options(), SummaryForm::Words, failing, Vec::new());
        assert_eq!((to, end), (LINES.as_bytes().to_vec(), "failed: ".to_owned()));
    }
    for failing in
        [Failing::after(0), Failing::after(7), Failing { room: usize::MAX, flushes: false }]
    {
        let (out, _, end) = replayed(&files, options(), SummaryForm::Words, Vec::new(), failing);
        assert_eq!(end, "failed: ");
        assert!(out.ends_with(b"0 200 conflict conflict committed committed conflict\n"));
    }
}

/// Nothing else is written, and the status says what failed.
#[test]
fn statuses() {
    let (_, to, end) =
        replayed(&[(&["-1>0"], b"\0")], options(), SummaryForm::Words, Vec::new(), Vec::new());
    assert!(
        to.starts_with(b"proxy 0: batches 1,") && end.starts_with("failed: replay: proxy 0: "),
        "{end}"
    );
    assert_eq!(Status::Done, Status::of(true));
}
