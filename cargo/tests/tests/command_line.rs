//! The arguments of `replay`: those that are read, and how the program ends if they are not.

use keyspace::Verdict;
use rattle_std::alloc::Global;
use rattle_std::string::String as KitString;
use replay_program::{
    ArgumentsRefusal, CommandLine, Form, LineFilter, Options, Reports, Style, Task, read_words,
};
use tests::failing::Failing;
use tests::printing::ended;
use wire::StdSink;

/// The arguments between blanks, after the program's name.
fn words_of(given: &str) -> Vec<KitString> {
    ["replay"]
        .into_iter()
        .chain(given.split_whitespace())
        .map(|word| word.to_owned().into())
        .collect()
}

/// Reads arguments, and writes the files and the options.
fn read(given: &str) -> String {
    let words = words_of(given);
    let line = read_words(Global, &words).expect("the arguments are right");
    line.files.iter().map(|file| format!("{file} ")).collect::<String>()
        + "|"
        + &options_text(&line)
}

fn options_text(line: &CommandLine) -> String {
    let Options { capacity, window, limit, style, reports } = line.options;
    let form = match style.form {
        Form::Words => "",
        Form::Frames => " frames",
        Form::Json => " json",
        Form::Kept => " kept",
    };
    let reports = match reports {
        Reports::Asked => "",
        Reports::All => " report-all",
    };
    let (task, details) = (task_text(&line.task), details_text(line));
    format!(
        " {capacity} {window} {limit}{reports}{form}{}{task}{details}",
        filter_text(&style.filter)
    )
}

fn task_text(task: &Task) -> String {
    match task {
        Task::Print => String::new(),
        Task::Explain => " explain".to_owned(),
        Task::Summarize(form, None) => format!(" summary {form:?}"),
        Task::Summarize(form, Some(top)) => format!(" summary {form:?} top {top}"),
        Task::Stream(records) => format!(" stream{}", names_text(records)),
        Task::Check(replies) => format!(" check{}", names_text(replies)),
    }
}

fn names_text(names: &[&str]) -> String {
    names.iter().map(|name| format!(" {name}")).collect()
}

fn details_text(line: &CommandLine) -> String {
    let output = line.output.map(|name| format!(" to {name}"));
    let summary = line.summary_to.map(|file| format!(" summary {:?} to {}", file.form, file.name));
    let verbose = line.verbose.then(|| " verbose".to_owned());
    let several = line.sharding.is_several().then(|| format!(" by {}", line.sharding.resolvers));
    let points = line.sharding.split_points.map(|name| format!(" points {name}"));
    [output, summary, verbose, several, points].into_iter().flatten().collect()
}

fn filter_text(filter: &LineFilter) -> String {
    let quiet = filter.quiet.then(|| " quiet".to_owned());
    let only = filter.only.map(|verdict: Verdict| format!(" only {verdict:?}"));
    let least = (filter.least != i64::MIN).then(|| format!(" from {}", filter.least));
    let below = filter.below.map(|below| format!(" below {below}"));
    [quiet, only, least, below].into_iter().flatten().collect()
}

fn refusal_of(given: &str) -> ArgumentsRefusal {
    read_words(Global, &words_of(given)).expect_err("nothing is replayed")
}

/// How the program ends instead of replaying.
fn end_of(given: &str) -> String {
    let (mut out, mut error) = (StdSink::new(Vec::new()), StdSink::new(Vec::new()));
    let status = refusal_of(given).end(&mut out, &mut error);
    ended(status, &out.into_inner(), &error.into_inner())
}

/// The arguments are refused: nothing is on standard output, and an error on standard error.
fn refuses(given: &str) {
    let end = end_of(given);
    assert!(end.starts_with("usage: error: "), "{given}: {end}");
}

#[test]
fn refused_words() {
    for given in [
        "",
        "--frames",
        "--capacity 0 f",
        "--capacity 1025 f",
        "--capacity sixteen f",
        "--capacity -1 f",
        "--capacity 1 --capacity 2 f",
        "--window 0 f",
        "--window 1099511627777 f",
        "--window 1.5 f",
        "--limit 0 f",
        "--limit 16777217 f",
        "--limit many f",
        "f --limit",
        "--frames=yes f",
        "-x f",
        "--none f",
        "--json --frames f",
        "--json --check r f",
        "--frames --check r f",
        "--json --json f",
        "--check f",
        "--check r --check s f",
        "--check r f g",
        "- -",
        "f - g -",
        "--check - -",
        "-- - -",
        "--stream --stream f",
        "--stream --check r f",
        "--replies r f",
        "--stream --replies f",
        "--stream --replies r f g",
        "--stream --replies r --replies s f",
        "--quiet --quiet f",
        "--quiet=yes f",
        "--only f",
        "--only conflicts f",
        "--only conflict --only tooold f",
        "--versions 5 f",
        "--versions 5.7 f",
        "--versions 5...7 f",
        "--versions 5..7.. f",
        "--versions a.. f",
        "--versions ..9223372036854775808 f",
        "--versions=..- f",
        "--quiet --check r f",
        "--only conflict --check r f",
        "--versions .. --check r f",
        "--summary --summary f",
        "--summary=yes f",
        "--summary --check r f",
        "--summary --stream f",
        "--summary --frames f",
        "--summary --quiet f",
        "--summary --only tooold f",
        "--summary --versions .. f",
        "-o r",
        "f -o",
        "-o r --output s f",
        "--summary-to r",
        "--summary-to r --summary-to s f",
        "--summary-to r --summary f",
        "--summary-to r --check s f",
        "--summary-to r --stream f",
        "--summary-to r --frames f",
        "--summary-to r --explain f",
        "--summary-to r --json --explain f",
        "--top 5 f",
        "--top 5 --stream f",
        "--top 5 --explain f",
        "--top 5 --check r f",
        "--top 5 --summary-to r f",
        "--top 0 --summary f",
        "--top 1001 --summary f",
        "--top -1 --summary f",
        "--top many --summary f",
        "--top 5 --top 5 --summary f",
        "--verbose",
        "--verbose --verbose f",
        "--verbose=yes f",
        "--report-all",
        "--report-all=yes f",
        "--report-all --report-all f",
        "--report f",
        "--Report-all f",
        "--resolvers 0 f",
        "--resolvers 17 f",
        "--resolvers many f",
        "--resolvers 2 --resolvers 2 f",
        "--split-points p f",
        "--split-points p --resolvers 1 f",
        "--split-points p --split-points q --resolvers 2 f",
        "--resolvers 2 -",
        "--resolvers 2 f -",
        "--resolvers 2 --split-points - --check - f",
        "--resolvers 2 --stream f",
        "--resolvers 2 --explain f",
        "--resolvers 2 --explain --json f",
        "--resolvers 2 --report-all f",
        "--split-points p --resolvers 2 f -o p",
        "--split-points p --resolvers 2 f --summary-to p",
        "--resolvers 2 --summary --top 5 f",
    ] {
        refuses(given);
    }
    refuses(&"f ".repeat(65));
}

const WRITTEN_INPUT: &str =
    "error: --output, --summary-to and --replies are wanted with files that aren't read\n";

/// The program's own refusals say why.
#[test]
fn reasons_of_refusals() {
    for (given, reason) in [
        ("--json --frames f", "error: at most one of --frames, --json and --check is wanted\n"),
        ("--check r f g", "error: --check REPLIES is wanted once a file\n"),
        ("--stream --check r f", "error: --stream is wanted without --check\n"),
        ("--only never f", "error: --only is committed, conflict or tooold\n"),
        (
            "--versions 5 f",
            "error: --versions is A..B with integers of 64 bits, of which each can be omitted\n",
        ),
        (
            "--quiet --check r f",
            "error: --quiet, --only and --versions are wanted without --check\n",
        ),
        (
            "--summary --quiet f",
            "error: --summary is wanted without --check, --stream, --frames, --quiet, --only and \
             --versions\n",
        ),
        (
            "--summary-to r --stream f",
            "error: --summary-to is wanted without --check, --stream, --summary, --explain and \
             --frames\n",
        ),
        (
            "--summary-to r --explain f",
            "error: --summary-to is wanted without --check, --stream, --summary, --explain and \
             --frames\n",
        ),
        ("--top 5 f", "error: --top is wanted with --summary\n"),
        ("--top 5 --summary-to r f", "error: --top is wanted with --summary\n"),
        ("--replies r f", "error: --replies OUT is wanted with --stream\n"),
        (
            "--resolvers 2 --stream f",
            "error: --resolvers above 1 is wanted without --stream, --explain, --top and \
             --report-all\n",
        ),
        (
            "--resolvers 2 --explain f",
            "error: --resolvers above 1 is wanted without --stream, --explain, --top and \
             --report-all\n",
        ),
        (
            "--resolvers 2 f -",
            "error: --resolvers above 1 is wanted without standard input (-) as a FILE\n",
        ),
        ("--split-points p f", "error: --split-points POINTS is wanted with --resolvers above 1\n"),
        ("--stream --replies r f g", "error: --replies OUT is wanted once a file\n"),
        ("- f -", "error: standard input (-) can be given only once\n"),
        (
            "--resolvers 2 --report-all f",
            "error: --resolvers above 1 is wanted without --stream, --explain, --top and \
             --report-all\n",
        ),
        ("f g -o g", WRITTEN_INPUT),
        ("--resolvers 2 --split-points p f -o p", WRITTEN_INPUT),
        ("--resolvers 2 --split-points p f --summary-to p", WRITTEN_INPUT),
        ("--check r f -o r", WRITTEN_INPUT),
        ("f --summary-to=f", WRITTEN_INPUT),
        ("--stream f g --replies r --replies f", WRITTEN_INPUT),
        (&"f ".repeat(65), "error: from 1 to 64 files are wanted\n"),
    ] {
        let end = end_of(given);
        assert!(end.contains(reason), "{given}: {end}");
    }
}

#[test]
fn words_and_options() {
    for (given, expected) in [
        ("a", "a | 16 5000000 1000000"),
        ("b a b", "b a b | 16 5000000 1000000"),
        ("-- --frames", "--frames | 16 5000000 1000000"),
        ("a - b", "a - b | 16 5000000 1000000"),
        ("-- -", "- | 16 5000000 1000000"),
        ("--check - a", "a | 16 5000000 1000000 kept check -"),
        ("- ./- --json", "- ./- | 16 5000000 1000000 json"),
        ("--capacity 1 --window=1 a --frames b --limit 1", "a b | 1 1 1 frames"),
        ("--json a", "a | 16 5000000 1000000 json"),
        ("--check r a b --check=s", "a b | 16 5000000 1000000 kept check r s"),
        ("a --stream b", "a b | 16 5000000 1000000 stream"),
        ("--quiet a", "a | 16 5000000 1000000 quiet"),
        ("--only committed a --stream", "a | 16 5000000 1000000 only Committed stream"),
        (
            "--only conflict --versions +5..07 --json a",
            "a | 16 5000000 1000000 json only Conflict from 5 below 7",
        ),
        (
            "--only=tooold --versions=-9223372036854775807.. a",
            "a | 16 5000000 1000000 only TooOld from -9223372036854775807",
        ),
        (
            "--versions ..9223372036854775807 --frames a",
            "a | 16 5000000 1000000 frames below 9223372036854775807",
        ),
        ("--versions .. a", "a | 16 5000000 1000000"),
        ("--summary a", "a | 16 5000000 1000000 summary Words"),
        ("a --json --summary b", "a b | 16 5000000 1000000 json summary Json"),
        ("--replies r a --stream --json", "a | 16 5000000 1000000 json stream r"),
        ("--stream --replies - a --replies=s b", "a b | 16 5000000 1000000 stream - s"),
        (
            "--capacity=1024 --window 1099511627776 --limit 16777216 a",
            "a | 1024 1099511627776 16777216",
        ),
        ("-o r a", "a | 16 5000000 1000000 to r"),
        ("-o - - a", "- a | 16 5000000 1000000 to -"),
        ("-o ./a a", "a | 16 5000000 1000000 to ./a"),
        ("a --output=r --frames", "a | 16 5000000 1000000 frames to r"),
        ("-or a --check s", "a | 16 5000000 1000000 kept check s to r"),
        ("--stream a --output - --replies s", "a | 16 5000000 1000000 stream s to -"),
        ("--summary -o r a", "a | 16 5000000 1000000 summary Words to r"),
        ("--explain --output r a", "a | 16 5000000 1000000 explain to r"),
        ("--summary-to r a", "a | 16 5000000 1000000 summary Words to r"),
        ("a --json --summary-to=r", "a | 16 5000000 1000000 json summary Json to r"),
        (
            "--summary-to r --quiet --only tooold a",
            "a | 16 5000000 1000000 quiet only TooOld summary Words to r",
        ),
        ("--summary-to r -o s a", "a | 16 5000000 1000000 to s summary Words to r"),
        ("--explain a --json", "a | 16 5000000 1000000 json explain"),
        ("--explain --only conflict a", "a | 16 5000000 1000000 only Conflict explain"),
        ("--top 1 --summary a", "a | 16 5000000 1000000 summary Words top 1"),
        ("--summary --json --top=+01000 a", "a | 16 5000000 1000000 json summary Json top 1000"),
        ("--top 20 --summary -o r a", "a | 16 5000000 1000000 summary Words top 20 to r"),
        ("--verbose a", "a | 16 5000000 1000000 verbose"),
        ("--summary-to r --verbose a", "a | 16 5000000 1000000 summary Words to r verbose"),
        ("a --check s --verbose", "a | 16 5000000 1000000 kept check s verbose"),
        ("--stream --verbose -o r a", "a | 16 5000000 1000000 stream to r verbose"),
        ("--summary --verbose --top 2 a", "a | 16 5000000 1000000 summary Words top 2 verbose"),
        ("--verbose --explain --json a", "a | 16 5000000 1000000 json explain verbose"),
        ("--report-all a", "a | 16 5000000 1000000 report-all"),
        ("--limit 7 a --report-all b --frames", "a b | 16 5000000 7 report-all frames"),
        ("a --explain --json --report-all", "a | 16 5000000 1000000 report-all json explain"),
        ("--report-all --check r a", "a | 16 5000000 1000000 report-all kept check r"),
        ("--stream --report-all --replies r a", "a | 16 5000000 1000000 report-all stream r"),
        (
            "--report-all --summary --top 3 a",
            "a | 16 5000000 1000000 report-all summary Words top 3",
        ),
        (
            "--summary-to r --report-all --quiet a",
            "a | 16 5000000 1000000 report-all quiet summary Words to r",
        ),
        ("-- --report-all", "--report-all | 16 5000000 1000000"),
        ("--resolvers 1 a", "a | 16 5000000 1000000"),
        ("--resolvers 1 -", "- | 16 5000000 1000000"),
        ("--resolvers=+2 a b", "a b | 16 5000000 1000000 by 2"),
        ("a --resolvers 16 --split-points=p", "a | 16 5000000 1000000 by 16 points p"),
        ("--resolvers 2 --split-points - a", "a | 16 5000000 1000000 by 2 points -"),
        ("--resolvers 3 --json --quiet -o r a", "a | 16 5000000 1000000 json quiet to r by 3"),
        ("--resolvers 3 --summary a", "a | 16 5000000 1000000 summary Words by 3"),
        ("--resolvers 3 --summary-to r a", "a | 16 5000000 1000000 summary Words to r by 3"),
        ("--resolvers 2 --split-points - -o - a", "a | 16 5000000 1000000 to - by 2 points -"),
        ("--resolvers 1 --report-all a", "a | 16 5000000 1000000 report-all"),
        ("--resolvers 3 --verbose a", "a | 16 5000000 1000000 verbose by 3"),
        ("--resolvers 3 --check - a", "a | 16 5000000 1000000 kept check - by 3"),
    ] {
        assert_eq!(read(given), expected);
    }
}

#[test]
fn sixty_four_files() {
    let given = "f ".repeat(64);
    assert_eq!(read(&given), format!("{given}| 16 5000000 1000000"));
}

#[test]
fn defaults() {
    let style = Style::all(Form::Words);
    let wanted = Options {
        capacity: 16,
        window: 5_000_000,
        limit: 1_000_000,
        style,
        reports: Reports::Asked,
    };
    assert_eq!(Options::default(), wanted);
}

/// `.ci/program-runs` looks for the texts of the proved program's help, which is longer.
#[test]
fn version_and_help() {
    let version = end_of("--version");
    assert!(version.starts_with("replay 0.2.0 (") && version.ends_with(")\ndone: "), "{version}");
    let help = end_of("--help");
    assert!(help.ends_with("done: "), "{help}");
    assert!(help.contains("Usage: replay [OPTIONS] <FILE>...\n"), "{help}");
    let example =
        "Example:\n  replay --capacity 1 --frames examples/two_proxies examples/second_proxy\n";
    assert!(help.contains(example), "{help}");
}

/// How the program ends if standard output takes n bytes.
fn end_with_room(refusal: &ArgumentsRefusal, room: usize) -> String {
    let mut error = StdSink::new(Vec::new());
    let status = refusal.end(&mut StdSink::new(Failing::after(room)), &mut error);
    ended(status, b"", &error.into_inner())
}

/// A failed write of help is status 1.
#[test]
fn help_fails() {
    assert_eq!(end_with_room(&refusal_of("--help"), 10), "failed: ");
    assert_eq!(end_with_room(&ArgumentsRefusal::Memory, 0), "failed: replay: start 1 Memory\n");
}
