//! The complete program `replay`: its words, and streams that fail or hold all bytes until they are
//! flushed.

use std::ffi::OsString;
use std::io::{Result, Write};
use std::os::unix::ffi::OsStringExt;
use tests::failing::Failing;
use tests::printing::ended;
use tests::shelf::{shell, shell_into};
use wire::StdSink;

/// A word that isn't UTF-8 is refused as other words are, wherever it stands.
#[test]
fn words_that_are_no_text() {
    let expected = "usage: error: invalid UTF-8 was detected in one or more arguments\n\n\
        Usage: replay [OPTIONS] <FILE>...\n\nFor more information, try '--help'.\n";
    let rows: [&[&[u8]]; 4] = [
        &[b"replay", b"\xff"],
        &[b"replay", b"first", b"sec\xc3ond"],
        &[b"replay", b"--help", b"\xff"],
        &[b"rep\x80lay", b"first"],
    ];
    for words in rows {
        let words: Vec<_> = words.iter().map(|word| OsString::from_vec(word.to_vec())).collect();
        assert_eq!(shell(&words), expected, "{words:?}");
    }
}

/// The arguments are those after the program's name, whatever that is.
#[test]
fn name_of_the_program() {
    assert_eq!(shell(&["--help", "first"]), "0 0 empty\n0 100 committed\ndone: ");
    assert_eq!(shell(&["first", "second"]), "0 200 held\ndone: ");
}

/// Help and the version go to standard output alone, with status 0.
#[test]
fn help_and_version_shown() {
    let version = shell(&["replay", "--version"]);
    assert!(version.starts_with("replay 0.2.0 (") && version.ends_with(")\ndone: "), "{version}");
    let help = shell(&["replay", "first", "--help"]);
    assert!(
        help.contains("Usage: replay [OPTIONS] <FILE>...\n") && help.ends_with("\ndone: "),
        "{help}"
    );
}

/// How the program ends on these words, and what it writes to standard error, if standard output is
/// this.
fn ends_on(words: &[&str], out: Failing) -> String {
    let mut error = StdSink::new(Vec::new());
    let report = shell_into(words, &mut StdSink::new(out), &mut error);
    ended(report.status, b"", &error.into_inner())
}

/// A write or a flush of standard output that fails is status 1, without a line.
#[test]
fn standard_output_that_fails() {
    let rows: [&[&str]; 5] = [
        &["replay", "first"],
        &["replay", "first", "second", "--explain"],
        &["replay", "first", "--check", "same"],
        &["replay", "--help"],
        &["replay", "--version"],
    ];
    for words in rows {
        for room in [0, 5] {
            assert_eq!(ends_on(words, Failing::after(room)), "failed: ", "{words:?}");
        }
        assert_eq!(
            ends_on(words, Failing { room: usize::MAX, flushes: false }),
            "failed: ",
            "{words:?}"
        );
    }
}

/// A failed write to standard error changes no status.
#[test]
fn standard_error_that_fails() {
    let rows: [(&[&str], &str); 3] = [
        (&["replay", "none"], "failed: "),
        (&["replay", "cut"], "0 0 empty\nfailed: "),
        (&["replay", "--none"], "usage: "),
    ];
    for (words, expected) in rows {
        let mut out = StdSink::new(Vec::new());
        let report = shell_into(words, &mut out, &mut StdSink::new(Failing::after(0)));
        assert_eq!(ended(report.status, &out.into_inner(), b""), expected);
    }
}

/// A writer that holds all bytes until it is flushed.
#[derive(Default)]
struct Holding {
    held: Vec<u8>,
    passed_on: Vec<u8>,
}

impl Write for Holding {
    fn write(&mut self, bytes: &[u8]) -> Result<usize> {
        self.held.extend(bytes);
        Ok(bytes.len())
    }

    fn flush(&mut self) -> Result<()> {
        self.passed_on.append(&mut self.held);
        Ok(())
    }
}

/// Standard output has passed on all that it was given when the program ends. Standard error isn't
/// buffered, and isn't flushed.
#[test]
fn all_output_is_passed_on() {
    let rows: [&[&str]; 9] = [
        &["replay", "first", "second"],
        &["replay", "first", "second", "--explain"],
        &["replay", "--frames", "first"],
        &["replay", "--json", "first"],
        &["replay", "cut"],
        &["replay", "first", "--check", "same"],
        &["replay", "first", "--check", "others"],
        &["replay", "--help"],
        &["replay", "--version"],
    ];
    for words in rows {
        let (mut out, mut error) =
            (StdSink::new(Holding::default()), StdSink::new(Holding::default()));
        let report = shell_into(words, &mut out, &mut error);
        let found = ended(report.status, &out.into_inner().passed_on, &error.into_inner().held);
        assert_eq!(found, shell(words));
    }
}

/// Each proxy's records are those of its own answers.
#[test]
fn records_of_each_proxy() {
    let words = ["replay", "--stream", "--replies", "a", "--replies", "b", "first", "second"];
    let (mut out, mut error) = (StdSink::new(Vec::new()), StdSink::new(Vec::new()));
    let report = shell_into(&words, &mut out, &mut error);
    let records: Vec<_> =
        report.recorders.into_iter().flatten().map(|recorder| recorder.out.into_inner()).collect();
    let hex = |bytes: &Vec<u8>| bytes.iter().map(|byte| format!("{byte:02x}")).collect::<String>();
    assert_eq!(
        records.iter().map(hex).collect::<Vec<_>>(),
        [
            "0100000000000000000000000b020000000000000000000001000000000000006400\
             00000e0200000000000000640001020000",
            "0100000000000000c80000000e0200000000000000c80001000000",
        ]
    );
}

/// A file for the output gets what standard output gets otherwise, and standard output stays empty.
#[test]
fn output_in_a_file() {
    let rows: [&[&str]; 9] = [
        &["replay", "first", "second"],
        &["replay", "first", "second", "--explain"],
        &["replay", "first", "second", "--explain", "--json"],
        &["replay", "--summary", "first"],
        &["replay", "--frames", "first"],
        &["replay", "cut"],
        &["replay", "--stream", "--replies", "a", "first"],
        &["replay", "first", "--check", "same"],
        &["replay", "first", "--check", "others"],
    ];
    for words in rows {
        let (mut out, mut error) = (StdSink::new(Vec::new()), StdSink::new(Vec::new()));
        let report = shell_into(&[words, &["--output", "out"]].concat(), &mut out, &mut error);
        let written = report.output.expect("a file for the output").into_inner();
        assert_eq!(ended(report.status, &written, &error.into_inner()), shell(words));
        assert_eq!(out.into_inner(), b"");
    }
}

/// A file that isn't named isn't created, and neither is one for the output once a file of batches
/// can't be opened.
#[test]
fn no_output_in_a_file() {
    for words in [
        &["replay", "first"][..],
        &["replay", "-o", "out", "none"],
        &["replay", "-o", "out", "--help"],
    ] {
        let (mut out, mut error) = (StdSink::new(Vec::new()), StdSink::new(Vec::new()));
        let report = shell_into(words, &mut out, &mut error);
        assert!(report.output.is_none() && report.summary.is_none(), "{words:?}");
    }
}

/// A file that can't be created is a line of its own, and nothing is printed.
#[test]
fn file_that_cannot_be_created() {
    let rows: [(&[&str], &str); 4] = [
        (&["replay", "-o", "sealed", "first"], "failed: replay: create output\n"),
        (&["replay", "-o", "sealed", "none"], "failed: replay: proxy 0: cannot open\n"),
        (&["replay", "--summary-to", "sealed", "first"], "failed: replay: create summary\n"),
        (
            &["replay", "--summary-to", "sealed", "-o", "sealed", "first"],
            "failed: replay: create output\n",
        ),
    ];
    for (words, expected) in rows {
        assert_eq!(shell(words), expected, "{words:?}");
    }
}
