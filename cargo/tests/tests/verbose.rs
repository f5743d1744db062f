//! What `replay --verbose` says of a failure: each finding with its complete line. Without a
//! failure, that all batches are held.

use replay_program::{Extent, FileError, Files};
use std::io::{Cursor, Error, ErrorKind, Read, Result as IoResult, Write};
use tests::failing::Failing;
use tests::notation::reply;
use tests::playing::{file_of, file_of_versions};
use tests::printing::ended;
use tests::shelf::shell_over;
use tests::spelling::reply_frame;
use wire::{StdSink, StdSource};

/// A file in memory, which may fail after its bytes.
struct Content {
    bytes: Cursor<Vec<u8>>,
    fails: bool,
}

impl Read for Content {
    fn read(&mut self, buffer: &mut [u8]) -> IoResult<usize> {
        let taken = self.bytes.read(buffer)?;
        if taken == 0 && self.fails { Err(Error::from(ErrorKind::IsADirectory)) } else { Ok(taken) }
    }
}

/// A file that takes all bytes, or none.
struct Taking(bool);

impl Write for Taking {
    fn write(&mut self, bytes: &[u8]) -> IoResult<usize> {
        if self.0 { Ok(bytes.len()) } else { Err(Error::from(ErrorKind::StorageFull)) }
    }

    fn flush(&mut self) -> IoResult<()> {
        Ok(())
    }
}

/// Returns the bytes of the file of this name, if there is one.
fn bytes_of(name: &str) -> Option<Vec<u8>> {
    let bytes = match name {
        "first" => file_of(&["-1>0", "0>100: W[a,b)"], b""),
        "second" => file_of(&["100>200: R[a,b) @99"], b""),
        "writes" => file_of(&["-1>0", "0>100: W[a,b)", "100>200: W[c,d) @100"], b""),
        "cut" | "-" => file_of(&["-1>0"], b"\0"),
        "other" => file_of(&["-1>0"], b"\0\0\0\x01\x09"),
        "other at once" => b"\0\0\0\x01\x09".to_vec(),
        "json" => b"{\"previous\":-1,\"version\":0}\n".to_vec(),
        "replies" => reply_frame(&reply("0 empty")),
        "mixed" => [file_of(&["-1>0"], b""), reply_frame(&reply("0 empty"))].concat(),
        "folder" => Vec::new(),
        "unreadable" => file_of(&["-1>0"], b""),
        "late" => file_of_versions(11..1_200),
        "most" => file_of_versions(11..1_035),
        "late and first" => [file_of_versions(11..900), file_of(&["-1>0"], b"")].concat(),
        "nothing" => Vec::new(),
        "gap" => [file_of(&["-1>0"], b""), file_of_versions(11..1_200)].concat(),
        "held" | "pipe" => file_of(&["300>400"], b""),
        "held before" => file_of(&["400>500", "200>300", "300>400"], b""),
        "two\nlines" => b"\0".to_vec(),
        _ => return None,
    };
    Some(bytes)
}

/// The files of these names. A file named `full` takes no bytes.
struct Named;

impl Files for Named {
    type Reader = StdSource<Content>;
    type Writer = StdSink<Taking>;

    fn open(&self, name: &str, _extent: Extent) -> Result<Self::Reader, FileError> {
        let bytes = bytes_of(name).ok_or(FileError::CannotOpen)?;
        let fails = matches!(name, "folder" | "unreadable");
        Ok(StdSource::new(Content { bytes: Cursor::new(bytes), fails }))
    }

    fn is_regular(&self, name: &str) -> bool {
        !matches!(name, "folder" | "pipe") && bytes_of(name).is_some()
    }

    fn create(&self, name: &str) -> Result<Self::Writer, FileError> {
        Ok(StdSink::new(Taking(name != "full")))
    }
}

/// Runs the program on these words, and returns how it ends and what is on standard error.
fn reported(words: &[&str]) -> String {
    let words: Vec<_> = ["replay"].iter().chain(words).copied().collect();
    let (mut out, mut error) = (StdSink::new(Vec::new()), StdSink::new(Vec::new()));
    let report = shell_over(&Named, &words, &mut out, &mut error);
    ended(report.status, b"", &error.into_inner())
}

const SHORT: &str = "failed: replay: proxy 0: wire 1 Short\n";

/// One row per finding in a file.
#[test]
fn findings_in_files() {
    let rows: [(&[&str], &str, &str); 12] = [
        (
            &["none"],
            "failed: replay: proxy 0: cannot open\n",
            "  none can't be opened: check the name and the permissions\n",
        ),
        (
            &["cut"],
            SHORT,
            "  cut ends inside frame 2 at byte 31, 3 bytes too early: \
             record it again, or keep the frames before it with `head -c 31`\n",
        ),
        (
            &["two\nlines"],
            SHORT,
            "  two?lines ends inside frame 1 at byte 0, 3 bytes too early: \
             name a file of batches\n",
        ),
        (
            &["other"],
            "failed: replay: proxy 0: wire 3 Kind\n",
            "  other has no frame of a batch as frame 2 at byte 31: \
             record it again, or keep the frames before it with `head -c 31`\n",
        ),
        (
            &["other at once"],
            "failed: replay: proxy 0: wire 3 Kind\n",
            "  other at once has no frame of a batch as frame 1 at byte 0: \
             name a file of batches\n",
        ),
        (
            &["json"],
            "failed: replay: proxy 0: wire 2 Long\n",
            "  json is JSON: run `batches encode`, and replay its output\n",
        ),
        (
            &["replies"],
            "failed: replay: proxy 0: wire 3 Kind\n",
            "  replies contains replies, not batches, from frame 1 at byte 0 on: \
             give them to `--check`\n",
        ),
        (
            &["mixed"],
            "failed: replay: proxy 0: wire 3 Kind\n",
            "  mixed contains replies, not batches, from frame 2 at byte 31 on: \
             give them to `--check`\n",
        ),
        (
            &["folder"],
            "failed: replay: proxy 0: wire 12 Read\n",
            "  folder can't be read: it is a directory, or its device fails\n",
        ),
        (
            &["unreadable"],
            "failed: replay: proxy 0: wire 12 Read\n",
            "  unreadable can't be read at frame 2 at byte 31: check its device\n",
        ),
        (
            &["-"],
            SHORT,
            "  - is standard input, which can't be read again: \
             record it to a file, and replay that\n",
        ),
        // The first of two such files.
        (
            &["first", "none", "json"],
            "failed: replay: proxy 1: cannot open\n",
            "  none can't be opened: check the name and the permissions\n",
        ),
    ];
    for (words, fixed, further) in rows {
        assert_eq!(reported(words), fixed, "{words:?}");
        let verbose: Vec<_> = words.iter().chain(&["--verbose"]).copied().collect();
        assert_eq!(reported(&verbose), format!("{fixed}{further}"), "{words:?}");
    }
}

const ALL_HELD: &str = "  no batch follows version -1, so all are held: \
                        begin the chain with `batches opening --version 10`\n";
const GATE_FULL: &str = "  too many batches wait for one that is missing: \
    make all files one chain, with rising versions in each file\n";
const ARENA_FULL: &str = "  version 100 was reached with a limit of 3 boundaries: \
                          raise `--limit`, or use a smaller `--window`\n";
const FIRST_FULL: &str = "  version 0 was reached with a limit of 1 boundaries: \
                          raise `--limit`, or use a smaller `--window`\n";

/// One row per finding of a run, of each task.
#[test]
fn findings_of_runs() {
    let rows: [(&[&str], &str, &str); 10] = [
        (&["late"], "failed: replay: stop 2 GateFull\n", ALL_HELD),
        (&["late", "held"], "failed: replay: stop 2 GateFull\n", ALL_HELD),
        (&["gap"], "failed: replay: stop 2 GateFull\n", GATE_FULL),
        (&["--stream", "gap"], "failed: replay: stop 2 GateFull\n", GATE_FULL),
        (&["--limit", "3", "writes"], "failed: replay: stop 3 ArenaFull\n", ARENA_FULL),
        (&["--limit", "1", "first"], "failed: replay: stop 3 ArenaFull\n", FIRST_FULL),
        (
            &["--limit", "3", "--explain", "writes"],
            "failed: replay: stop 3 ArenaFull\n",
            ARENA_FULL,
        ),
        (
            &["--limit", "3", "--summary", "writes"],
            "failed: replay: stop 3 ArenaFull\n",
            ARENA_FULL,
        ),
        (
            &["--limit", "3", "--summary", "--top", "2", "writes"],
            "failed: replay: stop 3 ArenaFull\n",
            ARENA_FULL,
        ),
        (
            &["--limit", "3", "--check", "replies", "writes"],
            "failed: replay: stop 3 ArenaFull\n",
            ARENA_FULL,
        ),
    ];
    for (words, fixed, further) in rows {
        assert_eq!(reported(words), fixed, "{words:?}");
        let verbose: Vec<_> = words.iter().chain(&["--verbose"]).copied().collect();
        assert_eq!(reported(&verbose), format!("{fixed}{further}"), "{words:?}");
    }
}

/// A stream doesn't note the version that it has reached, so nothing is said of it.
#[test]
fn stream_says_no_version() {
    assert_eq!(
        reported(&["--verbose", "--stream", "--limit", "3", "writes"]),
        "failed: replay: stop 3 ArenaFull\n"
    );
}

const CUT: &str = "  cut ends inside frame 2 at byte 31, 3 bytes too early: \
    record it again, or keep the frames before it with `head -c 31`\n";

/// Several resolvers: their files and a full gate are explained as those of one. They have no
/// version in common, so nothing is said of a full arena. A file that isn't regular is not opened.
#[test]
fn several_resolvers() {
    let irregular = "failed: replay: proxy 0: not a regular file\n";
    let rows: [(&[&str], &str, &str); 11] = [
        (&["cut"], SHORT, CUT),
        (&["--summary", "cut"], SHORT, CUT),
        (&["--check", "replies", "cut"], SHORT, CUT),
        (
            &["json"],
            "failed: replay: proxy 0: wire 2 Long\n",
            "  json is JSON: run `batches encode`, and replay its output\n",
        ),
        (&["late"], "failed: replay: stop 2 GateFull\nreplay: shard 0\n", ALL_HELD),
        (&["--summary", "gap"], "failed: replay: stop 2 GateFull\nreplay: shard 0\n", GATE_FULL),
        (&["--limit", "1", "first"], "failed: replay: stop 3 ArenaFull\nreplay: shard 1\n", ""),
        (&["none"], irregular, ""),
        (&["folder"], irregular, ""),
        (&["--split-points", "none", "first"], "failed: replay: split points: cannot open\n", ""),
        (&["--check", "none", "first"], "failed: replay: replies 0: cannot open\n", ""),
    ];
    for (words, fixed, further) in rows {
        let words: Vec<_> = ["--resolvers", "2"].iter().chain(words).copied().collect();
        assert_eq!(reported(&words), fixed, "{words:?}");
        let verbose: Vec<_> = words.iter().chain(&["--verbose"]).copied().collect();
        assert_eq!(reported(&verbose), format!("{fixed}{further}"), "{words:?}");
    }
    assert_eq!(reported(&["--resolvers", "2", "--verbose", "first", "second"]), "done: ");
}

const OUTPUT: &str = "  the output can't be written: free its disk, or read it to its end\n";

/// A failed write has no fixed line.
#[test]
fn output_that_fails() {
    let rows: [&[&str]; 11] = [
        &["first"],
        &["--explain", "first"],
        &["--summary", "first"],
        &["--summary", "--top", "2", "first"],
        &["--summary-to", "to", "first"],
        &["--stream", "first"],
        &["--check", "replies", "first"],
        &["--resolvers", "2", "first"],
        &["--resolvers", "2", "--summary", "first"],
        &["--resolvers", "2", "--summary-to", "to", "first"],
        &["--resolvers", "2", "--check", "replies", "first"],
    ];
    for words in rows {
        for (verbose, expected) in
            [(false, "failed: ".to_owned()), (true, format!("failed: {OUTPUT}"))]
        {
            let further: &[&str] = if verbose { &["--verbose"] } else { &[] };
            let words: Vec<_> = ["replay"].iter().chain(words).chain(further).copied().collect();
            let (mut out, mut error) = (StdSink::new(Failing::after(5)), StdSink::new(Vec::new()));
            let report = shell_over(&Named, &words, &mut out, &mut error);
            assert_eq!(ended(report.status, b"", &error.into_inner()), expected, "{words:?}");
        }
        let words: Vec<_> = words.iter().chain(&["-o", "full", "--verbose"]).copied().collect();
        assert_eq!(reported(&words), format!("failed: {OUTPUT}"), "{words:?}");
    }
}

/// Returns the line that all batches are held, of which one follows this version and none an
/// earlier one.
fn held_from(version: i64) -> String {
    format!(
        "  no batch follows version -1, so all are held: \
         begin the chain with `batches opening --version {version}`\n"
    )
}

/// Without a failure it is said if all batches are held, whatever the task and the number of
/// resolvers.
#[test]
fn all_batches_are_held() {
    let rows: [(&[&str], &str, i64); 12] = [
        (&["held"], "done", 300),
        (&["held", "second"], "done", 100),
        (&["second", "held before"], "done", 100),
        (&["held before"], "done", 200),
        (&["held", "--stream"], "done", 300),
        (&["--summary", "second"], "done", 100),
        (&["--summary", "--top", "2", "second"], "done", 100),
        (&["--explain", "second"], "done", 100),
        (&["--quiet", "-o", "to", "second"], "done", 100),
        (&["--check", "replies", "second"], "differs", 100),
        (&["--resolvers", "2", "second", "held"], "done", 100),
        (&["--resolvers", "2", "--check", "replies", "second"], "differs", 100),
    ];
    for (words, ended, version) in rows {
        assert_eq!(reported(words), format!("{ended}: "), "{words:?}");
        let verbose: Vec<_> = words.iter().chain(&["--verbose"]).copied().collect();
        assert_eq!(reported(&verbose), format!("{ended}: {}", held_from(version)), "{words:?}");
    }
}

/// It is said of as many batches as a resolver holds, and of each file up to the first batch that
/// begins a chain.
#[test]
fn most_batches_are_held() {
    assert_eq!(reported(&["--verbose", "most"]), format!("done: {}", held_from(10)));
    assert_eq!(reported(&["--verbose", "late and first"]), "done: ");
}

/// Nothing more is said if a batch begins a chain, if a file can't be read again, or of a refused
/// command line.
#[test]
fn nothing_further() {
    for words in [
        &["first", "second"][..],
        &["second", "first"],
        &["held", "first", "--stream"],
        &["pipe"],
        &["held", "pipe"],
        &["nothing"],
    ] {
        let verbose: Vec<_> = words.iter().chain(&["--verbose"]).copied().collect();
        assert_eq!(reported(&verbose), "done: ", "{words:?}");
    }
    assert_eq!(reported(&["--verbose", "--check", "replies", "first"]), "differs: ");
    assert_eq!(
        reported(&["--verbose", "--check", "none", "first"]),
        "failed: replay: replies 0: cannot open\n"
    );
    assert!(
        reported(&["--verbose", "--top", "5", "first"])
            .starts_with("usage: error: --top is wanted with --summary\n")
    );
}

/// If standard error fails, it was given a prefix of the text, and the status stays.
#[test]
fn standard_error_that_fails() {
    let (mut out, mut error) = (StdSink::new(Vec::new()), StdSink::new(Failing::after(40)));
    let report = shell_over(&Named, &["replay", "--verbose", "cut"], &mut out, &mut error);
    assert_eq!(ended(report.status, &out.into_inner(), b""), "0 0 empty\nfailed: ");
}
