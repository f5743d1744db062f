//! The complete program `replay`: the words of an environment, and files in memory by their names.

use crate::notation::reply;
use crate::playing::{Reader, file_of, reader};
use crate::printing::ended;
use crate::spelling::reply_frame;
use rattle_std::alloc::Global;
use rattle_std::rt::{Env, HostRuntime};
use replay_program::{Extent, FileError, Files, RunReport, run_in};
use std::ffi::OsString;
use wire::{Sink, StdSink};

/// The files of batches that the rows name, and what comes after the batches of each.
const BATCHES: [(&str, &[&str], &[u8]); 4] = [
    ("first", &["-1>0", "0>100: W[a,b)"], b""),
    ("second", &["100>200: R[a,b) @99"], b""),
    ("third", &["200>300"], b""),
    ("cut", &["-1>0"], b"\0"),
];

/// The files of replies that the rows name.
const REPLIES: [(&str, &[&str]); 2] =
    [("same", &["100 committed", "0 empty"]), ("others", &["50 empty", "0 tooold", "100 tooold"])];

/// A file of split points.
const POINTS: (&str, &[u8]) = ("point", b"b\n");

/// Files in memory. Any file can be written but one whose name is `sealed`.
pub struct Shelf;

impl Files for Shelf {
    type Reader = Reader;
    type Writer = StdSink<Vec<u8>>;

    fn open(&self, name: &str, _extent: Extent) -> Result<Reader, FileError> {
        if let Some((_, batches, rest)) = BATCHES.iter().find(|(known, ..)| *known == name) {
            return Ok(reader(file_of(batches, rest)));
        }
        if name == POINTS.0 {
            return Ok(reader(POINTS.1.to_vec()));
        }
        match REPLIES.iter().find(|(known, _)| *known == name) {
            Some((_, replies)) => {
                Ok(reader(replies.iter().flat_map(|text| reply_frame(&reply(text))).collect()))
            }
            None => Err(FileError::CannotOpen),
        }
    }

    fn is_regular(&self, name: &str) -> bool {
        BATCHES.iter().any(|(known, ..)| *known == name)
    }

    fn create(&self, name: &str) -> Result<StdSink<Vec<u8>>, FileError> {
        match name {
            "sealed" => Err(FileError::CannotOpen),
            _ => Ok(StdSink::new(Vec::new())),
        }
    }
}

/// The words of a command line, of which the first is the program's name.
struct Words(Vec<OsString>);

impl Env for Words {
    fn words(&self) -> Vec<OsString> {
        self.0.clone()
    }
}

/// Runs the program on these words and streams.
pub fn shell_into<W>(
    words: &[W],
    out: &mut impl Sink,
    error: &mut impl Sink,
) -> RunReport<StdSink<Vec<u8>>>
where
    W: Clone + Into<OsString>,
{
    shell_over(&Shelf, words, out, error)
}

/// The same, over these files.
pub fn shell_over<F, W>(
    files: &F,
    words: &[W],
    out: &mut impl Sink,
    error: &mut impl Sink,
) -> RunReport<F::Writer>
where
    F: Files,
    W: Clone + Into<OsString>,
{
    let words = Words(words.iter().cloned().map(Into::into).collect());
    run_in(&HostRuntime::new(), Global, &words, files, out, error)
}

/// Runs the program on these words, and puts what comes of it into words.
pub fn shell<W: Clone + Into<OsString>>(words: &[W]) -> String {
    let (mut out, mut error) = (StdSink::new(Vec::new()), StdSink::new(Vec::new()));
    let status = shell_into(words, &mut out, &mut error).status;
    ended(status, &out.into_inner(), &error.into_inner())
}
