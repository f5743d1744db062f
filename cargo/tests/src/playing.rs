//! Runs of `replay` over readers in memory, and what they print.

use crate::notation::batch;
use crate::plain::PlainBatch;
use crate::printing::ended;
use crate::spelling::batch_frame;
use rattle_std::alloc::Global;
use rattle_std::rt::HostRuntime;
use rattle_std::sync::Arc;
use replay_program::{Gatekeeper, Options, ShareKeeper, replay_over};
use std::io::Cursor;
use wire::{Source, StdSink, StdSource};

/// A reader of a file in memory.
pub type Reader = StdSource<Cursor<Vec<u8>>>;

pub fn reader(file: Vec<u8>) -> Reader {
    StdSource::new(Cursor::new(file))
}

/// Makes the file of these batches, with these bytes after them.
pub fn file_of(batches: &[&str], rest: &[u8]) -> Vec<u8> {
    let mut file: Vec<_> = batches.iter().flat_map(|text| batch_frame(&batch(text), 1)).collect();
    file.extend(rest);
    file
}

/// Makes the file of the empty batches of these versions, whose previous version is one less.
pub fn file_of_versions(versions: impl IntoIterator<Item = i64>) -> Vec<u8> {
    versions
        .into_iter()
        .flat_map(|version| batch_frame(&PlainBatch::empty(version - 1, version), 1))
        .collect()
}

/// Replays as the program does by default, from these readers, and puts what comes of it into
/// words.
pub fn replayed<S, G>(readers: Vec<S>, gatekeeper: &Arc<G>) -> String
where
    S: Source + Send + 'static,
    G: Gatekeeper + ShareKeeper + Send + Sync + 'static,
{
    let (mut out, mut error) = (StdSink::new(Vec::new()), StdSink::new(Vec::new()));
    let run = replay_over(
        &HostRuntime::new(),
        Global,
        readers.into(),
        Options::default(),
        gatekeeper,
        &mut out,
        &mut error,
    );
    ended(run.status, &out.into_inner(), &error.into_inner())
}
