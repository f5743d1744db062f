//! Runs in which all transactions report: their answers are those to batches whose transactions all
//! ask for their reports.

use rattle_std::alloc::Global;
use rattle_std::rt::HostRuntime;
use rattle_std::sync::Arc;
use replay_program::{
    AlwaysOpen, Form, Gatekeeper, Options, Reports, ShareKeeper, Status, Style, Unshared,
};
use replay_program::{explain_over, replay_over, stream_over};
use tests::cases::{count, run};
use tests::drawn::KeySpace;
use tests::notation::batch;
use tests::plain::PlainBatch;
use tests::playing::{Reader, reader};
use tests::printing::ended;
use tests::random::Random;
use tests::spelling::batch_frame;
use wire::StdSink;

/// Three read ranges of the last batch are in conflict. Only its first transaction asks for its
/// report.
const CONFLICTS: &[&str] = &[
    "-1>0",
    "0>100: W[a,b) W[k]",
    "100>200: m R[k] @99; R[x,y) R[a,b) R[k] @50; R[a,b) @100; R[k] @0",
];

fn asking(batch: &PlainBatch) -> PlainBatch {
    let mut batch = batch.clone();
    batch.txns.iter_mut().for_each(|txn| txn.marked = true);
    batch
}

/// The reader of the frames of these batches, and of these bytes after them.
fn reader_of(batches: &[PlainBatch], rest: &[u8]) -> Reader {
    let mut file: Vec<u8> = batches
        .iter()
        .enumerate()
        .flat_map(|(index, batch)| batch_frame(batch, 1 + (index % 2) as u8))
        .collect();
    file.extend(rest);
    reader(file)
}

fn options(form: Form, reports: Reports) -> Options {
    Options { capacity: 4, window: 1_000, limit: 1 << 20, style: Style::all(form), reports }
}

/// How a run prints its answers.
#[derive(Clone, Copy, Debug)]
enum Way {
    Sorted,
    Explained,
    Streamed,
}

fn gatekeeper() -> Arc<Unshared<AlwaysOpen>> {
    Arc::new(Global, Unshared(AlwaysOpen)).ok().expect("memory is ample")
}

/// What a run over one file prints.
fn printed(batches: &[PlainBatch], rest: &[u8], way: Way, options: Options) -> String {
    let (mut out, mut error) = (StdSink::new(Vec::new()), StdSink::new(Vec::new()));
    let readers = vec![reader_of(batches, rest)];
    let status = printed_into(readers, way, options, &gatekeeper(), &mut out, &mut error);
    ended(status, &out.into_inner(), &error.into_inner())
}

fn printed_into<G>(
    readers: Vec<Reader>,
    way: Way,
    options: Options,
    gatekeeper: &Arc<G>,
    out: &mut StdSink<Vec<u8>>,
    error: &mut StdSink<Vec<u8>>,
) -> Status
where
    G: Gatekeeper + ShareKeeper + Send + Sync + 'static,
{
    let rt = HostRuntime::new();
    match way {
        Way::Sorted => {
            replay_over(&rt, Global, readers.into(), options, gatekeeper, out, error).status
        }
        Way::Explained => {
            explain_over(&rt, Global, readers.into(), options, gatekeeper, out, error).status
        }
        Way::Streamed => {
            let records: Vec<Option<StdSink<Vec<u8>>>> = vec![None];
            stream_over(
                &rt,
                Global,
                readers.into(),
                records.into(),
                options,
                gatekeeper,
                out,
                error,
            )
            .status
        }
    }
}

/// Draws a chain of batches of one proxy. Some of their transactions ask for their reports.
fn chain(random: &mut Random) -> Vec<PlainBatch> {
    let space = KeySpace::drawn(random);
    let mut version = -1;
    (0..1 + random.index(12))
        .map(|_| {
            let previous = version;
            version += random.between(1, 400);
            let txns = (0..random.index(6))
                .map(|_| space.txn(random, 4, (version - 1_200, version)))
                .collect();
            PlainBatch { previous, version, received: previous, txns }
        })
        .collect()
}

/// The answers are the same, byte for byte, as those to the same batches whose transactions all
/// ask. After a fault so are those before it.
#[test]
fn as_if_all_asked() {
    run("reports", count(20_000, 300), |random| {
        let batches = chain(random);
        let all: Vec<_> = batches.iter().map(asking).collect();
        let rest = random.pick(&[&b""[..], b"\0"]);
        let form = random.pick(&[Form::Words, Form::Frames, Form::Json]);
        let way = match form {
            Form::Frames => random.pick(&[Way::Sorted, Way::Streamed]),
            _ => random.pick(&[Way::Sorted, Way::Explained, Way::Streamed]),
        };
        let expected = printed(&all, rest, way, options(form, Reports::Asked));
        assert_eq!(printed(&batches, rest, way, options(form, Reports::All)), expected);
        assert_eq!(printed(&all, rest, way, options(form, Reports::All)), expected);
        batches.len() as u64
    });
}

#[test]
fn reports_of_one_file() {
    let batches: Vec<_> = CONFLICTS.iter().map(|text| batch(text)).collect();
    let rows = [
        (Reports::Asked, "0 200 conflict:0 conflict committed conflict\n"),
        (Reports::All, "0 200 conflict:0 conflict:1,2 committed conflict:0\n"),
    ];
    for (reports, line) in rows {
        let expected = format!("0 0 empty\n0 100 committed\n{line}done: ");
        for way in [Way::Sorted, Way::Streamed] {
            assert_eq!(printed(&batches, b"", way, options(Form::Words, reports)), expected);
        }
    }
}
