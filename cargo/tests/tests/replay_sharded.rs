//! Runs of several resolvers, each with a shard of the keys.

use crate::shards::split;
use rattle_std::alloc::Global;
use rattle_std::rt::HostRuntime;
use rattle_std::sync::Arc as KitArc;
use replay_program::{
    Extent, FileError, Files, Form, Gatekeeper, Options, Reports, ShareKeeper, Style, Unshared,
    replay_sharded_over,
};
use replay_sharded::{Combined, ShardedReaders, run_sharded};
use std::cell::RefCell;
use std::sync::Arc;
use std::sync::atomic::{AtomicU64, Ordering};
use tests::playing::{Reader, file_of, reader};
use tests::printing::ended;
use tests::shelf::{Shelf, shell, shell_over};
use wire::StdSink;

/// Lets a shard send only once another shard has taken that many answers.
struct After {
    taken: Vec<Arc<AtomicU64>>,
    shard: usize,
    /// The shard that is waited for, and for how many answers of it.
    waits_for: Option<(usize, u64)>,
}

impl Gatekeeper for After {
    fn may_send(&self, _proxy: usize, _place: u64) -> bool {
        self.waits_for
            .is_none_or(|(shard, count)| self.taken[shard].load(Ordering::SeqCst) >= count)
    }

    fn answered(&self, _proxy: usize, _place: u64) {
        self.taken[self.shard].fetch_add(1, Ordering::SeqCst);
    }
}

/// Makes the readers of these files, split at these keys. Each shard waits for that number of
/// answers of another one.
fn sharded(
    files: &[&[&str]],
    points: &[&str],
    waits_for: &[Option<(usize, u64)>],
) -> ShardedReaders<Reader, Unshared<After>> {
    let points = split(&points.iter().map(|point| point.as_bytes().to_vec()).collect());
    let taken: Vec<_> = waits_for.iter().map(|_| Arc::new(AtomicU64::new(0))).collect();
    let readers =
        |_| files.iter().map(|batches| reader(file_of(batches, b""))).collect::<Vec<_>>().into();
    let gatekeeper = |(shard, waits_for): (usize, &Option<(usize, u64)>)| {
        let after = After { taken: taken.clone(), shard, waits_for: *waits_for };
        KitArc::new(Global, Unshared(after)).ok().expect("memory is ample")
    };
    ShardedReaders {
        readers: (0..waits_for.len()).map(readers).collect::<Vec<_>>().into(),
        points,
        gatekeepers: waits_for.iter().enumerate().map(gatekeeper).collect::<Vec<_>>().into(),
        proxies: files.len(),
    }
}

fn options(limit: usize) -> Options {
    Options::new(16, 5_000_000, limit, Style::all(Form::Words), Reports::Asked)
        .expect("the numbers are within their ranges")
}

fn printed<G>(readers: ShardedReaders<Reader, G>, limit: usize) -> String
where
    G: Gatekeeper + ShareKeeper + Send + Sync + 'static,
{
    let (mut out, mut error) = (StdSink::new(Vec::new()), StdSink::new(Vec::new()));
    let replayed = replay_sharded_over(
        &HostRuntime::new(),
        Global,
        readers,
        options(limit),
        &mut out,
        &mut error,
    );
    ended(replayed.status, &out.into_inner(), &error.into_inner())
}

const CHAIN: &[&str] =
    &["-1>0", "0>100: W[a] W[x]", "100>200: m R[x] R[b] R[a] @99; R[b] R[y] @99"];

/// A shard that sends its first batch only once another one has taken its last answer: none waits
/// for another.
#[test]
fn no_shard_waits_for_another() {
    let expected = "0 0 empty\n0 100 committed\n0 200 conflict:0,2 committed\ndone: ";
    for waits_for in [[None, None], [Some((1, 3)), None], [None, Some((0, 3))]] {
        assert_eq!(printed(sharded(&[CHAIN], &["k"], &waits_for), 1_000_000), expected);
    }
    // Three shards, each after the next one.
    let waits_for = [Some((1, 3)), Some((2, 3)), None];
    assert_eq!(printed(sharded(&[CHAIN], &["b", "k"], &waits_for), 1_000_000), expected);
}

/// The files of one chain: each shard may take their batches in another order, and answers each
/// proxy in that of its versions.
#[test]
fn files_of_one_chain() {
    let files: &[&[&str]] = &[
        &["-1>0", "100>200: m R[c] R[x] R[a] @0", "300>400: R[y] @299"],
        &["0>100: W[a] W[x]", "200>300: W[y]"],
    ];
    let expected =
        "0 0 empty\n0 200 conflict:1,2\n0 400 conflict\n1 100 committed\n1 300 committed\ndone: ";
    for waits_for in [[None, None], [Some((1, 5)), None], [None, Some((0, 5))]] {
        assert_eq!(printed(sharded(files, &["k"], &waits_for), 1_000_000), expected);
    }
}

/// Holds back one of two proxies: it sends its batches from a place on only once the other one has
/// taken that many answers.
struct Behind {
    taken: [AtomicU64; 2],
    proxy: usize,
    place: u64,
    count: u64,
}

impl Gatekeeper for Behind {
    fn may_send(&self, proxy: usize, place: u64) -> bool {
        proxy != self.proxy
            || place < self.place
            || self.taken[1 - proxy].load(Ordering::SeqCst) >= self.count
    }

    fn answered(&self, proxy: usize, _place: u64) {
        self.taken[proxy].fetch_add(1, Ordering::SeqCst);
    }
}

/// Why a proxy must not send two different batches of one version: each shard processes another one
/// of them. Both are reported as committed, and so are a read that misses a write of the first
/// (`x`) and one that misses a write of the second (`b`).
#[test]
fn two_batches_of_one_version() {
    let first: &[&str] = &[
        "-1>0",
        "90>100: W[a] W[x]",
        "0>100: W[b] W[y]",
        "100>200: R[a] @99; R[b] @99; R[x] @99; R[y] @99",
    ];
    let second: &[&str] = &["0>90"];
    let gatekeeper = |(proxy, place, count)| {
        let behind = Behind { taken: Default::default(), proxy, place, count };
        KitArc::new(Global, Unshared(behind)).ok().expect("memory is ample")
    };
    let ShardedReaders { readers, points, proxies, .. } =
        sharded(&[first, second], &["k"], &[None, None]);
    // In the first shard, version 90 comes before both batches of version 100, and in the second
    // one after them.
    let gatekeepers = [(0, 1, 1), (1, 0, 4)].map(gatekeeper).into_iter().collect::<Vec<_>>().into();
    let readers = ShardedReaders { readers, points, gatekeepers, proxies };
    let expected = "0 0 empty\n0 100 committed\n0 100 committed\n\
        0 200 conflict committed committed conflict\n1 90 never\ndone: ";
    assert_eq!(printed(readers, 1_000_000), expected);
}

/// The stop of the first shard that met one is printed, and then its number. Batches that all
/// shards have answered have lines.
#[test]
fn stops() {
    let file: &[&str] =
        &["-1>0", "0>100: W[a]", "100>200: W[x]", "200>300: W[y] W[z]", "300>400: R[b] @0"];
    let free = [None, None];
    let expected = "0 0 empty\n0 100 committed\n0 200 committed\n\
        failed: replay: stop 3 ArenaFull\nreplay: shard 1\n";
    assert_eq!(printed(sharded(&[file], &["k"], &free), 3), expected);
    let expected = "0 0 empty\nfailed: replay: stop 3 ArenaFull\nreplay: shard 0\n";
    assert_eq!(printed(sharded(&[file], &["k"], &free), 1), expected);
}

/// What is combined has the failures of each proxy, and names the stop.
#[test]
fn failures_of_each_proxy() {
    let run = |limit| {
        run_sharded(
            &HostRuntime::new(),
            Global,
            sharded(&[CHAIN, &["50>60"]], &["k"], &[None, None]),
            options(limit),
        )
    };
    let Ok(Combined { lines, failures, complete, stop }) = run(1_000_000) else {
        panic!("the runs start")
    };
    assert_eq!((lines.len(), failures.len(), complete, stop), (2, 2, true, None));
    assert!(failures.iter().all(|failure| failure.is_clean()));
    assert_eq!(lines.iter().map(|own| own.len()).collect::<Vec<_>>(), [3, 1]);
    let Ok(Combined { complete, stop, .. }) = run(1) else { panic!("the runs start") };
    assert!(!complete);
    assert_eq!(stop.map(|met| met.shard), Some(0));
}

/// The complete program: its words, and its files by their names.
#[test]
fn words() {
    let all = "0 0 empty\n0 100 committed\n1 200 conflict\ndone: ";
    let rows: [(&[&str], &str); 9] = [
        (&["replay", "--resolvers", "2", "first", "second"], all),
        (&["replay", "--resolvers", "16", "first", "second"], all),
        (&["replay", "--resolvers", "2", "--split-points", "point", "first", "second"], all),
        (
            &["replay", "--resolvers", "2", "--split-points", "none", "first"],
            "failed: replay: split points: cannot open\n",
        ),
        (
            &["replay", "--resolvers", "3", "--split-points", "point", "first"],
            "failed: replay: split points: 2 split points are wanted, the file has 1\n",
        ),
        (
            &["replay", "--resolvers", "2", "first", "none"],
            "failed: replay: proxy 1: not a regular file\n",
        ),
        (
            &["replay", "--resolvers", "2", "cut", "third"],
            "0 0 empty\n1 300 held\nfailed: replay: proxy 0: wire 1 Short\n",
        ),
        (
            &["replay", "--resolvers", "2", "--check", "same", "first"],
            "checked 2 batches, 0 differences\ndone: ",
        ),
        (&["replay", "--resolvers", "1", "first", "second"], all),
    ];
    for (words, expected) in rows {
        assert_eq!(shell(words), expected, "{words:?}");
    }
}

/// The files of [`Shelf`], with the name and the extent of each one that was opened.
#[derive(Default)]
struct Noted(RefCell<Vec<(String, Extent)>>);

impl Files for Noted {
    type Reader = <Shelf as Files>::Reader;
    type Writer = <Shelf as Files>::Writer;

    fn open(&self, name: &str, extent: Extent) -> Result<Self::Reader, FileError> {
        self.0.borrow_mut().push((name.to_owned(), extent));
        Shelf.open(name, extent)
    }

    fn is_regular(&self, name: &str) -> bool {
        Shelf.is_regular(name)
    }

    fn create(&self, name: &str) -> Result<Self::Writer, FileError> {
        Shelf.create(name)
    }
}

/// The sample is of the beginnings of the files, so no progress is shown through it. Each shard
/// reads the complete files.
#[test]
fn extents() {
    let opened = |words: &[&str]| {
        let (files, mut out, mut error) =
            (Noted::default(), StdSink::new(Vec::new()), StdSink::new(Vec::new()));
        shell_over(&files, words, &mut out, &mut error);
        files.0.into_inner()
    };
    let complete = |name: &str| (name.to_owned(), Extent::Complete);
    let beginning = |name: &str| (name.to_owned(), Extent::FirstBatches);
    let given =
        opened(&["replay", "--resolvers", "2", "--split-points", "point", "first", "second"]);
    let each = ["point", "first", "second", "first", "second"].map(complete);
    assert_eq!(given, each);
    let sampled = opened(&["replay", "--resolvers", "2", "first", "second"]);
    assert_eq!(sampled[..2], ["first", "second"].map(beginning));
    assert!(
        sampled[2..].chunks(2).all(|shard| *shard == ["first", "second"].map(complete)),
        "{sampled:?}"
    );
    assert_eq!(opened(&["replay", "first"]), ["first"].map(complete));
}

/// A text without how full the resolver was. With several resolvers, a summary doesn't say that.
fn without_occupancy(text: &str) -> String {
    let lines = text.split_inclusive('\n').filter(|line| !line.starts_with("resolver: "));
    let cut = |line: &str| {
        line.find(",\"most_held\":").map(|members| format!("{}}}\n", &line[..members]))
    };
    lines.map(|line| cut(line).unwrap_or_else(|| line.to_owned())).collect()
}

/// A summary instead of the answers, and one beside them, are those of one resolver.
#[test]
fn summaries() {
    let rows: [&[&str]; 4] = [
        &["--summary", "first", "second"],
        &["--summary", "--json", "first", "second"],
        &["--summary-to", "s", "first", "second"],
        &["--quiet", "--summary-to", "s", "first", "second"],
    ];
    for words in rows {
        let several: Vec<_> = ["replay", "--resolvers", "2"].iter().chain(words).copied().collect();
        let one: Vec<_> = ["replay"].iter().chain(words).copied().collect();
        assert_eq!(shell(&several), without_occupancy(&shell(&one)), "{words:?}");
    }
}
