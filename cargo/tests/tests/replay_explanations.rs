//! The lines of an explainer against a plain scan over all batches, and rows by hand.

use conflict::ConflictSet;
use keyspace::Verdict;
use observer::Observer;
use rattle_std::alloc::Global;
use replay_explanations::{Explainer, ExplanationForm};
use std::collections::BTreeMap;
use std::env;
use std::sync::atomic::{AtomicU64, Ordering};
use stepmap::MAX_LIMIT;
use tests::cases::{count, run};
use tests::drawn::KeySpace;
use tests::plain::{PlainBatch, PlainRange, PlainReply, PlainTxn};
use tests::random::Random;

/// Returns a key in its printed form.
fn printed(key: &[u8]) -> String {
    key.iter().fold(String::new(), |text, byte| match byte {
        b'\\' => text + "\\\\",
        32..=126 => text + &char::from(*byte).to_string(),
        _ => text + &format!("\\x{byte:02x}"),
    })
}

/// Returns a range with the keys in their printed form.
fn shown(range: &PlainRange) -> String {
    format!("[\"{}\",\"{}\")", printed(&range.begin), printed(&range.end))
}

/// Returns a range as JSON.
fn as_json(range: &PlainRange) -> String {
    let key = |key: &[u8]| printed(key).replace('\\', "\\\\").replace('"', "\\\"");
    format!("[\"{}\",\"{}\"]", key(&range.begin), key(&range.end))
}

/// The explanations of a batch, in both forms.
#[derive(Default)]
struct Texts {
    words: String,
    objects: Vec<String>,
}

impl Texts {
    fn member(&self) -> String {
        if self.objects.is_empty() {
            String::new()
        } else {
            format!("\"explanations\":[{}]", self.objects.join(","))
        }
    }
}

/// A write range of a committed transaction, with its origin.
struct PlainWrite {
    proxy: usize,
    version: i64,
    txn: usize,
    range: PlainRange,
}

/// The writes of all committed transactions, however old, in the order of processing.
struct Scan {
    window: i64,
    writes: Vec<PlainWrite>,
}

impl Scan {
    fn new(window: i64) -> Self {
        Scan { window, writes: Vec::new() }
    }

    /// Adds a batch, and returns its explanations.
    fn add(&mut self, proxy: usize, batch: &PlainBatch, reply: &PlainReply) -> Texts {
        let mut texts = Texts::default();
        for (txn, (judged, entry)) in batch.txns.iter().zip(&reply.entries).enumerate() {
            match entry.verdict {
                Verdict::Committed => {
                    self.writes.extend(judged.writes.iter().cloned().map(|range| PlainWrite {
                        proxy,
                        version: batch.version,
                        txn,
                        range,
                    }))
                }
                Verdict::TooOld => {
                    let (snapshot, oldest) =
                        (judged.snapshot, (batch.version - self.window).max(0));
                    texts.words += &format!(
                        "  txn {txn} too old: snapshot {snapshot}, \
                         oldest readable version {oldest}\n"
                    );
                    texts.objects.push(format!(
                        r#"{{"txn":{txn},"too_old":{{"snapshot":{snapshot},"oldest":{oldest}}}}}"#
                    ));
                }
                Verdict::Conflict => {
                    for read in 0..judged.reads.len() {
                        if let Some((line, object)) = self.explain(batch.version, txn, judged, read)
                        {
                            texts.words += &line;
                            texts.objects.push(object);
                        }
                    }
                }
            }
        }
        texts
    }

    /// Returns the line and the object of a read range, whose batch was the last to add a write, or
    /// none if it meets no write.
    fn explain(
        &self,
        version: i64,
        txn: usize,
        judged: &PlainTxn,
        read: usize,
    ) -> Option<(String, String)> {
        let range = &judged.reads[read];
        let met = |write: &&PlainWrite| {
            let is_own = write.version == version;
            write.range.meets(range) && (is_own || judged.snapshot < write.version)
        };
        let writes: Vec<_> = self.writes.iter().filter(met).collect();
        let (newest, others) = writes.split_last()?;
        let PlainWrite { proxy, version: written, txn: writer, range: write } = newest;
        let origin = if *written == version { "same batch" } else { "history" };
        let further =
            if others.is_empty() { String::new() } else { format!(", and {} more", others.len()) };
        let line = format!(
            "  txn {txn} read {read} {} conflicts with write {} \
             of proxy {proxy}, version {written}, txn {writer} ({origin}){further}\n",
            shown(range),
            shown(write),
        );
        let object = format!(
            "{{\"txn\":{txn},\"read\":{read},\"range\":{},\
             \"write\":{{\"range\":{},\"proxy\":{proxy},\"version\":{written},\"txn\":{writer}}},\
             \"further\":{},\"same_batch\":{}}}",
            as_json(range),
            as_json(write),
            others.len(),
            *written == version,
        );
        Some((line, object))
    }
}

/// Resolves batches, and shows them to an explainer of each form.
struct Explained {
    set: ConflictSet,
    words: Explainer,
    json: Explainer,
}

impl Explained {
    fn new(window: i64) -> Self {
        Explained {
            set: ConflictSet::new(Global, window, MAX_LIMIT).expect("memory is ample"),
            words: Explainer::new(Global, window, ExplanationForm::Words),
            json: Explainer::new(Global, window, ExplanationForm::Json),
        }
    }

    fn process(&mut self, proxy: usize, plain: &PlainBatch) -> PlainReply {
        let batch = plain.batch();
        let reply = self.set.resolve(&batch).expect("the limit is ample");
        self.words.see(proxy, batch, &reply).expect("memory is ample");
        self.json.see(proxy, plain.batch(), &reply).expect("memory is ample");
        PlainReply::of(&reply)
    }

    fn explanation(&self, proxy: usize, version: i64) -> &str {
        str::from_utf8(self.words.explanation(proxy, version)).expect("the lines are ASCII")
    }

    fn member(&self, proxy: usize, version: i64) -> &str {
        str::from_utf8(self.json.explanation(proxy, version)).expect("the member is ASCII")
    }
}

/// How often each kind of line came.
#[derive(Default)]
struct Kinds {
    history: AtomicU64,
    same_batch: AtomicU64,
    further: AtomicU64,
    too_old: AtomicU64,
    unprintable: AtomicU64,
}

impl Kinds {
    fn all(&self) -> [(&'static str, &AtomicU64); 5] {
        [
            (" (history)", &self.history),
            (" (same batch)", &self.same_batch),
            (" more\n", &self.further),
            (" too old: ", &self.too_old),
            ("\\x", &self.unprintable),
        ]
    }

    fn add(&self, text: &str) {
        for (part, times) in self.all() {
            times.fetch_add(text.matches(part).count() as u64, Ordering::Relaxed);
        }
    }
}

/// Over drawn chains of several proxies, each batch has the lines of the scan, also once all
/// batches were seen. A batch without a rejection has none, a transaction has a line exactly if it
/// was rejected, and so has each read range of a report.
#[test]
fn lines_are_those_of_a_scan() {
    let kinds = Kinds::default();
    run("lines_are_those_of_a_scan", count(1_000_000, 20_000), |random| {
        let space = KeySpace::drawn(random);
        let window = random.pick(&[1, 2, 10, 100, 5_000_000]);
        let (mut explained, mut scan) = (Explained::new(window), Scan::new(window));
        let mut expected = BTreeMap::new();
        let (mut previous, mut txns) = (-1, 0);
        for _ in 0..1 + random.below(40) {
            let (proxy, batch) = (random.index(3), drawn_batch(random, &space, previous, window));
            let reply = explained.process(proxy, &batch);
            let texts = scan.add(proxy, &batch, &reply);
            let text = &texts.words;
            for (txn, entry) in reply.entries.iter().enumerate() {
                let begin = format!("  txn {txn} ");
                let is_explained = text.lines().any(|line| line.starts_with(&begin));
                assert_eq!(
                    is_explained,
                    entry.verdict != Verdict::Committed,
                    "txn {txn} of {batch:?}"
                );
                for place in &entry.places {
                    assert!(
                        text.contains(&format!("{begin}read {place} ")),
                        "read {place} of txn {txn} of {batch:?}"
                    );
                }
            }
            kinds.add(text);
            expected.insert((proxy, batch.version), texts);
            (previous, txns) = (batch.version, txns + batch.txns.len() as u64);
        }
        for ((proxy, version), texts) in &expected {
            assert_eq!(explained.explanation(*proxy, *version), texts.words);
            assert_eq!(explained.member(*proxy, *version), texts.member());
            assert_eq!(explained.explanation(*proxy + 1, *version), "");
        }
        txns
    });
    // One seed alone, or few cases, may not have each kind.
    if env::var("ARCHCARAWAY_SEED").is_err() && count(20_000, 20_000) == 20_000 {
        for (part, times) in kinds.all() {
            assert!(times.load(Ordering::Relaxed) >= 500, "{part}: {times:?} times");
        }
    }
}

fn drawn_batch(random: &mut Random, space: &KeySpace, previous: i64, window: i64) -> PlainBatch {
    let version = previous + random.between(1, 1 + window / 3);
    let snapshots = (version - window - 2, version);
    let txns = (0..1 + random.index(8)).map(|_| space.txn(random, 3, snapshots)).collect();
    PlainBatch { previous, version, received: -1, txns }
}

/// Returns a transaction without a report by its snapshot, the ranges that it reads, and those that
/// it writes.
fn txn(snapshot: i64, reads: &[(&[u8], &[u8])], writes: &[(&[u8], &[u8])]) -> PlainTxn {
    let ranges = |ranges: &[(&[u8], &[u8])]| {
        ranges.iter().map(|(begin, end)| PlainRange::new(*begin, *end)).collect()
    };
    PlainTxn { snapshot, marked: false, reads: ranges(reads), writes: ranges(writes) }
}

/// Batches by their proxies and versions, and the lines of the last one.
struct Row {
    name: &'static str,
    window: i64,
    batches: Vec<(usize, i64, Vec<PlainTxn>)>,
    expected: &'static str,
}

impl Row {
    fn check(&self) {
        let mut explained = Explained::new(self.window);
        let (mut previous, mut last) = (-1, (0, -1));
        for (proxy, version, txns) in &self.batches {
            explained.process(
                *proxy,
                &PlainBatch { previous, version: *version, received: -1, txns: txns.clone() },
            );
            (previous, last) = (*version, (*proxy, *version));
        }
        assert_eq!(explained.explanation(last.0, last.1), self.expected, "{}", self.name);
    }
}

#[test]
fn rows_by_hand() {
    let (ab, bc, ac): ((&[u8], &[u8]), _, _) =
        ((b"a", b"b"), (&b"b"[..], &b"c"[..]), (&b"a"[..], &b"c"[..]));
    let rows = [
        Row {
            name: "history",
            window: 100,
            batches: vec![
                (2, 10, vec![txn(0, &[], &[bc]), txn(0, &[], &[ab])]),
                (1, 20, vec![txn(9, &[ab], &[])]),
            ],
            expected: "  txn 0 read 0 [\"a\",\"b\") conflicts with write [\"a\",\"b\") \
                       of proxy 2, version 10, txn 1 (history)\n",
        },
        Row {
            name: "same batch",
            window: 100,
            batches: vec![(3, 20, vec![txn(0, &[], &[ac]), txn(20, &[ab], &[])])],
            expected: "  txn 1 read 0 [\"a\",\"b\") conflicts with write [\"a\",\"c\") \
                       of proxy 3, version 20, txn 0 (same batch)\n",
        },
        Row {
            name: "further ones",
            window: 100,
            batches: vec![
                (0, 10, vec![txn(0, &[], &[ab, bc])]),
                (1, 20, vec![txn(0, &[], &[ac])]),
                (0, 30, vec![txn(5, &[(b"x", b"y"), ac], &[])]),
            ],
            expected: "  txn 0 read 1 [\"a\",\"c\") conflicts with write [\"a\",\"c\") \
                       of proxy 1, version 20, txn 0 (history), and 2 more\n",
        },
        Row {
            name: "each read range in conflict",
            window: 100,
            batches: vec![
                (0, 10, vec![txn(0, &[], &[ac])]),
                (0, 20, vec![txn(5, &[ab, (b"x", b"y"), bc], &[])]),
            ],
            expected: "  txn 0 read 0 [\"a\",\"b\") conflicts with write [\"a\",\"c\") \
                       of proxy 0, version 10, txn 0 (history)\n  \
                       txn 0 read 2 [\"b\",\"c\") conflicts with write [\"a\",\"c\") \
                       of proxy 0, version 10, txn 0 (history)\n",
        },
        Row {
            name: "a report has the hits of older batches alone, and the lines have all",
            window: 100,
            batches: vec![
                (0, 10, vec![txn(0, &[], &[ab])]),
                (
                    0,
                    20,
                    vec![txn(0, &[], &[bc]), PlainTxn { marked: true, ..txn(5, &[bc, ab], &[]) }],
                ),
            ],
            expected: "  txn 1 read 0 [\"b\",\"c\") conflicts with write [\"b\",\"c\") \
                       of proxy 0, version 20, txn 0 (same batch)\n  \
                       txn 1 read 1 [\"a\",\"b\") conflicts with write [\"a\",\"b\") \
                       of proxy 0, version 10, txn 0 (history)\n",
        },
        Row {
            name: "a report has the first of the own batch alone, and the lines have all",
            window: 100,
            batches: vec![(
                0,
                20,
                vec![
                    txn(0, &[], &[ac]),
                    PlainTxn { marked: true, ..txn(20, &[bc, (b"x", b"y"), ab], &[]) },
                ],
            )],
            expected: "  txn 1 read 0 [\"b\",\"c\") conflicts with write [\"a\",\"c\") \
                       of proxy 0, version 20, txn 0 (same batch)\n  \
                       txn 1 read 2 [\"a\",\"b\") conflicts with write [\"a\",\"c\") \
                       of proxy 0, version 20, txn 0 (same batch)\n",
        },
        Row {
            name: "too old",
            window: 100,
            batches: vec![(0, 200, vec![txn(100, &[ab], &[]), txn(99, &[ab], &[])])],
            expected: "  txn 1 too old: snapshot 99, oldest readable version 100\n",
        },
        Row {
            name: "keys with unprintable bytes",
            window: 100,
            batches: vec![
                (0, 10, vec![txn(0, &[], &[(b"\\a\xff", b"\\a\xff\0")])]),
                (0, 20, vec![txn(9, &[(b"\\a\xff", b"\\a\xff\0")], &[])]),
            ],
            expected: "  txn 0 read 0 [\"\\\\a\\xff\",\"\\\\a\\xff\\x00\") \
                       conflicts with write [\"\\\\a\\xff\",\"\\\\a\\xff\\x00\") \
                       of proxy 0, version 10, txn 0 (history)\n",
        },
        Row {
            name: "nothing is rejected",
            window: 100,
            batches: vec![(0, 10, vec![txn(0, &[], &[ab])]), (0, 20, vec![txn(10, &[ab], &[])])],
            expected: "",
        },
        Row { name: "an empty batch", window: 100, batches: vec![(0, 10, vec![])], expected: "" },
    ];
    rows.iter().for_each(Row::check);
}

/// A resolver shows a batch once. If the proxy sends it again, the explainer doesn't see it, and
/// its lines stay.
#[test]
fn lines_stay() {
    let ab: (&[u8], &[u8]) = (b"a", b"b");
    let mut explained = Explained::new(100);
    let batch = PlainBatch {
        previous: -1,
        version: 10,
        received: -1,
        txns: vec![txn(0, &[], &[ab]), txn(9, &[ab], &[])],
    };
    explained.process(0, &batch);
    let lines = "  txn 1 read 0 [\"a\",\"b\") conflicts with write [\"a\",\"b\") \
                 of proxy 0, version 10, txn 0 (same batch)\n";
    assert_eq!(explained.explanation(0, 10), lines);
    explained.process(1, &PlainBatch::empty(10, 20));
    explained.process(1, &PlainBatch::empty(20, 200));
    assert_eq!(explained.explanation(0, 10), lines);
    assert_eq!(explained.explanation(1, 10), "");
    assert_eq!(explained.explanation(0, 20), "");
    assert_eq!(explained.explanation(7, 7), "");
}

#[test]
fn members_by_hand() {
    let (ab, quoted): ((&[u8], &[u8]), (&[u8], &[u8])) =
        ((b"a", b"b"), (b"\"\\\xff", b"\"\\\xff\0"));
    let mut explained = Explained::new(100);
    explained.process(
        2,
        &PlainBatch {
            previous: -1,
            version: 150,
            received: -1,
            txns: vec![txn(0, &[], &[ab, quoted])],
        },
    );
    let txns = vec![
        txn(0, &[], &[ab]),
        txn(149, &[ab], &[]),
        txn(99, &[ab], &[]),
        txn(149, &[quoted], &[]),
    ];
    explained.process(0, &PlainBatch { previous: 150, version: 200, received: -1, txns });
    assert_eq!(explained.member(2, 150), "");
    assert_eq!(
        explained.member(0, 200),
        concat!(
            r#""explanations":[{"txn":1,"read":0,"range":["a","b"],"#,
            r#""write":{"range":["a","b"],"proxy":0,"version":200,"txn":0},"#,
            r#""further":1,"same_batch":true},{"txn":2,"too_old":{"snapshot":99,"oldest":100}},"#,
            r#"{"txn":3,"read":0,"range":["\"\\\\\\xff","\"\\\\\\xff\\x00"],"#,
            r#""write":{"range":["\"\\\\\\xff","\"\\\\\\xff\\x00"],"#,
            r#""proxy":2,"version":150,"txn":0},"#,
            r#""further":0,"same_batch":false}]"#,
        )
    );
}
