//! Worked rows over a conflict set, a resolver core and a resolver over lanes.

use conflict::{ConflictSet, SetStop};
use keyspace::WINDOW;
use lane::Taken;
use rattle_std::alloc::Global;
use rattle_std::vec::Vec as KitVec;
use resolver::{Client, Core, Resolver, Stop, Turn, open, share};
use stepmap::MAX_LIMIT;
use tests::notation::{answer_text, batch, reply_text};
use tests::plain::{PlainAnswer, PlainBatch, PlainReply};

fn set(window: i64, limit: usize) -> ConflictSet {
    ConflictSet::new(Global, window, limit).expect("memory is ample")
}

fn text_of(resolved: Result<keyspace::Reply, SetStop>) -> String {
    resolved.map_or_else(|stop| stop.to_string(), |reply| reply_text(&PlainReply::of(&reply)))
}

/// Resolves batches, and compares the texts of their replies or stops.
fn resolves(mut set: ConflictSet, rows: &[(&str, &str)]) {
    for (text, expected) in rows {
        assert_eq!(text_of(set.resolve(&batch(text).batch())), *expected, "{text}");
    }
}

#[test]
fn own_and_later_writes_do_not_count() {
    resolves(
        set(WINDOW, MAX_LIMIT),
        &[("-1>0: R[a,c) W[b,c); R[c,d) W[a,d); R[c,d)", "0 committed committed conflict")],
    );
}

/// At 105 the batch also writes the range that the history conflicts with. At 106 the history alone
/// rejects.
#[test]
fn rejected_by_the_history_writes_nothing() {
    resolves(
        set(10, MAX_LIMIT),
        &[
            ("-1>100: W[a,b)", "100 committed"),
            (
                "100>105: W[a,b); R[a,b) W[x,y) @80; R[a,b) W[x,y) @95; R[x,y) @105",
                "105 committed tooold conflict committed",
            ),
            (
                "105>106: R[a,b) W[x,y) @80; R[a,b) W[x,y) @100; R[x,y) @106",
                "106 tooold conflict committed",
            ),
        ],
    );
}

#[test]
fn set_of_one_boundary_stops() {
    resolves(set(WINDOW, 1), &[("-1>0", "0 empty"), ("0>100: W[a,b)", "2 ArenaFull")]);
}

/// Each batch reads, at snapshot 0, the keys that those before it wrote, and writes the next key.
#[test]
fn keys_one_by_one() {
    resolves(
        set(WINDOW, MAX_LIMIT),
        &[
            ("-1>0: m R[0,0); W[0]", "0 committed committed"),
            ("0>1: m R[0,1); W[1]", "1 committed committed"),
            ("1>2: m R[0,2); W[2]", "2 conflict:0 committed"),
            ("2>3: m R[0,3); W[3]", "3 conflict:0 committed"),
            ("3>4: m R[0,4); W[4]", "4 conflict:0 committed"),
            ("4>5: m R[0,5); W[5]", "5 conflict:0 committed"),
        ],
    );
}

/// `try_resolve` of a set of limit 3. The refused batch at 200 isn't remembered, and the write at
/// 100 is. At 9,000,000 that write has left the window. At last the batch that doesn't fit stops a
/// set that resolves it.
#[test]
fn limit_three_refused() {
    let mut set = set(WINDOW, 3);
    for (text, expected) in [
        ("-1>0", "0 empty"),
        ("0>100: W[a,b)", "100 committed"),
        ("100>200: W[c,d)", "2 ArenaFull"),
        ("100>200: W[a,b) W[c,d)", "2 ArenaFull"),
        ("100>300: R[a,b) @99; R[c,d) @0; R[a,b) @100", "300 conflict committed committed"),
        ("300>9000000: W[c,d)", "9000000 committed"),
        ("9000000>9000001: R[c,d) @8999999; R[a,b) @8999999", "9000001 conflict committed"),
        ("9000001>9000002: W[e,f)", "2 ArenaFull"),
    ] {
        assert_eq!(text_of(set.try_resolve(&batch(text).batch())), expected, "{text}");
    }
    assert_eq!(text_of(set.resolve(&batch("9000001>9000002: W[e,f)").batch())), "2 ArenaFull");
    assert_eq!(text_of(set.try_resolve(&batch("9000002>90000000").batch())), "2 ArenaFull");
}

/// Steps of a proxy and its batch, and after the arrow the answers that the step makes, each with
/// its proxy.
type Row = &'static [&'static str];

const ROWS: [Row; 7] = [
    &[
        "0 -1>0 -> 0 0 empty",
        "0 0>100: W[a,b) -> 0 100 committed",
        "0 100>200: R[a,b) @100 -> 0 200 committed",
    ],
    &[
        "0 -1>0 -> 0 0 empty",
        "0 0>100: W[a,b) W[e,f) -> 0 100 committed",
        "0 100>200: W[c,d) @100; m R[a,b) R[c,d) R[e,f) @50 -> 0 200 committed conflict:0,2",
    ],
    &["0 -1>0 -> 0 0 empty", "1 0>100 -> 1 100 empty", "0 0>100 -> 0 100 never"],
    &[
        "0 -1>0 -> 0 0 empty",
        "0 100>200",
        "0 100>200",
        "0 0>100 -> 0 100 empty; 0 200 empty; 0 200 empty",
    ],
    &[
        "0 -1>0 -> 0 0 empty",
        "0 150>300",
        "0 100>200",
        "0 0>100 -> 0 100 empty; 0 200 empty; 0 300 never",
    ],
    &[
        "0 -1>0 -> 0 0 empty",
        "0 150>160",
        "1 100>200",
        "1 50>55",
        "0 0>100 -> 0 100 empty; 1 55 never; 1 200 empty; 0 160 never",
    ],
    &[
        "0 -1>0 -> 0 0 empty",
        "0 0>100 -> 0 100 empty",
        "0 100>200: W[a,b) -> 0 200 committed",
        "0 200>300: R[a,b) @100 -> 0 300 conflict",
        "0 300>400: R[a,b) @200 -> 0 400 committed",
    ],
];

struct Step {
    proxy: usize,
    batch: PlainBatch,
    answers: Vec<(usize, &'static str)>,
}

fn numbered(text: &str) -> (usize, &str) {
    let (proxy, rest) = text.split_once(' ').expect("a proxy comes first");
    (proxy.parse().expect("a proxy is a number"), rest)
}

fn steps(row: Row) -> Vec<Step> {
    let step = |step: &'static str| {
        let (call, answers) = step.split_once(" -> ").unwrap_or((step, ""));
        let (proxy, text) = numbered(call);
        Step {
            proxy,
            batch: batch(text),
            answers: answers
                .split("; ")
                .filter(|answer| !answer.is_empty())
                .map(numbered)
                .collect(),
        }
    };
    row.iter().map(|text| step(text)).collect()
}

/// Each step makes its answers, and no other.
#[test]
fn rows_over_a_core() {
    for row in ROWS {
        let mut core = Core::new(Global, 2, WINDOW, MAX_LIMIT).expect("memory is ample");
        for step in steps(row) {
            assert_eq!(core.admit(step.proxy, step.batch.batch()), Ok(()));
            assert_eq!(core.owed(), step.answers.len());
            for (proxy, expected) in step.answers {
                let answer = core.give(proxy).expect("the answer is owed");
                assert_eq!(answer_text(&PlainAnswer::of(&answer)), expected);
            }
        }
        assert_eq!((core.finish(), core.owed(), core.stop()), (Ok(()), 0, None));
    }
}

/// A resolver and its clients, in one thread.
struct Service {
    resolver: Resolver,
    clients: KitVec<Client>,
}

impl Service {
    fn open(proxies: usize, capacity: usize) -> Self {
        let (resolver, clients) =
            open(Global, proxies, capacity, WINDOW, MAX_LIMIT).expect("memory is ample");
        Service { resolver, clients }
    }

    fn send(&mut self, proxy: usize, batch: &PlainBatch) {
        assert!(self.clients[proxy].requests.send(batch.batch()).is_ok(), "the lane has room");
    }

    fn close(&mut self) {
        self.clients.iter_mut().for_each(|client| client.requests.close());
    }

    /// Returns the text of the next answer to a proxy, `empty` or `end`.
    fn take(&mut self, proxy: usize) -> String {
        match self.clients[proxy].replies.take() {
            Taken::Item(answer) => answer_text(&PlainAnswer::of(&answer)),
            Taken::Empty => "empty".to_owned(),
            Taken::End => "end".to_owned(),
        }
    }

    fn is_complete(&mut self) -> bool {
        let account = self.resolver.settle(&mut self.clients);
        assert_eq!(account.stop, None);
        account.complete
    }
}

/// The answers are taken after all batches were, so that a lane of one has one of them and the
/// others are owed.
#[test]
fn rows_over_lanes_of_one() {
    for row in ROWS {
        let mut service = Service::open(2, 1);
        let steps = steps(row);
        for step in &steps {
            service.send(step.proxy, &step.batch);
            assert_eq!(service.resolver.turn(), Ok(Turn::Took(step.proxy)));
        }
        service.close();
        for (proxy, expected) in steps.iter().flat_map(|step| &step.answers) {
            // A lane has room for one answer, which each turn fills.
            assert!(matches!(service.resolver.turn(), Ok(Turn::Idle | Turn::Done)));
            assert_eq!(service.take(*proxy), *expected);
        }
        assert_eq!(service.resolver.turn(), Ok(Turn::Done));
        assert_eq!([0, 1].map(|proxy| service.take(proxy)), ["end", "end"]);
        assert!(service.is_complete());
    }
}

/// The second batch waits for the third, and its answer for room. The last is held to the end.
#[test]
fn answers_over_two_lanes_of_one() {
    let mut service = Service::open(2, 1);
    for (proxy, text) in [(0, "-1>0"), (0, "100>200: R[a,b) @100"), (1, "0>100: W[a,b)")] {
        service.send(proxy, &batch(text));
        assert_eq!(service.resolver.turn(), Ok(Turn::Took(proxy)));
    }
    assert_eq!([0, 1].map(|proxy| service.take(proxy)), ["0 empty", "100 committed"]);
    service.send(1, &batch("900>1000"));
    assert_eq!(service.resolver.turn(), Ok(Turn::Took(1)));
    assert_eq!(service.take(0), "200 committed");
    service.close();
    assert_eq!(service.resolver.turn(), Ok(Turn::Done));
    assert_eq!(service.take(1), "1000 held");
    assert_eq!(service.resolver.turn(), Ok(Turn::Done));
    assert!(service.is_complete());
}

/// One batch of each of two proxies, a number of turns, the answers to each, and whether all is
/// settled.
#[test]
fn two_proxies_in_turns() {
    for (batches, turns, expected, is_complete) in [
        (["-1>0", "0>100"], 3, ["0 empty", "100 empty"], true),
        // The first batch waits for the second.
        (["0>100", "-1>0"], 10, ["100 empty", "0 empty"], true),
        (["-1>0", "0>100"], 0, ["empty", "empty"], false),
        // No turn has reported the end of both lanes.
        (["-1>0", "0>100"], 2, ["0 empty", "100 empty"], false),
        (["-1>0", "900>1000"], 2, ["0 empty", "empty"], false),
        (["-1>0", "900>1000"], 3, ["0 empty", "1000 held"], true),
    ] {
        let mut service = Service::open(2, 1);
        batches.iter().enumerate().for_each(|(proxy, text)| service.send(proxy, &batch(text)));
        service.close();
        for _ in 0..turns {
            assert!(service.resolver.turn().is_ok());
        }
        assert_eq!([0, 1].map(|proxy| service.take(proxy)), expected, "{batches:?}, {turns} turns");
        assert_eq!(service.is_complete(), is_complete, "{batches:?}, {turns} turns");
    }
}

/// Sends batches of each of two proxies that have to be held, with a turn after each. Returns the
/// stop, if there is one.
fn stop_of_two(counts: [i64; 2]) -> Option<Stop> {
    let mut service = Service::open(2, 1);
    for (proxy, count) in counts.into_iter().enumerate() {
        for previous in 0..count {
            service.send(proxy, &PlainBatch::empty(previous, previous + 1));
            if let Err(stop) = service.resolver.turn() {
                return Some(stop);
            }
        }
    }
    None
}

#[test]
fn gate_is_full_beyond_a_share() {
    assert_eq!([1, 2, 3, 64].map(share), [1_024, 512, 341, 16]);
    assert_eq!(stop_of_two([512, 512]), None);
    assert_eq!(stop_of_two([1_025, 0]), Some(Stop::GateFull));
    assert_eq!(stop_of_two([512, 513]), Some(Stop::GateFull));
}
