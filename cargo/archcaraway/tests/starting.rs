//! Sets, cores and resolvers that start at a version: what they know of the history before it.

use archcaraway::{
    Answer, Batch, BatchBuilder, Client, ConflictSet, Core, MAX_LIMIT, NewError, Resolver,
    TryReceiveError, Turn, Txn, Verdict, WINDOW, open, open_at,
};

const START: i64 = 1_000_000_000;

fn batch<'a>(previous: i64, version: i64, txns: impl IntoIterator<Item = Txn<'a>>) -> Batch {
    let builder = txns.into_iter().fold(BatchBuilder::new(previous, version), BatchBuilder::txn);
    builder.build().expect("it is within the limits")
}

fn verdicts<'a>(
    set: &mut ConflictSet,
    version: i64,
    txns: impl IntoIterator<Item = Txn<'a>>,
) -> Vec<Verdict> {
    let reply = set.resolve(&batch(-1, version, txns));
    reply.expect("it is within the limit").verdicts().collect()
}

#[test]
fn reads_below_the_first_version_conflict() {
    let mut set = ConflictSet::new_at(WINDOW, MAX_LIMIT, 1_000).expect("the numbers are right");
    assert_eq!((set.version(), set.boundaries(), set.edge()), (1_000, 2, 0));
    let longest = vec![255; 10_000];
    let txns = [
        Txn::at(900).read_key("k"),
        Txn::at(999).read(("", "\u{0}")),
        Txn::at(999).read_key(&longest),
        Txn::at(900).read(("k", "k")),
        Txn::at(1_000).read_key("k"),
        Txn::at(1_000).read_key(&longest),
        Txn::at(900).write_key("k"),
    ];
    use Verdict::{Committed, Conflict};
    let expected = [Conflict, Conflict, Conflict, Committed, Committed, Committed, Committed];
    assert_eq!(verdicts(&mut set, 1_001, txns), expected);
    let later = [Txn::at(1_000).read_key("k"), Txn::at(1_001).read_key("k")];
    assert_eq!(verdicts(&mut set, 1_002, later), [Conflict, Committed]);
}

#[test]
fn the_history_leaves_with_the_window() {
    let mut set = ConflictSet::new_at(10, MAX_LIMIT, 1_000).expect("the numbers are right");
    assert_eq!(set.edge(), 990);
    let old = verdicts(&mut set, 1_009, [Txn::at(998).read_key("k"), Txn::at(999).read_key("k")]);
    assert_eq!(old, [Verdict::TooOld, Verdict::Conflict]);
    for version in 1_011..1_020 {
        let fresh = verdicts(&mut set, version, [Txn::at(1_001).read_key("k")]);
        let expected = if version < 1_012 { Verdict::Committed } else { Verdict::TooOld };
        assert_eq!(fresh, [expected], "{version}");
    }
    assert_eq!(set.boundaries(), 1);
}

#[test]
fn minus_one_is_the_start_of_a_new_set() {
    let mut set = ConflictSet::new_at(WINDOW, 1, -1).expect("the numbers are right");
    assert_eq!((set.version(), set.boundaries(), set.limit()), (-1, 1, 1));
    assert_eq!(verdicts(&mut set, 0, [Txn::at(0).read_key("k")]), [Verdict::Committed]);
    let mut set = ConflictSet::new_at(WINDOW, MAX_LIMIT, 0).expect("the numbers are right");
    assert_eq!(verdicts(&mut set, 1, [Txn::at(0).read_key("k")]), [Verdict::Committed]);
}

#[test]
fn numbers_of_a_start() {
    for (proxies, window, limit, version, expected) in [
        (1, WINDOW, 3, i64::MAX, Ok(())),
        (1, WINDOW, 1, -1, Ok(())),
        (1, WINDOW, 2, 0, Err(NewError::LimitAtVersion(2))),
        (1, WINDOW, 1, i64::MAX, Err(NewError::LimitAtVersion(1))),
        (1, WINDOW, 3, -2, Err(NewError::Version(-2))),
        (1, WINDOW, 3, i64::MIN, Err(NewError::Version(i64::MIN))),
        (1, 0, 3, 5, Err(NewError::Window(0))),
        (1, WINDOW, 0, 5, Err(NewError::Limit(0))),
        (65, WINDOW, 3, 5, Err(NewError::Proxies(65))),
    ] {
        let core = Core::new_at(proxies, window, limit, version).map(|_| ());
        assert_eq!(core, expected, "{window} {limit} {version}");
        let resolver = open_at(proxies, 1, window, limit, version).map(|_| ());
        assert_eq!(resolver, expected, "{window} {limit} {version}");
        if proxies == 1 {
            let set = ConflictSet::new_at(window, limit, version).map(|_| ());
            assert_eq!(set, expected, "{window} {limit} {version}");
        }
    }
}

#[test]
fn a_core_takes_the_batch_after_its_first_version() {
    let mut core = Core::new_at(2, WINDOW, MAX_LIMIT, START).expect("the numbers are right");
    assert_eq!((core.version(), core.held(), core.owed(), core.next()), (START, 0, 0, None));
    let read = |snapshot| Txn::at(snapshot).read_key("k");
    for (proxy, batch) in [
        (0, batch(-1, START, [])),
        (0, batch(START - 1, START + 5, [read(START)])),
        (1, batch(START + 1, START + 2, [read(START)])),
        (1, batch(START, START + 1, [read(START - 1), read(START)])),
        (0, batch(START + 9, START + 10, [])),
    ] {
        assert_eq!(core.admit(proxy, batch), Ok(()));
    }
    assert_eq!((core.version(), core.held(), core.owed(), core.next()), (START + 2, 1, 4, Some(0)));
    let given = |core: &mut Core, proxy| core.give(proxy).expect("there is such a proxy");
    assert_eq!(given(&mut core, 0), Some(Answer::Never(START)));
    assert_eq!(given(&mut core, 0), Some(Answer::Never(START + 5)));
    assert_eq!(core.next(), Some(1));
    let first = given(&mut core, 1).expect("it is owed");
    let first = first.reply().expect("it was processed");
    assert_eq!(first.version(), START + 1);
    assert!(first.verdicts().eq([Verdict::Conflict, Verdict::Committed]));
    assert!(given(&mut core, 1).is_some_and(|answer| answer.reply().is_some()));
    assert_eq!((core.owed(), core.next()), (0, None));
}

fn answer_to(resolver: &mut Resolver, client: &mut Client, batch: Batch) -> Answer {
    assert_eq!(client.try_send(batch), Ok(()));
    assert_eq!(resolver.turn(), Ok(Turn::Took(client.proxy())));
    client.try_receive().expect("it was answered")
}

#[test]
fn a_resolver_takes_the_batch_after_its_first_version() {
    let (mut resolver, mut clients) =
        open_at(2, 4, WINDOW, MAX_LIMIT, 1_000).expect("the numbers are right");
    let read = |snapshot| Txn::at(snapshot).read_key("k");
    for (previous, version) in [(-1, 1_000), (-1, 2_000), (999, 1_001)] {
        let below = batch(previous, version, [read(1_000)]);
        let answer = answer_to(&mut resolver, &mut clients[0], below);
        assert_eq!(answer, Answer::Never(version), "{previous}");
    }
    let empty = Txn::at(0).read(("k", "k"));
    let next = batch(1_000, 1_001, [read(900), read(999), read(1_000), empty]);
    let answer = answer_to(&mut resolver, &mut clients[1], next);
    let reply = answer.reply().expect("it was processed");
    use Verdict::{Committed, Conflict};
    assert_eq!(reply.version(), 1_001);
    let expected = [Conflict, Conflict, Committed, Committed];
    assert!(reply.verdicts().eq(expected));

    assert_eq!(clients[0].try_send(batch(1_002, 1_003, [])), Ok(()));
    assert_eq!(resolver.turn(), Ok(Turn::Took(0)));
    assert_eq!(clients[0].try_receive(), Err(TryReceiveError::Empty));
    let answer = answer_to(&mut resolver, &mut clients[1], batch(1_001, 1_002, []));
    assert!(answer.reply().is_some());
    let held = clients[0].try_receive().expect("it was answered");
    assert!(held.reply().is_some());

    clients.iter_mut().for_each(Client::close);
    assert_eq!(resolver.turn(), Ok(Turn::Done));
    let account = resolver.settle(&mut clients).expect("they are its clients");
    assert!(account.complete);
}

#[test]
fn minus_one_is_the_start_of_a_new_resolver() {
    for opened in [open(1, 1, WINDOW, 3), open_at(1, 1, WINDOW, 3, -1)] {
        let (mut resolver, mut clients) = opened.expect("the numbers are right");
        let first = batch(-1, 0, [Txn::at(0).read_key("k")]);
        let answer = answer_to(&mut resolver, &mut clients[0], first);
        let reply = answer.reply().expect("it was processed");
        assert_eq!(reply.verdict(0), Some(Verdict::Committed));
    }
}

/// What a set that started at a version commits, one that knows the history commits too.
#[test]
fn a_start_commits_nothing_that_the_history_would_not() {
    let mut state = 7_u64;
    let mut below = |limit: u64| {
        state =
            state.wrapping_mul(6_364_136_223_846_793_005).wrapping_add(1_442_695_040_888_963_407);
        (state >> 33) % limit
    };
    for _ in 0..200 {
        let mut known = ConflictSet::new(WINDOW, MAX_LIMIT).expect("the numbers are right");
        for version in 0..100 {
            let key = [below(16) as u8];
            verdicts(&mut known, version, [Txn::at(0).write_key(&key)]);
        }
        let mut started =
            ConflictSet::new_at(WINDOW, MAX_LIMIT, 99).expect("the numbers are right");
        // Each transaction alone, so that both sets remember the same later writes.
        for version in 100..150 {
            let read = [below(16) as u8];
            let snapshot = 90 + below(version as u64 - 90) as i64;
            let txn = || Txn::at(snapshot).read_key(&read);
            let by_start = verdicts(&mut started, version, [txn()])[0];
            let by_history = verdicts(&mut known, version, [txn()])[0];
            let expected = if snapshot < 99 { Verdict::Conflict } else { by_history };
            assert_eq!(by_start, expected, "{snapshot}");
            assert!(by_start != Verdict::Committed || by_history == Verdict::Committed);
        }
    }
}
