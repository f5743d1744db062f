//! Histories: their errors, and what they explain.

use archcaraway::{
    Batch, BatchBuilder, ConflictSet, History, MAX_LIMIT, MAX_WINDOW, NewError, PushError, Range,
    Reply, Txn, WINDOW,
};

fn batch(previous: i64, version: i64, txns: impl IntoIterator<Item = Txn<'static>>) -> Batch {
    let add = |builder: BatchBuilder, txn| builder.txn(txn);
    let builder = txns.into_iter().fold(BatchBuilder::new(previous, version), add);
    builder.build().expect("it is within the limits")
}

fn reply(batch: &Batch) -> Reply {
    let mut set = ConflictSet::new(WINDOW, MAX_LIMIT).expect("the numbers are right");
    set.resolve(batch).expect("the first batch is resolved")
}

#[test]
fn windows_of_a_history() {
    for window in [0, -1, MAX_WINDOW + 1] {
        assert_eq!(History::new(window).map(|_| ()), Err(NewError::Window(window)));
    }
    assert!(History::new(1).is_ok() && History::new(MAX_WINDOW).is_ok());
}

#[test]
fn batches_that_are_not_added() {
    let mut history = History::new(WINDOW).expect("the window is right");
    let first = batch(-1, 100, [Txn::at(0).write_key("k")]);
    let reported = reply(&first);
    assert_eq!(history.push(0, first.clone(), reported.clone()), Ok(()));
    let again = PushError::Version { version: 100, last: 100 };
    assert_eq!(history.push(0, first, reported.clone()), Err(again));

    let later = batch(100, 200, [Txn::at(99).read_key("k")]);
    assert_eq!(history.push(0, later.clone(), reported), Err(PushError::Reply), "another version");
    let none = reply(&batch(100, 200, []));
    assert_eq!(
        history.push(0, later.clone(), none),
        Err(PushError::Reply),
        "another number of transactions"
    );
    assert_eq!(history.version(), 100);
    let reported = reply(&later);
    assert_eq!(history.push(0, later, reported), Ok(()));
    assert_eq!(history.version(), 200);
}

#[test]
fn writes_and_their_origins() {
    let mut history = History::new(WINDOW).expect("the window is right");
    assert_eq!(history.explain(0, 0), None);
    let first = batch(-1, 100, [Txn::at(0).write_key("x"), Txn::at(0).write(("a", "c"))]);
    let reported = reply(&first);
    history.push(7, first, reported).expect("memory is ample");
    let later = batch(100, 200, [Txn::at(99).read_key("y").read_key("b")]);
    let reported = reply(&later);
    history.push(8, later, reported).expect("memory is ample");

    assert_eq!(history.explain(0, 0), None);
    assert_eq!(history.explain(0, 2), None);
    assert_eq!(history.explain(1, 0), None);
    let explanation = history.explain(0, 1).expect("a write overlaps it");
    let newest = &explanation.newest;
    assert_eq!((newest.proxy, newest.version, newest.txn, explanation.further), (7, 100, 1, 0));
    assert_eq!(Ok(newest.range.clone()), Range::new("a", "c"));
}
