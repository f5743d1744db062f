//! The resolver over values: its chain, its answers and its errors.

use archcaraway::{
    Answer, Batch, BatchBuilder, Core, CoreError, MAX_LIMIT, NewError, Stop, Txn, WINDOW,
};

fn core(proxies: usize) -> Core {
    Core::new(proxies, WINDOW, MAX_LIMIT).expect("the numbers are right")
}

fn empty(previous: i64, version: i64) -> Batch {
    BatchBuilder::new(previous, version).build().expect("it is within the limits")
}

/// Returns the versions of the answers that a proxy is given, with their kind.
fn given(core: &mut Core, proxy: usize) -> Vec<(char, i64)> {
    std::iter::from_fn(|| core.give(proxy).expect("there is such a proxy"))
        .map(|answer| match answer {
            Answer::Reply(reply) => ('r', reply.version()),
            Answer::Never(version) => ('n', version),
            Answer::Held(version) => ('h', version),
        })
        .collect()
}

#[test]
fn numbers_of_a_core() {
    for (proxies, window, limit, expected) in [
        (1, 1, 1, Ok(())),
        (64, 1, 1, Ok(())),
        (0, 0, 0, Err(NewError::Proxies(0))),
        (65, 1, 1, Err(NewError::Proxies(65))),
        (1, 0, 1, Err(NewError::Window(0))),
        (1, 1, 0, Err(NewError::Limit(0))),
    ] {
        assert_eq!(Core::new(proxies, window, limit).map(|_| ()), expected);
    }
}

#[test]
fn batches_that_come_too_early_are_held() {
    let mut core = core(1);
    for batch in [empty(-1, 0), empty(0, 100), empty(100, 200), empty(150, 300), empty(900, 1000)] {
        assert_eq!(core.admit(0, batch), Ok(()));
    }
    assert_eq!(core.finish(), Ok(()));
    assert_eq!(core.owed(), 5);
    let answers = [('r', 0), ('r', 100), ('r', 200), ('n', 300), ('h', 1000)];
    assert_eq!(given(&mut core, 0), answers);
    assert_eq!(core.owed(), 0);
}

#[test]
fn a_repeat_is_answered_by_the_kept_reply() {
    let mut core = core(2);
    for (proxy, batch) in [(0, empty(-1, 0)), (1, empty(0, 100)), (0, empty(0, 100))] {
        assert_eq!(core.admit(proxy, batch), Ok(()));
    }
    assert_eq!(core.admit(1, empty(0, 100)), Ok(()));
    assert_eq!(given(&mut core, 0), [('r', 0), ('n', 100)]);
    assert_eq!(given(&mut core, 1), [('r', 100), ('r', 100)]);
}

#[test]
fn there_is_no_such_proxy() {
    let mut core = core(2);
    let error = CoreError::Proxy { proxy: 2, proxies: 2 };
    assert_eq!(core.admit(2, empty(-1, 0)), Err(error));
    assert_eq!(core.give(2), Err(error));
    let error = CoreError::Proxy { proxy: usize::MAX, proxies: 2 };
    assert_eq!(core.give(usize::MAX), Err(error));
    assert_eq!(core.admit(1, empty(-1, 0)), Ok(()));
    assert_eq!(given(&mut core, 1), [('r', 0)]);
}

#[test]
fn a_full_gate_is_final() {
    let mut core = core(1);
    assert_eq!(core.admit(0, empty(-1, 0)), Ok(()));
    for number in 1..=1_024 {
        assert_eq!(core.admit(0, empty(10 * number, 10 * number + 1)), Ok(()));
    }
    assert_eq!(core.stop(), None);
    let stopped = Err(CoreError::Stop(Stop::GateFull));
    assert_eq!(core.admit(0, empty(7, 8)), stopped);
    assert_eq!(core.admit(0, empty(0, 1)), stopped);
    assert_eq!(core.finish(), Err(Stop::GateFull));
    assert_eq!(core.stop(), Some(Stop::GateFull));
    assert_eq!(given(&mut core, 0), [('r', 0)]);
}

#[test]
fn a_limit_that_is_exceeded_is_final() {
    let mut core = Core::new(1, WINDOW, 1).expect("the numbers are right");
    let write = BatchBuilder::new(-1, 0).txn(Txn::at(0).write_key("k"));
    let write = write.build().expect("it is within the limits");
    assert_eq!(core.admit(0, write), Err(CoreError::Stop(Stop::ArenaFull)));
    assert_eq!(given(&mut core, 0), []);
}
