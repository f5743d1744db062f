//! The resolver over lanes: threads, errors, and how every wait ends.

use archcaraway::{
    Account, Batch, BatchBuilder, Client, MAX_LIMIT, NewError, Resolver, SettleError, Stop,
    TryReceiveError, TrySendError, Turn, Txn, WINDOW, open,
};
use std::thread;

fn opened(proxies: usize, capacity: usize) -> (Resolver, Vec<Client>) {
    open(proxies, capacity, WINDOW, MAX_LIMIT).expect("the numbers are right")
}

fn empty(previous: i64, version: i64) -> Batch {
    BatchBuilder::new(previous, version).build().expect("it is within the limits")
}

#[test]
fn numbers_of_a_resolver() {
    for (proxies, capacity, window, limit, expected) in [
        (1, 1, 1, 1, Ok(())),
        (64, 1_024, 1, 1, Ok(())),
        (0, 0, 0, 0, Err(NewError::Proxies(0))),
        (65, 1, 1, 1, Err(NewError::Proxies(65))),
        (1, 0, 1, 1, Err(NewError::Capacity(0))),
        (1, 1_025, 1, 1, Err(NewError::Capacity(1_025))),
        (1, 1, 0, 1, Err(NewError::Window(0))),
        (1, 1, 1, 0, Err(NewError::Limit(0))),
    ] {
        assert_eq!(open(proxies, capacity, window, limit).map(|_| ()), expected);
    }
}

#[test]
fn turns_in_one_thread() {
    let (mut resolver, mut clients) = opened(2, 1);
    assert_eq!((resolver.proxies(), resolver.share()), (2, 512));
    assert_eq!(resolver.turn(), Ok(Turn::Idle));
    assert_eq!(clients[0].try_receive(), Err(TryReceiveError::Empty));
    assert_eq!(clients[0].try_send(empty(-1, 0)), Ok(()));
    assert_eq!(clients[0].try_send(empty(0, 1)), Err(TrySendError::Full(empty(0, 1))));
    assert_eq!(resolver.turn(), Ok(Turn::Took(0)));
    assert_eq!((resolver.sent(0), resolver.sent(1), resolver.sent(2)), (1, 0, 0));
    for client in &mut clients {
        client.close();
        assert_eq!(client.try_send(empty(0, 1)), Err(TrySendError::Closed(empty(0, 1))));
    }
    assert_eq!(resolver.turn(), Ok(Turn::Done));
    let account = |complete| Ok(Account { complete, stop: None });
    assert_eq!(resolver.settle(&mut clients), account(false));
    assert_eq!(clients[0].try_receive().map(|answer| answer.version()), Ok(0));
    assert_eq!(clients[0].try_receive(), Err(TryReceiveError::End));
    assert_eq!((clients[0].sent(), clients[0].received()), (1, 1));
    assert_eq!(resolver.settle(&mut clients), account(true));
}

#[test]
fn clients_that_are_not_the_resolvers() {
    let (mut resolver, mut clients) = opened(2, 1);
    let (_other, mut others) = opened(2, 1);
    let count = |given| Err(SettleError::Count { given, proxies: 2 });
    assert_eq!(resolver.settle(&mut []), count(0));
    assert_eq!(resolver.settle(&mut clients[..1]), count(1));
    assert_eq!(resolver.settle(&mut others), Err(SettleError::Client { index: 0 }));
    std::mem::swap(&mut clients[1], &mut others[1]);
    assert_eq!(resolver.settle(&mut clients), Err(SettleError::Client { index: 1 }));
    std::mem::swap(&mut clients[1], &mut others[1]);
    clients.swap(0, 1);
    assert_eq!(resolver.settle(&mut clients), Err(SettleError::Client { index: 0 }));
    clients.swap(0, 1);
    assert_eq!(resolver.settle(&mut clients).map(|account| account.stop), Ok(None));
}

#[test]
fn threads_that_send_before_they_receive() {
    const PROXIES: i64 = 4;
    const EACH: i64 = 200;
    let (mut resolver, clients) = opened(PROXIES as usize, 2);
    let turning = thread::spawn(move || (resolver.run(), resolver));
    let sending = clients.into_iter().map(|mut client| {
        thread::spawn(move || {
            let versions = (0..EACH).map(|turn| PROXIES * turn + client.proxy() as i64);
            let versions: Vec<i64> = versions.collect();
            for version in &versions {
                client.send(empty(version - 1, *version)).expect("the resolver runs");
            }
            client.close();
            let answers = std::iter::from_fn(|| client.receive());
            assert!(answers.map(|answer| answer.version()).eq(versions));
            client
        })
    });
    let sending: Vec<_> = sending.collect();
    let clients = sending.into_iter().map(|thread| thread.join().expect("it ends"));
    let mut clients: Vec<_> = clients.collect();
    let (ran, mut resolver) = turning.join().expect("it ends");
    assert_eq!(ran, Ok(()));
    let account = Account { complete: true, stop: None };
    assert_eq!(resolver.settle(&mut clients), Ok(account));
}

#[test]
fn a_client_that_is_dropped_keeps_nobody_waiting() {
    let (mut resolver, mut clients) = opened(2, 1);
    thread::scope(|scope| {
        let turning = scope.spawn(move || resolver.run());
        let mut dropped = clients.remove(0);
        for version in 0..10 {
            dropped.send(empty(version - 1, version)).expect("the resolver runs");
        }
        drop(dropped);
        clients[0].send(empty(9, 10)).expect("the resolver runs");
        clients[0].close();
        assert_eq!(clients[0].receive().map(|answer| answer.version()), Some(10));
        assert_eq!(clients[0].receive(), None);
        assert_eq!(turning.join().expect("it ends"), Ok(()));
    });
}

#[test]
fn a_resolver_that_is_dropped_keeps_nobody_waiting() {
    let (mut resolver, mut clients) = opened(1, 2);
    clients[0].send(empty(-1, 0)).expect("there is room");
    assert_eq!(resolver.turn(), Ok(Turn::Took(0)));
    clients[0].send(empty(0, 1)).expect("there is room");
    drop(resolver);
    assert_eq!(clients[0].send(empty(1, 2)), Err(TrySendError::Disconnected(empty(1, 2))));
    assert_eq!(clients[0].try_receive().map(|answer| answer.version()), Ok(0));
    assert_eq!(clients[0].try_receive(), Err(TryReceiveError::Disconnected));
    assert_eq!(clients[0].receive(), None);
}

#[test]
fn a_stop_keeps_nobody_waiting() {
    let (mut resolver, mut clients) = open(1, 1, WINDOW, 1).expect("the numbers are right");
    let write = BatchBuilder::new(0, 1).txn(Txn::at(0).write_key("k"));
    let write = write.build().expect("it is within the limits");
    thread::scope(|scope| {
        let turning = scope.spawn(|| resolver.run());
        clients[0].send(empty(-1, 0)).expect("the resolver runs");
        clients[0].send(write).expect("the resolver runs");
        let refused = (0..3).find_map(|_| clients[0].send(empty(1, 2)).err());
        assert_eq!(refused, Some(TrySendError::Disconnected(empty(1, 2))));
        assert_eq!(clients[0].receive().map(|answer| answer.version()), Some(0));
        assert_eq!(clients[0].receive(), None);
        assert_eq!(turning.join().expect("it ends"), Err(Stop::ArenaFull));
    });
    let account = Account { complete: false, stop: Some(Stop::ArenaFull) };
    assert_eq!(resolver.settle(&mut clients), Ok(account));
}
