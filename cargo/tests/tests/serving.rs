//! The resolver over lanes: in one thread, so that each turn's answer is known, and with its
//! clients in threads.

use keyspace::Answer;
use lane::{Refused, Taken};
use rattle_std::alloc::Global;
use rattle_std::vec::Vec as KitVec;
use resolver::{Client, Resolver, Turn, open, share};
use std::collections::VecDeque;
use std::thread;
use stepmap::MAX_LIMIT;
use tests::cases::{count, run};
use tests::drawn::KeySpace;
use tests::plain::{PlainAnswer, PlainBatch};
use tests::random::Random;
use tests::reference::Reference;
use tests::scan::Scan;

const WINDOW: i64 = 500;

fn chain(random: &mut Random, batches: usize) -> Vec<PlainBatch> {
    let space = KeySpace::drawn(random);
    let mut previous = -1;
    let mut next = || {
        let version = previous + random.between(1, 100);
        let txns = (0..random.index(4))
            .map(|_| space.txn(random, 2, (version - WINDOW - 20, version - 1)))
            .collect();
        let batch = PlainBatch { previous, version, received: -1, txns };
        previous = version;
        batch
    };
    (0..batches).map(|_| next()).collect()
}

fn opened(proxies: usize, capacity: usize) -> (Resolver, KitVec<Client>) {
    open(Global, proxies, capacity, WINDOW, MAX_LIMIT).expect("memory is ample")
}

/// All clients and the resolver in one thread, beside the rules.
struct Service {
    resolver: Resolver,
    clients: KitVec<Client>,
    reference: Reference,
    // What each client still sends, and what is on its lane.
    unsent: Vec<VecDeque<PlainBatch>>,
    requested: Vec<VecDeque<PlainBatch>>,
    closed: Vec<bool>,
    received: Vec<Vec<PlainAnswer>>,
    // The proxy of the batch taken last.
    last: usize,
    done: bool,
}

impl Service {
    fn drawn(random: &mut Random) -> Self {
        let proxies = random.pick(&[1, 2, 3, 8, 64]);
        let (resolver, clients) = opened(proxies, random.pick(&[1, 2, 5, 100]));
        let batches = random.index(60);
        let mut chain = chain(random, batches);
        match random.below(3) {
            0 => random.shuffle(&mut chain),
            1 => chain.extend_from_within(..batches / 2),
            _ => {}
        }
        let mut unsent = vec![VecDeque::new(); proxies];
        chain.into_iter().for_each(|batch| unsent[random.index(proxies)].push_back(batch));
        Service {
            resolver,
            clients,
            reference: Reference::new(proxies, WINDOW),
            unsent,
            requested: vec![VecDeque::new(); proxies],
            closed: vec![false; proxies],
            received: vec![Vec::new(); proxies],
            last: proxies - 1,
            done: false,
        }
    }

    fn send(&mut self, proxy: usize) {
        match self.unsent[proxy].pop_front() {
            Some(batch) => match self.clients[proxy].requests.send(batch.batch()) {
                Ok(()) => self.requested[proxy].push_back(batch),
                Err(Refused::Full(_)) => self.unsent[proxy].push_front(batch),
                Err(_) => panic!("the lane is open"),
            },
            None => {
                self.clients[proxy].requests.close();
                self.closed[proxy] = true;
            }
        }
    }

    fn take(&mut self, proxy: usize) {
        match self.clients[proxy].replies.take() {
            Taken::Item(answer) => self.received[proxy].push(PlainAnswer::of(&answer)),
            Taken::Empty => assert!(!self.done),
            Taken::End => assert!(self.done),
        }
    }

    /// Takes a turn. It takes a batch of the first proxy after the last one that has any.
    fn turn(&mut self) {
        let proxies = self.requested.len();
        let next = (1..=proxies)
            .map(|step| (self.last + step) % proxies)
            .find(|proxy| !self.requested[*proxy].is_empty());
        let turn = self.resolver.turn().expect("nothing stops it");
        match next {
            Some(proxy) => {
                assert_eq!(turn, Turn::Took(proxy));
                self.last = proxy;
                let batch = self.requested[proxy].pop_front().expect("one is there");
                assert!(self.reference.take(proxy, &batch));
            }
            None => {
                if self.closed.iter().all(|closed| *closed) && self.reference.held() > 0 {
                    self.reference.finish();
                }
                assert_eq!(turn, if self.is_through() { Turn::Done } else { Turn::Idle });
                self.done = turn == Turn::Done;
            }
        }
        let sent: u64 = (0..proxies).map(|proxy| self.resolver.sent(proxy)).sum();
        assert_eq!(self.resolver.owed() as u64 + sent, self.reference.count() as u64);
    }

    // All lanes are closed and empty, and nothing is owed.
    fn is_through(&self) -> bool {
        self.closed.iter().all(|closed| *closed)
            && self.requested.iter().all(VecDeque::is_empty)
            && self.resolver.owed() == 0
    }

    fn settle(&mut self) {
        let account = self.resolver.settle(&mut self.clients);
        let all_taken = self
            .received
            .iter()
            .zip(&self.reference.answers)
            .all(|(received, answers)| received == answers);
        assert_eq!((account.complete, account.stop), (self.done && all_taken, None));
    }
}

/// Each turn's answer, each lane's end and each account, with all clients in one thread.
#[test]
fn turns_and_accounts_in_one_thread() {
    run("turns_and_accounts_in_one_thread", count(2_000_000, 40_000), |random| {
        let mut service = Service::drawn(random);
        let proxies = service.unsent.len();
        let mut calls = 0;
        while !service.done || service.received != service.reference.answers {
            let proxy = random.index(proxies);
            match random.below(8) {
                0..3 => service.send(proxy),
                3 | 4 => service.take(proxy),
                5 if random.one_in(4) => service.settle(),
                _ => service.turn(),
            }
            calls += 1;
        }
        service.settle();
        assert!(service.resolver.settle(&mut service.clients).complete);
        for client in service.clients.iter_mut() {
            assert!(matches!(client.replies.take(), Taken::End));
        }
        calls
    });
}

/// Sends these batches in order, with at most `share` of them unanswered, and returns the answers.
fn run_client(
    mut client: Client,
    batches: Vec<PlainBatch>,
    share: u64,
) -> (Client, Vec<PlainAnswer>) {
    let mut unsent: VecDeque<_> = batches.iter().map(PlainBatch::batch).collect();
    let mut answers: Vec<Answer> = Vec::new();
    let mut tries = 0;
    loop {
        let mut moved = false;
        let unanswered = client.requests.sent() - answers.len() as u64;
        let next = if unanswered < share { unsent.pop_front() } else { None };
        if let Some(batch) = next {
            match client.requests.send(batch) {
                Ok(()) => moved = true,
                Err(Refused::Full(batch)) => unsent.push_front(batch),
                Err(_) => panic!("the lane is open"),
            }
        }
        if unsent.is_empty() {
            client.requests.close();
        }
        match client.replies.take() {
            Taken::Item(answer) => {
                answers.push(answer);
                moved = true;
            }
            Taken::Empty => {}
            Taken::End => return (client, answers.iter().map(PlainAnswer::of).collect()),
        }
        tries = if moved { 0 } else { tries + 1 };
        if tries > 32 {
            thread::yield_now();
        }
    }
}

fn turn_to_the_end(resolver: &mut Resolver) {
    loop {
        match resolver.turn().expect("nothing stops it") {
            Turn::Took(_) => {}
            Turn::Idle => thread::yield_now(),
            Turn::Done => return,
        }
    }
}

/// Shuffles the batches in pieces no larger than the share, so that a client that keeps its share
/// can always send the next one.
fn disorder(batches: &mut [PlainBatch], share: u64, random: &mut Random) {
    let piece = 1 + random.index((share as usize).min(50));
    batches.chunks_mut(piece).for_each(|piece| random.shuffle(piece));
}

fn serve_threads(random: &mut Random, batches: usize) {
    let proxies = 1 + random.index(8);
    let chain = chain(random, batches);
    let (mut resolver, clients) = opened(proxies, random.pick(&[1, 2, 16, 1_024]));
    let mut dealt = vec![Vec::new(); proxies];
    let mut expected = vec![Vec::new(); proxies];
    let mut scan = Scan::new(WINDOW);
    for batch in chain {
        let proxy = random.index(proxies);
        expected[proxy].push(PlainAnswer::Reply(scan.resolve(&batch)));
        dealt[proxy].push(batch);
    }
    let out_of_order = random.one_in(2);
    let (clients, received): (Vec<_>, Vec<_>) = thread::scope(|scope| {
        let handles: Vec<_> = clients
            .into_iter()
            .zip(dealt)
            .map(|(client, mut batches)| {
                if out_of_order {
                    disorder(&mut batches, share(proxies), random);
                }
                scope.spawn(move || run_client(client, batches, share(proxies)))
            })
            .collect();
        turn_to_the_end(&mut resolver);
        handles.into_iter().map(|handle| handle.join().expect("the client ends")).unzip()
    });
    assert_eq!(received, expected);
    let mut clients: KitVec<Client> = clients.into();
    assert!(resolver.settle(&mut clients).complete);
}

/// 1 to 8 clients, each in its own thread, receive the answers to their batches in the order of the
/// chain, once.
#[test]
fn clients_in_threads_get_their_answers() {
    run("clients_in_threads_get_their_answers", count(500_000, 5_000), |random| {
        let batches = random.pick(&[1, 50, 400]);
        serve_threads(random, batches);
        batches as u64
    });
}
