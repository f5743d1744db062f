//! The stores of the chain and the resolver core, against the chain rules over a scan.

use chain::{ChainError, Gate, MAX_HELD, Replies};
use keyspace::{Batch, Reply};
use rattle_std::alloc::{AllocError, Global};
use resolver::{Core, Observer, Stop};
use std::collections::BTreeMap;
use stepmap::MAX_LIMIT;
use tests::cases::{count, run};
use tests::drawn::KeySpace;
use tests::plain::{PlainAnswer, PlainBatch, PlainReply};
use tests::random::Random;
use tests::reference::Reference;

/// Batches of one chain with their proxies, in order of arrival: shuffled, some twice, some never,
/// some off the chain.
struct Arrivals {
    proxies: usize,
    window: i64,
    batches: Vec<(usize, PlainBatch)>,
}

impl Arrivals {
    fn drawn(random: &mut Random) -> Self {
        let proxies = random.pick(&[1, 2, 3, 8, 64]);
        let window = random.pick(&[1, 50, 1_000, 5_000_000]);
        let space = KeySpace::drawn(random);
        let mut batches: Vec<(usize, PlainBatch)> = Vec::new();
        let (mut previous, mut received) = (-1, vec![-1; proxies]);
        let most = random.pick(&[5, 40, 300]);
        for _ in 0..1 + random.index(most) {
            let version = previous + random.between(1, 40);
            let proxy = random.index(proxies);
            if random.one_in(5) {
                received[proxy] = random.between(-1, version - 1);
            }
            let snapshots = (version - window - 10, version - 1);
            let txns = (0..random.index(4)).map(|_| space.txn(random, 2, snapshots)).collect();
            let batch =
                PlainBatch { previous, version, received: received[proxy].min(version - 1), txns };
            if !random.one_in(100) {
                batches.push((proxy, batch));
            }
            previous = version;
        }
        let mut arrivals = Arrivals { proxies, window, batches };
        arrivals.repeat(random);
        arrivals.disorder(random);
        arrivals
    }

    // Sends some batches again, also by another proxy or with other contents, and some that are on
    // no chain.
    fn repeat(&mut self, random: &mut Random) {
        if self.batches.is_empty() {
            return;
        }
        for _ in 0..random.index(self.batches.len() + 1) {
            let (mut proxy, mut batch) = self.batches[random.index(self.batches.len())].clone();
            match random.below(6) {
                0 => proxy = random.index(self.proxies),
                1 => batch.txns.clear(),
                2 => batch.previous = random.between(-1, batch.version - 1),
                3 => batch.version = batch.previous + random.between(1, 60),
                4 => batch.received = random.between(-1, batch.version - 1),
                _ => {}
            }
            batch.received = batch.received.min(batch.version - 1);
            let place = random.index(self.batches.len() + 1);
            self.batches.insert(place, (proxy, batch));
        }
    }

    // Moves batches about: not at all, by some places, or anywhere.
    fn disorder(&mut self, random: &mut Random) {
        let most = self.batches.len();
        match random.below(4) {
            0 => {}
            1 => random.shuffle(&mut self.batches),
            2 => self.batches.reverse(),
            _ => (0..most).for_each(|place| {
                let other = (place + random.index(10)).min(most - 1);
                self.batches.swap(place, other);
            }),
        }
    }
}

fn core(arrivals: &Arrivals, limit: usize) -> Core {
    Core::new(Global, arrivals.proxies, arrivals.window, limit).expect("memory is ample")
}

/// Gives the proxies what is owed to them, all or some of it.
fn give_some(core: &mut Core, given: &mut [Vec<PlainAnswer>], all: bool, random: &mut Random) {
    for (proxy, answers) in given.iter_mut().enumerate() {
        let most = if all { usize::MAX } else { random.index(4) };
        for _ in 0..most {
            match core.give(proxy) {
                Some(answer) => answers.push(PlainAnswer::of(&answer)),
                None => break,
            }
        }
    }
}

fn is_prefix(given: &[Vec<PlainAnswer>], answers: &[Vec<PlainAnswer>]) -> bool {
    given.iter().zip(answers).all(|(given, answers)| answers.starts_with(given))
}

#[test]
fn core_answers_as_the_rules_say() {
    run("core_answers_as_the_rules_say", count(2_000_000, 40_000), |random| {
        let arrivals = Arrivals::drawn(random);
        let mut core = core(&arrivals, MAX_LIMIT);
        let mut reference = Reference::new(arrivals.proxies, arrivals.window);
        let mut given = vec![Vec::new(); arrivals.proxies];
        for (proxy, batch) in &arrivals.batches {
            assert_eq!(core.admit(*proxy, batch.batch()), Ok(()));
            assert!(reference.take(*proxy, batch));
            let owed = reference.count() - given.iter().map(Vec::len).sum::<usize>();
            assert_eq!(core.owed(), owed);
            if random.one_in(3) {
                give_some(&mut core, &mut given, false, random);
                assert!(is_prefix(&given, &reference.answers));
            }
        }
        assert_eq!(core.finish(), Ok(()));
        reference.finish();
        give_some(&mut core, &mut given, true, random);
        assert_eq!(given, reference.answers);
        assert_eq!((core.owed(), core.stop(), core.proxies()), (0, None, arrivals.proxies));
        1 + arrivals.batches.len() as u64
    });
}

/// With a small limit: answers before the stop are right, later batches are refused, and the stop
/// stays.
#[test]
fn core_stays_stopped() {
    run("core_stays_stopped", count(500_000, 10_000), |random| {
        let arrivals = Arrivals::drawn(random);
        let mut core = core(&arrivals, random.pick(&[1, 3, 5, 15]));
        let mut reference = Reference::new(arrivals.proxies, arrivals.window);
        let mut given = vec![Vec::new(); arrivals.proxies];
        let mut stop = None;
        for (proxy, batch) in &arrivals.batches {
            let owed = core.owed();
            let admitted = core.admit(*proxy, batch.batch());
            if let Some(stop) = stop {
                assert_eq!((admitted, core.owed()), (Err(stop), owed));
                continue;
            }
            assert!(reference.take(*proxy, batch));
            stop = admitted.err();
            assert!(stop.is_none_or(|stop| stop == Stop::ArenaFull));
            assert_eq!(core.stop(), stop);
        }
        let finished = core.finish();
        assert_eq!(finished.err(), stop);
        if stop.is_none() {
            reference.finish();
        }
        give_some(&mut core, &mut given, true, random);
        assert!(is_prefix(&given, &reference.answers));
        assert!(stop.is_some() || given == reference.answers);
        1 + arrivals.batches.len() as u64
    });
}

/// Keeps what it sees, and refuses any batch after `most`.
struct Seen {
    most: usize,
    batches: Vec<(usize, PlainBatch, PlainReply)>,
}

impl Observer for Seen {
    fn see(&mut self, proxy: usize, batch: Batch, reply: &Reply) -> Result<(), AllocError> {
        if self.batches.len() == self.most {
            return Err(AllocError);
        }
        self.batches.push((proxy, PlainBatch::of(&batch), PlainReply::of(reply)));
        Ok(())
    }
}

impl Seen {
    // Returns the replies to the batches of the proxy.
    fn replies_to(&self, proxy: usize) -> Vec<PlainReply> {
        self.batches.iter().filter(|seen| seen.0 == proxy).map(|seen| seen.2.clone()).collect()
    }
}

/// Returns the first reply of each version.
fn first_replies(answers: &[PlainAnswer]) -> Vec<PlainReply> {
    let mut first: Vec<PlainReply> = Vec::new();
    for answer in answers {
        if let PlainAnswer::Reply(reply) = answer
            && first.iter().all(|other| other.version != reply.version)
        {
            first.push(reply.clone());
        }
    }
    first
}

/// An observer sees the batches of the chain, each as it was sent and with the reply to its proxy.
#[test]
fn observer_sees_what_is_processed() {
    run("observer_sees_what_is_processed", count(500_000, 10_000), |random| {
        let arrivals = Arrivals::drawn(random);
        let mut core = core(&arrivals, MAX_LIMIT);
        let mut reference = Reference::new(arrivals.proxies, arrivals.window);
        let most = random.pick(&[0, 1, 10, usize::MAX]);
        let mut seen = Seen { most, batches: Vec::new() };
        let mut stop = None;
        for (proxy, batch) in &arrivals.batches {
            let admitted = core.admit_observed(&mut seen, *proxy, batch.batch());
            assert!(stop.is_none() || admitted.err() == stop);
            if stop.is_none() {
                assert!(reference.take(*proxy, batch));
            }
            stop = admitted.err();
            assert!(stop.is_none_or(|stop| stop == Stop::Memory && seen.batches.len() == most));
        }
        let mut version = -1;
        for (proxy, batch, _) in &seen.batches {
            assert_eq!(batch.previous, version);
            assert!(arrivals.batches.contains(&(*proxy, batch.clone())));
            version = batch.version;
        }
        assert_eq!(core.version() == version, stop.is_none());
        for (proxy, answers) in reference.answers.iter().enumerate() {
            let (seen, all) = (seen.replies_to(proxy), first_replies(answers));
            assert!(all.starts_with(&seen) && (stop.is_some() || seen == all));
        }
        1 + arrivals.batches.len() as u64
    });
}

/// More held batches than the gate has room for.
#[test]
fn core_stops_at_a_full_gate() {
    run("core_stops_at_a_full_gate", count(100, 4), |random| {
        let mut core = Core::new(Global, 3, 100, MAX_LIMIT).expect("memory is ample");
        let mut reference = Reference::new(3, 100);
        let mut stop = None;
        for version in 0..1_500 {
            // One in a hundred leaves the gate, or comes too late for it.
            let version = if random.one_in(100) { -1 } else { version };
            let (proxy, batch) = (random.index(3), PlainBatch::empty(version, version + 1));
            let is_taken = reference.held() <= MAX_HELD && reference.take(proxy, &batch);
            let admitted = core.admit(proxy, batch.batch());
            assert_eq!(admitted.is_ok(), is_taken);
            stop = admitted.err();
        }
        assert!(stop.is_none_or(|stop| stop == Stop::GateFull));
        assert_eq!(core.finish().err(), stop);
        1
    });
}

#[test]
fn gate_is_a_list_in_order_of_arrival() {
    run("gate_is_a_list_in_order_of_arrival", count(5_000_000, 100_000), |random| {
        let mut gate = Gate::new(Global);
        let mut held: Vec<(usize, PlainBatch)> = Vec::new();
        let versions = random.pick(&[3, 50, 5_000]);
        let calls = 1 + random.below(3_000);
        let holds = random.below(10);
        for _ in 0..calls {
            assert_eq!(gate.held(), held.len());
            if random.below(10) < holds {
                let previous = random.between(-1, versions);
                let batch = PlainBatch::empty(previous, previous + random.between(1, 9));
                let proxy = random.index(64);
                match gate.hold(proxy, batch.batch()) {
                    Ok(()) => held.push((proxy, batch)),
                    Err((error, back)) => {
                        assert_eq!((error, held.len()), (ChainError::GateFull, MAX_HELD));
                        assert_eq!(PlainBatch::of(&back), batch);
                    }
                }
                continue;
            }
            let version = random.between(-1, versions);
            let (found, index) = if random.one_in(4) {
                (gate.first(), (!held.is_empty()).then_some(0))
            } else {
                let due = (0..held.len()).filter(|index| held[*index].1.previous <= version);
                (gate.next_for(version), due.min_by_key(|index| held[*index].1.previous))
            };
            let expected = index.map(|index| held.remove(index));
            assert_eq!(found.map(|(proxy, batch)| (proxy, PlainBatch::of(&batch))), expected);
        }
        calls
    });
}

#[test]
fn replies_are_a_map() {
    run("replies_are_a_map", count(5_000_000, 100_000), |random| {
        let mut replies = Replies::new(Global);
        let mut kept: BTreeMap<(usize, i64), PlainReply> = BTreeMap::new();
        let calls = 1 + random.below(2_000);
        for version in 0..calls as i64 {
            let proxy = random.index(4);
            if random.one_in(10) {
                let to = random.between(-1, version);
                replies.forget_to(proxy, to);
                kept.retain(|key, _| key.0 != proxy || key.1 > to);
            }
            let reply = PlainReply { version, entries: Vec::new() };
            assert_eq!(replies.put(proxy, reply.reply()), Ok(()));
            kept.insert((proxy, version), reply);
            let asked = (random.index(5), random.between(-1, version + 1));
            assert_eq!(
                replies.find(asked.0, asked.1).map(PlainReply::of).as_ref(),
                kept.get(&asked)
            );
        }
        calls
    });
}
