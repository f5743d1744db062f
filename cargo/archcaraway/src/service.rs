//! The resolver over lanes: many proxies, each in its thread.

// Conditions of the proved functions that are called here, and after `=>` how each is met:
//
// - `resolver::open`
//   - `least_proxies`, `most_proxies`
//     => `check_proxies`: `NewError::Proxies`
//   - `least_capacity`, `most_capacity`
//     => `check_capacity`: `NewError::Capacity`
//   - `least_window`, `most_window`, `least_limit`, `most_limit`
//     => `check_set`: `NewError::Window`, `NewError::Limit`
// - `resolver::open_at`
//   - the same, and `least_version`
//     => the same, and `check_version`: `NewError::Version`
// - `resolver::Resolver::settle`
//   - `clients`: all clients of the resolver, each at its number
//     => `check_clients`: `SettleError::Count`, `SettleError::Client`
// - `resolver::share`
//   - `some`: at least one proxy
//     => `open` has checked it
// - `resolver::Resolver::turn`, `owed`, `sent`: none

use crate::client::{Client, Link};
use crate::stop::{
    NewError, Stop, check_capacity, check_proxies, check_set, check_version, stop_of,
};
use crate::waiting::Waiting;
use rattle_std::alloc::Global;
use rattle_std::vec;
use std::error::Error;
use std::fmt;
use std::sync::Arc;

/// Opens a resolver for this many proxies, 1 to [`MAX_PROXIES`](crate::MAX_PROXIES), and a client
/// for each, at its number.
///
/// Each client has two lanes, which hold at most `capacity` batches or answers: 1 to
/// [`MAX_CAPACITY`](crate::MAX_CAPACITY). `window` and `limit` are those of
/// [`ConflictSet::new`](crate::ConflictSet::new).
pub fn open(
    proxies: usize,
    capacity: usize,
    window: i64,
    limit: usize,
) -> Result<(Resolver, Vec<Client>), NewError> {
    check_proxies(proxies)?;
    check_capacity(capacity)?;
    check_set(window, limit)?;
    let opened = resolver::open(Global, proxies, capacity, window, limit);
    let (resolver, ends) = opened.map_err(|_| NewError::Memory)?;
    Ok(linked(resolver, ends))
}

/// Opens a resolver that starts at a version, from -1 on, and its clients, as [`open`] does. It is
/// for a store that has been written before.
///
/// The first batch follows that version. A batch with a lower previous version is answered with
/// [`Answer::Never`](crate::Answer::Never), and one with a higher one is held. What was written up
/// to the version is not known, as in [`ConflictSet::new_at`](crate::ConflictSet::new_at).
///
/// ```
/// use archcaraway::{BatchBuilder, MAX_LIMIT, Txn, Verdict, WINDOW, open_at};
///
/// let (mut resolver, mut clients) = open_at(1, 16, WINDOW, MAX_LIMIT, 1_000)?;
/// let batch = BatchBuilder::new(1_000, 1_001)
///     .txn(Txn::at(900).read_key("k"))
///     .txn(Txn::at(1_000).read_key("k"))
///     .build()?;
/// clients[0].try_send(batch)?;
/// resolver.turn()?;
/// let answer = clients[0].try_receive()?;
/// let reply = answer.reply().expect("it follows the version");
/// assert!(reply.verdicts().eq([Verdict::Conflict, Verdict::Committed]));
/// # Ok::<(), Box<dyn std::error::Error>>(())
/// ```
pub fn open_at(
    proxies: usize,
    capacity: usize,
    window: i64,
    limit: usize,
    version: i64,
) -> Result<(Resolver, Vec<Client>), NewError> {
    check_proxies(proxies)?;
    check_capacity(capacity)?;
    check_set(window, limit)?;
    check_version(version)?;
    match resolver::open_at(Global, proxies, capacity, window, limit, version) {
        Ok((resolver, ends)) => Ok(linked(resolver, ends)),
        Err(resolver::Stop::ArenaFull) => Err(NewError::LimitAtVersion(limit)),
        Err(_) => Err(NewError::Memory),
    }
}

// Links the resolver with its clients, each of which has the ends at its number.
fn linked(
    resolver: resolver::Resolver,
    ends: vec::Vec<resolver::Client>,
) -> (Resolver, Vec<Client>) {
    let proxies = ends.len();
    let link = Arc::new(Link::new(proxies));
    let clients = ends.into_iter().enumerate();
    let clients = clients.map(|(proxy, ends)| Client::new(proxy, ends, Arc::clone(&link)));
    let clients = clients.collect();
    let ends = Vec::with_capacity(proxies);
    (Resolver { resolver, proxies, link, ends }, clients)
}

/// A resolver for many proxies, each of which has a [`Client`]. [`open`] and [`open_at`] make it.
///
/// One thread turns it, by [`run`](Resolver::run) or by [`turn`](Resolver::turn). A resolver that
/// is dropped disconnects its clients.
pub struct Resolver {
    resolver: resolver::Resolver,
    proxies: usize,
    link: Arc<Link>,
    // It is empty and has room for the ends of all clients, so that `settle` takes no memory.
    ends: Vec<resolver::Client>,
}

impl Resolver {
    /// Takes one batch of some client, if there is one, and sends answers. Waits for nobody.
    ///
    /// A stop is final: this and every later turn return it, take nothing, and send the answers
    /// made before it. A turn stops by [`Stop::GateFull`] only if some client has more than its
    /// [`share`](Resolver::share) of batches without an answer.
    pub fn turn(&mut self) -> Result<Turn, Stop> {
        let turned = self.resolver.turn();
        if !matches!(turned, Ok(resolver::Turn::Took(_))) {
            self.link.discard_left();
        }
        match turned {
            Ok(resolver::Turn::Took(proxy)) => Ok(Turn::Took(proxy)),
            Ok(resolver::Turn::Idle) => Ok(Turn::Idle),
            Ok(resolver::Turn::Done) => Ok(Turn::Done),
            Err(stop) => {
                self.link.report_stop();
                Err(stop_of(stop))
            }
        }
    }

    /// Turns until all clients have closed their requests or are dropped, and all answers are sent.
    ///
    /// After a stop it turns until the answers made before it are sent, and returns the stop. It
    /// waits for the clients to send and to receive, so they need threads of their own.
    pub fn run(&mut self) -> Result<(), Stop> {
        let mut waiting = Waiting::default();
        loop {
            match self.turn() {
                Ok(Turn::Took(_)) => waiting = Waiting::default(),
                Ok(Turn::Idle) => waiting.rest(),
                Ok(Turn::Done) => return Ok(()),
                Err(stop) if self.owed() == 0 => return Err(stop),
                Err(_) => waiting.rest(),
            }
        }
    }

    /// Finds whether every answer was received, given all clients of this resolver in the order of
    /// their numbers.
    pub fn settle(&mut self, clients: &mut [Client]) -> Result<Account, SettleError> {
        self.check_clients(clients)?;
        self.ends.extend(clients.iter_mut().filter_map(|client| client.ends_mut().take()));
        let account = self.resolver.settle(&mut self.ends);
        for (client, ends) in clients.iter_mut().zip(self.ends.drain(..)) {
            *client.ends_mut() = Some(ends);
        }
        Ok(Account { complete: account.complete, stop: account.stop.map(stop_of) })
    }

    /// Returns the number of answers that are made and not yet sent.
    pub fn owed(&self) -> usize {
        self.resolver.owed()
    }

    /// Returns how many answers were sent to a proxy, or 0 if there is no such proxy.
    pub fn sent(&self, proxy: usize) -> u64 {
        self.resolver.sent(proxy)
    }

    /// Returns the number of proxies.
    pub fn proxies(&self) -> usize {
        self.proxies
    }

    /// Returns how many batches without an answer each client may have: 1,024 divided by the number
    /// of proxies, rounded down.
    pub fn share(&self) -> u64 {
        resolver::share(self.proxies)
    }

    fn check_clients(&self, clients: &[Client]) -> Result<(), SettleError> {
        let (given, proxies) = (clients.len(), self.proxies);
        if given != proxies {
            return Err(SettleError::Count { given, proxies });
        }
        let is_own = |(index, client): (usize, &Client)| {
            client.proxy() == index && client.belongs_to(&self.link)
        };
        match clients.iter().enumerate().position(|numbered| !is_own(numbered)) {
            Some(index) => Err(SettleError::Client { index }),
            None => Ok(()),
        }
    }
}

impl Drop for Resolver {
    fn drop(&mut self) {
        self.link.report_drop();
    }
}

impl fmt::Debug for Resolver {
    fn fmt(&self, f: &mut fmt::Formatter<'_>) -> fmt::Result {
        f.debug_struct("Resolver")
            .field("proxies", &self.proxies)
            .field("owed", &self.owed())
            .finish_non_exhaustive()
    }
}

/// What a turn of a [`Resolver`] did.
#[derive(Clone, Copy, Debug, PartialEq, Eq, Hash)]
pub enum Turn {
    /// It took a batch of this proxy.
    Took(usize),
    /// It took none, and it is not done.
    Idle,
    /// All clients have closed their requests, and all answers are sent.
    Done,
}

/// What [`Resolver::settle`] finds.
#[derive(Clone, Copy, Debug, PartialEq, Eq, Hash)]
pub struct Account {
    /// There was no stop, the resolver is done, and each client has received every answer.
    pub complete: bool,
    /// The stop, if the resolver has stopped.
    pub stop: Option<Stop>,
}

/// Why a resolver has not settled.
#[derive(Clone, Copy, Debug, PartialEq, Eq, Hash)]
pub enum SettleError {
    /// The number of clients is not that of the resolver's proxies.
    Count {
        /// The number of clients given.
        given: usize,
        /// The number of proxies.
        proxies: usize,
    },
    /// A client is not at its number, or is that of another resolver.
    Client {
        /// The index of the first such client.
        index: usize,
    },
}

impl fmt::Display for SettleError {
    fn fmt(&self, f: &mut fmt::Formatter<'_>) -> fmt::Result {
        match self {
            SettleError::Count { given, proxies } => {
                write!(f, "{given} clients are given, of {proxies} proxies")
            }
            SettleError::Client { index } => {
                write!(f, "client at index {index} is not the resolver's client of that number")
            }
        }
    }
}

impl Error for SettleError {}
