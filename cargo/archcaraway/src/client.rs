//! A client: what the thread of a proxy has of a resolver.

// Conditions of the proved functions that are called here:
//
// - `lane::Port::send`, `close`, `sent`, `lane::Intake::take`, `taken`: none

use crate::batch::Batch;
use crate::reply::Answer;
use crate::waiting::Waiting;
use lane::{Intake, Refused, Taken};
use std::error::Error;
use std::fmt;
use std::sync::atomic::{AtomicBool, Ordering};
use std::sync::{Arc, Mutex, PoisonError};

/// A proxy's side of a [`Resolver`](crate::Resolver): sends batches and receives the answers.
///
/// It may move to another thread. A client that is dropped closes its requests, and the answers
/// that it has not received are discarded.
pub struct Client {
    proxy: usize,
    // It is there until the client is dropped, except while the resolver settles.
    ends: Option<resolver::Client>,
    link: Arc<Link>,
}

/// What a resolver and its clients share beside their lanes.
pub(crate) struct Link {
    // The resolver has stopped, so it takes no more batches.
    stopped: AtomicBool,
    // The resolver is dropped, so it sends no more answers either.
    dropped: AtomicBool,
    // The answers to the clients that are dropped. It has room for all clients.
    left: Mutex<Vec<Intake<keyspace::Answer>>>,
}

impl Client {
    pub(crate) fn new(proxy: usize, ends: resolver::Client, link: Arc<Link>) -> Self {
        Client { proxy, ends: Some(ends), link }
    }

    /// Returns the number of the proxy, from 0.
    pub fn proxy(&self) -> usize {
        self.proxy
    }

    /// Sends a batch, without waiting. An error returns the batch.
    #[allow(clippy::result_large_err, reason = "the batch is returned without an allocation")]
    pub fn try_send(&mut self, batch: Batch) -> Result<(), TrySendError> {
        let Some(ends) = &mut self.ends else {
            return Err(TrySendError::Closed(batch));
        };
        if self.link.stopped.load(Ordering::Acquire) {
            return Err(TrySendError::Disconnected(batch));
        }
        ends.requests.send(batch.into_inner()).map_err(unsent)
    }

    /// Sends a batch, and waits while the lane is full.
    ///
    /// The resolver ends the wait when it takes a batch, stops or is dropped, so call this on
    /// another thread than the resolver's. It never returns [`TrySendError::Full`].
    #[allow(clippy::result_large_err, reason = "the batch is returned without an allocation")]
    pub fn send(&mut self, batch: Batch) -> Result<(), TrySendError> {
        let mut waiting = Waiting::default();
        let mut next = batch;
        loop {
            match self.try_send(next) {
                Err(TrySendError::Full(batch)) => next = batch,
                sent => return sent,
            }
            waiting.rest();
        }
    }

    /// Closes the requests. Nothing can be sent afterwards.
    pub fn close(&mut self) {
        if let Some(ends) = &mut self.ends {
            ends.requests.close();
        }
    }

    /// Receives the next answer, without waiting.
    pub fn try_receive(&mut self) -> Result<Answer, TryReceiveError> {
        let Some(ends) = &mut self.ends else {
            return Err(TryReceiveError::End);
        };
        // A dropped resolver sends nothing after this, so an empty lane stays empty.
        let dropped = self.link.dropped.load(Ordering::Acquire);
        match ends.replies.take() {
            Taken::Item(answer) => Ok(Answer::over(answer)),
            Taken::End => Err(TryReceiveError::End),
            Taken::Empty if dropped => Err(TryReceiveError::Disconnected),
            Taken::Empty => Err(TryReceiveError::Empty),
        }
    }

    /// Receives the next answer, and waits until it comes. Returns `None` after the last one.
    ///
    /// The last one has come if the resolver is done, or has stopped, or is dropped. The call waits
    /// for the resolver's turns, so make it on another thread than the resolver's.
    pub fn receive(&mut self) -> Option<Answer> {
        let mut waiting = Waiting::default();
        loop {
            match self.try_receive() {
                Ok(answer) => return Some(answer),
                Err(TryReceiveError::Empty) => waiting.rest(),
                Err(TryReceiveError::End | TryReceiveError::Disconnected) => return None,
            }
        }
    }

    /// Returns the number of batches sent.
    pub fn sent(&self) -> u64 {
        self.ends.as_ref().map_or(0, |ends| ends.requests.sent())
    }

    /// Returns the number of answers received.
    pub fn received(&self) -> u64 {
        self.ends.as_ref().map_or(0, |ends| ends.replies.taken())
    }

    pub(crate) fn belongs_to(&self, link: &Arc<Link>) -> bool {
        Arc::ptr_eq(&self.link, link)
    }

    pub(crate) fn ends_mut(&mut self) -> &mut Option<resolver::Client> {
        &mut self.ends
    }
}

impl Drop for Client {
    fn drop(&mut self) {
        if let Some(mut ends) = self.ends.take() {
            ends.requests.close();
            self.link.leave(ends.replies);
        }
    }
}

impl fmt::Debug for Client {
    fn fmt(&self, f: &mut fmt::Formatter<'_>) -> fmt::Result {
        f.debug_struct("Client")
            .field("proxy", &self.proxy)
            .field("sent", &self.sent())
            .field("received", &self.received())
            .finish_non_exhaustive()
    }
}

impl Link {
    pub(crate) fn new(proxies: usize) -> Self {
        Link {
            stopped: AtomicBool::new(false),
            dropped: AtomicBool::new(false),
            left: Mutex::new(Vec::with_capacity(proxies)),
        }
    }

    /// Reports to the clients that the resolver takes no more batches.
    pub(crate) fn report_stop(&self) {
        self.stopped.store(true, Ordering::Release);
    }

    /// Reports to the clients that the resolver takes and sends no more.
    pub(crate) fn report_drop(&self) {
        self.report_stop();
        self.dropped.store(true, Ordering::Release);
    }

    fn leave(&self, replies: Intake<keyspace::Answer>) {
        self.left.lock().unwrap_or_else(PoisonError::into_inner).push(replies);
    }

    /// Discards the answers to clients that are dropped, so that their lanes have room.
    pub(crate) fn discard_left(&self) {
        let mut left = self.left.lock().unwrap_or_else(PoisonError::into_inner);
        left.retain_mut(|replies| {
            loop {
                match replies.take() {
                    Taken::Item(_) => {}
                    Taken::Empty => return true,
                    Taken::End => return false,
                }
            }
        });
    }
}

/// Why a batch was not sent, with the batch.
#[derive(Clone, Debug, PartialEq, Eq)]
pub enum TrySendError {
    /// The lane holds as many batches as its capacity.
    Full(Batch),
    /// The client has closed its requests.
    Closed(Batch),
    /// The client has sent 2^62 batches.
    Worn(Batch),
    /// The resolver has stopped or is dropped.
    Disconnected(Batch),
}

impl TrySendError {
    /// Returns the batch.
    pub fn into_batch(self) -> Batch {
        match self {
            TrySendError::Full(batch)
            | TrySendError::Closed(batch)
            | TrySendError::Worn(batch)
            | TrySendError::Disconnected(batch) => batch,
        }
    }
}

impl fmt::Display for TrySendError {
    fn fmt(&self, f: &mut fmt::Formatter<'_>) -> fmt::Result {
        f.write_str(match self {
            TrySendError::Full(_) => "lane is full",
            TrySendError::Closed(_) => "requests are closed",
            TrySendError::Worn(_) => "client has sent 2^62 batches",
            TrySendError::Disconnected(_) => "resolver has stopped or is dropped",
        })
    }
}

impl Error for TrySendError {}

fn unsent(refused: Refused<keyspace::Batch>) -> TrySendError {
    match refused {
        Refused::Full(batch) => TrySendError::Full(Batch::over(batch)),
        Refused::Closed(batch) => TrySendError::Closed(Batch::over(batch)),
        Refused::Worn(batch) => TrySendError::Worn(Batch::over(batch)),
    }
}

/// Why no answer was received.
#[derive(Clone, Copy, Debug, PartialEq, Eq, Hash)]
pub enum TryReceiveError {
    /// No answer is there. One may still come.
    Empty,
    /// All answers are received, and the resolver sends no more.
    End,
    /// The resolver is dropped before it has sent all answers.
    Disconnected,
}

impl fmt::Display for TryReceiveError {
    fn fmt(&self, f: &mut fmt::Formatter<'_>) -> fmt::Result {
        f.write_str(match self {
            TryReceiveError::Empty => "no answer is there",
            TryReceiveError::End => "all answers are received",
            TryReceiveError::Disconnected => "resolver is dropped",
        })
    }
}

impl Error for TryReceiveError {}

#[cfg(test)]
mod tests {
    use super::*;
    use crate::BatchBuilder;

    // No test can send 2^62 batches, so the lane's refusals are made by hand.
    #[test]
    fn a_refusal_of_the_lane_keeps_its_reason_and_its_batch() {
        let batch = BatchBuilder::new(-1, 7).build().expect("it is within the limits");
        let inner = || batch.clone().into_inner();
        for (refused, expected, text) in [
            (Refused::Full(inner()), TrySendError::Full(batch.clone()), "lane is full"),
            (Refused::Closed(inner()), TrySendError::Closed(batch.clone()), "requests are closed"),
            (
                Refused::Worn(inner()),
                TrySendError::Worn(batch.clone()),
                "client has sent 2^62 batches",
            ),
        ] {
            let error = unsent(refused);
            assert_eq!((&error, error.to_string().as_str()), (&expected, text));
            assert_eq!(error.into_batch(), batch);
        }
    }
}
