//! Threads.

use crate::rt::HostRuntime;
use std::marker::PhantomData;
use std::time::Duration;
use std::{io, thread};

pub use std::thread::yield_now;

/// What may start threads.
pub trait Threads {}

impl Threads for HostRuntime {}

/// What a thread promises of its result. It is a ghost.
pub trait Promise<T> {}

pub struct PromisedHandle<T, P>(thread::JoinHandle<T>, PhantomData<fn() -> P>);

/// Starts a thread that runs the closure.
pub fn spawn_with<R: Threads, T: Send + 'static, P: Promise<T>>(
    _rt: &R,
    _promise: P,
    run: impl FnOnce() -> T + Send + 'static,
) -> io::Result<PromisedHandle<T, P>> {
    Ok(PromisedHandle(thread::Builder::new().spawn(run)?, PhantomData))
}

impl<T, P> PromisedHandle<T, P> {
    pub fn join<R: Threads>(self, _rt: &R) -> T {
        self.0.join().expect("the thread returns")
    }
}

/// Parks its thread. Nobody has its other end, so it always rests for the full duration.
#[derive(Debug, Default)]
pub struct Parker;

impl Parker {
    pub fn new() -> Self {
        Parker
    }

    pub fn park_timeout<R>(&self, _rt: &R, duration: Duration) {
        thread::sleep(duration);
    }
}
