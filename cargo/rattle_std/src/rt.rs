//! The runtime handle, and what is asked of it.

use crate::alloc::Global;
use crate::fs::{File, Files};
use std::env;
use std::ffi::OsString;
use std::io::{self, IsTerminal, Read, Write};
use std::os::fd::AsFd;

/// What has an allocator.
pub trait AllocGlobal {
    fn alloc(&self) -> Global {
        Global
    }
}

/// What has a standard input.
pub trait Input {
    fn reader(&self) -> io::StdinLock<'static> {
        io::stdin().lock()
    }
}

/// What has a standard error, for the report of `main`.
pub trait Eprint {}

/// What has the words of a command line: those of the process, unless it says otherwise.
pub trait Env {
    fn words(&self) -> Vec<OsString> {
        env::args_os().collect()
    }
}

/// The words beside an allocator.
impl<R: Env, A> Env for (&R, A) {
    fn words(&self) -> Vec<OsString> {
        self.0.words()
    }
}

/// The handle of the process's runtime, that `main` of a proved program is given.
#[derive(Clone, Copy, Debug, Default)]
pub struct HostRuntime;

impl HostRuntime {
    pub fn new() -> Self {
        HostRuntime
    }

    pub fn stdin(&self) -> Stdin {
        Stdin
    }

    pub fn stdout(&self) -> Output {
        Output::over(io::stdout())
    }

    pub fn stderr(&self) -> Stderr {
        Output::over(io::stderr())
    }
}

impl AllocGlobal for HostRuntime {}
impl Input for HostRuntime {}
impl Eprint for HostRuntime {}
impl Env for HostRuntime {}

impl Files for HostRuntime {
    type File = File;
}

/// The standard input of the process.
#[derive(Clone, Copy, Debug)]
pub struct Stdin;

impl Read for Stdin {
    fn read(&mut self, buffer: &mut [u8]) -> io::Result<usize> {
        io::stdin().read(buffer)
    }
}

/// The standard error of the process.
pub type Stderr = Output;

/// A stream of the process without a buffer. Each failed write is reported.
#[derive(Debug)]
pub struct Output(Option<File>);

impl Output {
    fn over(stream: impl AsFd) -> Self {
        Output(stream.as_fd().try_clone_to_owned().map(File::from).ok())
    }

    pub fn is_terminal(&self) -> bool {
        self.0.as_ref().is_some_and(IsTerminal::is_terminal)
    }
}

impl Write for Output {
    fn write(&mut self, bytes: &[u8]) -> io::Result<usize> {
        self.0.as_mut().ok_or(io::ErrorKind::NotConnected)?.write(bytes)
    }

    fn flush(&mut self) -> io::Result<()> {
        Ok(())
    }
}
