//! Command lines: the part of `clap` that the programs use, over `clap` itself or with a shorter
//! help and refusals of one line.

#[cfg(not(feature = "clap"))]
mod parse;
#[cfg(feature = "clap")]
mod real;

use crate::alloc::{AllocError, Global};
use crate::string::String;
use std::marker::PhantomData;
use std::ops::RangeInclusive;

pub mod builder {
    pub use super::ValueParser;
}

pub mod error {
    pub use super::ErrorKind;
}

/// Why there are no matches.
#[derive(Clone, Copy, Debug, PartialEq, Eq)]
pub enum ErrorKind {
    ArgumentConflict,
    DisplayHelp,
    DisplayVersion,
    MissingRequiredArgument,
    OutOfMemory,
    TooManyValues,
    UnknownArgument,
    ValueValidation,
    WrongNumberOfValues,
}

/// An error, or the help or the version that was asked for.
#[derive(Debug)]
pub struct Error {
    kind: ErrorKind,
    text: std::string::String,
}

impl Error {
    pub fn kind(&self) -> ErrorKind {
        self.kind
    }

    /// Returns whether the text is for standard error, which help and version aren't.
    pub fn use_stderr(&self) -> bool {
        !matches!(self.kind, ErrorKind::DisplayHelp | ErrorKind::DisplayVersion)
    }

    pub fn to_string(&self, _alloc: Global) -> Result<String, AllocError> {
        Ok(self.text.clone().into())
    }
}

// Methods that set a field and return the rest as it was.
macro_rules! setters {
    ($($name:ident: $kind:ty),*) => {$(
        pub fn $name(self, $name: $kind) -> Self {
            Self { $name: $name.into(), ..self }
        }
    )*};
}

#[derive(Clone, Copy, Debug, Default, PartialEq, Eq)]
pub enum ArgAction {
    #[default]
    Set,
    Append,
    SetTrue,
}

/// The integers that an option takes.
#[derive(Clone, Debug)]
pub struct ValueParser<'a>(RangeInclusive<i128>, PhantomData<&'a str>);

impl ValueParser<'_> {
    pub fn unsigned(least: u64, most: u64) -> Self {
        ValueParser(least.into()..=most.into(), PhantomData)
    }

    pub fn signed(least: i64, most: i64) -> Self {
        ValueParser(least.into()..=most.into(), PhantomData)
    }

    fn takes(&self, text: &str) -> bool {
        text.parse().is_ok_and(|number| self.0.contains(&number))
    }
}

/// An option, or a positional argument if it has no long name.
#[derive(Debug, Default)]
pub struct Arg<'a> {
    id: &'a str,
    long: Option<&'a str>,
    short: Option<char>,
    value_name: &'a str,
    help: &'a str,
    default_value: Option<&'a str>,
    value_parser: Option<ValueParser<'a>>,
    action: ArgAction,
    required: bool,
}

impl<'a> Arg<'a> {
    setters!(action: ArgAction, default_value: &'a str, help: &'a str, long: &'a str);
    setters!(required: bool, short: char, value_name: &'a str, value_parser: ValueParser<'a>);

    pub fn new(_alloc: Global, id: &'a str) -> Self {
        Arg { id, value_name: id, ..Arg::default() }
    }
}

#[derive(Debug, Default)]
pub struct Command<'a> {
    name: &'a str,
    version: &'a str,
    about: &'a str,
    after_long_help: &'a str,
    arguments: Vec<Arg<'a>>,
    subcommands: Vec<Command<'a>>,
    subcommand_required: bool,
    arg_required_else_help: bool,
}

impl<'a> Command<'a> {
    setters!(about: &'a str, after_long_help: &'a str, version: &'a str);
    setters!(arg_required_else_help: bool, subcommand_required: bool);

    pub fn new(_alloc: Global, name: &'a str) -> Self {
        Command { name, ..Command::default() }
    }

    pub fn arg(mut self, arg: Arg<'a>) -> Result<Self, AllocError> {
        self.arguments.push(arg);
        Ok(self)
    }

    pub fn subcommand(mut self, command: Command<'a>) -> Result<Self, AllocError> {
        self.subcommands.push(command);
        Ok(self)
    }

    /// Returns an error with this message.
    pub fn error(&self, kind: ErrorKind, message: &str) -> Result<Error, AllocError> {
        Ok(self.refusal(kind, message))
    }
}

/// The values that a command line gives.
#[derive(Debug, Default)]
pub struct ArgMatches<'a> {
    values: Vec<(&'a str, Vec<&'a str>)>,
    subcommand: Option<(&'a str, Box<ArgMatches<'a>>)>,
}

impl<'a> ArgMatches<'a> {
    pub fn get_strs(&self, id: &str) -> Option<&[&'a str]> {
        self.values.iter().find(|(name, _)| *name == id).map(|(_, values)| values.as_slice())
    }

    pub fn get_str(&self, id: &str) -> Option<&'a str> {
        self.get_strs(id)?.first().copied()
    }

    pub fn get_one<T: std::str::FromStr>(&self, id: &str) -> Option<T> {
        self.get_str(id)?.parse().ok()
    }

    pub fn get_flag(&self, id: &str) -> bool {
        self.get_str(id) == Some("true")
    }

    pub fn subcommand(&self) -> Option<(&'a str, &ArgMatches<'a>)> {
        self.subcommand.as_ref().map(|(name, matches)| (*name, &**matches))
    }
}
