//! How the words of a command line are taken.

use super::{Arg, ArgAction, ArgMatches, Command, Error, ErrorKind};
use crate::string::String;
use std::slice;

// Returns an error of this kind with a message.
macro_rules! refuse {
    ($command:ident, $kind:ident, $($message:tt)*) => {
        return Err($command.refusal(ErrorKind::$kind, &format!($($message)*)))
    };
}

impl<'a> Command<'a> {
    /// Takes the words, of which the first is the program's name.
    pub fn try_get_matches_from(&self, words: &'a [String]) -> Result<ArgMatches<'a>, Error> {
        self.take(words.get(1..).unwrap_or_default())
    }

    pub(super) fn refusal(&self, kind: ErrorKind, message: &str) -> Error {
        let usage = self.usage();
        let text = format!("error: {message}\n\n{usage}\nFor more information, try '--help'.\n");
        Error { kind, text }
    }

    fn take(&self, words: &'a [String]) -> Result<ArgMatches<'a>, Error> {
        if words.is_empty() && self.arg_required_else_help {
            return Err(self.help(ErrorKind::MissingRequiredArgument));
        }
        let mut found = ArgMatches::default();
        let (mut rest, mut options) = (words.iter(), true);
        while let Some(word) = rest.next() {
            if options && word.as_str() == "--" {
                options = false;
            } else if options && word.len() > 1 && word.starts_with('-') {
                self.take_option(word, &mut rest, &mut found)?;
            } else if options && !self.subcommands.is_empty() {
                return self.take_subcommand(word, rest.as_slice());
            } else {
                self.take_positional(word, &mut found)?;
            }
        }
        self.complete(found)
    }

    fn take_option(
        &self,
        word: &'a str,
        rest: &mut slice::Iter<'a, String>,
        found: &mut ArgMatches<'a>,
    ) -> Result<(), Error> {
        let (name, given) = self.split(word);
        let Some(arg) = self.arguments.iter().find(|arg| arg.is_named(name)) else {
            return Err(self.asked(name, given));
        };
        let shown = arg.shown();
        let is_value = |next: &&String| next.as_str() == "-" || !next.starts_with('-');
        match (arg.action, given) {
            (ArgAction::SetTrue, None) => self.keep(arg, "true", found),
            (ArgAction::SetTrue, Some(value)) => {
                refuse!(self, TooManyValues, "unexpected value '{value}' for '{shown}' found")
            }
            (_, Some(value)) => self.keep(arg, value, found),
            (_, None) => match rest.next().filter(is_value) {
                Some(value) => self.keep(arg, value, found),
                None => refuse!(self, WrongNumberOfValues, "a value is required for '{shown}'"),
            },
        }
    }

    // Divides a word into the name of an option and the value that is written with it, if any. An
    // option of one letter needs no equals sign.
    fn split(&self, word: &'a str) -> (&'a str, Option<&'a str>) {
        if let Some((name, value)) = word.split_at_checked(2) {
            if !value.is_empty() && self.arguments.iter().any(|arg| arg.is_short(name)) {
                return (name, Some(value.strip_prefix('=').unwrap_or(value)));
            }
        }
        match word.split_once('=') {
            Some((name, value)) => (name, Some(value)),
            None => (word, None),
        }
    }

    // Returns what an option is that commands have unasked, or that it is unknown.
    fn asked(&self, name: &str, given: Option<&str>) -> Error {
        let is = |short, long| name.starts_with(short) || name == long && given.is_none();
        if is("-h", "--help") {
            self.help(ErrorKind::DisplayHelp)
        } else if is("-V", "--version") && !self.version.is_empty() {
            let text = format!("{} {}\n", self.name, self.version);
            Error { kind: ErrorKind::DisplayVersion, text }
        } else {
            self.unexpected(name)
        }
    }

    fn unexpected(&self, word: &str) -> Error {
        self.refusal(ErrorKind::UnknownArgument, &format!("unexpected argument '{word}' found"))
    }

    fn take_positional(&self, word: &'a str, found: &mut ArgMatches<'a>) -> Result<(), Error> {
        let takes = |arg: &&Arg<'a>| {
            let is_open = arg.action == ArgAction::Append || found.get_str(arg.id).is_none();
            arg.long.is_none() && is_open
        };
        match self.arguments.iter().find(takes) {
            Some(arg) => self.keep(arg, word, found),
            None => Err(self.unexpected(word)),
        }
    }

    fn keep(&self, arg: &Arg<'a>, value: &'a str, found: &mut ArgMatches<'a>) -> Result<(), Error> {
        let shown = arg.shown();
        if arg.value_parser.as_ref().is_some_and(|parser| !parser.takes(value)) {
            refuse!(self, ValueValidation, "invalid value '{value}' for '{shown}'");
        }
        match found.values.iter_mut().find(|(id, _)| *id == arg.id) {
            None => found.values.push((arg.id, vec![value])),
            Some((_, values)) if arg.action == ArgAction::Append => values.push(value),
            Some(_) => refuse!(
                self,
                ArgumentConflict,
                "the argument '{shown}' cannot be used multiple times"
            ),
        }
        Ok(())
    }

    fn take_subcommand(&self, name: &'a str, rest: &'a [String]) -> Result<ArgMatches<'a>, Error> {
        if name == "help" {
            return Err(self.help_of(rest));
        }
        let matches = Box::new(self.below(name)?.take(rest)?);
        Ok(ArgMatches { values: Vec::new(), subcommand: Some((name, matches)) })
    }

    fn below(&self, name: &str) -> Result<&Self, Error> {
        match self.subcommands.iter().find(|command| command.name == name) {
            Some(command) => Ok(command),
            None => refuse!(self, UnknownArgument, "unrecognized subcommand '{name}'"),
        }
    }

    // Returns the help of the subcommand that these words name, one below the other. `help` itself
    // is one at the top.
    fn help_of(&self, names: &[String]) -> Error {
        let below = match names {
            [name] if name.as_str() == "help" => Ok(self),
            _ => names.iter().try_fold(self, |command, name| command.below(name)),
        };
        below.map_or_else(|unknown| unknown, |command| command.help(ErrorKind::DisplayHelp))
    }

    // Adds defaults, and looks that nothing required is missing.
    fn complete(&self, mut found: ArgMatches<'a>) -> Result<ArgMatches<'a>, Error> {
        if self.subcommand_required {
            refuse!(self, MissingRequiredArgument, "a subcommand was not provided");
        }
        for arg in &self.arguments {
            let default =
                arg.default_value.or((arg.action == ArgAction::SetTrue).then_some("false"));
            if found.get_str(arg.id).is_some() {
                continue;
            } else if let Some(value) = default {
                found.values.push((arg.id, vec![value]));
            } else if arg.required {
                let message = "the following required arguments were not provided";
                refuse!(self, MissingRequiredArgument, "{message}:\n  {}", arg.shown());
            }
        }
        Ok(found)
    }

    fn usage(&self) -> std::string::String {
        let positional = self.arguments.iter().filter(|arg| arg.long.is_none()).map(Arg::shown);
        let command = (!self.subcommands.is_empty()).then(|| "<COMMAND>".to_owned());
        let words: Vec<_> = positional.chain(command).collect();
        format!("Usage: {} [OPTIONS] {}\n", self.name, words.join(" "))
    }

    fn help(&self, kind: ErrorKind) -> Error {
        let mut text = format!("{}\n\n{}\n", self.about, self.usage());
        let mut row = |name: &str, help: &str| text += &format!("  {name:<22} {help}\n");
        for command in &self.subcommands {
            row(command.name, command.about);
        }
        for arg in &self.arguments {
            let default = arg.default_value.map(|value| format!(" [default: {value}]"));
            let short = arg.short.map(|letter| format!("-{letter}, "));
            let shown = short.unwrap_or_default() + &arg.shown();
            row(&shown, &format!("{}{}", arg.help, default.unwrap_or_default()));
        }
        row("-h, --help", "Print help");
        if !self.version.is_empty() {
            row("-V, --version", "Print version");
        }
        text += &format!("\n{}\n\n{EDITION}\n", self.after_long_help);
        Error { kind, text }
    }
}

const EDITION: &str =
    "This is the help of the unproved edition. The proved programs print a longer one.";

impl Arg<'_> {
    fn is_named(&self, name: &str) -> bool {
        self.is_short(name) || self.long.is_some() && self.long == name.strip_prefix("--")
    }

    fn is_short(&self, name: &str) -> bool {
        let letter = name.strip_prefix('-').and_then(|letters| letters.parse().ok());
        letter.is_some() && self.short == letter
    }

    fn shown(&self) -> std::string::String {
        match (self.long, self.action, self.value_name) {
            (Some(name), ArgAction::SetTrue, _) => format!("--{name}"),
            (Some(name), _, value) => format!("--{name} <{value}>"),
            (None, ArgAction::Append, value) => format!("<{value}>..."),
            (None, _, value) => format!("[{value}]"),
        }
    }
}
