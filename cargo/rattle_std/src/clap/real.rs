//! How the words of a command line are taken by `clap` itself.

use super::{Arg, ArgAction, ArgMatches, Command, Error, ErrorKind, ValueParser};
use crate::string::String;
use clap::{builder, error, value_parser};

// `clap` keeps names and texts for as long as the program runs.
fn kept(text: &str) -> &'static str {
    Box::leak(text.to_owned().into_boxed_str())
}

fn kept_if_any(text: &str) -> Option<&'static str> {
    (!text.is_empty()).then(|| kept(text))
}

impl<'a> Command<'a> {
    /// Takes the words, of which the first is the program's name.
    pub fn try_get_matches_from(&self, words: &'a [String]) -> Result<ArgMatches<'a>, Error> {
        let found = self.real().try_get_matches_from(words.iter().map(|word| word.as_str()));
        found.map(|found| self.matches(&found)).map_err(error_of)
    }

    pub(super) fn refusal(&self, kind: ErrorKind, message: &str) -> Error {
        let error = self.real().error(error::ErrorKind::ValueValidation, message);
        Error { kind, ..error_of(error) }
    }

    fn real(&self) -> clap::Command {
        clap::Command::new(kept(self.name))
            .about(kept(self.about))
            .version(kept_if_any(self.version))
            .after_long_help(kept_if_any(self.after_long_help))
            .subcommand_required(self.subcommand_required)
            .arg_required_else_help(self.arg_required_else_help)
            .args(self.arguments.iter().map(Arg::real))
            .subcommands(self.subcommands.iter().map(Command::real))
    }

    fn matches(&self, found: &clap::ArgMatches) -> ArgMatches<'a> {
        let values = self.arguments.iter().filter_map(|arg| {
            let texts = found.get_raw(arg.id)?;
            Some((arg.id, texts.map(|text| kept(&text.to_string_lossy())).collect()))
        });
        let subcommand = self.subcommands.iter().find_map(|command| {
            let found = found.subcommand_matches(command.name)?;
            Some((command.name, Box::new(command.matches(found))))
        });
        ArgMatches { values: values.collect(), subcommand }
    }
}

impl Arg<'_> {
    fn real(&self) -> clap::Arg {
        let action = match self.action {
            ArgAction::Set => clap::ArgAction::Set,
            ArgAction::Append => clap::ArgAction::Append,
            ArgAction::SetTrue => clap::ArgAction::SetTrue,
        };
        let is_switch = self.action == ArgAction::SetTrue;
        clap::Arg::new(kept(self.id))
            .help(kept(self.help))
            .required(self.required)
            .action(action)
            .long(self.long.map(kept))
            .short(self.short)
            .value_name((!is_switch).then(|| kept(self.value_name)))
            .default_value(self.default_value.map(kept))
            .value_parser(self.value_parser.as_ref().map(ValueParser::real))
    }
}

impl ValueParser<'_> {
    fn real(&self) -> builder::ValueParser {
        match (i64::try_from(*self.0.start()), i64::try_from(*self.0.end())) {
            (Ok(least), Ok(most)) => value_parser!(i64).range(least..=most).into(),
            _ => value_parser!(u64).into(),
        }
    }
}

fn error_of(error: clap::Error) -> Error {
    let kind = match error.kind() {
        error::ErrorKind::DisplayHelp => ErrorKind::DisplayHelp,
        error::ErrorKind::DisplayVersion => ErrorKind::DisplayVersion,
        _ => ErrorKind::ValueValidation,
    };
    Error { kind, text: error.render().to_string() }
}
