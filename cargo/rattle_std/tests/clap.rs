//! Command lines of the shapes that the programs have: options and files, subcommands, and
//! arguments that are all wanted.

use rattle_std::alloc::Global;
use rattle_std::clap::builder::ValueParser;
use rattle_std::clap::error::ErrorKind;
use rattle_std::clap::{Arg, ArgAction, ArgMatches, Command};
use rattle_std::string::String as Word;

fn words(given: &str) -> Vec<Word> {
    std::iter::once("program")
        .chain(given.split_whitespace())
        .map(|word| Word::from(word.to_owned()))
        .collect()
}

fn number<'a>(name: &'a str, default: &'a str, parser: ValueParser<'a>) -> Arg<'a> {
    Arg::new(Global, name)
        .long(name)
        .value_name("N")
        .default_value(default)
        .value_parser(parser)
        .help("A number")
}

fn flag<'a>(name: &'a str) -> Arg<'a> {
    Arg::new(Global, name).long(name).action(ArgAction::SetTrue).help("A switch")
}

/// As `replay` has it.
fn replay() -> Command<'static> {
    let check =
        Arg::new(Global, "check").long("check").value_name("REPLIES").action(ArgAction::Append);
    let file = Arg::new(Global, "FILE").action(ArgAction::Append).required(true);
    let arguments = [
        number("capacity", "16", ValueParser::unsigned(1, 1_024)),
        number("window", "5000000", ValueParser::signed(1, 1 << 40)),
        number("limit", "1000000", ValueParser::unsigned(1, 16_777_216)),
        flag("frames"),
        flag("json"),
        check,
        file,
    ];
    let command = Command::new(Global, "replay")
        .version("1.2.3")
        .about("Replays")
        .after_long_help("Example: replay f");
    arguments.into_iter().fold(command, |command, argument| command.arg(argument).unwrap())
}

/// As `batches` has it.
fn batches() -> Command<'static> {
    let file = || Arg::new(Global, "FILE").help("The file to read");
    let encode = Command::new(Global, "encode")
        .about("Encodes")
        .arg(flag("replies"))
        .unwrap()
        .arg(file())
        .unwrap();
    let show = Command::new(Global, "show")
        .about("Shows")
        .arg(flag("replies"))
        .unwrap()
        .arg(flag("full"))
        .unwrap()
        .arg(file())
        .unwrap();
    let command = Command::new(Global, "batches")
        .version("1.2.3")
        .about("Converts")
        .subcommand_required(true)
        .arg_required_else_help(true);
    command.subcommand(encode).unwrap().subcommand(show).unwrap()
}

/// As `workload` has it.
fn workload() -> Command<'static> {
    let word = |name| Arg::new(Global, name).required(true);
    let command = Command::new(Global, "workload").version("1.2.3");
    ["SHAPE", "BATCHES", "TRANSACTIONS"]
        .into_iter()
        .fold(command, |command, name| command.arg(word(name)).unwrap())
}

/// Writes the matches of `replay`.
fn shown(matches: &ArgMatches<'_>) -> String {
    let number = |name| matches.get_one::<u64>(name).expect("it has a default");
    let strings =
        |name| matches.get_strs(name).map_or("none".to_owned(), |strings| strings.join("+"));
    let window: i64 = matches.get_one("window").expect("it has a default");
    assert_eq!(matches.get_one("frames"), Some(matches.get_flag("frames")));
    let flags = (matches.get_flag("frames"), matches.get_flag("json"));
    format!(
        "{} {window} {} {flags:?} {} {}",
        number("capacity"),
        number("limit"),
        strings("check"),
        strings("FILE")
    )
}

fn kind_of(command: &Command<'_>, given: &str) -> ErrorKind {
    let words = words(given);
    match command.try_get_matches_from(&words) {
        Ok(matches) => panic!("{given}: {matches:?}"),
        Err(error) => {
            let shows = matches!(error.kind(), ErrorKind::DisplayHelp | ErrorKind::DisplayVersion);
            assert_eq!(error.use_stderr(), !shows, "{given}");
            error.kind()
        }
    }
}

fn text_of(command: &Command<'_>, given: &str) -> String {
    let words = words(given);
    command
        .try_get_matches_from(&words)
        .expect_err("it is no run")
        .to_string(Global)
        .unwrap()
        .as_str()
        .to_owned()
}

#[test]
fn options_and_files() {
    for (given, expected) in [
        ("a", "16 5000000 1000000 (false, false) none a"),
        ("b a b", "16 5000000 1000000 (false, false) none b+a+b"),
        ("--capacity 1 --window=1 a --frames b --limit 1", "1 1 1 (true, false) none a+b"),
        (
            "--capacity=1024 --window 1099511627776 --limit 16777216 a",
            "1024 1099511627776 16777216 (false, false) none a",
        ),
        ("--json --frames a", "16 5000000 1000000 (true, true) none a"),
        ("--check r a b --check=s", "16 5000000 1000000 (false, false) r+s a+b"),
        ("--check=a=b c=d", "16 5000000 1000000 (false, false) a=b c=d"),
        ("--check=--json a", "16 5000000 1000000 (false, false) --json a"),
        ("--check= a", "16 5000000 1000000 (false, false)  a"),
        ("--check - -", "16 5000000 1000000 (false, false) - -"),
        // Nothing after two hyphens is an option.
        ("-- --frames", "16 5000000 1000000 (false, false) none --frames"),
        (
            "a -- -- -x -h --capacity=0",
            "16 5000000 1000000 (false, false) none a+--+-x+-h+--capacity=0",
        ),
        ("--capacity 007 a", "7 5000000 1000000 (false, false) none a"),
    ] {
        let words = words(given);
        assert_eq!(
            shown(&replay().try_get_matches_from(&words).expect(given)),
            expected,
            "{given}"
        );
    }
}

#[test]
fn options_of_one_letter() {
    let page = Arg::new(Global, "output").short('o').long("output").value_name("PAGE");
    let command =
        Command::new(Global, "report").arg(page).unwrap().arg(Arg::new(Global, "FILE")).unwrap();
    for given in ["-o page f", "-opage f", "f -o=page", "--output page f", "f --output=page"] {
        let words = words(given);
        let matches = command.try_get_matches_from(&words).expect(given);
        assert_eq!(
            (matches.get_str("output"), matches.get_str("FILE")),
            (Some("page"), Some("f")),
            "{given}"
        );
    }
    for (given, kind) in [
        ("f -o", ErrorKind::WrongNumberOfValues),
        ("-o page -opage f", ErrorKind::ArgumentConflict),
        ("-p page f", ErrorKind::UnknownArgument),
        ("--o page f", ErrorKind::UnknownArgument),
        ("-h", ErrorKind::DisplayHelp),
    ] {
        assert_eq!(kind_of(&command, given), kind, "{given}");
    }
    assert!(text_of(&command, "--help").contains("  -o, --output <PAGE> "));
}

#[test]
fn refused_options() {
    for (given, kind) in [
        ("", ErrorKind::MissingRequiredArgument),
        ("--frames", ErrorKind::MissingRequiredArgument),
        ("--capacity 1", ErrorKind::MissingRequiredArgument),
        ("--", ErrorKind::MissingRequiredArgument),
        ("--capacity 0 f", ErrorKind::ValueValidation),
        ("--capacity 1025 f", ErrorKind::ValueValidation),
        ("--capacity=-1 f", ErrorKind::ValueValidation),
        ("--capacity= f", ErrorKind::ValueValidation),
        ("--capacity sixteen f", ErrorKind::ValueValidation),
        ("--capacity 1.0 f", ErrorKind::ValueValidation),
        ("--capacity 0x10 f", ErrorKind::ValueValidation),
        ("--capacity 1_0 f", ErrorKind::ValueValidation),
        (
            "--capacity 99999999999999999999999999999999999999999999999999 f",
            ErrorKind::ValueValidation,
        ),
        ("--window 0 f", ErrorKind::ValueValidation),
        ("--window 1099511627777 f", ErrorKind::ValueValidation),
        ("--limit 16777217 f", ErrorKind::ValueValidation),
        ("--capacity -1 f", ErrorKind::WrongNumberOfValues),
        ("--capacity --limit 1 f", ErrorKind::WrongNumberOfValues),
        ("--capacity -- f", ErrorKind::WrongNumberOfValues),
        ("f --limit", ErrorKind::WrongNumberOfValues),
        ("f --check", ErrorKind::WrongNumberOfValues),
        ("--capacity 1 --capacity 2 f", ErrorKind::ArgumentConflict),
        ("--json --json f", ErrorKind::ArgumentConflict),
        ("--frames=yes f", ErrorKind::TooManyValues),
        ("--frames= f", ErrorKind::TooManyValues),
        ("-x f", ErrorKind::UnknownArgument),
        ("-1 f", ErrorKind::UnknownArgument),
        ("--cap 1 f", ErrorKind::UnknownArgument),
        ("--capacityx=1 f", ErrorKind::UnknownArgument),
        ("--Capacity 1 f", ErrorKind::UnknownArgument),
        ("--FILE f", ErrorKind::UnknownArgument),
        ("--=1 f", ErrorKind::UnknownArgument),
        ("--- f", ErrorKind::UnknownArgument),
        ("--help=yes f", ErrorKind::UnknownArgument),
        ("--version=1 f", ErrorKind::UnknownArgument),
        // What comes first decides.
        ("--capacity 0 --help", ErrorKind::ValueValidation),
        ("--help --capacity 0", ErrorKind::DisplayHelp),
        ("f --version", ErrorKind::DisplayVersion),
        ("-h", ErrorKind::DisplayHelp),
        ("-V", ErrorKind::DisplayVersion),
        ("--help", ErrorKind::DisplayHelp),
    ] {
        assert_eq!(kind_of(&replay(), given), kind, "{given}");
    }
}

#[test]
fn subcommands() {
    for (given, name, replies, file) in [
        ("encode", "encode", false, None),
        ("encode a", "encode", false, Some("a")),
        ("encode --replies", "encode", true, None),
        ("show a --replies", "show", true, Some("a")),
        ("show -- --replies", "show", false, Some("--replies")),
        ("encode encode", "encode", false, Some("encode")),
        ("encode -", "encode", false, Some("-")),
    ] {
        let (words, command) = (words(given), batches());
        let matches = command.try_get_matches_from(&words).expect(given);
        let (found, inner) = matches.subcommand().expect(given);
        assert_eq!(
            (found, inner.get_flag("replies"), inner.get_str("FILE")),
            (name, replies, file),
            "{given}"
        );
        assert!(!inner.get_flag("full") && inner.subcommand().is_none());
    }
    let (words, command) = (words("show --full"), batches());
    assert!(command.try_get_matches_from(&words).unwrap().subcommand().unwrap().1.get_flag("full"));
}

#[test]
fn refused_subcommands() {
    for (given, kind) in [
        ("", ErrorKind::MissingRequiredArgument),
        ("bogus", ErrorKind::UnknownArgument),
        ("Encode", ErrorKind::UnknownArgument),
        ("--replies encode", ErrorKind::UnknownArgument),
        ("encode a b", ErrorKind::UnknownArgument),
        ("encode --full", ErrorKind::UnknownArgument),
        ("encode --replies --replies", ErrorKind::ArgumentConflict),
        ("encode --version", ErrorKind::UnknownArgument),
        ("encode -V", ErrorKind::UnknownArgument),
        ("--", ErrorKind::MissingRequiredArgument),
        // No word after two hyphens is a subcommand.
        ("-- encode", ErrorKind::UnknownArgument),
        ("help bogus", ErrorKind::UnknownArgument),
        ("help show bogus", ErrorKind::UnknownArgument),
        ("--help", ErrorKind::DisplayHelp),
        ("--version", ErrorKind::DisplayVersion),
        ("encode --help", ErrorKind::DisplayHelp),
        ("show -h", ErrorKind::DisplayHelp),
        ("help", ErrorKind::DisplayHelp),
        ("help show", ErrorKind::DisplayHelp),
    ] {
        assert_eq!(kind_of(&batches(), given), kind, "{given}");
    }
}

#[test]
fn wanted_arguments() {
    let given = words("points 3 -- -4");
    let matches = workload();
    let matches = matches.try_get_matches_from(&given).unwrap();
    let values: Vec<_> =
        ["SHAPE", "BATCHES", "TRANSACTIONS"].iter().map(|name| matches.get_str(name)).collect();
    assert_eq!(values, [Some("points"), Some("3"), Some("-4")]);
    assert_eq!(
        (
            matches.get_one::<u64>("BATCHES"),
            matches.get_one::<u64>("SHAPE"),
            matches.get_one::<i64>("TRANSACTIONS")
        ),
        (Some(3), None, Some(-4))
    );
    assert!(
        matches.get_str("OTHER").is_none()
            && matches.get_strs("OTHER").is_none()
            && !matches.get_flag("OTHER")
    );
    for (given, kind) in [
        ("", ErrorKind::MissingRequiredArgument),
        ("points 3", ErrorKind::MissingRequiredArgument),
        ("points 3 4 5", ErrorKind::UnknownArgument),
        ("points -3 4", ErrorKind::UnknownArgument),
    ] {
        assert_eq!(kind_of(&workload(), given), kind, "{given}");
    }
}

/// Numbers at the ends of 64 bits.
#[test]
fn largest_numbers() {
    let command = |parser| Command::new(Global, "p").arg(number("n", "0", parser)).unwrap();
    let unsigned = command(ValueParser::unsigned(0, u64::MAX));
    let (most, above) = (words("--n 18446744073709551615"), "--n 18446744073709551616");
    assert_eq!(unsigned.try_get_matches_from(&most).unwrap().get_one("n"), Some(u64::MAX));
    assert_eq!(kind_of(&unsigned, above), ErrorKind::ValueValidation);
    let signed = command(ValueParser::signed(i64::MIN, i64::MAX));
    let least = words("--n=-9223372036854775808");
    assert_eq!(signed.try_get_matches_from(&least).unwrap().get_one("n"), Some(i64::MIN));
    assert_eq!(kind_of(&signed, "--n=9223372036854775808"), ErrorKind::ValueValidation);
    assert_eq!(kind_of(&signed, "--n=-9223372036854775809"), ErrorKind::ValueValidation);
}

#[test]
fn texts() {
    assert_eq!(text_of(&replay(), "--version"), "replay 1.2.3\n");
    let help = text_of(&replay(), "--help");
    for part in [
        "Replays",
        "Usage: replay [OPTIONS] <FILE>...",
        "--capacity <N>",
        "[default: 16]",
        "--frames",
        "--check <REPLIES>",
        "--version",
        "Example: replay f",
    ] {
        assert!(help.contains(part), "{part}: {help}");
    }
    for (given, message) in [
        ("--capacity 0 f", "error: invalid value '0' for '--capacity <N>'"),
        ("--nothing f", "error: unexpected argument '--nothing' found"),
        ("-x f", "error: unexpected argument '-x' found"),
        ("", "error: the following required arguments were not provided:\n  <FILE>..."),
        ("--json --json f", "error: the argument '--json' cannot be used multiple times"),
        ("--json=1 f", "error: unexpected value '1' for '--json' found"),
        ("f --limit", "error: a value is required for '--limit <N>'"),
    ] {
        let text = text_of(&replay(), given);
        assert!(text.starts_with(message) && text.contains("\nUsage: replay "), "{given}: {text}");
    }
    assert!(text_of(&batches(), "help show").contains("--full"));
    assert!(text_of(&batches(), "bogus").starts_with("error: unrecognized subcommand 'bogus'"));
    let own = replay().error(ErrorKind::TooManyValues, "from 1 to 64 files are wanted").unwrap();
    assert_eq!(own.kind(), ErrorKind::TooManyValues);
    assert!(own.to_string(Global).unwrap().starts_with("error: from 1 to 64 files are wanted\n"));
}
