//! The lines of answers by hand: one, many in order, and those that a filter shows.

use rattle_std::alloc::Global;
use replay_program::{Form, Line, LineFilter, Style, print_answers, read_words};
use tests::printing::{line, received};
use wire::StdSink;

fn text_of(out: StdSink<Vec<u8>>) -> String {
    String::from_utf8(out.into_inner()).expect("lines are text")
}

fn styled(style: Style, proxy: usize, answer: &str) -> String {
    let mut out = StdSink::new(Vec::new());
    line(style, proxy, answer).text.print(&mut out).expect("a vector takes all");
    text_of(out)
}

/// The line of an answer, of those that a form has for all answers.
fn printed(form: Form, proxy: usize, answer: &str) -> String {
    styled(Style::all(form), proxy, answer)
}

/// Whether the line is that of the answer in it, to the proxy of its first number.
fn is_printed(line: &str) -> bool {
    let (proxy, answer) = line.trim_end().split_once(' ').expect("a proxy comes first");
    printed(Form::Words, proxy.parse().expect("a proxy is a number"), answer) == line
}

#[test]
fn one_line_an_answer() {
    for line in [
        "0 100 empty\n",
        "0 0 empty\n",
        "1 100 committed conflict committed\n",
        "0 200 committed conflict:0,2\n",
        "0 5000100 tooold\n",
        "2 100 conflict:0 tooold conflict:0,2 conflict committed\n",
        "63 300 never\n",
        "0 1000 held\n",
    ] {
        assert!(is_printed(line), "{line}");
    }
}

/// Lines of three times so many transactions.
#[test]
fn long_lines() {
    for count in [1, 10, 11, 100] {
        let line = format!("0 100{}\n", " committed conflict:0,2 tooold".repeat(count));
        assert!(is_printed(&line), "{count}");
    }
}

/// The frames of `docs/WIRE.md`, and words where there is no reply.
#[test]
fn replies_as_frames() {
    for (answer, text) in [
        ("0 empty", "0 0 0000000b0200000000000000000000\n"),
        ("100 committed conflict:0", "0 100 0000001302000000000000006400020200000000010000\n"),
        ("100 committed", "0 100 0000000e0200000000000000640001020000\n"),
        ("300 never", "0 300 never\n"),
        ("1000 held", "0 1000 held\n"),
    ] {
        assert_eq!(printed(Form::Frames, 0, answer), text);
    }
}

#[test]
fn answers_as_json() {
    for (answer, text) in [
        ("0 empty", r#"{"proxy":7,"version":0,"verdicts":[]}"#),
        (
            "100 committed tooold conflict",
            r#"{"proxy":7,"version":100,"verdicts":["committed","tooold","conflict"]}"#,
        ),
        (
            "100 conflict conflict tooold committed",
            r#"{"proxy":7,"version":100,"verdicts":["conflict","conflict","tooold","committed"]}"#,
        ),
        (
            "200 conflict:0,2 conflict:0",
            r#"{"proxy":7,"version":200,"verdicts":[{"conflict":[0,2]},{"conflict":[0]}]}"#,
        ),
        ("300 never", r#"{"proxy":7,"version":300,"answer":"never"}"#),
        ("1000 held", r#"{"proxy":7,"version":1000,"answer":"held"}"#),
    ] {
        assert_eq!(printed(Form::Json, 7, answer), format!("{text}\n"));
    }
}

/// Makes the line of an answer to proxy 7, changes it, and returns its text.
fn changed(style: Style, answer: &str, change: impl FnOnce(&mut Line)) -> String {
    let mut changed = line(style, 7, answer);
    change(&mut changed);
    let mut out = StdSink::new(Vec::new());
    changed.text.print(&mut out).expect("a vector takes all");
    text_of(out)
}

/// A note comes under the line. One under a line that isn't shown is not printed.
#[test]
fn notes_under_lines() {
    let words = Style::all(Form::Words);
    let hidden = Style { filter: LineFilter { quiet: true, ..LineFilter::all() }, ..words };
    for (style, note, text) in [
        (words, "  txn 0 ..\n", "7 5 committed conflict conflict\n  txn 0 ..\n"),
        (words, "", "7 5 committed conflict conflict\n"),
        (hidden, "  txn 0 ..\n", ""),
    ] {
        let noted = |line: &mut Line| line.add_note(note.as_bytes()).expect("memory is ample");
        assert_eq!(changed(style, "5 committed conflict conflict", noted), text);
    }
}

/// Arguments, an answer that they show, and one that they don't.
#[test]
fn filtered_lines() {
    for (given, shown, hidden) in [
        ("--only conflict f", "5 committed conflict:0", "5 committed tooold"),
        ("--only tooold f", "5 tooold", "5 never"),
        ("--only committed f", "5 conflict committed", "5 held"),
        ("--versions 5..7 f", "6 held", "7 held"),
        ("--versions 5.. f", "5 never", "4 empty"),
        ("--versions ..5 f", "4 empty", "5 empty"),
        ("--only conflict --versions 5.. f", "5 conflict", "4 conflict"),
        ("--versions .. f", "5 empty", ""),
        ("--quiet f", "", "5 committed"),
    ] {
        let words: Vec<_> = ["replay"]
            .into_iter()
            .chain(given.split(' '))
            .map(|word| word.to_owned().into())
            .collect();
        let style = read_words(Global, &words).expect("the arguments are right").options.style;
        if !shown.is_empty() {
            assert_eq!(styled(style, 0, shown), printed(Form::Words, 0, shown), "{given}");
        }
        if !hidden.is_empty() {
            assert_eq!(styled(style, 0, hidden), "", "{given}");
        }
    }
}

/// Prints the lines of the answers to each proxy.
fn all_printed(answers: &[&str]) -> String {
    let mut out = StdSink::new(Vec::new());
    print_answers(Global, &mut out, &mut received(answers)).expect("memory is ample");
    text_of(out)
}

#[test]
fn by_proxy_then_version_then_order_received() {
    let text = "0 100 empty\n0 100 never\n0 200 empty\n0 300 empty\n1 9 empty\n1 10 held\n";
    assert_eq!(
        all_printed(&["300 empty; 100 empty; 200 empty; 100 never", "10 held; 9 empty"]),
        text
    );
}

/// Forty answers out of order. Beyond 20 the sort takes memory.
#[test]
fn forty_answers_of_one_proxy() {
    let answers: Vec<_> = (0..40).map(|place| format!("{} held", place * 7 % 40)).collect();
    let text: String = (0..40).map(|version| format!("0 {version} held\n")).collect();
    assert_eq!(all_printed(&[&answers.join("; ")]), text);
}
