//! Summaries of answers: written rows, their texts, and a plain count of random answers.

use keyspace::{Answer, Verdict};
use rattle_std::alloc::Global;
use rattle_std::vec::Vec as KitVec;
use replay_summary::{
    Counted, Counts, Occupancy, Outcome, Summary, SummaryError, SummaryForm, Versions, summarize,
    summarize_all, summary_text, total,
};
use std::collections::BTreeSet;
use tests::cases::{count, run};
use tests::plain::{PlainEntry, PlainReply};
use tests::random::Random;

/// The reply at a version with these numbers of entries.
fn reply(version: i64, committed: usize, conflict: usize, too_old: usize) -> Answer {
    let entries = [
        (Verdict::Conflict, conflict),
        (Verdict::TooOld, too_old),
        (Verdict::Committed, committed),
    ];
    let entry = |verdict| PlainEntry { verdict, places: Vec::new() };
    let entries = entries
        .into_iter()
        .flat_map(|(verdict, times)| (0..times).map(move |_| entry(verdict)))
        .collect();
    Answer::Reply(PlainReply { version, entries }.reply())
}

fn versions(first: i64, last: i64) -> Option<Versions> {
    Some(Versions { first, last })
}

fn summarized(answers: Vec<Vec<Answer>>) -> Vec<Summary> {
    let answers: Vec<KitVec<_>> = answers.into_iter().map(KitVec::from).collect();
    summarize_all(Global, &answers).expect("memory is ample").into_std()
}

fn text(summaries: &[Summary], form: SummaryForm) -> String {
    text_with(summaries, None, form)
}

fn text_with(summaries: &[Summary], occupancy: Option<Occupancy>, form: SummaryForm) -> String {
    String::from_utf8(
        summary_text(Global, summaries, occupancy, form).expect("memory is ample").into_std(),
    )
    .expect("the text is ASCII")
}

/// The answers to two proxies, in order of versions.
fn two_proxies() -> Vec<Vec<Answer>> {
    let first = vec![
        reply(0, 1, 0, 0),
        reply(100, 1, 1, 1),
        reply(100, 1, 1, 1),
        Answer::Never(100),
        reply(200, 1, 0, 0),
    ];
    let second = vec![reply(50, 0, 0, 0), Answer::Held(70), reply(250, 0, 2, 0), Answer::Held(900)];
    vec![first, second]
}

#[test]
fn no_answers() {
    assert_eq!(summarize::<Answer>(&[]), Some(Summary::empty()));
    assert_eq!(summarized(vec![]), []);
    assert_eq!(total(&[]), Some(Summary::empty()));
}

#[test]
fn an_empty_reply_is_a_batch() {
    let wanted = Summary { batches: 1, versions: versions(100, 100), ..Summary::empty() };
    assert_eq!(summarize(&[reply(100, 0, 0, 0)]), Some(wanted));
}

#[test]
fn a_repeat_counts_no_transactions() {
    let wanted = Summary {
        batches: 1,
        transactions: 6,
        committed: 3,
        conflict: 2,
        too_old: 1,
        repeats: 2,
        versions: versions(7, 7),
        ..Summary::empty()
    };
    assert_eq!(summarize(&[reply(7, 3, 2, 1), reply(7, 3, 2, 1), reply(7, 3, 2, 1)]), Some(wanted));
}

/// A reply isn't a repeat of an answer that is no reply.
#[test]
fn never_and_held_are_no_replies() {
    let wanted = Summary { never: 1, held: 2, ..Summary::empty() };
    assert_eq!(summarize(&[Answer::Never(3), Answer::Held(5), Answer::Held(5)]), Some(wanted));
    let wanted = Summary {
        batches: 1,
        transactions: 1,
        committed: 1,
        never: 1,
        held: 1,
        versions: versions(3, 3),
        ..Summary::empty()
    };
    assert_eq!(summarize(&[Answer::Never(3), reply(3, 1, 0, 0), Answer::Held(9)]), Some(wanted));
}

#[test]
fn the_total_of_two_proxies() {
    let summaries = summarized(two_proxies());
    let first = Summary {
        batches: 3,
        transactions: 5,
        committed: 3,
        conflict: 1,
        too_old: 1,
        repeats: 1,
        never: 1,
        held: 0,
        versions: versions(0, 200),
    };
    let second = Summary {
        batches: 2,
        transactions: 2,
        conflict: 2,
        held: 2,
        versions: versions(50, 250),
        ..Summary::empty()
    };
    assert_eq!(summaries, [first, second]);
    let both = Summary {
        batches: 5,
        transactions: 7,
        committed: 3,
        conflict: 3,
        too_old: 1,
        repeats: 1,
        never: 1,
        held: 2,
        versions: versions(0, 250),
    };
    assert_eq!(total(&summaries), Some(both));
}

/// A caller keeps one per answer.
#[test]
fn a_counted_answer_has_24_bytes() {
    assert_eq!(size_of::<Counted>(), 24);
}

#[test]
fn numbers_beyond_64_bits_are_refused() {
    let half = Summary { held: usize::MAX / 2 + 1, ..Summary::empty() };
    assert_eq!(total(&[half, half]), None);
    assert_eq!(
        summary_text(Global, &[half, half], None, SummaryForm::Json),
        Err(SummaryError::Count)
    );
    assert_eq!(total(&[half]), Some(half));
}

#[test]
fn lines_of_words() {
    let summaries = summarized(two_proxies());
    let wanted = "\
        proxy 0: batches 3, transactions 5, committed 3, conflict 1, tooold 1, \
        conflict rate 20.0 %, repeats 1, never 1, held 0, versions 0 to 200\n\
        proxy 1: batches 2, transactions 2, committed 0, conflict 2, tooold 0, \
        conflict rate 100.0 %, repeats 0, never 0, held 2, versions 50 to 250\n\
        all: batches 5, transactions 7, committed 3, conflict 3, tooold 1, \
        conflict rate 42.9 %, repeats 1, never 1, held 2, versions 0 to 250\n";
    assert_eq!(text(&summaries, SummaryForm::Words), wanted);
    let wanted = "all: batches 0, transactions 0, committed 0, conflict 0, tooold 0, \
        conflict rate none, repeats 0, never 0, held 0, versions none\n";
    assert_eq!(text(&[], SummaryForm::Words), wanted);
}

#[test]
fn one_line_of_json() {
    let summaries = summarized(two_proxies());
    let wanted = concat!(
        r#"{"proxies":["#,
        r#"{"proxy":0,"batches":3,"transactions":5,"committed":3,"conflict":1,"tooold":1,"#,
        r#""conflict_percent":20.0,"repeats":1,"never":1,"held":0,"#,
        r#""versions":{"first":0,"last":200}},"#,
        r#"{"proxy":1,"batches":2,"transactions":2,"committed":0,"conflict":2,"tooold":0,"#,
        r#""conflict_percent":100.0,"repeats":0,"never":0,"held":2,"#,
        r#""versions":{"first":50,"last":250}}],"#,
        r#""batches":5,"transactions":7,"committed":3,"conflict":3,"tooold":1,"#,
        r#""conflict_percent":42.9,"repeats":1,"never":1,"held":2,"#,
        r#""versions":{"first":0,"last":250}}"#,
        "\n"
    );
    assert_eq!(text(&summaries, SummaryForm::Json), wanted);
    let wanted = concat!(
        r#"{"proxies":[],"batches":0,"transactions":0,"committed":0,"conflict":0,"tooold":0,"#,
        r#""conflict_percent":null,"repeats":0,"never":0,"held":0,"#,
        r#""versions":null}"#,
        "\n"
    );
    assert_eq!(text(&[], SummaryForm::Json), wanted);
}

/// The greatest numbers stay, and the number of boundaries is the last one.
#[test]
fn how_full_a_resolver_was() {
    let mut occupancy = Occupancy::new(1);
    assert_eq!(occupancy, Occupancy { most_held: 0, boundaries: 1, most_boundaries: 1 });
    for (held, boundaries) in [(2, 3), (5, 9), (0, 7), (5, 7)] {
        occupancy.note(held, boundaries);
    }
    assert_eq!(occupancy, Occupancy { most_held: 5, boundaries: 7, most_boundaries: 9 });
}

/// It is said of the resolver after the lines of the proxies and of all, and after the members of
/// all.
#[test]
fn the_resolver_is_last() {
    let summaries = summarized(two_proxies());
    let occupancy = Some(Occupancy { most_held: 12, boundaries: 1, most_boundaries: usize::MAX });
    let wanted = text(&summaries, SummaryForm::Words)
        + "resolver: held at most 12, boundaries 1, at most 18446744073709551615\n";
    assert_eq!(text_with(&summaries, occupancy, SummaryForm::Words), wanted);
    let object = text(&summaries, SummaryForm::Json);
    let members = object.strip_suffix("}\n").expect("an object");
    let wanted = format!(
        "{members},\"most_held\":12,\"boundaries\":1,\"most_boundaries\":18446744073709551615}}\n"
    );
    assert_eq!(text_with(&summaries, occupancy, SummaryForm::Json), wanted);
}

/// The line of one proxy with these transactions in conflict, of so many.
fn rate_of(conflict: usize, transactions: usize) -> String {
    let line = text(&[Summary { conflict, transactions, ..Summary::empty() }], SummaryForm::Words);
    let (_, rest) = line.split_once("conflict rate ").expect("a rate");
    rest.split_once(',').expect("more behind it").0.to_owned()
}

#[test]
fn a_rate_is_rounded_up_from_the_middle() {
    let rows = [
        (0, 1, "0.0 %"),
        (1, 1, "100.0 %"),
        (1, 3, "33.3 %"),
        (2, 3, "66.7 %"),
        (1, 2_000, "0.1 %"),
        (1, 2_001, "0.0 %"),
        (999, 1_000, "99.9 %"),
        (1_999, 2_000, "100.0 %"),
        (usize::MAX, usize::MAX, "100.0 %"),
        (usize::MAX / 2, usize::MAX, "50.0 %"),
        (0, 0, "none"),
    ];
    for (conflict, transactions, wanted) in rows {
        assert_eq!(rate_of(conflict, transactions), wanted, "{conflict} of {transactions}");
    }
}

/// Answers at few versions, so that many are repeats. The replies of a version may differ, and the
/// first one counts.
fn any_answer(random: &mut Random) -> Answer {
    let version = random.between(0, 6);
    match random.below(6) {
        0 => Answer::Never(version),
        1 => Answer::Held(version),
        _ => reply(version, random.index(3), random.index(3), random.index(3)),
    }
}

/// The summary, counted in one pass over the replies, by a set of the versions seen.
fn counted_plainly(answers: &[Counted]) -> Summary {
    let mut seen = BTreeSet::new();
    let mut wanted = Summary::empty();
    for answer in answers {
        match answer.outcome {
            Outcome::Never => wanted.never += 1,
            Outcome::Held => wanted.held += 1,
            Outcome::Replied(_) if !seen.insert(answer.version) => wanted.repeats += 1,
            Outcome::Replied(Counts { committed, conflict, too_old }) => {
                wanted.batches += 1;
                wanted.committed += committed as usize;
                wanted.conflict += conflict as usize;
                wanted.too_old += too_old as usize;
            }
        }
    }
    wanted.transactions = wanted.committed + wanted.conflict + wanted.too_old;
    wanted.versions =
        seen.first().zip(seen.last()).and_then(|(first, last)| versions(*first, *last));
    wanted
}

#[test]
fn summaries_are_plain_counts() {
    run("summaries_are_plain_counts", count(1_000_000, 20_000), |random| {
        let answers: Vec<_> = (0..random.index(12)).map(|_| any_answer(random)).collect();
        let received: Vec<_> = answers.iter().map(Counted::of).collect();
        let mut sorted = received.clone();
        sorted.sort_by_key(|answer| answer.version);
        // The plain count takes the answers as they came: a stable sort keeps the first reply of
        // each version.
        assert_eq!(summarize(&sorted), Some(counted_plainly(&received)));
        1
    });
}
