//! Lines of answers by their texts, and how a run of `replay` has ended, in words.

use crate::notation::answer;
use rattle_std::alloc::Global;
use rattle_std::vec::Vec as KitVec;
use replay_program::{Form, Line, Status, Style};

/// Makes the line of an answer to a proxy.
pub fn line(style: Style, proxy: usize, text: &str) -> Line {
    Line::new(Global, style, proxy, answer(text).answer()).expect("memory is ample")
}

/// Makes the lines, in words, of the answers to a proxy, between semicolons.
pub fn lines(proxy: usize, texts: &str) -> KitVec<Line> {
    texts
        .split("; ")
        .map(|text| line(Style::all(Form::Words), proxy, text))
        .collect::<Vec<_>>()
        .into()
}

/// Makes the lines of the answers to each proxy, at its number.
pub fn received(answers: &[&str]) -> KitVec<KitVec<Line>> {
    answers.iter().enumerate().map(|(proxy, texts)| lines(proxy, texts)).collect::<Vec<_>>().into()
}

/// Puts how a run has ended into words, after what it wrote to standard output and before what it
/// wrote to standard error.
pub fn ended(status: Status, out: &[u8], error: &[u8]) -> String {
    let word = match status {
        Status::Done => "done: ",
        Status::Failed => "failed: ",
        Status::Usage => "usage: ",
        Status::Differs => "differs: ",
    };
    let text = [out, word.as_bytes(), error].concat();
    String::from_utf8(text).expect("all that is printed is text")
}
