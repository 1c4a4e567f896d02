//! The sentence of an answer: the phrases of docs/FORMAT.md, which the library is held to, and decimals by Rust's own formatting.

use super::{write, Answer};

const PAGE: &str = include_str!("../../../../docs/FORMAT.md");

/// The page's table of answers: the number, or `others`, and the phrase.
pub fn rows() -> impl Iterator<Item = (&'static str, &'static str)> {
    let (_, table) = PAGE.split_once("\n| No. | What is wrong |").expect("a table of answers");
    let rows = table.lines().skip(2).map_while(|line| line.strip_prefix("| "));
    rows.map(|row| {
        let (number, rest) = row.split_once(" | ").unwrap();
        (number, rest.split_once(" | ").unwrap().0)
    })
}

fn phrase(number: u32) -> &'static str {
    let number = number.to_string();
    let (_, phrase) = rows().find(|(of, _)| *of == number || *of == "others").expect("a row for all others");
    phrase
}

/// The sentence of an answer.
pub fn sentence_of(Answer { number, file, place, state, remainder, .. }: Answer) -> String {
    let phrase = phrase(number);
    format!("Answer {number}: {phrase} (file {file}, place {place}, state {state}, remainder {remainder}).")
}

/// The call: the sentence stands first in the buffer.
pub fn sentence(of: Answer, buffer: &mut [u8]) -> Answer {
    write(sentence_of(of).as_bytes(), buffer, 39)
}
