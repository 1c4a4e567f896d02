//! The sentence of an answer, beside the plain one, whose phrases are those of docs/FORMAT.md.
mod compare;
mod plain;

use compare::{rounds, sentence, Numbers};
use plain::sentence::rows;
use plain::Answer;
use std::collections::BTreeSet;
use zolkirta::SENTENCE;

fn of(number: u32, file: u32, place: usize, state: u32, remainder: i64) -> Answer {
    Answer { number, file, place, state, remainder, ..Answer::default() }
}

/// The sentence by both. It ends with a full stop, and has the five numbers, in their order, and no other.
fn said(of: Answer) -> String {
    let (answer, written) = sentence(of, SENTENCE);
    assert_eq!(answer, Answer { written: written.len(), ..Answer::default() });
    let text = String::from_utf8(written).unwrap();
    assert!(text.is_ascii() && text.starts_with("Answer ") && text.ends_with(").") && !text.contains('\n'), "{text}");
    let numbers: Vec<i128> = text.split(|c: char| c != '-' && !c.is_ascii_digit()).flat_map(str::parse).collect();
    assert_eq!(numbers, [of.number.into(), of.file.into(), of.place as i128, of.state.into(), of.remainder.into()], "{text}");
    text
}

#[test]
fn the_page_has_a_phrase_for_each_number() {
    let numbers: Vec<&str> = rows().map(|(number, _)| number).collect();
    let expected: Vec<String> = (0..=41).map(|number: u32| number.to_string()).chain(["others".to_owned()]).collect();
    assert_eq!(numbers, expected);
    let phrases: BTreeSet<&str> = rows().map(|(_, phrase)| phrase).collect();
    assert_eq!(phrases.len(), 43);
    for phrase in phrases {
        assert!(phrase.bytes().all(|byte| byte.is_ascii_lowercase() || b" ,".contains(&byte)), "{phrase}");
    }
}

#[test]
fn every_number_has_the_words_of_the_page() {
    let known_in_their_lowest_bits = (0..42).flat_map(|number| [6, 7, 8, 16, 31].map(|bit| number + (1 << bit)));
    for number in (0..=1000).chain(known_in_their_lowest_bits).chain([u32::MAX - 1, u32::MAX]) {
        said(of(number, 2, 79, 1, 1));
    }
}

#[test]
fn sentences_known_beforehand() {
    let told = [
        (of(0, 0, 0, 0, 0), "Answer 0: everything that was asked for was done and nothing was refused (file 0, place 0, state 0, remainder 0)."),
        (of(16, 2, 4, 2, 0), "Answer 16: the last price condition of a refutation does not hold (file 2, place 4, state 2, remainder 0)."),
        (of(20, 2, 79, 1, 1), "Answer 20: what comes to a state in a flow is not what leaves it (file 2, place 79, state 1, remainder 1)."),
        (of(29, 1, 8265, 0, 0), "Answer 29: the model has a cost that is higher than allowed (file 1, place 8265, state 0, remainder 0)."),
        (of(39, 0, 0, 0, 0), "Answer 39: the lent buffer is too short for the sentence (file 0, place 0, state 0, remainder 0)."),
        (
            of(40, 0, 0, 0, 0),
            "Answer 40: the number of states or transitions asked for the largest certificate is not allowed \
             (file 0, place 0, state 0, remainder 0).",
        ),
        (of(42, 0, 0, 0, -1), "Answer 42: no answer of this version has this number (file 0, place 0, state 0, remainder -1)."),
        (
            of(u32::MAX, u32::MAX, usize::MAX, u32::MAX, i64::MIN),
            "Answer 4294967295: no answer of this version has this number \
             (file 4294967295, place 18446744073709551615, state 4294967295, remainder -9223372036854775808).",
        ),
    ];
    for (of, expected) in told {
        assert_eq!(said(of), expected);
    }
}

/// Powers of ten and of two, with their neighbours, on both sides of 0.
fn edges() -> impl Iterator<Item = i128> {
    let powers = (0..20).map(|k| 10_i128.pow(k)).chain((0..65).map(|k| 1 << k));
    powers.flat_map(|power| [power - 1, power, power + 1]).flat_map(|edge| [edge, -edge])
}

#[test]
fn each_value_at_the_ends_of_its_digits_and_its_width() {
    let numbers = || edges().filter_map(|edge| u32::try_from(edge).ok());
    numbers().for_each(|number| _ = said(of(number, 1, 10, 2, -3)));
    numbers().for_each(|file| _ = said(of(11, file, 10, 2, -3)));
    numbers().for_each(|state| _ = said(of(11, 1, 10, state, -3)));
    edges().filter_map(|edge| usize::try_from(edge).ok()).for_each(|place| _ = said(of(11, 1, place, 2, -3)));
    edges().filter_map(|edge| i64::try_from(edge).ok()).for_each(|remainder| _ = said(of(11, 1, 10, 2, remainder)));
    assert!(numbers().any(|number| number == u32::MAX) && edges().any(|edge| edge == i64::MIN.into()));
    // The longest of each phrase.
    let longest = (0..=42).map(|number| said(of(number, u32::MAX, usize::MAX, u32::MAX, i64::MIN)).len()).max().unwrap();
    println!("the longest sentence has {longest} bytes");
}

#[test]
fn values_of_every_width_into_buffers_around_the_sentence() {
    let mut numbers = Numbers::new(18);
    for _ in 0..rounds(20_000) {
        let of = numbers.answer();
        let size = said(of).len();
        for length in [numbers.below(size), size - 1, size, size + 1] {
            let (answer, written) = sentence(of, length);
            assert_eq!((answer.number, written.len()), if length < size { (39, 0) } else { (0, size) });
        }
    }
}
