//! PRISM's transition files: the library and the plain judge answer alike, for texts of random models, which are read back to these, for
//! damaged ones, for those on both sides of every limit, for long ones, and for some whose answers are known.
mod compare;
mod maker;
mod plain;

use compare::{accepted_texts, changes, read_prism, rounds, Numbers};
use maker::prism::{decimal, largest_text, lines, names, random_told};
use plain::{Answer, TODAY, TRANSITIONS};
use std::collections::{BTreeMap, BTreeSet};
use zolkirta::MODEL;

const LINE: u32 = 31;
const SUM: u32 = 32;
const BUFFER: u32 = 33;

/// Where a line of a text begins, the head being line 0, or where the text ends.
fn place(text: &[u8], line: usize) -> usize {
    text.split_inclusive(|&byte| byte == b'\n').take(line).map(<[u8]>::len).sum()
}

/// Reads a text that gets a number, at a line if it is a refusal.
#[track_caller]
fn gets(text: &[u8], number: u32, line: usize) {
    let answer = read_prism(text, MODEL).0;
    let (file, at) = if number == 0 { (0, 0) } else { (1, place(text, line)) };
    let shown = String::from_utf8_lossy(&text[..text.len().min(200)]);
    assert_eq!((answer.number, answer.file, answer.place), (number, file, at), "{shown:?}");
    assert_eq!((answer.state, answer.remainder), (0, 0));
}

/// A text with | for each newline.
fn text(shown: &str) -> Vec<u8> {
    shown.replace('|', "\n").into_bytes()
}

#[track_caller]
fn all_get(texts: &[(&str, u32, usize)]) {
    texts.iter().for_each(|&(shown, number, line)| gets(&text(shown), number, line));
}

#[test]
fn heads_that_are_known() {
    let broken = ";|; ;1;1 0;1 0 0;1 0|;1 0 0 |; 1 0 0|;1  0 0|;1 0  0|;01 0 0|;1 00 0|;1 0 00|;1 0 0 0|;1\t0 0|;1 0 0\r|;||1 0 0|;\
                  +1 0 0|;-1 0 0|;1 0 0.0|;a 0 0|;0 0 0|;0 1 1|0 0 0 1|;129 0 0|;1 257 257|;1 0 2049|";
    broken.split(';').for_each(|shown| gets(&text(shown), LINE, 0));
    all_get(&[
        ("1 0 0|", 0, 0),
        ("128 0 0|", 0, 0),
        ("1 256 2048|", LINE, 1),
        ("1 0 1|", LINE, 1),
        ("1 1 0|", LINE, 1),
        ("1 0 0||", LINE, 1),
        ("1 0 0|1 0 0|", LINE, 1),
        ("1 0 0| ", LINE, 1),
    ]);
}

#[test]
fn lines_that_are_known() {
    all_get(&[
        // States and choices.
        ("2 1 1|1 0 1 1|", 0, 0),
        ("2 1 1|2 0 0 1|", LINE, 1),
        ("2 1 1|0 0 2 1|", LINE, 1),
        ("2 2 2|1 0 0 1|0 0 0 1|", LINE, 2),
        ("1 2 2|0 0 0 1|0 1 0 1|", 0, 0),
        ("1 1 1|0 1 0 1|", LINE, 1),
        ("1 2 2|0 0 0 1|0 2 0 1|", LINE, 2),
        ("2 2 2|0 0 0 1|1 1 0 1|", LINE, 2),
        ("1 3 3|0 0 0 1|0 1 0 1|0 0 0 1|", LINE, 3),
        ("2 1 2|0 0 0 0.5|0 0 1 0.5|", 0, 0),
        ("2 1 2|0 0 0 0.5|0 0 0 0.5|", LINE, 2),
        ("2 1 2|0 0 1 0.5|0 0 0 0.5|", LINE, 2),
        // Names.
        ("2 1 2|0 0 0 0.5 a|0 0 1 0.5 a|", 0, 0),
        ("2 1 2|0 0 0 0.5 a|0 0 1 0.5|", LINE, 2),
        ("2 1 2|0 0 0 0.5|0 0 1 0.5 a|", LINE, 2),
        ("2 1 2|0 0 0 0.5 a|0 0 1 0.5 b|", LINE, 2),
        ("2 1 2|0 0 0 0.5 a|0 0 1 0.5 aa|", LINE, 2),
        ("2 1 2|0 0 0 0.5 aa|0 0 1 0.5 a|", LINE, 2),
        ("2 2 3|0 0 0 0.5 a|0 0 1 0.5 a|1 0 0 1|", 0, 0),
        ("1 1 1|0 0 0 1 a b|", LINE, 1),
        ("1 1 1|0 0 0 1  a|", LINE, 1),
        ("1 1 1|0 0 0 1 a |", LINE, 1),
        ("1 1 1|0 0 0 1 a\u{7f}|", LINE, 1),
        ("1 1 1|0 0 0 1 é|", LINE, 1),
        ("1 1 1|0 0 0 1 00|", 0, 0),
        ("1 1 1|0 0 0 1 0.5|", 0, 0),
        ("1 1 1|0 0 0 1 !\"#~|", 0, 0),
        // Other bytes around, and lines cut short.
        ("1 1 1| 0 0 0 1|", LINE, 1),
        ("1 1 1|0  0 0 1|", LINE, 1),
        ("1 1 1|0 0 0|", LINE, 1),
        ("1 1 1|0 0 0 |", LINE, 1),
        ("1 1 1|0 0 0 1", LINE, 1),
        ("1 1 1|0 0 0 1||", LINE, 2),
        ("1 1 1|0 0 0 1|\0", LINE, 2),
        // The head's counts.
        ("1 1 2|0 0 0 1|", LINE, 2),
        ("1 2 1|0 0 0 1|", LINE, 2),
        ("1 0 0|0 0 0 1|", LINE, 2),
        ("1 1 1|0 0 0 1|0 1 0 1|", LINE, 3),
    ]);
}

#[test]
fn probabilities_that_are_known() {
    for half in ["0.5", "0.50", "0.500", "0.5000"] {
        gets(&text(&format!("2 1 2|0 0 0 {half}|0 0 1 0.5|")), 0, 0);
    }
    let broken = ";0;00;01;10;1.0;1.;2;0.;0.0;0.0000;0.00000;0.50000;0.00001;.5;00.5;0,5;1e0;+1;-1;1/1;0.5a;0.-5;0. 5;1 ;1\r;0x1";
    broken.split(';').for_each(|broken| gets(&text(&format!("1 1 1|0 0 0 {broken}|")), LINE, 1));
}

/// Where a choice is judged, and what comes ahead of what.
#[test]
fn choices_that_are_known() {
    all_get(&[
        ("2 1 2|0 0 0 0.5|0 0 x|", LINE, 2),
        ("2 1 2|0 0 0 0.5|0 00 1 0.5|", SUM, 1),
        ("2 1 2|0 0 0 0.5|00 0 1 0.5|", SUM, 1),
        ("2 1 2|0 0 0 0.5|0 0|", SUM, 1),
        ("2 1 2|0 0 0 0.5|0 0", SUM, 1),
        ("2 1 2|0 0 0 0.5|0 0 |", LINE, 2),
        ("2 1 2|0 0 0 0.5|0 0 ", LINE, 2),
        ("2 1 2|0 0 0 0.5|0 0 1 0.5", LINE, 2),
        ("2 1 2|0 0 0 0.5||", SUM, 1),
        ("2 1 2|0 0 0 1||", LINE, 2),
        ("2 1 2|0 0 0 0.5| 0 0 1 0.5|", SUM, 1),
        ("2 1 2|0 0 0 0.5|0  0 1 0.5|", SUM, 1),
        ("1 3 3|0 0 0 0.5|", SUM, 1),
        ("1 3 3|0 0 0 1|", LINE, 2),
        ("11 2 2|1 0 0 1|10 0 0 1|", 0, 0),
        ("11 2 2|1 0 0 0.5|10 0 0 1|", SUM, 1),
        ("11 2 2|10 0 0 0.5|1 0 0 1|", SUM, 1),
        ("1 2 2|0 0 0 0.5|0 1 0 1|", SUM, 1),
        ("1 2 2|0 0 0 1|0 1 0 0.5|", SUM, 2),
        ("2 2 3|0 0 0 1|0 1 0 0.5|0 1 1 0.4999|", SUM, 2),
        // Above 1 is no fault before the choice is over.
        ("2 1 2|0 0 0 1|0 0 1 0.0001|", SUM, 1),
        ("3 1 3|0 0 0 1|0 0 1 1|0 0 x|", LINE, 3),
        ("3 1 3|0 0 0 1|0 0 1 1|0 x|", SUM, 1),
    ]);
    // Document 02's words in bytes.
    assert_eq!(read_prism(b"2 1 2\n0 0 0 0.5\n0 0 x\n", MODEL).0.place, 16);
    let at_end = read_prism(b"1 3 3\n0 0 0 1\n", MODEL).0;
    assert_eq!((at_end.place, at_end.stretch_start, at_end.stretch_length), (14, 14, 0));
}

#[test]
fn models_that_are_known() {
    let written = |shown: &str| read_prism(&text(shown), MODEL).1;
    assert_eq!(written("1 0 0|"), b"PA\x01\x01\0\0LB\0");
    assert_eq!(written("1 1 1|0 0 0 1|"), b"PA\x01\x01\0\x01LB\0TR\0\0\0\x01\x01\0\0\x01");
    // Names by first sight, whatever else they are, and a state without choices.
    let named = written("3 4 4|0 0 1 1 b|0 1 1 1 a|0 2 1 1|2 0 0 1 b|");
    let records = [
        &b"TR\0\x01\0\x01\x01\x01\0\x01"[..],
        b"TR\0\x02\0\x01\x01\x01\0\x01",
        b"TR\0\0\0\x01\x01\x01\0\x01",
        b"TR\x02\x01\0\x01\x01\0\0\x01",
    ];
    assert_eq!(named, [&b"PA\x03\x03\0\x04LB\0\0\0"[..], &records.concat()].concat());
    // The least d: 10,000 over the divisor of all weights.
    let shares =
        [("0.5", "0.5", [2, 1, 1]), ("0.125", "0.875", [8, 1, 7]), ("0.3", "0.7", [10, 3, 7]), ("0.9999", "0.0001", [10_000, 9999, 1])];
    for (one, other, [d, p, q]) in shares {
        let [d, p, q] = [d, p, q].map(u16::to_be_bytes);
        let record = [&b"TR\x01\0"[..], &d, b"\x02\0", &p, b"\x01", &q].concat();
        assert_eq!(written(&format!("2 1 2|1 0 0 {one}|1 0 1 {other}|")), [b"PA\x02\x01\0\x01LB\0\0", &record[..]].concat());
    }
}

#[test]
fn texts_of_random_models_are_read_back() {
    let mut numbers = Numbers::new(91);
    let mut sizes = BTreeMap::new();
    for _ in 0..rounds(20_000) {
        let most = *numbers.of(&[3, 6, 12, 128]);
        let model = random_told(&mut numbers, most);
        if model.transitions.len() > TRANSITIONS {
            continue;
        }
        let names = names(model.m - 1, &mut numbers);
        let text = lines(&model, &names, &mut numbers).concat();
        let (answer, written) = read_prism(&text, MODEL);
        assert_eq!((answer.number, answer.written), (0, written.len()));
        assert!(written == model.bytes(), "{model:?}\n{}", String::from_utf8_lossy(&text));
        *sizes.entry((model.n() > 64, model.m.min(4), model.transitions.iter().any(|r| r.action == 0))).or_insert(0u64) += 1;
    }
    println!("more than 64 states, actions up to 4, internal ones: texts\n{sizes:?}");
    let mut kinds = (1..=4).flat_map(|m| [(false, m, false), (false, m, true), (true, m, true)]);
    assert!(kinds.all(|kind| sizes.get(&kind) > Some(&rounds(30))), "{sizes:?}");
}

/// What a line at fault is, beside the line before it: one with the same source and choice, or another.
#[derive(Clone, Copy, Debug, PartialEq, Eq, PartialOrd, Ord)]
enum Kind {
    Head,
    First,
    Further,
    Next,
    End,
}

/// The first two fields of a line and the spaces behind them.
fn prefix(line: &[u8]) -> &[u8] {
    let spaces = line.iter().enumerate().filter(|(_, &byte)| byte == b' ');
    &line[..spaces.map(|(at, _)| at + 1).nth(1).unwrap_or(line.len())]
}

fn ends(line: &[u8]) -> bool {
    line.contains(&b'\n')
}

/// The kind of a line that 31 is at, and whether it has a newline.
fn line_kind(text: &[u8], at: usize) -> (Kind, bool) {
    let rest = &text[at..];
    let before: Vec<&[u8]> = text[..at].split_inclusive(|&byte| byte == b'\n').collect();
    let kind = match before[..] {
        _ if at > 0 && rest.is_empty() => return (Kind::End, true),
        [] => Kind::Head,
        [_] => Kind::First,
        [.., last] if rest.starts_with(prefix(last)) => Kind::Further,
        _ => Kind::Next,
    };
    (kind, ends(rest))
}

/// The lines of the choice that 32 is at, and the text behind them.
fn choice_at(text: &[u8], at: usize) -> (Vec<&[u8]>, &[u8]) {
    let (mut lines, mut rest) = (Vec::new(), &text[at..]);
    let begins = prefix(rest);
    while rest.starts_with(begins) {
        let (line, behind) = rest.split_at(place(rest, 1));
        lines.push(line);
        rest = behind;
    }
    (lines, rest)
}

/// A sound line with another probability.
fn with_probability(line: &[u8], probability: &str) -> Vec<u8> {
    let mut fields: Vec<&[u8]> = line.trim_ascii_end().split(|&byte| byte == b' ').collect();
    fields[3] = probability.as_bytes();
    [&fields.join(&b' ')[..], b"\n"].concat()
}

/// The probability of a sound line in ten thousandths.
fn parts(line: &[u8]) -> usize {
    let field = line.trim_ascii_end().split(|&byte| byte == b' ').nth(3).unwrap();
    match std::str::from_utf8(field).unwrap() {
        "1" => 10_000,
        decimal => format!("{:0<4}", &decimal[2..]).parse().unwrap(),
    }
}

/// How often damage reached what.
#[derive(Default)]
struct Reached {
    told: BTreeSet<(u32, u32)>,
    lines: BTreeMap<(Kind, bool), u64>,
    /// By whether the choice is the first one, whether its sum is above 1, and whether text follows it.
    sums: BTreeMap<(bool, bool, bool), u64>,
    /// Choices that are refused with 32 ahead of a line or an end that would be refused with 31.
    ahead: BTreeMap<(Kind, bool), u64>,
}

impl Reached {
    fn count(&mut self, text: &[u8], answer: Answer) {
        self.told.insert((answer.number, answer.file));
        match answer.number {
            LINE => *self.lines.entry(line_kind(text, answer.place)).or_default() += 1,
            SUM => self.count_sum(text, answer.place),
            _ => {}
        }
    }

    fn count_sum(&mut self, text: &[u8], at: usize) {
        let (choice, behind) = choice_at(text, at);
        let sum: usize = choice.iter().map(|line| parts(line)).sum();
        assert_ne!(sum, 10_000);
        *self.sums.entry((at == place(text, 1), sum > 10_000, !behind.is_empty())).or_default() += 1;
        // The same with a choice that adds up to 1.
        let mut numbers = Numbers::new(sum as u64);
        let rest = 10_001 - choice.len();
        let mended = |(i, line): (usize, &&[u8])| with_probability(line, &decimal(if i == 0 { rest } else { 1 }, &mut numbers));
        let mended: Vec<u8> = choice.iter().enumerate().flat_map(mended).collect();
        let sound = [&text[..at], &mended].concat();
        let text = [&sound, behind].concat();
        let answer = read_prism(&text, MODEL).0;
        if (answer.number, answer.place) == (LINE, sound.len()) {
            *self.ahead.entry(line_kind(&text, sound.len())).or_default() += 1;
        }
    }
}

/// Fields that may stand for others: numbers near it and at the limits, and what is no number; probabilities; names.
fn other_field(old: &[u8], at: usize, numbers: &mut Numbers) -> Vec<u8> {
    const NUMBERS: [&str; 16] =
        ["0", "1", "2", "3", "127", "128", "129", "255", "256", "257", "2048", "2049", "00", "01", "", "18446744073709551616"];
    const PROBABILITIES: [&str; 16] =
        ["1", "0.5", "0.50", "0.25", "0.75", "0.1", "0.9", "0.9999", "0.0001", "0", "0.0000", "0.12345", "1.0", ".5", "01", ""];
    const NAMES: [&str; 6] = ["a", "aa", "0.5", "~", "", "a\u{7f}"];
    let number = std::str::from_utf8(old).ok().and_then(|old| old.parse::<usize>().ok());
    let (below, chosen) = (numbers.below(3), numbers.below(96));
    match (at, number, below) {
        (0..=2, Some(number), 0) => (number + 1).to_string(),
        (0..=2, Some(number), 1) => number.saturating_sub(1).to_string(),
        (0..=2, ..) => NUMBERS[chosen % 16].into(),
        (3, ..) => PROBABILITIES[chosen % 16].into(),
        _ => NAMES[chosen % 6].into(),
    }
    .into_bytes()
}

fn damage_field(line: &mut Vec<u8>, numbers: &mut Numbers) {
    let newline: &[u8] = if ends(line) { b"\n" } else { b"" };
    let mut fields: Vec<Vec<u8>> = line.strip_suffix(b"\n").unwrap_or(line).split(|&byte| byte == b' ').map(<[u8]>::to_vec).collect();
    let at = numbers.below(fields.len());
    match numbers.below(8) {
        0 => drop(fields.remove(at)),
        1 => fields.push(other_field(b"", 4, numbers)),
        _ => fields[at] = other_field(&fields[at], at, numbers),
    }
    *line = [&fields.join(&b' ')[..], newline].concat();
}

/// One damage to a text; `other` is another one, which lends a line.
fn damage(text: &mut Vec<Vec<u8>>, other: &[Vec<u8>], numbers: &mut Numbers) {
    let (at, several) = (numbers.below(text.len()), text.len() > 1);
    let line = &mut text[at];
    let within = numbers.below(line.len() + 1);
    match numbers.below(16) {
        0 if several => drop(text.remove(at)),
        1 => {
            let copy = line.clone();
            text.insert(at, copy);
        }
        2 => {
            let with = numbers.below(text.len());
            text.swap(at, with);
        }
        3 => *line = numbers.of(other).clone(),
        4 => line.truncate(within),
        5 => {
            const PUT_IN: [&[u8]; 11] = [b"0", b"1", b"9", b" ", b"  ", b" a", b"\n", b"\r", b".", b"\0", b"\xff"];
            line.splice(within..within, numbers.of(&PUT_IN).to_vec());
        }
        6 if within < line.len() => drop(line.remove(within)),
        7 if within < line.len() => line[within] ^= 1 << numbers.below(8),
        _ => damage_field(line, numbers),
    }
    if text.is_empty() || text[0].is_empty() {
        text.insert(0, b"\n".to_vec());
    }
}

/// A head that counts the lines and choices that follow.
fn counted(text: &[Vec<u8>], states: usize) -> Vec<u8> {
    let begins: Vec<&[u8]> = text[1..].iter().map(|line| prefix(line)).collect();
    let choices = begins.iter().zip([&&b""[..]].into_iter().chain(&begins)).filter(|(line, before)| line != before).count();
    format!("{states} {choices} {}\n", begins.len()).into_bytes()
}

#[test]
fn damaged_texts_are_read_alike() {
    let mut numbers = Numbers::new(92);
    let mut texts: Vec<(usize, Vec<Vec<u8>>)> = Vec::new();
    while texts.len() < 300 {
        let model = random_told(&mut numbers, 5);
        let names = names(model.m - 1, &mut numbers);
        texts.push((model.n(), lines(&model, &names, &mut numbers)));
    }
    let mut reached = Reached::default();
    for _ in 0..rounds(150_000) {
        let (states, mut text) = numbers.of(&texts).clone();
        for _ in 0..numbers.below(3) + numbers.below(2) {
            damage(&mut text, &numbers.of(&texts).1, &mut numbers);
        }
        if numbers.below(2) == 0 {
            text[0] = counted(&text, states);
        }
        let mut text = text.concat();
        if numbers.below(8) == 0 {
            text.truncate(numbers.below(text.len() + 1));
        }
        let length = if numbers.below(4) == 0 { numbers.below(60) } else { MODEL };
        reached.count(&text, read_prism(&text, length).0);
    }
    println!("31 by kind of line, and whether it has a newline: {:?}", reached.lines);
    println!("32 by first choice, above 1, and text behind: {:?}", reached.sums);
    println!("32 ahead of 31: {:?}", reached.ahead);
    assert_eq!(reached.told, BTreeSet::from([(0, 0), (LINE, 1), (SUM, 1), (BUFFER, 0)]));
    let least = rounds(20);
    // A head, a first, a further and a next line, with and without a newline, and the end.
    assert!(reached.lines.len() == 9 && reached.lines.values().all(|&count| count > least), "{:?}", reached.lines);
    assert!(reached.sums.len() == 8 && reached.sums.values().all(|&count| count > least), "{:?}", reached.sums);
    // A next line with and without a newline, and the end: a line that goes on with the choice has it not judged.
    let ahead = [(Kind::Next, false), (Kind::Next, true), (Kind::End, true)];
    assert!(reached.ahead.keys().copied().eq(ahead) && reached.ahead.values().all(|&count| count > least), "{:?}", reached.ahead);
}

#[test]
fn every_truncation_and_change_of_one_byte() {
    /// More than the model of a text of 60 bytes has.
    const ROOM: usize = 300;
    let mut reached = Reached::default();
    let small: Vec<_> = accepted_texts().into_iter().filter(|text| text.len() <= 60).collect();
    assert!(small.len() > 30);
    for text in &small {
        for size in 0..text.len() {
            assert_eq!(read_prism(&text[..size], MODEL).0.file, 1);
        }
        changes(text, |damaged| reached.count(damaged, read_prism(damaged, ROOM).0));
    }
    assert_eq!(reached.told, BTreeSet::from([(0, 0), (LINE, 1), (SUM, 1)]));
}

#[test]
fn random_bytes() {
    let mut numbers = Numbers::new(93);
    for _ in 0..rounds(50_000) {
        let noise = |numbers: &mut Numbers| (0..numbers.below(20)).map(|_| *numbers.of(b"000111222 \n. a")).collect::<Vec<u8>>();
        let (one, other, size) = (noise(&mut numbers), noise(&mut numbers), numbers.below(40));
        let behind = [[b"3 2 3\n", &one[..]].concat(), [b"3 1 2\n0 0 1 ", &one[..], b"\n0 0 ", &other].concat()];
        for text in behind.into_iter().chain([numbers.bytes(size), one]) {
            read_prism(&text, MODEL);
        }
    }
}

/// A text of one state, with a choice for each of these probabilities and names.
fn one_state(head: usize, choices: &[(&str, String)]) -> Vec<u8> {
    let lines = choices.iter().enumerate().map(|(i, (probability, name))| format!("0 {i} 0 {probability}{name}\n"));
    (format!("1 {head} {head}\n") + &lines.collect::<String>()).into_bytes()
}

#[test]
fn choices_up_to_the_limit() {
    let most = TRANSITIONS;
    let mut choices = vec![("1", String::new()); most + 1];
    gets(&one_state(most, &choices[..most]), 0, 0);
    gets(&one_state(most + 1, &choices), LINE, 0);
    gets(&one_state(most, &choices), LINE, most + 1);
    gets(&one_state(most - 1, &choices[..most]), LINE, most + 1);
    choices[most - 1].0 = "0.5";
    gets(&one_state(most, &choices), SUM, most);
}

#[test]
fn names_up_to_the_limit() {
    let mut choices: Vec<(&str, String)> = (1..=32).map(|i| ("1", format!(" name{i}"))).collect();
    gets(&one_state(31, &choices[..31]), 0, 0);
    assert_eq!(read_prism(&one_state(31, &choices[..31]), MODEL).1[3], 32);
    gets(&one_state(32, &choices), LINE, 32);
    choices[31].1 = " name31".into();
    gets(&one_state(32, &choices), 0, 0);
    choices[31].1 = String::new();
    gets(&one_state(32, &choices), 0, 0);
    (choices[30].0, choices[31].1) = ("0.5", " name32".into());
    gets(&one_state(32, &choices), SUM, 31);
}

/// A choice of so many lines, of all states that there may be.
fn choice(number: usize, lines: usize) -> String {
    let probability = |target: usize| if target == 0 { 10_000 - 78 * (lines - 1) } else { 78 };
    (0..lines).map(|target| format!("0 {number} {target} 0.{:04}\n", probability(target))).collect()
}

#[test]
fn lines_up_to_the_limit() {
    let most = TODAY.entries;
    let text = |sizes: &[usize]| {
        let lines: usize = sizes.iter().sum();
        let choices: String = sizes.iter().enumerate().map(|(number, &lines)| choice(number, lines)).collect();
        (format!("128 {} {}\n", sizes.len(), lines.min(most)) + &choices).into_bytes()
    };
    let whole = vec![128; 16];
    gets(&text(&whole), 0, 0);
    gets(&text(&[&whole[..], &[2]].concat()), LINE, most + 1);
    // A line too many of the choice that goes on, whose sum is then not judged.
    gets(&text(&[&vec![127; 16][..], &[17]].concat()), LINE, most + 1);
    let unsound = String::from_utf8(text(&[&whole[..], &[2]].concat())).unwrap().replace("0 15 127 0.0078", "0 15 127 0.0079");
    gets(unsound.as_bytes(), SUM, most - 127);
    gets(format!("128 16 {}\n", most + 1).as_bytes(), LINE, 0);
    for named in [true, false] {
        let (answer, model) = read_prism(&largest_text(named), MODEL);
        assert_eq!((answer.number, model.len(), model[3]), (0, MODEL, if named { 32 } else { 1 }));
        assert_eq!(read_prism(&largest_text(named), MODEL - 1).0.number, BUFFER);
    }
}

#[test]
fn states_up_to_the_limit() {
    let most = TODAY.states;
    for (states, source, target, number, line) in [
        (most, most - 1, most - 1, 0, 0),
        (most, most, 0, LINE, 1),
        (most, 0, most, LINE, 1),
        (most + 1, 0, 0, LINE, 0),
        (most - 1, most - 1, 0, LINE, 1),
        (most - 1, 0, most - 1, LINE, 1),
    ] {
        gets(format!("{states} 1 1\n{source} 0 {target} 1\n").as_bytes(), number, line);
    }
}

/// Numbers that are right in their lowest bits, and of a thousand digits, in every field.
#[test]
fn long_numbers() {
    let fields = [2u128, 2, 2, 1, 0, 1, 1, 1, 0];
    let text = |fields: &[String]| {
        let [n, choices, lines, source, choice, target, again, other, to] = fields else { panic!("nine fields") };
        format!("{n} {choices} {lines}\n{source} {choice} {target} 1\n{again} {other} {to} 1\n").into_bytes()
    };
    let shown = fields.map(|field| field.to_string());
    gets(&text(&shown), 0, 0);
    for (i, field) in fields.into_iter().enumerate() {
        // There may be 2^8 lines more than there are.
        let wide = [if i == 2 { 12 } else { 8 }, 16, 31, 32, 63, 64, 127].map(|bit| (field + (1 << bit)).to_string());
        let long = ["1".repeat(1000), "9".repeat(1000), "1".to_string() + &"0".repeat(1000), "0".repeat(1000) + &shown[i]];
        for number in wide.into_iter().chain(long) {
            let mut changed = shown.clone();
            changed[i] = number;
            gets(&text(&changed), LINE, i / 3);
        }
    }
    for digits in ["0".repeat(1000), "0".repeat(1000) + "1", "5".to_string() + &"0".repeat(1000)] {
        gets(format!("1 1 1\n0 0 0 0.{digits}\n").as_bytes(), LINE, 1);
    }
    gets(format!("1 1 1\n0 0 0 1 {}\n", "0".repeat(1000)).as_bytes(), 0, 0);
}

#[test]
fn long_lines() {
    let long = |byte: &str| byte.repeat(1 << 20);
    let named = "1 1 1\n0 0 0 1 ".to_string() + &long("a");
    gets(named.as_bytes(), LINE, 1);
    gets((named.clone() + " \n").as_bytes(), LINE, 1);
    gets((named + "\n").as_bytes(), 0, 0);
    for byte in ["0", "1", " ", "a"] {
        gets(long(byte).as_bytes(), LINE, 0);
        gets((long(byte) + "\n").as_bytes(), LINE, 0);
        gets(format!("1 1 1\n{}", long(byte)).as_bytes(), LINE, 1);
        gets(format!("1 1 1\n0 0 0 0.5\n{}\n", long(byte)).as_bytes(), SUM, 1);
        gets(format!("2 1 2\n0 0 0 0.5\n0 0 {}\n", long(byte)).as_bytes(), LINE, 2);
    }
    gets(("1 0 0\n".to_string() + &long("\n")).as_bytes(), LINE, 1);
    // Names of 100 KB that differ in their last byte, or in their length.
    let name = "n".repeat(100 << 10);
    let names = [format!(" {name}"), format!(" {name}n"), format!(" {name}m"), format!(" {name}")];
    let text = one_state(4, &names.map(|name| ("1", name)));
    let (answer, model) = read_prism(&text, MODEL);
    let actions: Vec<u8> = (0..4).map(|i| model[9 + 10 * i + 3]).collect();
    assert_eq!((answer.number, model[3], &actions[..]), (0, 4, &[1, 2, 3, 1][..]));
    gets(format!("2 1 2\n0 0 0 0.5 {name}\n0 0 1 0.5 {name}n\n").as_bytes(), LINE, 2);
    gets(format!("2 1 2\n0 0 0 0.5 {name}\n0 0 1 0.5 {name}\n").as_bytes(), 0, 0);
}
