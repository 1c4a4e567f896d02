//! Models that PRISM's transition files can tell of, and their texts: all labels are 0, probabilities have four decimals at most, fractions are in
//! lowest terms, and actions are numbered by first sight.

use super::families::largest;
use super::files::{Model, Transition};
use super::random::random_model;
use super::Numbers;

/// Probabilities are written in ten thousandths.
const WHOLE: usize = 10_000;

/// The same states and moves, with labels 0, actions by first sight, and in the lowest terms.
fn told(model: &Model) -> Model {
    let mut seen = vec![0];
    let sighted = |r: &Transition| {
        let number = seen.iter().position(|&action| action == r.action).unwrap_or(seen.len());
        if number == seen.len() {
            seen.push(r.action);
        }
        Transition { action: number, ..r.clone() }
    };
    let transitions = model.transitions.iter().map(sighted).collect();
    Model::new(vec![0; model.n()], seen.len(), transitions).lowest()
}

/// So many parts, none of them 0, that make up the whole: ten thousandths, or multiples of more of them.
fn parts(count: usize, numbers: &mut Numbers) -> Vec<i64> {
    let unit = *numbers.of(&[1, 10, 125, 500, 1000, 2500]);
    let unit = if count * unit <= WHOLE { unit } else { 1 };
    let mut left = WHOLE / unit;
    let part = |after: usize| {
        let part = if after == 0 { left } else { 1 + numbers.below(left - after) };
        left -= part;
        (part * unit) as i64
    };
    (0..count).rev().map(part).collect()
}

/// A random automaton with other probabilities.
pub fn random_told(numbers: &mut Numbers, most: usize) -> Model {
    let mut model = random_model(numbers, most);
    for r in &mut model.transitions {
        r.d = WHOLE as i64;
        let parts = parts(r.weights.len(), numbers);
        r.weights.iter_mut().zip(parts).for_each(|(entry, part)| entry.1 = part);
    }
    told(&model)
}

/// So many names, no two alike, some of which look like numbers.
pub fn names(count: usize, numbers: &mut Numbers) -> Vec<Vec<u8>> {
    const ODD: [&[u8]; 8] = [b"0", b"00", b"0.5", b"1", b"-", b"!", b"~", b"a"];
    let mut names: Vec<Vec<u8>> = Vec::new();
    while names.len() < count {
        let name = match numbers.below(3) {
            0 => numbers.of(&ODD).to_vec(),
            _ => (0..1 + numbers.below(6)).map(|_| b'!' + numbers.below(94) as u8).collect(),
        };
        if !names.contains(&name) {
            names.push(name);
        }
    }
    names
}

/// A probability, with some of the zeros that may stand at its end.
pub fn decimal(parts: usize, numbers: &mut Numbers) -> String {
    let digits = format!("{parts:04}");
    let least = digits.trim_end_matches('0').len();
    match parts {
        WHOLE => "1".into(),
        _ => format!("0.{}", &digits[..least + numbers.below(5 - least)]),
    }
}

/// The lines of a model's text, the head first, each with its newline. The names are those of the actions from 1 on.
pub fn lines(model: &Model, names: &[Vec<u8>], numbers: &mut Numbers) -> Vec<Vec<u8>> {
    let entries: usize = model.transitions.iter().map(|r| r.weights.len()).sum();
    let mut lines = vec![format!("{} {} {entries}\n", model.n(), model.transitions.len()).into_bytes()];
    let (mut source, mut choice) = (usize::MAX, 0);
    for r in &model.transitions {
        choice = if r.source == source { choice + 1 } else { 0 };
        source = r.source;
        let name = if r.action > 0 { [b" ", &names[r.action - 1][..]].concat() } else { Vec::new() };
        for &(target, p) in &r.weights {
            let line = format!("{source} {choice} {target} {}", decimal(WHOLE * p as usize / r.d as usize, numbers));
            lines.push([line.as_bytes(), &name, b"\n"].concat());
        }
    }
    lines
}

/// The most that a text may have, 128 states, 256 choices and 2,048 lines, with 31 names or with none.
pub fn largest_text(named: bool) -> Vec<u8> {
    let mut model = largest().0;
    if !named {
        model.transitions.iter_mut().for_each(|r| r.action = 0);
    }
    let names: Vec<Vec<u8>> = (1..32).map(|action| format!("action{action}").into_bytes()).collect();
    lines(&told(&model), &names, &mut Numbers::new(9)).concat()
}
