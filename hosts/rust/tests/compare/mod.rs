//! The library beside the plain judge: the same answer and the same bytes in every lent buffer and around it, or the pair in hex.
#![allow(dead_code)] // each test file uses its own part

use crate::plain::{self, AlikeAnswer, Answer, Broken, Limits, PairAnswer, Rule, Terms, BEFORE_K10, BEFORE_K7, TODAY};
use std::cmp::Ordering;
use std::collections::{BTreeSet, HashMap};
use std::fmt;
use zolkirta::{raw, STATES};

/// Guard bytes before and after every lent buffer.
const GUARD: usize = 16;

pub fn hex(bytes: &[u8]) -> String {
    match bytes {
        [] => "-".into(),
        _ => bytes.iter().map(|byte| format!("{byte:02x}")).collect(),
    }
}

/// The bytes of a vector's field, `-` for none.
pub fn bytes(hex: &str) -> Vec<u8> {
    match hex {
        "-" => Vec::new(),
        _ => (0..hex.len()).step_by(2).map(|i| u8::from_str_radix(&hex[i..i + 2], 16).unwrap()).collect(),
    }
}

/// Fetches by both and compares.
pub fn fetch(model: &[u8], state: u32) -> Answer {
    let library = unsafe { raw::zolkirta_fetch(model.as_ptr(), model.len(), state) };
    let plain = TODAY.fetch(model, state);
    assert!(library == plain, "fetch of state {state}\nlibrary {library:?}\nplain   {plain:?}\nmodel {}", hex(model));
    plain
}

pub type PlainLending = fn(&Limits, &[u8], &[u8], &mut [u8]) -> Answer;
pub type PlainLendingTwo = fn(&Limits, &[u8], &[u8], &mut [u8], &mut [u8]) -> PairAnswer;

/// A call with two files, or with a model and a set, and a lent buffer of this length, by both: the answer, and what was written.
pub type Lent = fn(&[u8], &[u8], usize) -> (Answer, Vec<u8>);

/// The calls that lend a buffer, by name: the library's and the plain judge's.
fn lending(name: &str) -> (raw::Lending, PlainLending) {
    match name {
        "judge" => (raw::zolkirta_judge, Limits::judge),
        "judge_costs" => (raw::zolkirta_judge_costs, Limits::judge_costs),
        "judge_strong" => (raw::zolkirta_judge_strong, Limits::judge_strong),
        "reduce" => (raw::zolkirta_reduce, Limits::reduce),
        "sheet" => (raw::zolkirta_sheet, Limits::sheet),
        "join" => (raw::zolkirta_join, Limits::join),
        "compose" => (raw::zolkirta_compose, Limits::compose),
        "hide" => (raw::zolkirta_hide, Limits::hide),
        _ => panic!("no such call: {name}"),
    }
}

/// The calls that lend two buffers.
fn lending_two(name: &str) -> (raw::LendingTwo, PlainLendingTwo) {
    match name {
        "rewrite" => (raw::zolkirta_rewrite, Limits::rewrite),
        "rewrite_costs" => (raw::zolkirta_rewrite_costs, Limits::rewrite_costs),
        _ => panic!("no such call: {name}"),
    }
}

/// What a call answers that lends so many buffers.
trait Told<const N: usize>: Copy + PartialEq + fmt::Debug {
    fn number(self) -> u32;
    /// How many bytes it wrote into each.
    fn written(self) -> [usize; N];
}

impl Told<1> for Answer {
    fn number(self) -> u32 {
        self.number
    }

    fn written(self) -> [usize; 1] {
        [self.written]
    }
}

impl Told<2> for PairAnswer {
    fn number(self) -> u32 {
        self.answer.number
    }

    fn written(self) -> [usize; 2] {
        [self.answer.written, self.certificate_written]
    }
}

/// The first bytes of each buffer from a place on, as many as were written.
fn first_bytes<const N: usize>(buffers: [Vec<u8>; N], from: usize, written: [usize; N]) -> [Vec<u8>; N] {
    let mut written = written.into_iter();
    buffers.map(|mut buffer| {
        buffer.truncate(from + written.next().unwrap());
        buffer.split_off(from)
    })
}

/// Calls both with lent buffers of these lengths and compares answers, buffers and guard bytes. Hands back what was written.
fn lent_to_both<A: Told<N>, const N: usize>(
    name: &str,
    files: &[&[u8]],
    lengths: [usize; N],
    call: impl FnOnce([*mut u8; N]) -> A,
    plain_call: impl FnOnce([&mut [u8]; N]) -> A,
) -> (A, [Vec<u8>; N]) {
    let before = lengths.map(|length| (0..length + 2 * GUARD).map(|i| (i * 89 + 165) as u8).collect::<Vec<u8>>());
    let (mut left, mut right) = (before.clone(), before.clone());
    let library = call(left.each_mut().map(|buffer| buffer[GUARD..].as_mut_ptr()));
    let plain = plain_call(right.each_mut().map(|buffer| {
        let end = buffer.len() - GUARD;
        &mut buffer[GUARD..end]
    }));
    let silent = plain.number() == 0 || right == before;
    let shown = |all: &[Vec<u8>]| all.iter().map(|bytes| hex(bytes)).collect::<Vec<_>>().join(" ");
    assert!(
        library == plain && left == right && silent,
        "{name} with {lengths:?} bytes lent\nlibrary {library:?}\nplain   {plain:?}\nlibrary's buffers {}\nplain's buffers   {}\nfiles {}",
        shown(&left),
        shown(&right),
        files.iter().map(|file| hex(file)).collect::<Vec<_>>().join(" ")
    );
    (plain, first_bytes(right, GUARD, plain.written()))
}

/// The answer of a call that lends one buffer, and what it wrote there.
fn only<A>((answer, [written]): (A, [Vec<u8>; 1])) -> (A, Vec<u8>) {
    (answer, written)
}

/// Makes a call with two files, or with a model and a set, by both and compares.
fn lent(name: &str, one: &[u8], other: &[u8], length: usize) -> (Answer, Vec<u8>) {
    let (call, plain_call) = lending(name);
    let library = |[out]: [_; 1]| unsafe { call(one.as_ptr(), one.len(), other.as_ptr(), other.len(), out, length) };
    only(lent_to_both(name, &[one, other], [length], library, |[out]| plain_call(&TODAY, one, other, out)))
}

/// What a call that lends two buffers answers, and what it writes into each.
pub type WrittenPair = (PairAnswer, [Vec<u8>; 2]);

/// Rewrites a pair by both, by the call's name and with lent buffers of these lengths, and compares.
pub fn rewrite_by(name: &str, model: &[u8], certificate: &[u8], lengths: [usize; 2]) -> WrittenPair {
    let (call, plain_call) = lending_two(name);
    let (m, c) = (model.as_ptr(), certificate.as_ptr());
    let library = |[pa, ct]: [_; 2]| unsafe { call(m, model.len(), c, certificate.len(), pa, lengths[0], ct, lengths[1]) };
    lent_to_both(name, &[model, certificate], lengths, library, |[pa, ct]| plain_call(&TODAY, model, certificate, pa, ct))
}

/// Rewrites a pair by both, with buffers of just its lengths, and compares.
pub fn rewrite(model: &[u8], certificate: &[u8]) -> WrittenPair {
    rewrite_by("rewrite", model, certificate, [model.len(), certificate.len()])
}

/// The same of a cost pair.
pub fn rewrite_costs(model: &[u8], certificate: &[u8]) -> WrittenPair {
    rewrite_by("rewrite_costs", model, certificate, [model.len(), certificate.len()])
}

/// Lengths for two buffers around the lengths of their files, each with each.
pub fn around_both(sizes: [usize; 2]) -> impl Iterator<Item = [usize; 2]> {
    let around = |size: usize| [0, 1, size / 2, size - 1, size, size + 1, size + 50];
    around(sizes[0]).into_iter().flat_map(move |m| around(sizes[1]).map(|c| [m, c]))
}

/// Writes the pair with the most flow records by both and compares.
pub fn largest(states: u32, transitions: u32, lengths: [usize; 2]) -> WrittenPair {
    let library = |[pa, ct]: [_; 2]| unsafe { raw::zolkirta_largest(states, transitions, pa, lengths[0], ct, lengths[1]) };
    let name = format!("largest of {states} and {transitions}");
    lent_to_both(&name, &[], lengths, library, |[pa, ct]| TODAY.largest(states, transitions, pa, ct))
}

/// Reads a text of PRISM by both and compares.
pub fn read_prism(text: &[u8], length: usize) -> (Answer, Vec<u8>) {
    let library = |[out]: [_; 1]| unsafe { raw::zolkirta_read_prism(text.as_ptr(), text.len(), out, length) };
    only(lent_to_both("read_prism", &[text], [length], library, |[out]| TODAY.read_prism(text, out)))
}

/// Judges by both and compares.
pub fn judge(model: &[u8], certificate: &[u8], length: usize) -> (Answer, Vec<u8>) {
    lent("judge", model, certificate, length)
}

/// Judges a cost pair by both and compares.
pub fn judge_costs(model: &[u8], certificate: &[u8], length: usize) -> (Answer, Vec<u8>) {
    lent("judge_costs", model, certificate, length)
}

/// Judges a strong pair by both and compares.
pub fn judge_strong(model: &[u8], certificate: &[u8], length: usize) -> (Answer, Vec<u8>) {
    lent("judge_strong", model, certificate, length)
}

/// Reduces by both and compares.
pub fn reduce(model: &[u8], certificate: &[u8], length: usize) -> (Answer, Vec<u8>) {
    lent("reduce", model, certificate, length)
}

/// Writes the sheet by both and compares.
pub fn sheet(model: &[u8], certificate: &[u8], length: usize) -> (Answer, Vec<u8>) {
    lent("sheet", model, certificate, length)
}

/// Joins by both and compares.
pub fn join(first: &[u8], second: &[u8], length: usize) -> (Answer, Vec<u8>) {
    lent("join", first, second, length)
}

/// Composes by both and compares.
pub fn compose(left: &[u8], right: &[u8], length: usize) -> (Answer, Vec<u8>) {
    lent("compose", left, right, length)
}

/// Hides actions by both and compares.
pub fn hide(model: &[u8], actions: &[u8], length: usize) -> (Answer, Vec<u8>) {
    lent("hide", model, actions, length)
}

/// Composes the sentence of an answer by both and compares.
pub fn sentence(of: Answer, length: usize) -> (Answer, Vec<u8>) {
    let Answer { number, file, place, state, remainder, .. } = of;
    let library = |[out]: [_; 1]| unsafe { raw::zolkirta_sentence(number, file, place, state, remainder, out, length) };
    only(lent_to_both(&format!("sentence of {of:?}"), &[], [length], library, |[out]| plain::sentence::sentence(of, out)))
}

/// Asks both for a first count and two states, and compares.
pub fn alike(model: &[u8], certificate: &[u8], [count, s, t]: [u32; 3]) -> AlikeAnswer {
    let (m, c) = (model.as_ptr(), certificate.as_ptr());
    let library = unsafe { raw::zolkirta_alike(m, model.len(), count, c, certificate.len(), s, t) };
    let plain = TODAY.alike(model, count, certificate, s, t);
    let files = || [model, certificate].map(hex).join(" ");
    assert!(library == plain, "alike of {s} and {t}, first count {count}\nlibrary {library:?}\nplain   {plain:?}\nfiles {}", files());
    plain
}

/// Number, place, state and remainder.
pub fn told(answer: Answer) -> (u32, usize, u32, i64) {
    (answer.number, answer.place, answer.state, answer.remainder)
}

/// What breaks where a certificate is refused with 16, 20 or 21, and how its left side is to its right.
pub type Kind = (Broken, Ordering);

/// The kind of an answer for a pair that was judged by a rule; none for other numbers.
pub fn kind_by(rule: Rule, answer: Answer, model: &[u8], certificate: &[u8]) -> Option<Kind> {
    let broken = || BEFORE_K10.broken(rule, model, certificate).expect("a state and a remainder").0;
    matches!(answer.number, 16 | 20 | 21).then(|| (broken(), answer.remainder.cmp(&0)))
}

/// The same for a pair without costs.
pub fn kind(answer: Answer, model: &[u8], certificate: &[u8]) -> Option<Kind> {
    kind_by(Rule::Plain, answer, model, certificate)
}

/// Every kind: in 16 the left side is not below, and an equation is off to either side.
pub fn every_kind() -> BTreeSet<Kind> {
    let prices = [Ordering::Equal, Ordering::Greater].map(|order| (Broken::LastPrices, order));
    let equations = [Broken::AtState, Broken::BeforeMove, Broken::AfterMove, Broken::AtTarget];
    let off = equations.iter().flat_map(|&broken| [(broken, Ordering::Less), (broken, Ordering::Greater)]);
    off.chain(prices).collect()
}

/// How many answers of document 01's three calls had each number, of which kinds those of judging were, and how many pairs were sent
/// through.
pub struct Counts {
    pub answers: [u64; 35],
    pub kinds: BTreeSet<Kind>,
    pub pairs: u64,
}

impl Default for Counts {
    fn default() -> Counts {
        Counts { answers: [0; 35], kinds: BTreeSet::new(), pairs: 0 }
    }
}

impl Counts {
    pub fn count(&mut self, answer: Answer) -> Answer {
        self.answers[answer.number as usize] += 1;
        answer
    }

    /// Sends a pair through the three calls, with these buffer lengths and this state.
    pub fn pair_with(&mut self, model: &[u8], certificate: &[u8], blocks: usize, out: usize, state: u32) -> Answer {
        self.pairs += 1;
        self.count(fetch(model, state));
        self.count(reduce(model, certificate, out).0);
        let answer = self.count(judge(model, certificate, blocks).0);
        self.kinds.extend(kind(answer, model, certificate));
        answer
    }

    /// Sends a pair through the three calls, with buffers that are long enough. Hands back what judging answers.
    pub fn pair(&mut self, model: &[u8], certificate: &[u8]) -> Answer {
        self.pair_with(model, certificate, STATES, model.len(), 0)
    }

    /// Sends every truncation of both files through.
    pub fn truncations(&mut self, model: &[u8], certificate: &[u8]) {
        for size in 0..model.len() {
            self.pair(&model[..size], certificate);
        }
        for size in 0..certificate.len() {
            self.pair(model, &certificate[..size]);
        }
    }

    /// Sends the pair through with every change of one byte.
    pub fn changes(&mut self, model: &[u8], certificate: &[u8]) {
        changes(model, |damaged| _ = self.pair(damaged, certificate));
        changes(certificate, |damaged| _ = self.pair(model, damaged));
    }
}

/// Hands out every change of one byte of a file.
pub fn changes(file: &[u8], mut each: impl FnMut(&[u8])) {
    let mut damaged = file.to_vec();
    for at in 0..file.len() {
        for change in 1..=255 {
            damaged[at] = file[at] ^ change;
            each(&damaged);
        }
        damaged[at] = file[at];
    }
}

impl fmt::Display for Counts {
    fn fmt(&self, out: &mut fmt::Formatter) -> fmt::Result {
        write!(out, "{} pairs; answers by number:", self.pairs)?;
        self.answers.iter().enumerate().try_for_each(|(number, count)| write!(out, " {number}: {count}"))
    }
}

/// The answer of a line: five fields from its number to the start of a run, a state and a remainder where it has them, and the bytes
/// written.
fn answer(fields: &[&str], fetched: bool, out: &[u8]) -> Answer {
    let [number, file, place, stretch_length, run] = [0, 1, 2, 3, 4].map(|i| fields[i].parse().unwrap());
    // A run's start stands in its own field; a stretch starts at its place, and one without a file at 0.
    let stretch_start = if fetched && number == 0 { run } else { place };
    let (state, remainder) = match &fields[5..] {
        [state, remainder] => (state.parse().unwrap(), remainder.parse().unwrap()),
        _ => (0, 0),
    };
    Answer { number: number as u32, file: file as u32, place, stretch_start, stretch_length, written: out.len(), state, remainder }
}

/// A model's file with its fractions in lowest terms, as far as its transitions are whole and add up: the divisor is found by trying.
pub fn in_lowest_terms(file: &[u8]) -> Vec<u8> {
    let mut out = file.to_vec();
    let two = |at: usize| usize::from(file[at]) << 8 | usize::from(file[at + 1]);
    let mut at = 8 + file.get(2).map_or(0, |&n| usize::from(n));
    for _ in 0..if file.len() < 6 { 0 } else { two(4) } {
        let Some(end) = file.get(at + 6).map(|&c| at + 7 + 3 * usize::from(c)).filter(|&end| end <= file.len()) else { break };
        let weights: Vec<usize> = (at + 8..end).step_by(3).collect();
        let least = weights.iter().map(|&p| two(p)).min().unwrap_or(0);
        if least == 0 || weights.iter().map(|&p| two(p)).sum::<usize>() != two(at + 4) {
            break;
        }
        let divisor = (1..=least).rev().find(|g| weights.iter().all(|&p| two(p) % g == 0)).unwrap();
        for field in weights.into_iter().chain([at + 4]) {
            out[field..field + 2].copy_from_slice(&((two(field) / divisor) as u16).to_be_bytes());
        }
        at = end;
    }
    out
}

/// A merged model from before K3 without the transitions that are the same as an earlier one of their block as fractions.
fn as_fractions(merged: &[u8]) -> Vec<u8> {
    let model = plain::read(&BEFORE_K7, Rule::Plain, merged).ok().expect("a merged model");
    let ends = model.transitions.iter().skip(1).map(|r| r.place).chain([merged.len()]);
    let mut out = merged[..8 + model.n()].to_vec();
    let mut kept: Vec<&plain::Transition> = Vec::new();
    for (r, end) in model.transitions.iter().zip(ends) {
        let shares = |r: &plain::Transition, d: i64| r.weights().map(|(c, p)| (c, p * d)).collect::<Vec<_>>();
        let same = |q: &&plain::Transition| (q.source, q.action) == (r.source, r.action) && shares(q, r.d) == shares(r, q.d);
        if !kept.iter().any(same) {
            kept.push(r);
            out.extend(&merged[r.place..end]);
        }
    }
    out[4..6].copy_from_slice(&(kept.len() as u16).to_be_bytes());
    out
}

/// One line of the vectors: a call with its numbers and files, and what it must get.
#[derive(Clone)]
pub struct Line {
    pub text: String,
    /// The file of vectors that it stands in.
    pub name: &'static str,
    pub call: String,
    pub numbers: Vec<u32>,
    pub files: Vec<Vec<u8>>,
    pub said: Said,
}

/// What a call says: its answer, 1 for yes, and the bytes that it wrote into each lent buffer; none were where it lends none.
pub type Said = (Answer, u32, Vec<Vec<u8>>);

/// Who answers a line: the plain judge at some limits, both, or the safe calls.
pub trait Answering {
    fn fetch(&self, model: &[u8], state: u32) -> Answer;
    fn read_prism(&self, text: &[u8], length: usize) -> (Answer, Vec<u8>);
    /// A call, by its name, with two files and a lent buffer of this length, and what it writes there.
    fn lent(&self, call: &str, one: &[u8], other: &[u8], length: usize) -> (Answer, Vec<u8>);
    fn alike(&self, model: &[u8], certificate: &[u8], named: [u32; 3]) -> AlikeAnswer;
    /// A rewriting call, by its name, with lent buffers of these lengths.
    fn rewrite(&self, call: &str, model: &[u8], certificate: &[u8], lengths: [usize; 2]) -> WrittenPair;
    fn largest(&self, states: u32, transitions: u32, lengths: [usize; 2]) -> WrittenPair;
}

/// What a call answers that is lent buffers of these lengths, and what it writes there.
fn written<A: Told<N>, const N: usize>(lengths: [usize; N], call: impl FnOnce([&mut [u8]; N]) -> A) -> (A, [Vec<u8>; N]) {
    let mut buffers = lengths.map(|length| vec![0; length]);
    let answer = call(buffers.each_mut().map(Vec::as_mut_slice));
    (answer, first_bytes(buffers, 0, answer.written()))
}

/// The plain judge by itself.
impl Answering for Limits {
    fn fetch(&self, model: &[u8], state: u32) -> Answer {
        self.fetch(model, state)
    }

    fn read_prism(&self, text: &[u8], length: usize) -> (Answer, Vec<u8>) {
        only(written([length], |[buffer]| self.read_prism(text, buffer)))
    }

    fn lent(&self, call: &str, one: &[u8], other: &[u8], length: usize) -> (Answer, Vec<u8>) {
        only(written([length], |[buffer]| lending(call).1(self, one, other, buffer)))
    }

    fn alike(&self, model: &[u8], certificate: &[u8], [count, s, t]: [u32; 3]) -> AlikeAnswer {
        self.alike(model, count, certificate, s, t)
    }

    fn rewrite(&self, call: &str, model: &[u8], certificate: &[u8], lengths: [usize; 2]) -> WrittenPair {
        written(lengths, |[pa, ct]| lending_two(call).1(self, model, certificate, pa, ct))
    }

    fn largest(&self, states: u32, transitions: u32, lengths: [usize; 2]) -> WrittenPair {
        written(lengths, |[pa, ct]| self.largest(states, transitions, pa, ct))
    }
}

/// The library and the plain judge at today's limits, which are compared.
pub struct Both;

impl Answering for Both {
    fn fetch(&self, model: &[u8], state: u32) -> Answer {
        fetch(model, state)
    }

    fn read_prism(&self, text: &[u8], length: usize) -> (Answer, Vec<u8>) {
        read_prism(text, length)
    }

    fn lent(&self, call: &str, one: &[u8], other: &[u8], length: usize) -> (Answer, Vec<u8>) {
        lent(call, one, other, length)
    }

    fn alike(&self, model: &[u8], certificate: &[u8], named: [u32; 3]) -> AlikeAnswer {
        alike(model, certificate, named)
    }

    fn rewrite(&self, call: &str, model: &[u8], certificate: &[u8], lengths: [usize; 2]) -> WrittenPair {
        rewrite_by(call, model, certificate, lengths)
    }

    fn largest(&self, states: u32, transitions: u32, lengths: [usize; 2]) -> WrittenPair {
        largest(states, transitions, lengths)
    }
}

/// What holds a line from before K10, whatever its terms.
#[derive(Clone, Copy, Debug, PartialEq, Eq, PartialOrd, Ord)]
pub enum Held {
    /// The rewriting accepts its pair, and for the rewritten one its call gets the line's own answer.
    Rewritten,
    /// The rewriting refuses its pair with the line's own answer.
    Refused,
    /// It has no certificate: its call gets the line's own answer for its models in lowest terms.
    InLowestTerms,
    /// The rewriting says what the line does not tell: this number.
    Untold(u32),
}

impl Line {
    /// A line of base.txt or, with further fields, of a request.
    fn new(name: &'static str, text: &str) -> Line {
        let field: Vec<&str> = text.split(' ').collect();
        let (files, fields, yes, out) = match field[..] {
            ["fetch", _, model, .., out] if name == "base" => (vec![model], &field[4..9], 0, out),
            [_, _, model, certificate, .., out] if name == "base" => (vec![model, certificate], &field[4..9], 0, out),
            [_, _, files, .., yes, out] => (files.split(',').collect(), &field[3..10], yes.parse().unwrap(), out),
            _ => panic!("no line of {name}: {text}"),
        };
        let outs: Vec<Vec<u8>> = out.split(',').map(bytes).collect();
        Line {
            text: text.into(),
            name,
            call: field[0].into(),
            numbers: field[1].split(',').map(|number| number.parse().unwrap()).collect(),
            files: files.into_iter().map(bytes).collect(),
            said: (answer(fields, field[0] == "fetch", &outs[0]), yes, outs),
        }
    }

    pub fn number(&self) -> u32 {
        self.said.0.number
    }

    /// An answer as far as the line's file tells it: before K2 no state and no remainder.
    fn told(&self, mut answer: Answer) -> Answer {
        if matches!(self.name, "base" | "k1") && matches!(answer.number, 16 | 20 | 21) {
            (answer.state, answer.remainder) = (0, 0);
        }
        answer
    }

    /// What is said to the line, as far as its file tells it.
    pub fn said_by(&self, calls: &impl Answering) -> Said {
        let lent = |(answer, out)| (answer, 0, vec![out]);
        let two = |(said, outs): WrittenPair| {
            assert_eq!(said.certificate_written, outs[1].len());
            (said.answer, 0, outs.into())
        };
        let (answer, yes, outs) = match (&self.numbers[..], &self.files[..]) {
            (&[state], [model]) if self.call == "fetch" => lent((calls.fetch(model, state), Vec::new())),
            (&[length], [text]) if self.call == "read_prism" => lent(calls.read_prism(text, length as usize)),
            (&[length], [one, other]) => lent(calls.lent(&self.call, one, other, length as usize)),
            (&[model_out, certificate_out], [model, certificate]) => {
                two(calls.rewrite(&self.call, model, certificate, [model_out, certificate_out].map(|x| x as usize)))
            }
            (&[states, transitions, model_out, certificate_out], _) if self.call == "largest" => {
                two(calls.largest(states, transitions, [model_out, certificate_out].map(|x| x as usize)))
            }
            (&[count, s, t], [model, certificate]) if self.call == "alike" => {
                let said = calls.alike(model, certificate, [count, s, t]);
                (said.answer, said.alike, vec![Vec::new()])
            }
            _ => panic!("no such call: {}", self.text),
        };
        (self.told(answer), yes, outs)
    }

    /// The limits that the line was written under.
    pub fn limits(&self) -> &'static Limits {
        match self.name {
            "k9" | "k10" | "k11" | "k13" | "k14" => &TODAY,
            "k7" => &BEFORE_K10,
            _ => &BEFORE_K7,
        }
    }

    /// Whether the line is about the limits from before K7: one of the four numbers that go by them refuses it, and by K7's limits the
    /// plain judge says something else. That it says the line's own answer by the older ones is a test of its own.
    pub fn about_the_limits(&self) -> bool {
        self.limits() == &BEFORE_K7 && matches!(self.number(), 3 | 8 | 13 | 25) && self.said_by(&BEFORE_K10) != self.said
    }

    pub fn before_k10(&self) -> bool {
        self.limits().terms == Terms::Any
    }

    /// Whether the line is from before K10, and 34 refuses it now.
    pub fn in_other_terms(&self) -> bool {
        self.before_k10() && self.said_by(&TODAY).0.number == 34
    }

    /// The line with what it must get since K10 where 34 does not refuse it: a merged or joined model in lowest terms.
    fn since_k10(mut self) -> Line {
        if self.before_k10() && matches!(self.call.as_str(), "reduce" | "join") {
            self.said.2[0] = in_lowest_terms(&self.said.2[0]);
        }
        self
    }

    /// Whether the line has a certificate, and its pair may be rewritten: the call for it.
    fn rewriting(&self) -> Option<&'static str> {
        match self.call.as_str() {
            "judge" | "reduce" | "sheet" | "alike" => Some("rewrite"),
            "judge_costs" => Some("rewrite_costs"),
            _ => None,
        }
    }

    /// Holds a line from before K10 to the reading without 34.
    pub fn held_by(&self, calls: &impl Answering) -> Held {
        let same_for = |files: Vec<Vec<u8>>| Line { files, ..self.clone() }.since_k10().holds_for(calls);
        let Some(call) = self.rewriting() else {
            same_for(self.files.iter().map(|file| in_lowest_terms(file)).collect());
            return Held::InLowestTerms;
        };
        let (said, files) = calls.rewrite(call, &self.files[0], &self.files[1], [0, 1].map(|i| self.files[i].len()));
        match said.answer.number {
            0 => {
                same_for(files.into());
                Held::Rewritten
            }
            _ if self.said.0.file > 0 => {
                assert_eq!(self.told(said.answer), self.said.0, "{}: {}", self.name, self.text);
                Held::Refused
            }
            number => Held::Untold(number),
        }
    }

    /// Asks and compares with the line.
    pub fn holds_for(&self, calls: &impl Answering) {
        assert_eq!(self.said_by(calls), self.said, "{}: {}", self.name, self.text);
    }

    fn reduces_before_k3(&self) -> bool {
        self.call == "reduce" && matches!(self.name, "base" | "k2")
    }

    /// The line with what it must get since K3, by the merged files of its own file of vectors: one of K3, which a buffer that was shorter
    /// than the old one may hold. None where it has 23 and no line has the merged file.
    fn since_k3(mut self, merged: &HashMap<Vec<Vec<u8>>, Vec<u8>>) -> Option<Line> {
        if !self.reduces_before_k3() {
            return Some(self);
        }
        let Some(file) = merged.get(&self.files) else { return (self.number() != 23).then_some(self) };
        if file.len() <= self.numbers[0] as usize {
            self.said = (Answer { written: file.len(), ..Answer::default() }, 0, vec![file.clone()]);
        }
        Some(self)
    }
}

/// The files of vectors, in the order in which they came.
pub const NAMES: [&str; 12] = ["base", "k1", "k2", "k3", "k4", "k6", "k7", "k9", "k10", "k11", "k13", "k14"];

/// The lines of a file of vectors.
fn lines_of(name: &'static str) -> Vec<Line> {
    let text = std::fs::read_to_string(format!("{}/../../vectors/{name}.txt", env!("CARGO_MANIFEST_DIR"))).unwrap();
    let all: Vec<Line> = text.lines().map(|line| Line::new(name, line)).collect();
    let accepted = all.iter().filter(|v| v.reduces_before_k3() && v.number() == 0);
    let merged = accepted.map(|v| (v.files.clone(), as_fractions(&v.said.2[0]))).collect();
    all.into_iter().filter_map(|v| v.since_k3(&merged)).collect()
}

/// All lines, with what they must get by the limits that they were written under.
pub fn all_lines() -> Vec<Line> {
    NAMES.into_iter().flat_map(lines_of).collect()
}

/// The lines that are not about the older limits.
pub fn of_todays_limits() -> impl Iterator<Item = Line> {
    all_lines().into_iter().filter(|v| !v.about_the_limits())
}

/// Of these the ones that 34 does not refuse, with what they must get today.
pub fn lines() -> Vec<Line> {
    of_todays_limits().filter(|v| !v.in_other_terms()).map(Line::since_k10).collect()
}

type Pair = (Vec<u8>, Vec<u8>);

/// The pairs of some lines, the shorter ones first, each once and at most three for one model.
fn pairs_of(told: impl Fn(&Line) -> bool) -> Vec<Pair> {
    let told = of_todays_limits().filter(|v| told(v));
    let mut pairs: Vec<_> = told.map(|mut v| (v.files.remove(0), v.files.remove(0))).collect();
    pairs.sort_by_key(|(model, certificate)| (model.len() + certificate.len(), model.clone(), certificate.clone()));
    pairs.dedup();
    let mut of_model = HashMap::new();
    pairs.retain(|(model, _)| {
        let count = of_model.entry(model.clone()).or_insert(0);
        *count += 1;
        *count <= 3
    });
    pairs
}

/// The accepted pairs of base.txt and k7.txt, in the terms that they are stored in.
pub fn stored() -> Vec<Pair> {
    let judged = |v: &Line| matches!(v.call.as_str(), "judge" | "reduce") && matches!(v.number(), 0 | 23);
    pairs_of(|v| matches!(v.name, "base" | "k7") && judged(v))
}

/// The accepted cost pairs of the vectors, likewise.
pub fn stored_costs() -> Vec<Pair> {
    pairs_of(|v| v.call == "judge_costs" && v.number() == 0)
}

/// The accepted strong pairs of the vectors.
pub fn accepted_strong() -> Vec<Pair> {
    pairs_of(|v| v.call == "judge_strong" && v.number() == 0)
}

/// Stored pairs once rewritten; those with a k that does not fit then are left out.
fn rewritten(pairs: Vec<Pair>, rewrite: impl Fn(&[u8], &[u8]) -> WrittenPair) -> Vec<Pair> {
    let all = pairs.into_iter().map(|(model, certificate)| rewrite(&model, &certificate));
    let fitting = all.filter(|(said, _)| {
        assert!(matches!(said.answer.number, 0 | 35));
        said.answer.number == 0
    });
    fitting.map(|(_, [model, certificate])| (model, certificate)).collect()
}

/// The accepted pairs of base.txt and k7.txt, rewritten.
pub fn accepted() -> Vec<Pair> {
    rewritten(stored(), rewrite)
}

/// The accepted cost pairs of the vectors, rewritten.
pub fn accepted_costs() -> Vec<Pair> {
    rewritten(stored_costs(), rewrite_costs)
}

/// The texts of the vectors that are read.
pub fn accepted_texts() -> Vec<Vec<u8>> {
    lines_of("k9").into_iter().filter(|v| v.number() == 0).map(|mut v| v.files.remove(0)).collect()
}

/// A seeded generator of numbers; a test that fails says its seed.
pub struct Numbers {
    seed: u64,
    state: u64,
}

impl Numbers {
    pub fn new(seed: u64) -> Numbers {
        Numbers { seed, state: seed }
    }

    pub fn any(&mut self) -> u64 {
        // splitmix64
        self.state = self.state.wrapping_add(0x9e3779b97f4a7c15);
        let x = (self.state ^ self.state >> 30).wrapping_mul(0xbf58476d1ce4e5b9);
        let x = (x ^ x >> 27).wrapping_mul(0x94d049bb133111eb);
        x ^ x >> 31
    }

    pub fn below(&mut self, n: usize) -> usize {
        (self.any() % n as u64) as usize
    }

    pub fn of<'a, T>(&mut self, all: &'a [T]) -> &'a T {
        &all[self.below(all.len())]
    }

    pub fn bytes(&mut self, size: usize) -> Vec<u8> {
        (0..size).map(|_| self.any() as u8).collect()
    }

    /// A number of any width up to 64 bits, each as likely.
    pub fn of_any_width(&mut self) -> u64 {
        let width = self.below(65) as u32;
        self.any().checked_shr(64 - width).unwrap_or(0)
    }

    /// An answer with any values, half of them with a number that has a phrase of its own.
    pub fn answer(&mut self) -> Answer {
        let number = if self.below(2) == 0 { self.below(42) as u32 } else { self.of_any_width() as u32 };
        let (file, state) = (self.of_any_width() as u32, self.of_any_width() as u32);
        let remainder = (self.of_any_width() as i64).wrapping_mul([1, -1][self.below(2)]);
        Answer { number, file, place: self.of_any_width() as usize, state, remainder, ..Answer::default() }
    }
}

impl Drop for Numbers {
    fn drop(&mut self) {
        if std::thread::panicking() {
            eprintln!("seed {}", self.seed);
        }
    }
}

/// How often a random test is repeated: twenty times as often with ZOLKIRTA_LONG=1.
pub fn rounds(times: u64) -> u64 {
    match std::env::var("ZOLKIRTA_LONG") {
        Ok(long) if long == "1" => 20 * times,
        _ => times,
    }
}
