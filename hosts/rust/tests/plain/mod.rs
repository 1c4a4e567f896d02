//! Document 01's judge, reduce and fetch, document 02's join and alike (K1), the state and the remainder of 16, 20 and 21 (K2), its merged
//! transitions that are the same as fractions (K3), its block sheet (K4), its cost pairs (K6), its limits (K7), its texts of PRISM (K9), its
//! lowest terms (K10), its parallel composition and its hiding (K11), its sentences (K12), its largest certificates (K13) and its strong pairs (K14)
//! in plain Rust, written from the documents alone: what the library is compared with. Every call but that of sentences is one of a set of limits,
//! today's or older ones.
//!
//! Every sum fits an i64. Weights of a transition add up to at most 65,535, so weights times prices stay below 2^47 and a difference
//! of two such sums below 2^48; L times cost times d is below 2^53. k times d is below 2^48, and a state's equation has at most 768 of
//! them (each layer and transition once), 128 w and one D: below 2^58. d0 times the at most 128 w onto a state is below 2^55. k times d times
//! cost is below 2^54, and at most 511 of them are paid: 256 transitions, of which all but the moves stand in two layers. That is below 2^63.

mod largest;
mod prism;
pub mod sentence;

pub use zolkirta::raw::{AlikeAnswer, Answer, PairAnswer};

/// The terms that the fractions of a model that is read may have, and those that a merged model is written in.
#[derive(Clone, Copy, Debug, PartialEq, Eq)]
pub enum Terms {
    /// Any are read, and a merged transition keeps its d.
    Any,
    Lowest,
}

/// The most that a model and a certificate may have, and the terms. Actions, transitions and labels are the same in all of them.
#[derive(Clone, Copy, Debug, PartialEq, Eq)]
pub struct Limits {
    pub states: usize,
    pub entries: usize,
    pub refutations: usize,
    pub terms: Terms,
}

/// Document 01's limits.
pub const BEFORE_K7: Limits = Limits { states: 64, entries: 1024, refutations: 2016, terms: Terms::Any };

/// The limits of K7.
pub const BEFORE_K10: Limits = Limits { states: 128, entries: 2048, refutations: 8128, terms: Terms::Any };

/// The limits of K7, and K10's terms.
pub const TODAY: Limits = Limits { terms: Terms::Lowest, ..BEFORE_K10 };

/// The most states by any limits, the length of every table.
const STATES: usize = TODAY.states;

const ACTIONS: u8 = 32;
pub const TRANSITIONS: usize = 256;
const LABEL: u8 = 63;
const DENOMINATOR: i64 = 65_535;

/// The step rule that a pair is judged by: document 01's, K6's with costs, or K14's.
#[derive(Clone, Copy, Debug, PartialEq, Eq)]
pub enum Rule {
    Plain,
    Costs,
    Strong,
}

impl Rule {
    /// The mark of a certificate's head.
    pub fn mark(self) -> &'static [u8; 2] {
        match self {
            Rule::Plain => b"CT",
            Rule::Costs => b"CC",
            Rule::Strong => b"CS",
        }
    }
}

/// What breaks where a refusal has a state and a remainder.
#[derive(Clone, Copy, Debug, PartialEq, Eq, PartialOrd, Ord)]
pub enum Broken {
    LastPrices,
    /// An equation at v for an internal challenger, but by the strong rule.
    AtState,
    /// Equations at v for an external challenger; by the strong rule the equation of D, at t, and those at v.
    BeforeMove,
    AfterMove,
    /// An equation at u.
    AtTarget,
}

/// What breaks, at which state, and its left side less its right.
pub type Off = (Broken, usize, i64);

/// A refusal's number and the place of the record at fault.
pub struct Fault {
    number: u32,
    place: usize,
    off: Option<Off>,
}

fn fault<T>(number: u32, place: usize) -> Result<T, Fault> {
    Err(Fault { number, place, off: None })
}

fn off<T>(number: u32, place: usize, broken: Broken, state: usize, remainder: i64) -> Result<T, Fault> {
    Err(Fault { number, place, off: Some((broken, state, remainder)) })
}

pub struct Transition<'a> {
    pub place: usize,
    pub source: usize,
    pub action: u8,
    pub d: i64,
    /// 0 without costs.
    cost: i64,
    entries: &'a [u8],
}

impl Transition<'_> {
    /// The states that the transition leads to, with their weights.
    pub fn weights(&self) -> impl Iterator<Item = (usize, i64)> + Clone + '_ {
        self.entries.chunks_exact(3).map(|e| (usize::from(e[0]), i64::from(two(e, 1))))
    }

    /// The greatest common divisor of the weights, which divides d too: d is their sum.
    pub fn divisor(&self) -> i64 {
        divisor(self.weights())
    }

    /// The sum of p(v) times the price of v.
    fn price(&self, prices: &[i64]) -> i64 {
        self.weights().map(|(v, p)| p * prices[v]).sum()
    }
}

pub struct Model<'a> {
    rule: Rule,
    pub m: u8,
    pub labels: &'a [u8],
    pub transitions: Vec<Transition<'a>>,
}

impl<'a> Model<'a> {
    pub fn n(&self) -> usize {
        self.labels.len()
    }

    /// The transitions that leave a state.
    pub fn leaving(&self, state: usize) -> &[Transition<'a>] {
        let first = self.transitions.partition_point(|r| r.source < state);
        let past = self.transitions.partition_point(|r| r.source <= state);
        &self.transitions[first..past]
    }
}

/// The related pairs: a row of one bit for each state, in words of 64.
struct Related([[u64; STATES / 64]; STATES]);

impl Related {
    fn new(labels: &[u8]) -> Related {
        let mut rows = [[0; STATES / 64]; STATES];
        for (v, label) in labels.iter().enumerate() {
            for (u, other) in labels.iter().enumerate() {
                rows[v][u / 64] |= u64::from(label == other) << (u % 64);
            }
        }
        Related(rows)
    }

    fn holds(&self, v: usize, u: usize) -> bool {
        self.0[v][u / 64] >> (u % 64) & 1 == 1
    }

    fn count(&self, v: usize) -> usize {
        (0..STATES).filter(|&u| self.holds(v, u)).count()
    }

    fn remove(&mut self, s: usize, t: usize) {
        self.0[s][t / 64] &= !(1 << (t % 64));
        self.0[t][s / 64] &= !(1 << (s % 64));
    }
}

fn two(s: &[u8], at: usize) -> u16 {
    u16::from_be_bytes([s[at], s[at + 1]])
}

fn four(s: &[u8], at: usize) -> u32 {
    u32::from_be_bytes([s[at], s[at + 1], s[at + 2], s[at + 3]])
}

fn gcd(a: i64, b: i64) -> i64 {
    if b == 0 { a } else { gcd(b, a % b) }
}

/// The greatest common divisor of some weights.
fn divisor(weights: impl Iterator<Item = (usize, i64)>) -> i64 {
    weights.fold(0, |g, (_, p)| gcd(g, p))
}

/// The file from a record's place on, once its mark is right and its fixed part is whole. `ends` is the number for a file that ends
/// inside a record; the next number is that of a wrong mark.
fn record<'a>(file: &'a [u8], at: usize, mark: &[u8; 2], fixed: usize, ends: u32) -> Result<&'a [u8], Fault> {
    let bytes = &file[at..];
    if bytes.len() < 2 {
        return fault(ends, at);
    }
    if bytes[..2] != *mark {
        return fault(ends + 1, at);
    }
    if bytes.len() < fixed {
        return fault(ends, at);
    }
    Ok(bytes)
}

/// Reads a model, refusals 1 to 9 and, where the terms must be lowest, 34, or a cost model: 29 as well.
pub fn read<'a>(limits: &Limits, rule: Rule, file: &'a [u8]) -> Result<Model<'a>, Fault> {
    let head = record(file, 0, b"PA", 6, 1)?;
    let (n, m, count) = (usize::from(head[2]), head[3], usize::from(two(head, 4)));
    if !(1..=limits.states).contains(&n) || !(1..=ACTIONS).contains(&m) || count > TRANSITIONS {
        return fault(3, 0);
    }
    let labels = &record(file, 6, b"LB", 2 + n, 1)?[2..2 + n];
    if labels.iter().any(|&label| label > LABEL) {
        return fault(4, 6);
    }
    let mut transitions: Vec<Transition> = Vec::with_capacity(count);
    let (mut at, mut last_source, mut total) = (8 + n, 0, 0);
    for _ in 0..count {
        let bytes = record(file, at, b"TR", 7, 1)?;
        let (source, action, d, c) = (usize::from(bytes[2]), bytes[3], i64::from(two(bytes, 4)), usize::from(bytes[6]));
        if source < last_source || source >= n || action >= m || d == 0 || c == 0 || c > n {
            return fault(5, at);
        }
        total += c;
        if total > limits.entries {
            return fault(8, at);
        }
        let size = 7 + 3 * c;
        if bytes.len() < size {
            return fault(1, at);
        }
        let transition = Transition { place: at, source, action, d, cost: 0, entries: &bytes[7..size] };
        let (mut lowest, mut sum) = (0, 0);
        for (state, weight) in transition.weights() {
            if state < lowest || state >= n || weight == 0 {
                return fault(6, at);
            }
            lowest = state + 1;
            sum += weight;
        }
        if sum != d {
            return fault(7, at);
        }
        if limits.terms == Terms::Lowest && transition.divisor() > 1 {
            return fault(34, at);
        }
        transitions.push(transition);
        last_source = source;
        at += size;
    }
    if rule == Rule::Costs {
        let costs = &record(file, at, b"CO", 2 + count, 1)?[2..2 + count];
        for (i, &cost) in costs.iter().enumerate() {
            if cost > 63 {
                return fault(29, at + 2 + i);
            }
            transitions[i].cost = i64::from(cost);
        }
        at += 2 + count;
    }
    if at < file.len() {
        return fault(9, at);
    }
    Ok(Model { rule, m, labels, transitions })
}

/// Judges the refutation at a place, refusals 11, 12 and 14 to 16: the pair that it removes, and the place after it.
fn refutation(model: &Model, related: &Related, file: &[u8], at: usize) -> Result<(usize, usize, usize), Fault> {
    let n = model.n();
    let bytes = record(file, at, b"PX", 5, 11)?;
    let (challenger, t) = (usize::from(two(bytes, 2)), usize::from(bytes[4]));
    if challenger >= model.transitions.len() || t >= n {
        return fault(14, at);
    }
    let challenger = &model.transitions[challenger];
    let s = challenger.source;
    if t == s || !related.holds(s, t) {
        return fault(14, at);
    }
    let (external, strong) = (challenger.action != 0, model.rule == Rule::Strong);
    let count = if strong { 1 + 2 * n } else if external { 3 * n } else { 2 * n };
    let size = 5 + 4 * (count + usize::from(model.rule == Rule::Costs));
    if bytes.len() < size {
        return fault(11, at);
    }
    let mut prices = [0; 3 * STATES + 1];
    for (price, field) in prices.iter_mut().zip(bytes[5..size].chunks_exact(4)) {
        *price = i64::from(four(field, 0) as i32);
    }
    // For an internal challenger A stands where B would; the strong rule has both, and one A, that of t.
    let (a, b, g) = (&prices[..n], &prices[count - 2 * n..count - n], &prices[count - n..count]);
    let of_t = if strong { prices[0] } else { a[t] };
    // Behind them stands L, and without costs 0.
    let paid = |r: &Transition| prices[count] * r.cost * r.d;
    let breaks = |r: &Transition, from: i64, to: &[i64]| r.d * from < r.price(to) + paid(r);
    let moves = |r: &Transition| r.action == challenger.action;
    let any_breaks = if strong {
        model.leaving(t).iter().any(|r| moves(r) && breaks(r, of_t, b))
    } else {
        let inside = |r: &Transition| breaks(r, a[r.source], a) || external && breaks(r, b[r.source], b);
        model.transitions.iter().any(|r| r.action == 0 && inside(r) || external && moves(r) && breaks(r, a[r.source], b))
    };
    if any_breaks {
        return fault(15, at);
    }
    for (row, price) in related.0.iter().zip(b) {
        for (word, prices) in row.iter().zip(g.chunks(64)) {
            if prices.iter().enumerate().any(|(u, g)| word >> u & 1 == 1 && price < g) {
                return fault(15, at);
            }
        }
    }
    let remainder = challenger.d * of_t - (challenger.price(g) + paid(challenger));
    if remainder >= 0 {
        return off(16, at, Broken::LastPrices, t, remainder);
    }
    Ok((s, t, at + size))
}

/// The first remainder that is not 0, and where it stands. Apart from the test whether there is one, which every flow takes.
#[cold]
fn first_broken(remainders: &[i64]) -> (usize, i64) {
    remainders.iter().copied().enumerate().find(|&(_, x)| x != 0).expect("an equation that breaks")
}

/// A sum for each state: of the w onto it, before the move, and after it.
type Sums = [[i64; STATES]; 3];

/// A challenger and its defender.
type Question<'a, 'b> = (&'a Transition<'b>, usize);

/// Judges the flow at a place for a question, refusals 11, 12, 19 to 21 and 30: the place after it.
fn flow(model: &Model, related: &Related, sums: &mut Sums, file: &[u8], (challenger, t): Question, at: usize) -> Result<usize, Fault> {
    let n = model.n();
    let bytes = record(file, at, b"FL", 8, 11)?;
    let (big, k_count) = (i64::from(four(bytes, 2)), usize::from(two(bytes, 6)));
    if big == 0 {
        return fault(19, at);
    }
    let middle = 8 + 7 * k_count;
    if bytes.len() < middle {
        return fault(11, at);
    }
    let (external, strong) = (challenger.action != 0, model.rule == Rule::Strong);
    let stays = usize::from(external || strong);
    sums[..2 + stays].iter_mut().for_each(|side| side[..n].fill(0));
    // What arrives at each state less what leaves it: [0] before the move, [1] after it.
    let [onto, left @ ..] = sums;
    left[0][t] = big;
    let mut paid = 0;
    let mut last = None;
    for e in bytes[8..middle].chunks_exact(7) {
        let (layer, r, k) = (e[0], usize::from(two(e, 1)), i64::from(four(e, 3)));
        if last >= Some((layer, r)) || r >= model.transitions.len() || k == 0 {
            return fault(19, at);
        }
        last = Some((layer, r));
        let r = &model.transitions[r];
        let (from, to) = match layer {
            1 if strong && r.source == t && r.action == challenger.action => (0, 1),
            _ if strong => return fault(19, at),
            0 if r.action == 0 => (0, 0),
            1 if external && r.action == challenger.action => (0, 1),
            2 if external && r.action == 0 => (1, 1),
            _ => return fault(19, at),
        };
        left[from][r.source] -= k * r.d;
        for (v, p) in r.weights() {
            left[to][v] += k * p;
        }
        paid += k * r.d * r.cost;
    }
    if bytes.len() < middle + 2 {
        return fault(11, at);
    }
    let size = middle + 2 + 6 * usize::from(two(bytes, middle));
    if bytes.len() < size {
        return fault(11, at);
    }
    let mut last = None;
    for e in bytes[middle + 2..size].chunks_exact(6) {
        let (v, u, w) = (usize::from(e[0]), usize::from(e[1]), i64::from(four(e, 2)));
        if last >= Some((v, u)) || v >= n || u >= n || !related.holds(v, u) || w == 0 {
            return fault(19, at);
        }
        last = Some((v, u));
        left[stays][v] -= w;
        onto[u] += w;
    }
    let breaks = |side: &[i64; STATES]| side[..n].iter().any(|&x| x != 0);
    if let Some(side) = left[..=stays].iter().position(breaks) {
        let (v, remainder) = first_broken(&left[side]);
        let broken = if stays == 0 { Broken::AtState } else if side == 0 { Broken::BeforeMove } else { Broken::AfterMove };
        return off(20, at, broken, v, remainder);
    }
    onto[..n].iter_mut().for_each(|w| *w *= challenger.d);
    for (u, p) in challenger.weights() {
        onto[u] -= p * big;
    }
    if onto[..n].iter().any(|&x| x != 0) {
        let (u, remainder) = first_broken(onto);
        return off(21, at, Broken::AtTarget, u, remainder);
    }
    if paid != challenger.cost * big {
        return fault(30, at);
    }
    Ok(at + size)
}

/// What an accepted certificate says: the bytes of its blocks, the pairs left, and where its flows begin.
struct Accepted<'a> {
    blocks: &'a [u8],
    related: Related,
    flows: Vec<usize>,
}

/// Judges a certificate for a sound model, refusals 11 to 22 and 30.
fn certificate<'a>(limits: &Limits, model: &Model, file: &'a [u8]) -> Result<Accepted<'a>, Fault> {
    let n = model.n();
    let count = usize::from(two(record(file, 0, model.rule.mark(), 4, 11)?, 2));
    if count > limits.refutations {
        return fault(13, 0);
    }
    let mut related = Related::new(model.labels);
    let mut at = 4;
    for _ in 0..count {
        let (s, t, next) = refutation(model, &related, file, at)?;
        related.remove(s, t);
        at = next;
    }
    let blocks = &record(file, at, b"BK", 2 + n, 11)?[2..2 + n];
    let mut seen = 0;
    for &block in blocks {
        if block > seen {
            return fault(17, at);
        }
        if block == seen {
            seen += 1;
        }
    }
    for v in 0..n {
        for u in 0..n {
            if (blocks[v] == blocks[u]) != related.holds(v, u) {
                return fault(18, at);
            }
        }
    }
    at += 2 + n;
    let (mut sums, mut flows) = ([[0; STATES]; 3], Vec::new());
    for s in 0..n {
        let leaving = model.leaving(s);
        for t in (0..n).filter(|&t| t != s && blocks[t] == blocks[s]) {
            for challenger in leaving {
                flows.push(at);
                at = flow(model, &related, &mut sums, file, (challenger, t), at)?;
            }
        }
    }
    if at < file.len() {
        return fault(22, at);
    }
    Ok(Accepted { blocks, related, flows })
}

/// A model's file without its transitions.
fn head_and_labels(labels: &[u8], m: u8, transitions: usize) -> Vec<u8> {
    [&b"PA"[..], &[labels.len() as u8, m], &(transitions as u16).to_be_bytes(), b"LB", labels].concat()
}

/// A transition that is written: source, action and d.
type Written = (usize, u8, i64);

/// Appends a transition's record, with d and these weights as they are or in lowest terms.
fn append(out: &mut Vec<u8>, terms: Terms, (source, action, d): Written, weights: impl Iterator<Item = (usize, i64)> + Clone) {
    let by = if terms == Terms::Lowest { divisor(weights.clone()) } else { 1 };
    let number = |x: i64| ((x / by) as u16).to_be_bytes();
    out.extend([b'T', b'R', source as u8, action]);
    out.extend(number(d));
    out.push(weights.clone().count() as u8);
    for (v, p) in weights {
        out.push(v as u8);
        out.extend(number(p));
    }
}

/// The merged model's file.
fn merged(terms: Terms, model: &Model, blocks: &[u8]) -> Vec<u8> {
    let count = usize::from(*blocks.iter().max().unwrap()) + 1;
    let member = |block: usize| blocks.iter().position(|&b| usize::from(b) == block).unwrap();
    let labels: Vec<u8> = (0..count).map(|block| model.labels[member(block)]).collect();
    let mut out = head_and_labels(&labels, model.m, 0);
    let mut written = 0u16;
    for block in 0..count {
        // Of each kept transition of the block: action, d and the weight to each block.
        let mut kept: Vec<(u8, i64, [i64; STATES])> = Vec::new();
        for r in model.transitions.iter().filter(|r| usize::from(blocks[r.source]) == block) {
            let mut weights = [0; STATES];
            for (v, p) in r.weights() {
                weights[usize::from(blocks[v])] += p;
            }
            let in_terms = |d: i64, other: &[i64; STATES]| (0..count).all(|c| other[c] * r.d == weights[c] * d);
            if kept.iter().any(|(action, d, other)| *action == r.action && in_terms(*d, other)) {
                continue;
            }
            append(&mut out, terms, (block, r.action, r.d), weights.iter().copied().enumerate().filter(|&(_, p)| p > 0));
            kept.push((r.action, r.d, weights));
            written += 1;
        }
    }
    out[4..6].copy_from_slice(&written.to_be_bytes());
    out
}

/// The file of two models written as one; none where it passes a limit.
fn joined(limits: &Limits, first: &Model, second: &Model) -> Option<Vec<u8>> {
    let labels = [first.labels, second.labels].concat();
    let count = first.transitions.len() + second.transitions.len();
    let entries: usize = [first, second].iter().flat_map(|model| &model.transitions).map(|r| r.entries.len() / 3).sum();
    if labels.len() > limits.states || count > TRANSITIONS || entries > limits.entries {
        return None;
    }
    let mut out = head_and_labels(&labels, first.m.max(second.m), count);
    for (model, raised) in [(first, 0), (second, first.n())] {
        for r in &model.transitions {
            append(&mut out, Terms::Any, (r.source + raised, r.action, r.d), r.weights().map(|(v, p)| (v + raised, p)));
        }
    }
    Some(out)
}

/// The file of two models that work side by side; none where it passes a limit.
fn composed(limits: &Limits, left: &Model, right: &Model) -> Option<Vec<u8>> {
    let (n, m) = (right.n(), left.m.max(right.m));
    let state = |s: usize, e: usize| s * n + e;
    let labels_of_right = usize::from(*right.labels.iter().max().unwrap()) + 1;
    let label = |s: usize, e: usize| usize::from(left.labels[s]) * labels_of_right + usize::from(right.labels[e]);
    let states: Vec<(usize, usize)> = (0..left.n()).flat_map(|s| (0..n).map(move |e| (s, e))).collect();
    if states.len() > limits.states || states.iter().any(|&(s, e)| label(s, e) > usize::from(LABEL)) {
        return None;
    }
    let labels: Vec<u8> = states.iter().map(|&(s, e)| label(s, e) as u8).collect();
    let shared = |r: &Transition| 0 < r.action && r.action < left.m.min(right.m);
    let mut out = head_and_labels(&labels, m, 0);
    let (mut count, mut entries) = (0, 0);
    // Writes a move, by what it has to write, unless it passes a limit.
    let mut write = |(s, e): (usize, usize), action: u8, d: i64, weights: &[(usize, i64)]| {
        count += 1;
        entries += weights.len();
        let keeps = count <= TRANSITIONS && entries <= limits.entries && d <= DENOMINATOR;
        keeps.then(|| append(&mut out, Terms::Any, (state(s, e), action, d), weights.iter().copied()))
    };
    for (s, e) in states {
        for l in left.leaving(s) {
            if !shared(l) {
                write((s, e), l.action, l.d, &l.weights().map(|(v, p)| (state(v, e), p)).collect::<Vec<_>>())?;
                continue;
            }
            for r in right.leaving(e).iter().filter(|r| r.action == l.action) {
                let weights: Vec<_> = l.weights().flat_map(|(v, p)| r.weights().map(move |(f, q)| (state(v, f), p * q))).collect();
                write((s, e), l.action, l.d * r.d, &weights)?;
            }
        }
        for r in right.leaving(e).iter().filter(|r| !shared(r)) {
            write((s, e), r.action, r.d, &r.weights().map(|(f, q)| (state(s, f), q)).collect::<Vec<_>>())?;
        }
    }
    put(&mut out, 4, 2, count as u64);
    Some(out)
}

/// The file of a model with the external actions of a set made internal.
fn hidden(model: &Model, file: &[u8], actions: &[u8]) -> Vec<u8> {
    let mut out = file.to_vec();
    for r in model.transitions.iter().filter(|r| actions.contains(&r.action)) {
        put(&mut out, r.place + 3, 1, 0);
    }
    out
}

/// A field of so many bytes as another value.
fn put(file: &mut [u8], at: usize, width: usize, value: u64) {
    file[at..at + width].copy_from_slice(&value.to_be_bytes()[8 - width..]);
}

/// The files of an accepted pair in lowest terms, refusal 35.
fn rewritten(model: &Model, model_file: &[u8], accepted: &Accepted, certificate_file: &[u8]) -> Result<[Vec<u8>; 2], Fault> {
    let [mut pa, mut ct] = [model_file, certificate_file].map(<[u8]>::to_vec);
    let divisors: Vec<i64> = model.transitions.iter().map(Transition::divisor).collect();
    for (r, g) in model.transitions.iter().zip(&divisors) {
        put(&mut pa, r.place + 4, 2, (r.d / g) as u64);
        for (i, (_, p)) in r.weights().enumerate() {
            put(&mut pa, r.place + 8 + 3 * i, 2, (p / g) as u64);
        }
    }
    for &flow in &accepted.flows {
        for i in 0..usize::from(two(certificate_file, flow + 6)) {
            let entry = flow + 8 + 7 * i;
            let k = u64::from(four(certificate_file, entry + 3)) * divisors[usize::from(two(certificate_file, entry + 1))] as u64;
            if k > u64::from(u32::MAX) {
                return fault(35, flow);
            }
            put(&mut ct, entry + 3, 4, k);
        }
    }
    Ok([pa, ct])
}

/// A refusal in a file, with the stretch from its place to the file's end.
fn refused(file: u32, bytes: &[u8], Fault { number, place, off }: Fault) -> Answer {
    let (state, remainder) = off.map_or((0, 0), |(_, state, remainder)| (state as u32, remainder));
    Answer { number, file, place, stretch_start: place, stretch_length: bytes.len() - place, written: 0, state, remainder }
}

/// An answer without a file.
fn numbered(number: u32) -> Answer {
    Answer { number, ..Answer::default() }
}

/// The blocks on paper.
fn sheet_of(blocks: &[u8], related: &Related) -> String {
    let mut out = String::new();
    for block in 0..=*blocks.iter().max().unwrap() {
        let members: Vec<usize> = (0..blocks.len()).filter(|&v| blocks[v] == block).collect();
        for (i, states) in members.chunks(16).enumerate() {
            let front = if i == 0 { format!("{block:4}{:4}", related.count(members[0])) } else { " ".repeat(8) };
            let cells: String = states.iter().map(|v| format!("{v:4}")).collect();
            out += &format!("{:72}\n", front + &cells);
        }
    }
    out
}

/// What a pair is judged to be: the model and the accepted certificate, or a refusal.
type Judged<'a> = Result<(Model<'a>, Accepted<'a>), Answer>;

/// Writes a file first into the buffer, or refuses with this number where the buffer is shorter.
fn write(file: &[u8], buffer: &mut [u8], shorter: u32) -> Answer {
    if buffer.len() < file.len() {
        return numbered(shorter);
    }
    buffer[..file.len()].copy_from_slice(file);
    Answer { written: file.len(), ..Answer::default() }
}

/// A refusal where two files are asked for.
fn refused_pair(answer: Answer) -> PairAnswer {
    PairAnswer { answer, certificate_written: 0 }
}

/// Writes a model and a certificate first into their buffers, or refuses with this number where one is shorter.
fn write_both([pa, ct]: [Vec<u8>; 2], [model_out, certificate_out]: [&mut [u8]; 2], shorter: u32) -> PairAnswer {
    if model_out.len() < pa.len() || certificate_out.len() < ct.len() {
        return refused_pair(numbered(shorter));
    }
    PairAnswer { answer: write(&pa, model_out, shorter), certificate_written: write(&ct, certificate_out, shorter).written }
}

/// The calls.
impl Limits {
    /// The transitions that leave a state, as a run of the model's bytes.
    pub fn fetch(&self, model: &[u8], state: u32) -> Answer {
        let sound = match read(self, Rule::Plain, model) {
            Ok(sound) => sound,
            Err(fault) => return refused(1, model, fault),
        };
        if state as usize >= sound.n() {
            return numbered(24);
        }
        let run = sound.leaving(state as usize);
        let (Some(first), Some(last)) = (run.first(), run.last()) else {
            return Answer::default();
        };
        let end = last.place + 7 + last.entries.len();
        Answer { stretch_start: first.place, stretch_length: end - first.place, ..Answer::default() }
    }

    /// Judges a pair with room for so many blocks.
    fn judged<'a>(&self, rule: Rule, model: &'a [u8], certificate_file: &'a [u8], room: usize) -> Judged<'a> {
        let sound = read(self, rule, model).map_err(|fault| refused(1, model, fault))?;
        if room < sound.n() {
            return Err(numbered(10));
        }
        let accepted = certificate(self, &sound, certificate_file).map_err(|fault| refused(2, certificate_file, fault))?;
        Ok((sound, accepted))
    }

    /// What breaks in a certificate that is refused with 16, 20 or 21.
    pub fn broken(&self, rule: Rule, model: &[u8], certificate_file: &[u8]) -> Option<Off> {
        certificate(self, &read(self, rule, model).ok()?, certificate_file).err()?.off
    }

    /// Judges a certificate for a model by a rule; on acceptance the blocks stand first in the buffer.
    fn judge_by(&self, rule: Rule, model: &[u8], certificate: &[u8], buffer: &mut [u8]) -> Answer {
        match self.judged(rule, model, certificate, buffer.len()) {
            Ok((_, Accepted { blocks, .. })) => {
                buffer[..blocks.len()].copy_from_slice(blocks);
                Answer { written: blocks.len(), ..Answer::default() }
            }
            Err(answer) => answer,
        }
    }

    /// Judges a certificate for a model; on acceptance the blocks stand first in the buffer.
    pub fn judge(&self, model: &[u8], certificate: &[u8], buffer: &mut [u8]) -> Answer {
        self.judge_by(Rule::Plain, model, certificate, buffer)
    }

    /// The same of a cost model.
    pub fn judge_costs(&self, model: &[u8], certificate: &[u8], buffer: &mut [u8]) -> Answer {
        self.judge_by(Rule::Costs, model, certificate, buffer)
    }

    /// The same by the strong rule.
    pub fn judge_strong(&self, model: &[u8], certificate: &[u8], buffer: &mut [u8]) -> Answer {
        self.judge_by(Rule::Strong, model, certificate, buffer)
    }

    /// Judges a certificate for a model; on acceptance the merged model's file stands first in the buffer.
    pub fn reduce(&self, model: &[u8], certificate: &[u8], buffer: &mut [u8]) -> Answer {
        match self.judged(Rule::Plain, model, certificate, usize::MAX) {
            Ok((model, accepted)) => write(&merged(self.terms, &model, accepted.blocks), buffer, 23),
            Err(answer) => answer,
        }
    }

    /// Judges a certificate for a model; on acceptance the sheet of its blocks stands first in the buffer.
    pub fn sheet(&self, model: &[u8], certificate: &[u8], buffer: &mut [u8]) -> Answer {
        match self.judged(Rule::Plain, model, certificate, usize::MAX) {
            Ok((_, Accepted { blocks, related, .. })) => write(sheet_of(blocks, &related).as_bytes(), buffer, 28),
            Err(answer) => answer,
        }
    }

    /// Reads two models and writes them as one.
    pub fn join(&self, first: &[u8], second: &[u8], buffer: &mut [u8]) -> Answer {
        match self.two_models(first, second) {
            Ok([one, other]) => joined(self, &one, &other).map_or(numbered(25), |file| write(&file, buffer, 26)),
            Err(answer) => answer,
        }
    }

    /// Reads two models, the first of them first.
    fn two_models<'a>(&self, first: &'a [u8], second: &'a [u8]) -> Result<[Model<'a>; 2], Answer> {
        let one = read(self, Rule::Plain, first).map_err(|fault| refused(1, first, fault))?;
        let other = read(self, Rule::Plain, second).map_err(|fault| refused(3, second, fault))?;
        Ok([one, other])
    }

    /// Reads two models and writes the two working side by side.
    pub fn compose(&self, left: &[u8], right: &[u8], buffer: &mut [u8]) -> Answer {
        match self.two_models(left, right) {
            Ok([one, other]) => composed(self, &one, &other).map_or(numbered(37), |file| write(&file, buffer, 38)),
            Err(answer) => answer,
        }
    }

    /// Reads a model and writes it with the external actions of a set made internal.
    pub fn hide(&self, model: &[u8], actions: &[u8], buffer: &mut [u8]) -> Answer {
        match read(self, Rule::Plain, model) {
            Ok(sound) => write(&hidden(&sound, model, actions), buffer, 38),
            Err(fault) => refused(1, model, fault),
        }
    }

    /// Judges a certificate for a joined model; on acceptance says whether a state of each part share a block.
    pub fn alike(&self, model: &[u8], first_count: u32, certificate: &[u8], first_state: u32, second_state: u32) -> AlikeAnswer {
        let blocks = match self.judged(Rule::Plain, model, certificate, usize::MAX) {
            Ok((_, accepted)) => accepted.blocks,
            Err(answer) => return AlikeAnswer { answer, alike: 0 },
        };
        let [count, s, t] = [first_count, first_state, second_state].map(|number| number as usize);
        if count > blocks.len() || s >= count || t < count || t >= blocks.len() {
            return AlikeAnswer { answer: numbered(27), alike: 0 };
        }
        AlikeAnswer { answer: Answer::default(), alike: u32::from(blocks[s] == blocks[t]) }
    }

    /// Judges a pair by a rule, in any terms; on acceptance both files stand first in their buffers, in lowest terms.
    fn rewrite_by(&self, rule: Rule, model: &[u8], certificate: &[u8], model_out: &mut [u8], certificate_out: &mut [u8]) -> PairAnswer {
        let (sound, accepted) = match (Limits { terms: Terms::Any, ..*self }).judged(rule, model, certificate, usize::MAX) {
            Ok(judged) => judged,
            Err(answer) => return refused_pair(answer),
        };
        match rewritten(&sound, model, &accepted, certificate) {
            Ok(files) => write_both(files, [model_out, certificate_out], 36),
            Err(fault) => refused_pair(refused(2, certificate, fault)),
        }
    }

    /// Judges a stored pair, and writes it in lowest terms.
    pub fn rewrite(&self, model: &[u8], certificate: &[u8], model_out: &mut [u8], certificate_out: &mut [u8]) -> PairAnswer {
        self.rewrite_by(Rule::Plain, model, certificate, model_out, certificate_out)
    }

    /// The same of a cost pair.
    pub fn rewrite_costs(&self, model: &[u8], certificate: &[u8], model_out: &mut [u8], certificate_out: &mut [u8]) -> PairAnswer {
        self.rewrite_by(Rule::Costs, model, certificate, model_out, certificate_out)
    }
}
