//! Structured pairs up to 128 states, certificates by formula, and larger pairs made of small ones.

use super::files::{by_appearance, reordered, Certificate, Flow, Model, Refutation, Transition};
use super::random::random_model;
use super::{certificate, is_accepted, shuffle, Numbers};
use crate::compare::{rounds, Lent};
use crate::plain::{Rule, TODAY, TRANSITIONS};

/// The two files of a pair.
pub fn bytes((model, certificate): (Model, Certificate)) -> (Vec<u8>, Vec<u8>) {
    (model.bytes(), certificate.bytes())
}

/// The most that a model may have: 128 states, 256 transitions, 2,048 entries. Every state is a block.
pub fn largest() -> (Model, Certificate) {
    filled(128, 2, 8)
}

/// The first half of it, 64 states, 128 transitions, 1,024 entries, every label another: two of them fill the limits together.
pub fn half() -> (Model, Certificate) {
    filled(64, 2, 8)
}

/// States with so many transitions of so many entries each. Every state is a block: the 64 labels are given in turn, and of two states that
/// share one the later is refuted, which must have no move of the earlier one's first action.
pub fn filled(n: usize, each: usize, entries: usize) -> (Model, Certificate) {
    let action = |q: usize| 1 + q % 31;
    let weights = |q: usize| (0..entries).map(|e| (q / each % (n / entries) * entries + e, 1)).collect();
    let filling = |q: usize| Transition { source: q / each, action: action(q), d: entries as i64, weights: weights(q), cost: 0 };
    let refuted = |t: usize| {
        let challenger = each * (t - 64);
        let moves = |v: usize| (each * v..each * v + each).any(|q| action(q) == action(challenger));
        Refutation::new(challenger, t, vec![(0..n).map(|v| i32::from(moves(v))).collect(), vec![1; n], vec![1; n]])
    };
    let model = Model::new((0..n).map(|v| v as u8 % 64).collect(), 32, (0..each * n).map(filling).collect());
    (model, Certificate::new((64..n).map(refuted).collect(), (0..n as u8).collect(), Vec::new()))
}

/// Two models whose composition is the most that a model may be: 8 and 16 states with 8 labels each. All transitions are shared, 2 of 4 entries
/// leave a state of the left, and one of 2 entries one of the right.
pub fn parts() -> [Model; 2] {
    let part = |n: usize, each: usize, entries: usize| {
        let weights = |q: usize| (0..entries).map(|e| (q % (n / entries) * entries + e, 1)).collect();
        let shared = |q: usize| Transition { source: q / each, action: 1, d: entries as i64, weights: weights(q), cost: 0 };
        Model::new((0..n).map(|v| v as u8 % 8).collect(), 2, (0..each * n).map(shared).collect())
    };
    [part(8, 2, 4), part(16, 1, 2)]
}

/// States without transitions, whose labels are their blocks.
pub fn still(blocks: &[u8]) -> (Model, Certificate) {
    (Model::new(blocks.to_vec(), 1, Vec::new()), Certificate::new(Vec::new(), by_appearance(blocks), Vec::new()))
}

/// 64 states of which one has 256 transitions, no two the same, that differ in their last two weights alone.
pub fn one_source() -> (Model, Certificate) {
    let weights = |q: i64| vec![(0, 1), (1, 1), (2, 1 + q), (3, 300 - q)];
    let transitions = (0..256).map(|q| Transition { source: 0, action: 0, d: 303, weights: weights(q), cost: 0 }).collect();
    let (apart, certificate) = still(&(0..64).collect::<Vec<u8>>());
    (Model { transitions, ..apart }, certificate)
}

/// A chain whose states each have an internal self loop and move to the one below, so no two are alike: every pair is refuted.
pub fn refutation_heavy(n: usize) -> (Model, Certificate) {
    let mut transitions = Vec::new();
    for s in 0..n {
        transitions.push(Transition::step(s, 0, s));
        if s > 0 {
            transitions.push(Transition::step(s, 1, s - 1));
        }
    }
    let from = |lowest: usize| (0..n).map(|v| i32::from(v >= lowest)).collect();
    let refuted = |s: usize, t: usize| Refutation::new(2 * s, t, vec![from(t + 1), from(t), from(t)]);
    let refutations = (0..n).flat_map(|t| (t + 1..n).map(move |s| refuted(s, t))).collect();
    (Model::new(vec![0; n], 2, transitions), Certificate::new(refutations, (0..n as u8).collect(), Vec::new()))
}

/// Every state moves to state 0, at a cost that of its label it has alone: costs tell two apart. A dearer challenger is refuted by L 1, a
/// cheaper one by L -1, and the two take turns.
pub fn tolls(n: usize) -> (Model, Certificate) {
    let labels = (0..n).map(|s| (s / 64) as u8).collect();
    let model = Model::new(labels, 2, (0..n).map(|s| Transition::step(s, 1, 0)).collect()).with_costs(|s, _| s as i64 % 64);
    let mut refutations = Vec::new();
    for (t, s) in (0..n).flat_map(|t| (t + 1..n).map(move |s| (t, s))).filter(|(t, s)| t / 64 == s / 64) {
        let (challenger, defender, l) = if (s + t) % 2 == 0 { (s, t, 1) } else { (t, s, -1) };
        let a = (0..n as i32).map(|v| l * (v % 64)).collect();
        refutations.push(Refutation::new(challenger, defender, vec![a, vec![0; n], vec![0; n]]).with_l(l));
    }
    let apart = Certificate::new(Vec::new(), (0..n as u8).collect(), Vec::new());
    (model, Certificate { refutations, ..apart.with_l(|_| 0) })
}

fn stays(t: usize, u: usize) -> Flow {
    Flow { d: 1, ks: Vec::new(), ws: vec![((t, u), 1)] }
}

/// 256 internal self loops of state 0, each of which every other state meets by staying. Each flow also goes round so many of the
/// self loops, which changes no equation.
pub fn flow_heavy(n: usize, loops: usize) -> (Model, Certificate) {
    let ks: Vec<_> = (0..loops).map(|r| ((0, r), 1)).collect();
    loops_met(n, |_, t| Flow { ks: ks.clone(), ..stays(t, 0) })
}

/// 256 internal self loops of state 0 and flows by which every other state meets each of them.
fn loops_met(n: usize, met: impl Fn(usize, usize) -> Flow) -> (Model, Certificate) {
    let flows = (1..n).flat_map(|t| (0..256).map(move |q| (q, t))).map(|(q, t)| met(q, t)).collect();
    (Model::new(vec![0; n], 1, vec![Transition::step(0, 0, 0); 256]), Certificate::new(Vec::new(), vec![0; n], flows))
}

/// The self loops of `flow_heavy` with costs 1 to 63. Every other state stays, and the challenger itself, which is no step of its, pays.
pub fn flow_heavy_with_costs(n: usize) -> (Model, Certificate) {
    with_costs(loops_met(n, |q, t| Flow { ks: vec![((0, q), 1)], ..stays(t, 0) }), |q, _| 1 + q as i64 % 63)
}

/// States that move to the last but one, from where a step at a cost leads to the last; state 0 has a move of that cost to the last as well,
/// which the others meet by both.
pub fn late_steps(n: usize) -> (Model, Certificate) {
    let [middle, last] = [n - 2, n - 1];
    let mut transitions = vec![Transition::step(0, 1, last)];
    transitions.extend((0..middle).map(|s| Transition::step(s, 1, middle)));
    transitions.push(Transition::step(middle, 0, last));
    let (step, moves) = (n - 1, |t: usize| ((1, t + 1), 1));
    let to = |u: usize| vec![((u, u), 1)];
    let mut flows = Vec::new();
    for (s, t) in (0..middle).flat_map(|s| (0..middle).map(move |t| (s, t))).filter(|(s, t)| s != t) {
        if s == 0 {
            flows.push(Flow { d: 1, ks: vec![moves(t), ((2, step), 1)], ws: to(last) });
        }
        flows.push(Flow { d: 1, ks: vec![moves(t)], ws: to(middle) });
    }
    let blocks: Vec<u8> = (0..n).map(|v| if v < middle { 0 } else { (v - middle + 1) as u8 }).collect();
    let pair = (Model::new(blocks.clone(), 2, transitions), Certificate::new(Vec::new(), blocks, flows));
    with_costs(pair, |q, _| if q == 0 || q == step { 9 } else { 0 })
}

/// A pair with these costs and every L 0: it stays accepted where each flow pays what its challenger costs.
pub fn with_costs((model, certificate): (Model, Certificate), cost: impl Fn(usize, &Transition) -> i64) -> (Model, Certificate) {
    (model.with_costs(cost), certificate.with_l(|_| 0))
}

/// A pair by the strong rule: it stays accepted where there are no refutations, and flows have no moves but the defender's own.
pub fn strong((model, certificate): (Model, Certificate)) -> (Model, Certificate) {
    (model.strong(), Certificate { rule: Rule::Strong, ..certificate })
}

/// A strong refutation of a defender that has no transition with the challenger's action.
pub fn no_answer(n: usize, challenger: usize, defender: usize) -> Refutation {
    Refutation::strong(challenger, defender, 0, vec![1; n], vec![1; n])
}

/// `largest` by the strong rule.
pub fn strong_largest() -> (Model, Certificate) {
    let (model, certificate) = largest();
    let refutations = certificate.refutations.iter().map(|r| no_answer(model.n(), r.challenger, r.defender)).collect();
    (model.strong(), Certificate::strong(refutations, certificate.blocks, certificate.flows))
}

/// A chain whose states each move to the one below by one action: strongly no two are alike, and every pair is refuted.
pub fn strong_chain(n: usize, action: usize) -> (Model, Certificate) {
    let from = |lowest: usize| (0..n).map(|v| i32::from(v >= lowest)).collect();
    let refuted = |s: usize, t: usize| Refutation::strong(s - 1, t, 0, from(t), from(t));
    let refutations = (0..n).flat_map(|t| (t + 1..n).map(move |s| refuted(s, t))).collect();
    let model = Model::new(vec![0; n], 2, (1..n).map(|s| Transition::step(s, action, s - 1)).collect());
    (model.strong(), Certificate::strong(refutations, (0..n as u8).collect(), Vec::new()))
}

/// States with as many moves to themselves by one action as all may have: strongly all are alike, and each meets those of the others by its own.
pub fn strong_loops(n: usize, action: usize) -> (Model, Certificate) {
    let each = TRANSITIONS / n;
    let own = |t: usize, q: usize| Flow { d: 1, ks: vec![((1, t * each + q % each), 1)], ws: vec![((t, q / each), 1)] };
    let pairs = (0..n).flat_map(|s| (0..n).filter(move |&t| t != s).map(move |t| (s, t)));
    let flows = pairs.flat_map(|(s, t)| (s * each..s * each + each).map(move |q| own(t, q))).collect();
    let model = Model::new(vec![0; n], 2, (0..each * n).map(|q| Transition::step(q / each, action, q / each)).collect());
    (model.strong(), Certificate::strong(Vec::new(), vec![0; n], flows))
}

/// Two states that move to each of the others by one action, and the first also to all of them at once, which the second meets by all its moves.
pub fn strong_fan(n: usize, action: usize) -> (Model, Certificate) {
    let count = n - 2;
    let steps = |source: usize| (2..n).map(move |v| Transition::step(source, action, v));
    let at_once = Transition::to(0, action, &(2..n).map(|v| (v, 1)).collect::<Vec<_>>());
    let by_steps = |first: usize, of: std::ops::Range<usize>| Flow {
        d: of.len() as u32,
        ks: of.clone().map(|i| ((1, first + i), 1)).collect(),
        ws: of.map(|i| ((2 + i, 2 + i), 1)).collect(),
    };
    let one_each = |first: usize| (0..count).map(move |i| by_steps(first, i..i + 1));
    let flows = one_each(count + 1).chain([by_steps(count + 1, 0..count)]).chain(one_each(0)).collect();
    let blocks: Vec<u8> = (0..n).map(|v| u8::from(v > 1)).collect();
    let model = Model::new(blocks.clone(), 2, steps(0).chain([at_once]).chain(steps(1)).collect());
    (model.strong(), Certificate::strong(Vec::new(), blocks, flows))
}

/// A chain of internal steps down to state 0, which moves to the last state: all but the last are alike, and state t meets the move by
/// t internal steps before it.
pub fn internal_chain(n: usize) -> (Model, Certificate) {
    let last = n - 1;
    let mut transitions = vec![Transition::step(0, 1, last)];
    transitions.extend((1..last).map(|s| Transition::step(s, 0, s - 1)));
    let but_last: Vec<i32> = (0..n).map(|v| i32::from(v < last)).collect();
    let only = |s: usize| (0..n).map(|v| i32::from(v == s)).collect();
    let mut refutations = vec![Refutation::new(0, last, vec![but_last.clone(), vec![1; n], vec![1; n]])];
    refutations.extend((1..last).map(|s| Refutation::new(s, last, vec![but_last.clone(), only(s - 1)])));
    let down = |t: usize| (1..=t).map(|r| ((0, r), 1)).chain([((1, 0), 1)]).collect();
    let moves = |t: usize| Flow { d: 1, ks: down(t), ws: vec![((last, last), 1)] };
    let met = |s: usize, t: usize| if s > 0 { stays(t, s - 1) } else { moves(t) };
    let flows = (0..last).flat_map(|s| (0..last).filter(move |&t| t != s).map(move |t| met(s, t))).collect();
    let blocks = (0..n).map(|v| u8::from(v == last)).collect();
    (Model::new(vec![0; n], 2, transitions), Certificate::new(refutations, blocks, flows))
}

fn entries(model: &Model) -> usize {
    model.transitions.iter().map(|r| r.weights.len()).sum()
}

/// How often a model may have every state, by the limits.
pub fn most_copies(model: &Model) -> usize {
    let most = [(TODAY.states, model.n()), (TRANSITIONS, model.transitions.len()), (TODAY.entries, entries(model))];
    most.map(|(limit, size)| limit / size.max(1)).into_iter().min().unwrap()
}

/// Every state k times, the copies of a state standing together and copy i leading to copies i: the prices of a state are those of all its
/// copies, and a copy meets another's transition by its own.
pub fn copies(model: &Model, certificate: &Certificate, k: usize) -> (Model, Certificate) {
    let n = model.n();
    let mut place = vec![vec![0; k]; model.transitions.len()];
    let mut transitions = Vec::new();
    for s in 0..n {
        for i in 0..k {
            for (q, r) in model.transitions.iter().enumerate().filter(|(_, r)| r.source == s) {
                place[q][i] = transitions.len();
                transitions.push(r.moved(|v| v * k + i));
            }
        }
    }
    let each = |prices: &[i32]| prices.iter().flat_map(|&x| vec![x; k]).collect();
    let mut refutations = Vec::new();
    for r in &certificate.refutations {
        for (i, j) in (0..k).flat_map(|i| (0..k).map(move |j| (i, j))) {
            let prices = r.prices.each_side(each);
            refutations.push(Refutation { challenger: place[r.challenger][i], defender: r.defender * k + j, prices });
        }
    }

    // The flows of a pair of states, one for each transition of the first.
    let mut between = vec![vec![Vec::new(); n]; n];
    for (q, r) in model.transitions.iter().enumerate() {
        let ws = r.weights.iter().map(|&(u, p)| ((u, u), p as u32)).collect();
        let layer = u8::from(r.action > 0 || model.rule == Rule::Strong);
        between[r.source][r.source].push(Flow { d: r.d as u32, ks: vec![((layer, q), 1)], ws });
    }
    for ((s, t, _), flow) in certificate.questions(model).into_iter().zip(&certificate.flows) {
        between[s][t].push(flow.clone());
    }
    let mut flows = Vec::new();
    for (s, t) in (0..n * k).flat_map(|s| (0..n * k).map(move |t| (s, t))).filter(|(s, t)| s != t) {
        let lifted = |flow: &Flow| flow.moved(|r| place[r][t % k], |v| v * k + t % k, |u| u * k + s % k);
        flows.extend(between[s / k][t / k].iter().map(lifted));
    }
    let blocks = certificate.blocks.iter().flat_map(|&block| vec![block; k]).collect();
    let labels = model.labels.iter().flat_map(|&label| vec![label; k]).collect();
    (Model { labels, transitions, ..*model }, Certificate { refutations, blocks, flows, ..*certificate })
}

/// Random pairs with as many copies of each state as the limits allow, where that makes no more refutations than these, are accepted by a call that
/// judges.
pub fn copies_are_accepted(call: Lent, random: impl Fn(&mut Numbers, usize) -> Model, refutations: usize, numbers: &mut Numbers) {
    let (mut most, mut records) = (0, 0);
    for _ in 0..rounds(60) {
        let model = random(numbers, 6);
        let Some(certificate) = certificate(&model, numbers) else { continue };
        let k = most_copies(&model);
        if certificate.refutations.len() * k * k <= refutations {
            let (copied, lifted) = copies(&model, &certificate, k);
            is_accepted(call, &copied, &lifted);
            most = most.max(copied.n());
            records += lifted.refutations.len() + lifted.flows.len();
        }
    }
    println!("copies up to {most} states, {records} refutations and flows");
    assert!(most > 120 && records > 10_000);
}

/// The same pair with its states in any order, so that blocks lie across all words of a row.
pub fn in_any_order((model, certificate): (Model, Certificate), numbers: &mut Numbers) -> (Model, Certificate) {
    let mut to: Vec<usize> = (0..model.n()).collect();
    shuffle(&mut to, numbers);
    let (other, place) = model.reordered(&to);
    let refuted = |r: &Refutation| {
        let prices = r.prices.each_side(|side| reordered(side, &to));
        Refutation { challenger: place[r.challenger], defender: to[r.defender], prices }
    };
    let questions = certificate.questions(&model).into_iter().map(|(s, t, q)| (to[s], to[t], place[q]));
    let moved = certificate.flows.iter().map(|flow| flow.moved(|r| place[r], |v| to[v], |u| to[u]));
    let mut flows: Vec<_> = questions.zip(moved).collect();
    flows.sort_by_key(|e| e.0);
    let (refutations, blocks) = (certificate.refutations.iter().map(refuted).collect(), by_appearance(&reordered(&certificate.blocks, &to)));
    (other, Certificate { refutations, blocks, flows: flows.into_iter().map(|e| e.1).collect(), ..certificate })
}

/// Pairs of one rule, without costs, side by side, each with labels of its own: a price of one part is 0 in all others.
fn beside(parts: &[(Model, Certificate)]) -> (Model, Certificate) {
    let n = parts.iter().map(|(model, _)| model.n()).sum();
    let (mut whole, mut told) = still(&[]);
    let highest = |numbers: &[u8]| numbers.iter().max().map_or(0, |most| most + 1);
    for (model, certificate) in parts {
        let (states, before) = (whole.n(), whole.transitions.len());
        let (labels, blocks) = (highest(&whole.labels), highest(&told.blocks));
        let side = |prices: &[i32]| {
            let mut side = vec![0; n];
            side[states..states + prices.len()].copy_from_slice(prices);
            side
        };
        let refuted = |r: &Refutation| {
            let prices = r.prices.each_side(side);
            Refutation { challenger: before + r.challenger, defender: states + r.defender, prices }
        };
        told.refutations.extend(certificate.refutations.iter().map(refuted));
        told.blocks.extend(certificate.blocks.iter().map(|block| blocks + block));
        told.flows.extend(certificate.flows.iter().map(|flow| flow.moved(|r| before + r, |v| states + v, |u| states + u)));
        whole.labels.extend(by_appearance(&model.labels).iter().map(|label| labels + label));
        whole.transitions.extend(model.transitions.iter().map(|r| r.moved(|v| states + v)));
        whole.m = whole.m.max(model.m);
        (whole.rule, told.rule) = (model.rule, certificate.rule);
    }
    (whole, told)
}

/// A pair of 65 to 128 states in any order: small random ones side by side.
pub fn random_large(numbers: &mut Numbers) -> (Model, Certificate) {
    large_of(random_model, numbers)
}

/// The same of random models of this kind.
pub fn large_of(random: impl Fn(&mut Numbers, usize) -> Model, numbers: &mut Numbers) -> (Model, Certificate) {
    loop {
        let n = 65 + numbers.below(64);
        let (mut parts, mut states) = (Vec::new(), 0);
        while states < n {
            let model = random(numbers, (n - states).min(10));
            if let Some(certificate) = certificate(&model, numbers) {
                states += model.n();
                parts.push((model, certificate));
            }
        }
        let pair = beside(&parts);
        let small = pair.0.transitions.len() <= TRANSITIONS && entries(&pair.0) <= TODAY.entries && pair.0.labels.iter().all(|&label| label < 64);
        if small && pair.1.refutations.len() <= TODAY.refutations {
            return in_any_order(pair, numbers);
        }
    }
}
