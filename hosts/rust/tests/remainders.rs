//! State and remainder of 16, 20 and 21 where they are known beforehand: document 01's cases, accepted certificates with a number changed,
//! and the largest sums.
mod compare;
mod maker;
mod plain;

use compare::{alike, every_kind, in_lowest_terms, judge, kind, reduce, rewrite, rounds, Kind, Numbers};
use maker::files::{Certificate, Flow, Model, Refutation, Transition};
use maker::random::random_model;
use std::collections::{BTreeMap, BTreeSet};
use zolkirta::{MODEL, STATES};

/// Number, state and remainder.
type Told = (u32, usize, i64);

/// Every call that judges refuses the certificate with this, but where 34 refuses the model: then the rewriting alone does.
fn refused(model: &[u8], certificate: &[u8], told: Told) -> Option<Kind> {
    let answer = rewrite(model, certificate).0.answer;
    assert_eq!((answer.number, answer.state as usize, answer.remainder), told);
    let judged = [judge(model, certificate, STATES).0, reduce(model, certificate, MODEL).0, alike(model, certificate, [1, 0, 1]).answer];
    if in_lowest_terms(model) == model {
        assert_eq!(judged, [answer; 3]);
    } else {
        assert_eq!(judged.map(|answer| answer.number), [34; 3]);
    }
    kind(answer, model, certificate)
}

#[test]
fn cases_of_document_01() {
    let model = include_bytes!("../../../crates/judge_pair/data/pa.bin");
    let certificate = include_bytes!("../../../crates/judge_pair/data/ct.bin");
    // C3, C6 and C7: the byte of S's certificate that is another, and what it is.
    for (at, byte, told) in [(20, 1, (16, 2, 0)), (84, 2, (20, 1, 1)), (120, 1, (21, 0, -1))] {
        let mut changed = *certificate;
        changed[at] = byte;
        refused(model, &changed, told);
    }
}

/// Gives a number another value of 1 or more, and hands back by how much it has grown.
fn altered(number: &mut u32, numbers: &mut Numbers) -> i64 {
    let old = *number;
    let mut others = vec![1, old - 1, old.saturating_add(1), numbers.any() as u32, u32::MAX];
    others.retain(|&other| other > 0 && other != old);
    *number = *numbers.of(&others);
    i64::from(*number) - i64::from(old)
}

/// A flow that meets a question, with a number changed: then one equation at v is off, or those at two u. None where a transition only
/// leads back to its source, or a state has no other one in its block.
fn changed_flow(model: &Model, blocks: &[u8], (q, t): (usize, usize), met: &Flow, numbers: &mut Numbers) -> Option<(Flow, Told)> {
    let mut flow = met.clone();
    let i = numbers.below(flow.ws.len());
    let ((v, u), w) = flow.ws[i];
    let told = match numbers.below(4) {
        0 => (20, t, altered(&mut flow.d, numbers)),
        1 => (20, v, -altered(&mut flow.ws[i].1, numbers)),
        2 if !flow.ks.is_empty() => {
            let i = numbers.below(flow.ks.len());
            let ((layer, r), k) = &mut flow.ks[i];
            let (r, by) = (&model.transitions[*r], altered(k, numbers));
            let arrives = |v: usize| r.weights.iter().filter(|e| e.0 == v).map(|e| e.1).sum::<i64>();
            let leaves = |v: usize| if v == r.source { r.d } else { 0 };
            match layer {
                1 => (20, r.source, -by * r.d),
                _ => (0..model.n()).map(|v| (20, v, by * (arrives(v) - leaves(v)))).find(|told| told.2 != 0)?,
            }
        }
        _ => {
            let others: Vec<usize> = (0..model.n()).filter(|&other| other != u && blocks[other] == blocks[v]).collect();
            let to = *others.get(numbers.below(others.len().max(1)))?;
            let part = 1 + numbers.below(w as usize) as u32;
            let mut ws: BTreeMap<_, u32> = flow.ws.into_iter().collect();
            ws.insert((v, u), w - part);
            *ws.entry((v, to)).or_default() += part;
            flow.ws = ws.into_iter().filter(|&(_, w)| w > 0).collect();
            let by = model.transitions[q].d * i64::from(part);
            if u < to { (21, u, -by) } else { (21, to, by) }
        }
    };
    Some((flow, told))
}

/// A refutation with every G lowered by one amount, so that its last condition breaks. None where a G does not fit.
fn lowered(model: &Model, refutation: &Refutation, numbers: &mut Numbers) -> Option<(Refutation, Told)> {
    let (challenger, t) = (&model.transitions[refutation.challenger], refutation.defender);
    let mut lowered = refutation.clone();
    let left = challenger.d * i64::from(refutation.prices.sides[0][t]);
    let g = lowered.prices.sides.last_mut()?;
    let below = challenger.weights.iter().map(|&(u, p)| p * i64::from(g[u])).sum::<i64>() - left;
    let least = (below + challenger.d - 1) / challenger.d;
    let by = least + *numbers.of(&[0, 0, 1, 1000]);
    for price in g {
        *price = i32::try_from(i64::from(*price) - by).ok()?;
    }
    Some((lowered, (16, t, challenger.d * by - below)))
}

#[test]
fn a_changed_number_is_off_by_the_change() {
    let mut numbers = Numbers::new(41);
    let mut kinds = BTreeSet::new();
    let mut changes = 0;
    for _ in 0..rounds(150) {
        let model = random_model(&mut numbers, 6);
        let Some(certificate) = maker::certificate(&model, &mut numbers) else { continue };
        let pa = model.bytes();
        let mut tell = |changed: Certificate, told: Told| {
            kinds.extend(refused(&pa, &changed.bytes(), told));
            changes += 1;
        };
        for (i, refutation) in certificate.refutations.iter().enumerate() {
            if let Some((lowered, told)) = lowered(&model, refutation, &mut numbers) {
                let mut changed = certificate.clone();
                changed.refutations[i] = lowered;
                tell(changed, told);
            }
        }
        let blocks = &certificate.blocks;
        let asked = certificate.questions(&model);
        assert_eq!(asked.len(), certificate.flows.len());
        for (i, (_, t, q)) in asked.into_iter().enumerate() {
            if let Some((flow, told)) = changed_flow(&model, blocks, (q, t), &certificate.flows[i], &mut numbers) {
                let mut changed = certificate.clone();
                changed.flows[i] = flow;
                tell(changed, told);
            }
        }
    }
    println!("{changes} changes");
    assert_eq!(kinds, every_kind());
}

/// A transition in the longest terms that leads to a state with so much of 65,535, and with what is left to state 2.
fn wide(source: usize, action: usize, target: usize, p: i64) -> Transition {
    let weights = [(target, p), (2, 65_535 - p)].into_iter().filter(|e| e.1 > 0).collect();
    Transition { source, action, d: 65_535, weights, cost: 0 }
}

/// A transition to all states in the longest terms.
fn spread(source: usize, action: usize) -> Transition {
    Transition { source, action, d: 65_535, weights: (0..STATES).map(|v| (v, if v == 0 { 511 } else { 512 })).collect(), cost: 0 }
}

/// Sums as large as they can be, or some terms below: in 21 all w together are D, since the equations at v hold. With 65,535 to one state 34
/// refuses, and the rewriting judges; with 65,534 every call does.
#[test]
fn the_largest_sums() {
    largest_sums(65_535);
    largest_sums(65_534);
}

fn largest_sums(p: i64) {
    let wide = |source, action, target| wide(source, action, target, p);
    let times_most = |x: i64| x * i64::from(u32::MAX);
    let mut kinds = BTreeSet::new();
    let mut tell = |transitions: Vec<Transition>, refutations: Vec<Refutation>, flows: Vec<Flow>, told: Told| {
        let model = Model::new(vec![0; STATES], 2, transitions);
        let certificate = Certificate::new(refutations, vec![0; STATES], flows);
        kinds.extend(refused(&model.bytes(), &certificate.bytes(), told));
    };
    let most = |layer: u8, of: std::ops::Range<usize>| of.map(|r| ((layer, r), u32::MAX)).collect::<Vec<_>>();
    let everywhere: Vec<_> = (0..STATES * STATES).map(|i| ((i / STATES, i % STATES), u32::MAX)).collect();
    let nowhere = Vec::new;
    let flow = |ks: Vec<_>, ws: Vec<_>| vec![Flow { d: u32::MAX, ks, ws }];

    // 256 internal transitions that leave state 0 and all w, and 256 that lead there and D.
    tell(vec![wide(0, 0, 1); 256], vec![], flow(most(0, 0..256), everywhere.clone()), (20, 0, -72_057_044_265_336_960));
    tell(vec![wide(1, 0, 0); 256], vec![], flow(most(0, 0..256), nowhere()), (20, 0, times_most(256 * p + 1)));
    // Before the move: 256 moves that leave state 0, and 255 internal transitions that lead there and D.
    tell(vec![wide(0, 1, 1); 256], vec![], flow(most(1, 0..256), everywhere.clone()), (20, 0, -72_056_494_509_523_200));
    let moves_first = [vec![wide(1, 1, 0)], vec![wide(1, 0, 0); 255]].concat();
    tell(moves_first, vec![], flow(most(0, 1..256), nowhere()), (20, 0, times_most(255 * p + 1)));
    // After the move, with 254 internal transitions: the defender moves by its own transition.
    let leaving = [vec![Transition::step(0, 1, 0)], vec![wide(0, 0, 1); 254], vec![Transition::step(1, 1, 1)]].concat();
    let ks = [most(1, 255..256), most(2, 1..255)].concat();
    tell(leaving, vec![], flow(ks, everywhere), (20, 0, -71_494_102_901_981_310));
    let arriving = [vec![Transition::step(0, 1, 0), Transition::step(1, 1, 0)], vec![wide(1, 0, 0); 254]].concat();
    let ks = [most(1, 1..2), most(2, 2..256)].concat();
    tell(arriving, vec![], flow(ks, nowhere()), (20, 0, times_most(254 * p + 1)));
    // D is spread over all states, 65,537 times 65,535, and each has it from there: all onto state 0 or all onto state 1.
    for (target, onto, remainder) in [(1, 0, 281_470_681_677_825), (0, 1, times_most(-p))] {
        let ws = spread(1, 0).weights.iter().map(|&(v, p)| ((v, onto), 65_537 * p as u32)).collect();
        tell(vec![wide(0, 0, target), spread(1, 0)], vec![], flow(vec![((0, 1), 65_537)], ws), (21, 0, remainder));
    }
    // Prices of one side all alike.
    let edges = [(i32::MAX, i32::MIN, 281_470_681_677_825), (i32::MAX, i32::MAX, 0), (i32::MIN, i32::MIN, 0)];
    for (high, low, remainder) in edges {
        for action in [0, 1] {
            let prices = [vec![vec![high; STATES]; 1 + action], vec![vec![low; STATES]]].concat();
            let refutation = Refutation::new(0, STATES - 1, prices);
            tell(vec![spread(0, action)], vec![refutation], vec![], (16, STATES - 1, remainder));
        }
    }
    assert_eq!(kinds, every_kind());
}
