//! Other prices and other flows that show the same.

use super::files::{gcd, Flow, Model, Prices};
use super::Numbers;
use crate::plain::Rule;

/// The prices times a factor, and all but L moved by a constant; as they are where that does not fit, and None where they do not.
pub fn varied_prices(prices: &Prices<i64>, choices: &mut Numbers) -> Option<Prices<i32>> {
    let factor = if choices.below(2) == 0 { 1 } else { 1 + choices.below(1000) as i64 };
    let constant = [0, -1, choices.below(1 << 20) as i64, -(choices.below(1 << 30) as i64)][choices.below(4)];
    let fitted = |factor: i64, constant: i64| -> Option<Prices<i32>> {
        let price = |x: i64, constant: i64| i32::try_from(x.checked_mul(factor)?.checked_add(constant)?).ok();
        let sides = prices.sides.iter().map(|side| side.iter().map(|&x| price(x, constant)).collect());
        let alone = |x: Option<i64>, constant: i64| match x {
            Some(x) => price(x, constant).map(Some),
            None => Some(None),
        };
        Some(Prices { a: alone(prices.a, constant)?, sides: sides.collect::<Option<_>>()?, l: alone(prices.l, 0)? })
    };
    fitted(factor, constant).or_else(|| fitted(1, 0))
}

/// Terms of one place added up, in ascending order.
fn joined<P: Ord + Copy>(one: &[(P, u32)], other: &[(P, u32)]) -> Option<Vec<(P, u32)>> {
    let mut terms = [one, other].concat();
    terms.sort();
    let mut out: Vec<(P, u32)> = Vec::new();
    for (place, x) in terms {
        match out.last_mut() {
            Some(last) if last.0 == place => last.1 = last.1.checked_add(x)?,
            _ => out.push((place, x)),
        }
    }
    Some(out)
}

/// The sum of two flows for one question.
pub fn added(one: &Flow, other: &Flow) -> Option<Flow> {
    Some(Flow { d: one.d.checked_add(other.d)?, ks: joined(&one.ks, &other.ks)?, ws: joined(&one.ws, &other.ws)? })
}

fn scaled(flow: &Flow, factor: u32) -> Option<Flow> {
    fn times<P: Copy>(terms: &[(P, u32)], factor: u32) -> Option<Vec<(P, u32)>> {
        terms.iter().map(|&(place, x)| Some((place, x.checked_mul(factor)?))).collect()
    }
    Some(Flow { d: flow.d.checked_mul(factor)?, ks: times(&flow.ks, factor)?, ws: times(&flow.ws, factor)? })
}

/// A cycle of internal transitions to one state each that cost nothing, with a k for each so that as much leaves a state as arrives; empty
/// where a walk meets none.
fn internal_cycle(model: &Model, choices: &mut Numbers) -> Vec<(usize, i64)> {
    let step = |r: &usize| &model.transitions[*r];
    let taken = |r: &usize| step(r).action == 0 && step(r).weights.len() == 1 && step(r).cost == 0;
    let steps: Vec<usize> = (0..model.transitions.len()).filter(taken).collect();
    let mut walk: Vec<usize> = Vec::new();
    let mut next = steps.clone();
    while !next.is_empty() {
        walk.push(*choices.of(&next));
        let reached = step(&walk[walk.len() - 1]).weights[0].0;
        if let Some(first) = walk.iter().position(|r| step(r).source == reached) {
            let multiple = walk[first..].iter().fold(1, |l, r| l / gcd(l, step(r).d) * step(r).d);
            return walk[first..].iter().map(|r| (*r, multiple / step(r).d)).collect();
        }
        next = steps.iter().copied().filter(|r| step(r).source == reached).collect();
    }
    Vec::new()
}

fn with_cycle(model: &Model, flow: &Flow, layer: u8, choices: &mut Numbers) -> Option<Flow> {
    let times = 1 + choices.below(1000) as i64;
    let turn = |(r, k): (usize, i64)| Some(((layer, r), u32::try_from(k.checked_mul(times)?).ok()?));
    let cycle: Vec<_> = internal_cycle(model, choices).into_iter().map(turn).collect::<Option<_>>()?;
    Some(Flow { ks: joined(&flow.ks, &cycle)?, ..flow.clone() })
}

/// The flow with its self loops after the move and not before it: they change no equation at a state, and cost the same.
fn with_loops_moved(model: &Model, flow: &Flow) -> Option<Flow> {
    let is_loop = |r: usize| model.transitions[r].weights.iter().all(|e| e.0 == model.transitions[r].source);
    let after = |&((layer, r), k): &((u8, usize), u32)| if layer == 0 && is_loop(r) { ((2, r), k) } else { ((layer, r), k) };
    let ks: Vec<_> = flow.ks.iter().map(after).collect();
    Some(Flow { ks: joined(&ks, &[])?, ..flow.clone() })
}

/// The flow with all terms times a factor, up to the highest that fits, and but for the strong rule with a needless cycle, or with self loops
/// elsewhere; as it is where that does not fit.
pub fn varied_flow(model: &Model, flow: Flow, action: usize, choices: &mut Numbers) -> Flow {
    let most = flow.ks.iter().map(|e| e.1).chain(flow.ws.iter().map(|e| e.1)).fold(flow.d, u32::max);
    let other = match choices.below(6) {
        0 => scaled(&flow, 2 + choices.below(9) as u32),
        1 => scaled(&flow, u32::MAX / most),
        _ if model.rule == Rule::Strong => None,
        2 => with_cycle(model, &flow, 0, choices),
        3 => with_cycle(model, &flow, if action == 0 { 0 } else { 2 }, choices),
        4 if action > 0 => with_loops_moved(model, &flow),
        _ => None,
    };
    other.unwrap_or(flow)
}
