//! A question of the step rule as a linear program: a defender, a challenger transition and the related pairs.

use super::files::{gcd, Flow, Model, Prices, Transition};
use super::simplex::{solve, Solved};
use super::{shuffle, Numbers};
use crate::plain::Rule;

/// The answer to a question: a flow, or prices by which there is none.
pub enum Met {
    By(Flow),
    Not(Prices<i64>),
}

/// A layer's transitions: its number, whether they make the move, and the side of it (0 before, 1 after) that they leave and lead to.
struct Layer {
    number: u8,
    moves: bool,
    from: usize,
    to: usize,
}

const BEFORE: Layer = Layer { number: 0, moves: false, from: 0, to: 0 };
const MOVE: Layer = Layer { number: 1, moves: true, from: 0, to: 1 };
const AFTER: Layer = Layer { number: 2, moves: false, from: 1, to: 1 };

#[derive(Clone, Copy)]
enum Unknown {
    K(u8, usize),
    W(usize, usize),
}

/// Only the states that t reaches and the u that the challenger leads to have an equation; with costs every state has one, since a cycle
/// that t does not reach may pay. By the strong rule t reaches itself before the move, where the equation is that of D, and after it what its own
/// moves lead to. Transitions are in lowest terms, so that spelling does not matter.
pub struct Question<'a> {
    model: &'a Model,
    related: &'a [Vec<bool>],
    challenger: &'a Transition,
    t: usize,
    layers: &'static [Layer],
    /// The equation at each state, for each side of the move.
    at: Vec<Vec<Option<usize>>>,
    /// The equation at each u.
    onto: Vec<Option<usize>>,
    /// The cost equation: its price is L.
    paid: Option<usize>,
    equations: usize,
}

/// The states that internal transitions lead to from these.
fn closed(model: &Model, mut reached: Vec<bool>) -> Vec<bool> {
    let mut grows = true;
    while grows {
        grows = false;
        for r in model.transitions.iter().filter(|r| r.action == 0) {
            for &(v, _) in &r.weights {
                grows |= reached[r.source] && !reached[v];
                reached[v] |= reached[r.source];
            }
        }
    }
    reached
}

/// Divided by what all have in common.
fn lowest(numbers: Vec<i64>) -> Vec<i64> {
    let common = numbers.iter().fold(0, |g, &x| gcd(g, x)).max(1);
    numbers.into_iter().map(|x| x / common).collect()
}

impl<'a> Question<'a> {
    pub fn new(model: &'a Model, related: &'a [Vec<bool>], challenger: usize, t: usize) -> Question<'a> {
        let n = model.n();
        let q = &model.transitions[challenger];
        let (costs, strong) = (model.rule == Rule::Costs, model.rule == Rule::Strong);
        let layers: &[Layer] = if strong { &[MOVE] } else if q.action == 0 { &[BEFORE] } else { &[BEFORE, MOVE, AFTER] };
        let closed = |reached| if strong { reached } else { closed(model, reached) };
        let mut reached = vec![closed((0..n).map(|v| costs || v == t).collect())];
        if strong || q.action != 0 {
            let mut moved = vec![costs; n];
            for r in model.transitions.iter().filter(|r| r.action == q.action && reached[0][r.source]) {
                r.weights.iter().for_each(|&(v, _)| moved[v] = true);
            }
            reached.push(closed(moved));
        }
        let mut equations = 0..;
        let mut numbered = |counts: bool| if counts { equations.next() } else { None };
        let at: Vec<Vec<Option<usize>>> = reached.into_iter().map(|side| side.into_iter().map(&mut numbered).collect()).collect();
        let onto = (0..n).map(|u| numbered(q.weights.iter().any(|e| e.0 == u))).collect();
        let paid = numbered(costs);
        Question { model, related, challenger: q, t, layers, at, onto, paid, equations: equations.start }
    }

    /// The equations at the states that a w leaves.
    fn leaving(&self) -> &[Option<usize>] {
        &self.at[self.at.len() - 1]
    }

    fn unknowns(&self) -> Vec<Unknown> {
        let mut unknowns = Vec::new();
        for layer in self.layers {
            let action = if layer.moves { self.challenger.action } else { 0 };
            let taken = |r: &Transition| r.action == action && self.at[layer.from][r.source].is_some();
            let numbered = self.model.transitions.iter().enumerate();
            unknowns.extend(numbered.filter(|(_, r)| taken(r)).map(|(r, _)| Unknown::K(layer.number, r)));
        }
        for v in (0..self.model.n()).filter(|&v| self.leaving()[v].is_some()) {
            unknowns.extend(self.challenger.weights.iter().filter(|e| self.related[v][e.0]).map(|e| Unknown::W(v, e.0)));
        }
        unknowns
    }

    /// The equations that an unknown stands in, and its factors there.
    fn column(&self, unknown: Unknown) -> Vec<(usize, i64)> {
        let (terms, pays): (Vec<(Option<usize>, i64)>, i64) = match unknown {
            Unknown::W(v, u) => (vec![(self.leaving()[v], 1), (self.onto[u], 1)], 0),
            Unknown::K(layer, r) => {
                let layer = self.layers.iter().find(|of| of.number == layer).expect("a layer of the question");
                let r = &self.model.transitions[r];
                let arrives = r.weights.iter().map(|&(v, p)| (self.at[layer.to][v], -p / r.common()));
                let leaves = r.d / r.common();
                (arrives.chain([(self.at[layer.from][r.source], leaves)]).collect(), leaves * r.cost)
            }
        };
        let reached = terms.into_iter().map(|(equation, factor)| (equation.expect("what an unknown touches is reached"), factor));
        reached.chain(self.paid.map(|equation| (equation, pays))).collect()
    }

    /// None where a number does not fit. The choices lead to other flows and other prices.
    pub fn answer(&self, choices: &mut Numbers) -> Option<Met> {
        let mut unknowns = self.unknowns();
        shuffle(&mut unknowns, choices);
        let columns: Vec<Vec<(usize, i64)>> = unknowns.iter().map(|&unknown| self.column(unknown)).collect();
        let mut right = vec![0; self.equations];
        let q = self.challenger;
        right[self.at[0][self.t].expect("t reaches itself")] = q.d / q.common();
        for &(u, p) in &q.weights {
            right[self.onto[u].expect("u has weight")] = p / q.common();
        }
        if let Some(equation) = self.paid {
            right[equation] = q.cost * q.d / q.common();
        }
        let weights: Vec<i64> = (0..self.equations).map(|_| 1 + choices.below(3) as i64).collect();
        match solve(&columns, &right, &weights)? {
            Solved::Prices(found) => Some(Met::Not(self.prices(&lowest(found)))),
            Solved::Values(denominator, values) => {
                let values: Vec<(Unknown, i64)> = unknowns.into_iter().zip(values).filter(|e| e.1 > 0).collect();
                self.flow((q.d / q.common()).checked_mul(denominator)?, &values).map(Met::By)
            }
        }
    }

    /// A state that t does not reach has the highest price, and a u that the challenger does not lead to the highest G it may have.
    fn prices(&self, found: &[i64]) -> Prices<i64> {
        let at = self.at.iter().flatten().flatten().map(|&i| -found[i]);
        let highest = at.chain(self.onto.iter().flatten().map(|&i| found[i])).max().expect("t has an equation");
        let side = |rows: &Vec<Option<usize>>| rows.iter().map(|row| row.map_or(highest, |i| -found[i])).collect();
        let mut sides: Vec<Vec<i64>> = self.at.iter().map(side).collect();
        let leaving = &sides[sides.len() - 1];
        let most = |u: usize| leaving.iter().zip(&self.related[u]).filter(|e| *e.1).map(|e| *e.0).min().expect("u is related to itself");
        let g = (0..self.model.n()).map(|u| self.onto[u].map_or_else(|| most(u), |i| found[i])).collect();
        sides.push(g);
        let a = (self.model.rule == Rule::Strong).then(|| sides.remove(0)[self.t]);
        Prices { a, sides, l: self.paid.map(|equation| found[equation]) }
    }

    /// D with k and w of transitions in lowest terms, as whole numbers for the transitions as they are spelled.
    fn flow(&self, d: i64, values: &[(Unknown, i64)]) -> Option<Flow> {
        let common = |unknown: Unknown| match unknown {
            Unknown::K(_, r) => self.model.transitions[r].common(),
            Unknown::W(..) => 1,
        };
        let multiple = values.iter().map(|e| common(e.0)).try_fold(1i64, |l, c| (l / gcd(l, c)).checked_mul(c))?;
        let terms = values.iter().map(|&(unknown, x)| x.checked_mul(multiple / common(unknown)));
        let numbers = lowest(terms.chain([d.checked_mul(multiple)]).collect::<Option<_>>()?);
        let numbers: Vec<u32> = numbers.into_iter().map(|x| u32::try_from(x).ok()).collect::<Option<_>>()?;
        let mut flow = Flow { d: numbers[values.len()], ks: Vec::new(), ws: Vec::new() };
        for (&(unknown, _), &x) in values.iter().zip(&numbers) {
            match unknown {
                Unknown::K(layer, r) => flow.ks.push(((layer, r), x)),
                Unknown::W(v, u) => flow.ws.push(((v, u), x)),
            }
        }
        flow.ks.sort();
        flow.ws.sort();
        Some(flow)
    }
}
