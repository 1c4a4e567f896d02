//! Certificates made from the definitions alone, with exact arithmetic: the largest relation is found by linear programs, an
//! infeasible one giving the prices of a refutation and a feasible one a flow. A model's rule decides whether costs have an equation, and
//! whether the defender may take internal steps or has its own transitions alone.
#![allow(dead_code)] // each test file uses its own part

pub mod families;
pub mod files;
pub mod prism;
mod question;
pub mod random;
mod simplex;
mod varied;

use crate::compare::{Lent, Numbers, WrittenPair};
use files::{Certificate, Flow, Model, Refutation};
use question::{Met, Question};
use varied::{added, varied_flow, varied_prices};

pub fn shuffle<T>(items: &mut [T], numbers: &mut Numbers) {
    for i in (1..items.len()).rev() {
        items.swap(i, numbers.below(i + 1));
    }
}

/// Numbers by first appearance; the relation must be one of equal blocks.
fn blocks_of(related: &[Vec<bool>]) -> Vec<u8> {
    let mut rows: Vec<&Vec<bool>> = Vec::new();
    let mut blocks = Vec::new();
    for (v, row) in related.iter().enumerate() {
        let block = rows.iter().position(|&other| other == row).unwrap_or(rows.len());
        assert!(row[v] && (block < rows.len() || rows.iter().all(|other| !other[v])), "the pairs left are blocks");
        if block == rows.len() {
            rows.push(row);
        }
        blocks.push(block as u8);
    }
    blocks
}

/// A certificate for the model. The choices decide the order of pairs and challengers, the prices and the flows. None where a number
/// does not fit its field, or 64 bits on the way.
pub fn certificate(model: &Model, choices: &mut Numbers) -> Option<Certificate> {
    let source = |q: usize| model.transitions[q].source;
    let mut related: Vec<Vec<bool>> = model.labels.iter().map(|l| model.labels.iter().map(|k| l == k).collect()).collect();
    let mut refutations = Vec::new();
    let questions = (0..model.transitions.len()).flat_map(|q| (0..model.n()).map(move |t| (q, t)));
    let mut open: Vec<(usize, usize)> = questions.filter(|&(q, t)| source(q) != t).collect();
    let mut met: Vec<((usize, usize), Flow)> = Vec::new();
    shuffle(&mut open, choices);
    while let Some((q, t)) = open.pop() {
        if !related[source(q)][t] {
            continue;
        }
        match Question::new(model, &related, q, t).answer(choices)? {
            Met::By(flow) => met.push(((q, t), flow)),
            Met::Not(prices) => {
                refutations.push(Refutation { challenger: q, defender: t, prices: varied_prices(&prices, choices)? });
                related[source(q)][t] = false;
                related[t][source(q)] = false;
                // A flow that needs none of the pairs removed still meets its question.
                let stands = |(_, flow): &(_, Flow)| flow.ws.iter().all(|&((v, u), _)| related[v][u]);
                let (kept, lost): (Vec<_>, Vec<_>) = met.into_iter().partition(stands);
                met = kept;
                open.extend(lost.into_iter().map(|(question, _)| question));
                shuffle(&mut open, choices);
            }
        }
    }
    met.retain(|&((q, t), _)| related[source(q)][t]);
    met.sort_by_key(|&((q, t), _)| (source(q), t, q));
    let mut flows = Vec::new();
    for ((q, t), mut flow) in met {
        if choices.below(8) == 0 {
            if let Met::By(other) = Question::new(model, &related, q, t).answer(choices)? {
                flow = added(&flow, &other).unwrap_or(flow);
            }
        }
        flows.push(varied_flow(model, flow, model.transitions[q].action, choices));
    }
    Some(Certificate { rule: model.rule, refutations, blocks: blocks_of(&related), flows })
}

/// Both accept by a call that judges, with the blocks of the certificate, in a buffer of just their length and in none shorter.
pub fn is_accepted(call: Lent, model: &Model, certificate: &Certificate) {
    let (pa, ct) = (model.bytes(), certificate.bytes());
    let (answer, blocks) = call(&pa, &ct, model.n());
    assert_eq!((answer.number, &blocks), (0, &certificate.blocks), "{model:?} {certificate:?}");
    assert_eq!(call(&pa, &ct, model.n() - 1).0.number, 10);
}

/// A pair in any terms was rewritten to what the maker makes of it, which is handed back; none where a k does not fit, and 35 names its flow.
pub fn rewritten(model: &Model, certificate: &Certificate, (said, files): WrittenPair) -> Option<(Model, Certificate)> {
    match certificate.for_lowest(model) {
        Ok(own) => {
            let lowest = model.lowest();
            assert_eq!((said.answer.number, files), (0, [lowest.bytes(), own.bytes()]));
            Some((lowest, own))
        }
        Err(place) => {
            assert_eq!((said.answer.number, said.answer.file, said.answer.place), (35, 2, place));
            None
        }
    }
}

/// Models for which the maker found no certificate: it may miss one in twenty.
#[derive(Default)]
pub struct Missed {
    missed: u64,
    asked: u64,
}

impl Missed {
    pub fn certificate(&mut self, model: &Model, choices: &mut Numbers) -> Option<Certificate> {
        let certificate = certificate(model, choices);
        self.asked += 1;
        self.missed += u64::from(certificate.is_none());
        certificate
    }
}

impl Drop for Missed {
    fn drop(&mut self) {
        if !std::thread::panicking() {
            println!("{} certificates asked for, {} missed", self.asked, self.missed);
            assert!(self.missed * 20 <= self.asked);
        }
    }
}
