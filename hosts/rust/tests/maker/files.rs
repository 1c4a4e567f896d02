//! Model and certificate as values, and their bytes.

use crate::plain::Rule;
use std::collections::BTreeSet;

#[derive(Clone, Debug, PartialEq, Eq)]
pub struct Transition {
    pub source: usize,
    pub action: usize,
    pub d: i64,
    /// State and weight, states ascending.
    pub weights: Vec<(usize, i64)>,
    /// 0 in a model without costs.
    pub cost: i64,
}

/// States are counted by their labels; transitions are in file order. A model with costs is one for the rule with costs; the rule of any other says
/// how it is certified, and nothing of its bytes.
#[derive(Clone, Debug, PartialEq, Eq)]
pub struct Model {
    pub rule: Rule,
    pub labels: Vec<u8>,
    pub m: usize,
    pub transitions: Vec<Transition>,
}

/// Prices A, B (external challengers only) and G of the states, and with costs L. By the strong rule A of the defender alone, then B and G.
#[derive(Clone, Debug, PartialEq, Eq)]
pub struct Prices<P> {
    pub a: Option<P>,
    pub sides: Vec<Vec<P>>,
    pub l: Option<P>,
}

impl<P: Copy> Prices<P> {
    /// The same with the prices of states as they are made from these.
    pub fn each_side(&self, made: impl Fn(&[P]) -> Vec<P>) -> Prices<P> {
        Prices { a: self.a, sides: self.sides.iter().map(|side| made(side)).collect(), l: self.l }
    }
}

#[derive(Clone, Debug, PartialEq, Eq)]
pub struct Refutation {
    pub challenger: usize,
    pub defender: usize,
    pub prices: Prices<i32>,
}

/// D, the k by (layer, transition) and the w by (v, u).
#[derive(Clone, Debug, PartialEq, Eq)]
pub struct Flow {
    pub d: u32,
    pub ks: Vec<((u8, usize), u32)>,
    pub ws: Vec<((usize, usize), u32)>,
}

#[derive(Clone, Debug, PartialEq, Eq)]
pub struct Certificate {
    pub rule: Rule,
    pub refutations: Vec<Refutation>,
    pub blocks: Vec<u8>,
    pub flows: Vec<Flow>,
}

pub fn gcd(a: i64, b: i64) -> i64 {
    if b == 0 { a.abs() } else { gcd(b, a % b) }
}

/// What each state has, with state v as state to[v].
pub fn reordered<T: Copy + Default>(side: &[T], to: &[usize]) -> Vec<T> {
    let mut out = vec![T::default(); side.len()];
    side.iter().zip(to).for_each(|(&x, &v)| out[v] = x);
    out
}

/// Numbers by first appearance.
pub fn by_appearance(numbers: &[u8]) -> Vec<u8> {
    let mut seen = Vec::new();
    let mut place = |number: &u8| {
        seen.iter().position(|other| other == number).unwrap_or_else(|| {
            seen.push(*number);
            seen.len() - 1
        })
    };
    numbers.iter().map(|number| place(number) as u8).collect()
}

/// Whether each of these blocks lies inside one of the others.
pub fn inside(blocks: &[u8], others: &[u8]) -> bool {
    let states = 0..blocks.len();
    states.clone().all(|v| states.clone().all(|u| blocks[v] != blocks[u] || others[v] == others[u]))
}

/// How many blocks there are.
pub fn count(blocks: &[u8]) -> usize {
    BTreeSet::from_iter(blocks).len()
}

fn two(number: usize) -> [u8; 2] {
    u16::try_from(number).expect("a field of two bytes").to_be_bytes()
}

impl Transition {
    /// A transition to one state.
    pub fn step(source: usize, action: usize, target: usize) -> Transition {
        Transition { source, action, d: 1, weights: vec![(target, 1)], cost: 0 }
    }

    /// A transition with these weights, which add up to its d.
    pub fn to(source: usize, action: usize, weights: &[(usize, i64)]) -> Transition {
        Transition { source, action, d: weights.iter().map(|e| e.1).sum(), weights: weights.to_vec(), cost: 0 }
    }

    /// The same with its states by other numbers.
    pub fn moved(&self, to: impl Fn(usize) -> usize) -> Transition {
        let mut weights: Vec<_> = self.weights.iter().map(|&(v, p)| (to(v), p)).collect();
        weights.sort();
        Transition { source: to(self.source), weights, ..*self }
    }

    /// The number by which all terms can be divided.
    pub fn common(&self) -> i64 {
        self.weights.iter().fold(0, |g, e| gcd(g, e.1))
    }

    /// The same probabilities in the lowest terms.
    pub fn lowest(&self) -> Transition {
        let divisor = self.common();
        Transition { d: self.d / divisor, weights: self.weights.iter().map(|&(v, p)| (v, p / divisor)).collect(), ..*self }
    }

    /// The same probabilities with all terms times a factor, where they fit the file.
    pub fn times(&self, factor: i64) -> Transition {
        let factor = if self.d * factor > 65_535 { 1 } else { factor };
        Transition { d: self.d * factor, weights: self.weights.iter().map(|&(v, p)| (v, p * factor)).collect(), ..*self }
    }
}

impl Model {
    /// A model without costs.
    pub fn new(labels: Vec<u8>, m: usize, transitions: Vec<Transition>) -> Model {
        Model { rule: Rule::Plain, labels, m, transitions }
    }

    pub fn n(&self) -> usize {
        self.labels.len()
    }

    pub fn bytes(&self) -> Vec<u8> {
        let mut out = [&b"PA"[..], &[self.n() as u8, self.m as u8], &two(self.transitions.len()), b"LB", &self.labels].concat();
        for r in &self.transitions {
            out.extend([&b"TR"[..], &[r.source as u8, r.action as u8], &two(r.d as usize), &[r.weights.len() as u8]].concat());
            for &(v, p) in &r.weights {
                out.push(v as u8);
                out.extend(two(p as usize));
            }
        }
        if self.rule == Rule::Costs {
            out.extend(b"CO");
            out.extend(self.transitions.iter().map(|r| r.cost as u8));
        }
        out
    }

    /// The same model with these costs.
    pub fn with_costs(&self, cost: impl Fn(usize, &Transition) -> i64) -> Model {
        let costly = |(i, r): (usize, &Transition)| Transition { cost: cost(i, r), ..r.clone() };
        Model { rule: Rule::Costs, transitions: self.transitions.iter().enumerate().map(costly).collect(), ..self.clone() }
    }

    pub fn without_costs(&self) -> Model {
        Model { rule: Rule::Plain, ..self.with_costs(|_, _| 0) }
    }

    /// The same model, to be certified by the strong rule.
    pub fn strong(&self) -> Model {
        Model { rule: Rule::Strong, ..self.clone() }
    }

    /// The model of a sound file without costs.
    pub fn read(file: &[u8]) -> Model {
        let pair = |at: usize| i64::from(file[at]) * 256 + i64::from(file[at + 1]);
        let n = usize::from(file[2]);
        let mut at = 8 + n;
        let mut transitions = Vec::new();
        for _ in 0..pair(4) {
            let entries = usize::from(file[at + 6]);
            let weights = (0..entries).map(|e| at + 7 + 3 * e).map(|e| (file[e].into(), pair(e + 1))).collect();
            transitions.push(Transition { source: file[at + 2].into(), action: file[at + 3].into(), d: pair(at + 4), weights, cost: 0 });
            at += 7 + 3 * entries;
        }
        Model::new(file[8..8 + n].to_vec(), file[3].into(), transitions)
    }

    /// The same model with state v as state to[v], and where each transition then stands: those of a state keep their order.
    pub fn reordered(&self, to: &[usize]) -> (Model, Vec<usize>) {
        let mut order: Vec<usize> = (0..self.transitions.len()).collect();
        order.sort_by_key(|&q| to[self.transitions[q].source]);
        let transitions = order.iter().map(|&q| self.transitions[q].moved(|v| to[v])).collect();
        let mut place = vec![0; order.len()];
        order.into_iter().enumerate().for_each(|(i, q)| place[q] = i);
        (Model { labels: reordered(&self.labels, to), transitions, ..*self }, place)
    }

    fn spelled(&self, factor: impl Fn(usize, &Transition) -> i64) -> Model {
        let transitions = self.transitions.iter().enumerate().map(|(i, r)| r.times(factor(i, r))).collect();
        Model { transitions, ..self.clone() }
    }

    /// The same automaton, its fractions written in other terms: times 1 to k + 1, the factors changing along the file.
    pub fn respelled(&self, k: usize) -> Model {
        self.spelled(|i, _| 1 + ((7 * i + k) % (k + 1)) as i64)
    }

    /// The same automaton, its fractions written in the lowest terms.
    pub fn lowest(&self) -> Model {
        Model { transitions: self.transitions.iter().map(Transition::lowest).collect(), ..self.clone() }
    }

    /// The same automaton, its fractions written in the longest terms that powers of 2 make.
    pub fn longest(&self) -> Model {
        self.spelled(|_, r| 1 << (65_535 / r.d).ilog2())
    }
}

impl Refutation {
    /// One without costs, by its prices A, B (external challengers only) and G.
    pub fn new(challenger: usize, defender: usize, sides: Vec<Vec<i32>>) -> Refutation {
        Refutation { challenger, defender, prices: Prices { a: None, sides, l: None } }
    }

    /// A strong one, by A of the defender, B and G.
    pub fn strong(challenger: usize, defender: usize, a: i32, b: Vec<i32>, g: Vec<i32>) -> Refutation {
        Refutation { challenger, defender, prices: Prices { a: Some(a), sides: vec![b, g], l: None } }
    }

    /// The same with this L.
    pub fn with_l(&self, l: i32) -> Refutation {
        Refutation { prices: Prices { l: Some(l), ..self.prices.clone() }, ..*self }
    }
}

impl Flow {
    /// The same with its transitions, and the v and the u of its w, by other numbers.
    pub fn moved(&self, place: impl Fn(usize) -> usize, v_to: impl Fn(usize) -> usize, u_to: impl Fn(usize) -> usize) -> Flow {
        let mut ks: Vec<_> = self.ks.iter().map(|&((layer, r), x)| ((layer, place(r)), x)).collect();
        let mut ws: Vec<_> = self.ws.iter().map(|&((v, u), x)| ((v_to(v), u_to(u)), x)).collect();
        ks.sort();
        ws.sort();
        Flow { d: self.d, ks, ws }
    }
}

impl Certificate {
    /// What its flows meet, in their order: s, t and a transition of s.
    pub fn questions(&self, model: &Model) -> Vec<(usize, usize, usize)> {
        let challengers = model.transitions.iter().map(|r| r.source).enumerate();
        let all = challengers.flat_map(|(q, s)| (0..model.n()).map(move |t| (s, t, q)));
        let mut asked: Vec<_> = all.filter(|&(s, t, _)| s != t && self.blocks[s] == self.blocks[t]).collect();
        asked.sort();
        asked
    }

    /// The same for the model in lowest terms: each k times what its transition is divided by. Where one does not fit, the place of its flow.
    pub fn for_lowest(&self, model: &Model) -> Result<Certificate, usize> {
        let mut flows = Vec::new();
        for (i, flow) in self.flows.iter().enumerate() {
            let times = |&((layer, r), k): &((u8, usize), u32)| Some(((layer, r), k.checked_mul(model.transitions[r].common() as u32)?));
            let place = || Certificate { flows: self.flows[..i].to_vec(), ..self.clone() }.bytes().len();
            flows.push(Flow { ks: flow.ks.iter().map(times).collect::<Option<_>>().ok_or_else(place)?, ..flow.clone() });
        }
        Ok(Certificate { flows, ..self.clone() })
    }

    /// One for a model without costs.
    pub fn new(refutations: Vec<Refutation>, blocks: Vec<u8>, flows: Vec<Flow>) -> Certificate {
        Certificate { rule: Rule::Plain, refutations, blocks, flows }
    }

    /// One for a cost model, every L by the number of its refutation.
    pub fn with_l(&self, l: impl Fn(usize) -> i32) -> Certificate {
        let refutations = self.refutations.iter().enumerate().map(|(i, r)| r.with_l(l(i))).collect();
        Certificate { rule: Rule::Costs, refutations, ..self.clone() }
    }

    /// A strong one.
    pub fn strong(refutations: Vec<Refutation>, blocks: Vec<u8>, flows: Vec<Flow>) -> Certificate {
        Certificate { rule: Rule::Strong, refutations, blocks, flows }
    }

    pub fn bytes(&self) -> Vec<u8> {
        let mut out = [&self.rule.mark()[..], &two(self.refutations.len())].concat();
        for r in &self.refutations {
            out.extend([&b"PX"[..], &two(r.challenger), &[r.defender as u8]].concat());
            let Prices { a, sides, l } = &r.prices;
            out.extend(a.iter().chain(sides.iter().flatten()).chain(l).flat_map(|price| price.to_be_bytes()));
        }
        out.extend([&b"BK"[..], &self.blocks].concat());
        for f in &self.flows {
            out.extend([&b"FL"[..], &f.d.to_be_bytes(), &two(f.ks.len())].concat());
            for &((layer, r), k) in &f.ks {
                out.extend([&[layer][..], &two(r), &k.to_be_bytes()].concat());
            }
            out.extend(two(f.ws.len()));
            for &((v, u), w) in &f.ws {
                out.extend([&[v as u8, u as u8][..], &w.to_be_bytes()].concat());
            }
        }
        out
    }
}
