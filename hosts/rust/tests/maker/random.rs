//! Random automata.

use super::files::{Model, Transition};
use super::{shuffle, Numbers};

/// A transition to up to three of the states below `n`.
fn any_transition(numbers: &mut Numbers, n: usize, source: usize, m: usize) -> Transition {
    let action = if numbers.below(5) < 2 { 0 } else { numbers.below(m) };
    let mut targets: Vec<usize> = (0..n).collect();
    shuffle(&mut targets, numbers);
    targets.truncate(1 + numbers.below(3.min(n)));
    targets.sort();
    let most = *numbers.of(&[2, 2, 3, 3, 3, 3, 6, 20, 100]);
    let weights: Vec<(usize, i64)> = targets.into_iter().map(|v| (v, 1 + numbers.below(most) as i64)).collect();
    Transition { source, action, d: weights.iter().map(|e| e.1).sum(), weights, cost: 0 }
}

/// Up to five states, and no more than `most`, that move at random.
fn kernel(numbers: &mut Numbers, most: usize) -> Model {
    let n = 1 + numbers.below(most.min(5));
    let m = *numbers.of(&[1, 2, 2, 3, 4, 32]);
    let labels = *numbers.of(&[1, 1, 1, 2, 3, 64]);
    let mut model = Model::new((0..n).map(|_| numbers.below(labels) as u8).collect(), m, Vec::new());
    for source in 0..n {
        match numbers.below(6) {
            0 => {}
            // A state that only diverges.
            1 => model.transitions.push(Transition::step(source, 0, source)),
            _ => {
                for _ in 0..1 + numbers.below(3) {
                    model.transitions.push(any_transition(numbers, n, source, m));
                }
            }
        }
    }
    model
}

/// A state more that moves as `v` does, though its distributions may be split otherwise: what leads to `v` may lead to it in part.
fn copy_state(model: &mut Model, numbers: &mut Numbers, v: usize) {
    let copy = model.n();
    model.labels.push(model.labels[v]);
    let own = model.transitions.iter().filter(|r| r.source == v);
    let moved: Vec<Transition> = own.map(|r| Transition { source: copy, ..r.clone() }).collect();
    model.transitions.extend(moved);
    for r in model.transitions.iter_mut().filter(|_| numbers.below(2) == 0) {
        *r = r.times(1 + (r.d % 2));
        if let Some(i) = r.weights.iter().position(|e| e.0 == v) {
            let (_, p) = r.weights[i];
            let part = (p / 2).max(1);
            r.weights[i].1 -= part;
            r.weights.push((copy, part));
            r.weights.retain(|e| e.1 > 0);
        }
    }
}

/// A state more that reaches what `v` does only by internal steps, perhaps after some that lead back.
fn prefix_state(model: &mut Model, numbers: &mut Numbers, v: usize) {
    let first = model.n();
    model.labels.push(model.labels[v]);
    let again = numbers.below(3) as i64;
    let back = if again > 0 { vec![(v, 1), (first, again)] } else { vec![(v, 1)] };
    model.transitions.push(Transition { source: first, action: 0, d: 1 + again, weights: back, cost: 0 });
}

/// The kernel with costs: none, by action, or of each transition by itself, and perhaps only of external ones. Copies of a state have its
/// costs, and internal steps to it have none.
fn costly(kernel: &Model, numbers: &mut Numbers) -> Model {
    let most = *numbers.of(&[1, 2, 2, 3, 4, 64, 64]);
    let mut costs = |count: usize| -> Vec<i64> { (0..count).map(|_| numbers.below(most) as i64).collect() };
    let (by_action, by_itself) = (costs(kernel.m), costs(kernel.transitions.len()));
    let (alone, external) = (numbers.below(2) == 0, numbers.below(3) == 0);
    kernel.with_costs(|i, r| match r.action {
        0 if external => 0,
        _ if alone => by_itself[i],
        action => by_action[action],
    })
}

/// A random automaton of 1 to `most` states, in lowest terms: a kernel, with states copied, reached by internal steps only, looping and almost
/// alike.
pub fn random_model(numbers: &mut Numbers, most: usize) -> Model {
    let kernel = kernel(numbers, most);
    grown(kernel, numbers, most)
}

/// A transition more that does in one step, at the cost of both, what two do that follow each other, one of them internal; where there are
/// such, a move and then a step that costs something.
fn shortcut(model: &mut Model, numbers: &mut Numbers) {
    let mut found: Vec<(bool, Transition)> = Vec::new();
    for r in &model.transitions {
        for i in model.transitions.iter().filter(|i| r.weights.iter().all(|e| e.0 == i.source) && r.action * i.action == 0) {
            let both = Transition { source: r.source, action: r.action + i.action, cost: r.cost + i.cost, ..i.clone() };
            found.push((r.action > 0 && i.cost > 0, both));
        }
    }
    found.retain(|(_, both)| both.cost < 64);
    let late = found.iter().any(|e| e.0);
    found.retain(|e| e.0 == late);
    if !found.is_empty() {
        model.transitions.push(numbers.of(&found).1.clone());
        model.transitions.sort_by_key(|r| r.source);
    }
}

/// The same with costs, with steps that do what two do, and of the costs one or two may be others.
pub fn random_cost_model(numbers: &mut Numbers, most: usize) -> Model {
    let kernel = kernel(numbers, most);
    let mut model = grown(costly(&kernel, numbers), numbers, most);
    for _ in 0..numbers.below(4) {
        shortcut(&mut model, numbers);
    }
    for _ in 0..numbers.below(3).min(model.transitions.len()) {
        let i = numbers.below(model.transitions.len());
        model.transitions[i].cost = *numbers.of(&[0, 1, 2, 5, 62, 63]);
    }
    model
}

/// A transition more that is a mean of two of its state's with one action, where its d fits: a state that has these two alone meets it by both.
fn mean(model: &mut Model, numbers: &mut Numbers) {
    let all = &model.transitions;
    let pairs = all.iter().enumerate().flat_map(|(i, r)| all[..i].iter().map(move |q| (q, r)));
    let pairs: Vec<_> = pairs.filter(|(q, r)| (q.source, q.action) == (r.source, r.action) && q != r).collect();
    if pairs.is_empty() {
        return;
    }
    let (q, r) = *numbers.of(&pairs);
    let shares = [1 + numbers.below(3) as i64, 1 + numbers.below(3) as i64];
    let mut weights = vec![0; model.n()];
    for ((one, other), share) in [(q, r), (r, q)].into_iter().zip(shares) {
        one.weights.iter().for_each(|&(v, p)| weights[v] += p * other.d * share);
    }
    let weights: Vec<(usize, i64)> = weights.into_iter().enumerate().filter(|e| e.1 > 0).collect();
    let mean = Transition::to(q.source, q.action, &weights).lowest();
    if mean.d <= 65_535 {
        model.transitions.push(mean);
        model.transitions.sort_by_key(|r| r.source);
    }
}

/// A random automaton to be certified by the strong rule, with some transitions that are means of others.
pub fn random_strong_model(numbers: &mut Numbers, most: usize) -> Model {
    let mut model = random_model(numbers, most);
    for _ in 0..numbers.below(4) {
        mean(&mut model, numbers);
    }
    model.strong()
}

fn grown(mut model: Model, numbers: &mut Numbers, most: usize) -> Model {
    let n = model.n().max(1 + numbers.below(most));
    while model.n() < n {
        let v = numbers.below(model.n());
        if numbers.below(3) == 0 { prefix_state(&mut model, numbers, v) } else { copy_state(&mut model, numbers, v) }
    }
    let any = |numbers: &mut Numbers| numbers.below(n);
    match numbers.below(8) {
        0 => {
            let v = any(numbers);
            model.transitions.push(Transition::step(v, 0, v));
        }
        1 => {
            let (v, u) = (any(numbers), any(numbers));
            model.transitions.extend([Transition::step(v, 0, u), Transition::step(u, 0, v)]);
        }
        2 if !model.transitions.is_empty() => {
            // Almost alike: one probability changed.
            let i = numbers.below(model.transitions.len());
            model.transitions[i].d += 1;
            model.transitions[i].weights[0].1 += 1;
        }
        3 => {
            let v = any(numbers);
            model.transitions.push(any_transition(numbers, n, v, model.m));
        }
        _ => {}
    }
    renumbered(model, numbers)
}

/// The states in another order, the transitions in file order.
fn renumbered(mut model: Model, numbers: &mut Numbers) -> Model {
    let mut to: Vec<usize> = (0..model.n()).collect();
    shuffle(&mut to, numbers);
    shuffle(&mut model.transitions, numbers);
    model.reordered(&to).0.lowest()
}

/// The same automaton in any terms: each transition times 1, a small factor, or now and then any that fits or the highest.
pub fn in_any_terms(model: &Model, numbers: &mut Numbers) -> Model {
    let spelled = |r: &Transition| {
        let most = (65_535 / r.d) as usize;
        let (small, any) = (1 + numbers.below(most.min(12)), 1 + numbers.below(most));
        r.times([1, 1, 1, 2, 3, small, small, small, 1, 2, any, most][numbers.below(12)] as i64)
    };
    Model { transitions: model.transitions.iter().map(spelled).collect(), ..model.clone() }
}
