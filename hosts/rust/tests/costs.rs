//! Cost pairs: the library and the plain judge answer alike, for certificates made for random automata and structured families with costs,
//! and once these are damaged; what costs do to blocks; and what every other call answers to a cost model.
mod compare;
mod maker;
mod plain;
mod records;

use compare::{accepted_costs, alike, compose, every_kind, fetch, hide, join, judge, judge_costs, reduce, rewrite_costs, rounds, sheet, told};
use compare::{Lent, Numbers};
use maker::families::{
    bytes, copies_are_accepted, flow_heavy, flow_heavy_with_costs, internal_chain, largest, late_steps, one_source, refutation_heavy, tolls,
    with_costs,
};
use maker::files::{count, inside, Certificate, Flow, Model, Refutation, Transition};
use maker::random::{in_any_terms, random_cost_model, random_model};
use maker::Missed;
use plain::{Answer, Rule, TODAY};
use records::{crowded, damaged_by, respelled, small_damage, Told};
use std::collections::{BTreeMap, BTreeSet};
use zolkirta::{MODEL, SHEET, STATES};

fn accepted(model: &Model, certificate: &Certificate) {
    maker::is_accepted(judge_costs, model, certificate);
}

/// A cost pair in any terms is refused unless it is in lowest ones, and accepted once it is rewritten, where every k fits.
fn accepted_rewritten(model: &Model, certificate: &Certificate) -> Option<(Model, Certificate)> {
    let (pa, ct) = (model.bytes(), certificate.bytes());
    assert_eq!(judge_costs(&pa, &ct, STATES).0.number, if model.lowest() == *model { 0 } else { 34 });
    let (lowest, own) = maker::rewritten(model, certificate, rewrite_costs(&pa, &ct))?;
    accepted(&lowest, &own);
    Some((lowest, own))
}

#[test]
fn all_certificates_of_a_cost_model_name_the_same_blocks_inside_the_plain_ones() {
    let mut numbers = Numbers::new(61);
    let mut missed = Missed::default();
    let (mut signs, mut layers) = (BTreeMap::new(), BTreeMap::new());
    let (mut several, mut apart, mut finer, mut same) = (0, 0, 0, 0);
    let (mut rewritten, mut not_fitting) = (0, 0);
    let models = rounds(400);
    for _ in 0..models {
        let model = random_cost_model(&mut numbers, 8);
        let mut all = Vec::new();
        let spelled = [in_any_terms(&model, &mut numbers), model.longest()].map(|file| (file, 1));
        for (file, times) in spelled.into_iter().chain([(model.clone(), 2)]) {
            let made: Vec<Certificate> = (0..times).filter_map(|_| missed.certificate(&file, &mut numbers)).collect();
            for certificate in &made {
                let Some(pair) = accepted_rewritten(&file, certificate) else {
                    not_fitting += 1;
                    continue;
                };
                assert_eq!(pair.0, model, "two spellings of one automaton are rewritten to one file");
                rewritten += u64::from(file != model);
                let pair = bytes(pair);
                assert_eq!(judge_costs(&pair.0, &respelled(&pair, &mut numbers), STATES).1, certificate.blocks);
            }
            several += u64::from(made.iter().map(Certificate::bytes).collect::<BTreeSet<_>>().len() == 2);
            all.extend(made);
        }
        let named: BTreeSet<&Vec<u8>> = all.iter().map(|certificate| &certificate.blocks).collect();
        assert!(named.len() <= 1, "{named:?} for {model:?}");
        let Some(&blocks) = named.first() else { continue };
        apart += u64::from((2..model.n()).contains(&count(blocks)));
        let plain_model = model.without_costs();
        if let Some(without) = missed.certificate(&plain_model, &mut numbers) {
            assert_eq!(judge(&plain_model.bytes(), &without.bytes(), STATES).1, without.blocks);
            assert!(inside(blocks, &without.blocks), "{model:?}");
            *(if count(blocks) > count(&without.blocks) { &mut finer } else { &mut same }) += 1;
        }
        for certificate in &all {
            let prices = certificate.refutations.iter().map(|r| r.prices.l.expect("a price of costs"));
            prices.for_each(|l| *signs.entry(l.signum()).or_insert(0) += 1);
            let steps = certificate.flows.iter().flat_map(|flow| &flow.ks).filter(|((_, r), _)| model.transitions[*r].cost > 0);
            steps.for_each(|((layer, _), _)| *layers.entry(*layer).or_insert(0) += 1);
        }
    }
    println!("{models} models, {several} with two different certificates, {apart} with more blocks than one and fewer than states");
    println!("{finer} with more blocks than without costs, {same} with the same; L by sign: {signs:?}; k that pay by layer: {layers:?}");
    println!("{rewritten} pairs rewritten from other terms, {not_fitting} with a k that does not fit then");
    assert!(2 * rewritten > models && 10 * not_fitting > models);
    assert!(2 * several > models && 4 * apart > models && 8 * finer > models && 4 * same > models);
    assert!([-1, 0, 1].iter().all(|sign| signs.get(sign) > Some(&models)));
    assert!([0, 1, 2].iter().all(|layer| layers.get(layer) > Some(&(models / 4))));
}

#[test]
fn costs_of_0_give_the_plain_blocks() {
    let mut numbers = Numbers::new(62);
    let mut missed = Missed::default();
    let mut compared = 0;
    for _ in 0..rounds(200) {
        let model = random_model(&mut numbers, 8);
        let free = model.with_costs(|_, _| 0);
        let made = missed.certificate(&model, &mut numbers).zip(missed.certificate(&free, &mut numbers));
        let Some((own, with_costs)) = made else { continue };
        assert_eq!(judge(&model.bytes(), &own.bytes(), STATES).1, with_costs.blocks);
        accepted(&free, &with_costs);
        // The plain certificate does as well, whatever L is: it is nowhere counted.
        let prices: Vec<i32> = own.refutations.iter().map(|_| numbers.any() as i32).collect();
        accepted(&free, &own.with_l(|i| prices[i]));
        compared += 1;
    }
    assert!(2 * compared > rounds(200));
}

/// Pairs of structured families, with costs that leave their blocks as they are.
fn families(sizes: impl Iterator<Item = usize> + Clone) -> Vec<(Model, Certificate)> {
    let any = |pair| with_costs(pair, |i, _| (7 * i % 64) as i64);
    let moves = |pair| with_costs(pair, |_, r| 63 * r.action as i64);
    let free = |(model, certificate): (Model, Certificate)| (model.with_costs(|_, _| 0), certificate.with_l(|_| i32::MIN));
    let plain = |n: usize| [any(refutation_heavy(n)), moves(internal_chain(n)), free(internal_chain(n)), free(flow_heavy(n, n % 3))];
    let of_size = |n: usize| plain(n).into_iter().chain([tolls(n), flow_heavy_with_costs(n), late_steps(n)]);
    [any(largest()), any(one_source())].into_iter().chain(sizes.flat_map(of_size)).collect()
}

#[test]
fn families_with_costs_up_to_128_states() {
    let mut numbers = Numbers::new(63);
    for (model, certificate) in families([3, 4, 6, 16, 40, 64, 128].into_iter()) {
        accepted(&model, &certificate);
        if model.n() <= 6 {
            let found = maker::certificate(&model, &mut numbers).expect("small numbers");
            assert_eq!(found.blocks, certificate.blocks);
            accepted(&model, &found);
        }
    }
    copies_are_accepted(judge_costs, random_cost_model, TODAY.refutations, &mut numbers);
}

#[test]
fn damaged_pairs_are_answered_alike() {
    let mut numbers = Numbers::new(64);
    let (mut model, certificate) = crowded();
    model.extend([&b"CO"[..], &[7; 81]].concat());
    let mut pairs = accepted_costs();
    pairs.extend(vec![(model, [b"CC", &certificate[2..]].concat()); 5]); // few damages make its entries too many
    pairs.extend([tolls(8), flow_heavy_with_costs(2), late_steps(5)].map(bytes));
    while pairs.len() < 300 {
        let model = random_cost_model(&mut numbers, 6);
        pairs.extend(maker::certificate(&model, &mut numbers).map(|certificate| bytes((model, certificate))));
    }
    let (told, kinds) = damaged_by(Rule::Costs, judge_costs, &pairs, rounds(150_000), 65);
    assert!(told[&(29, 1)] > 100 && told[&(30, 2)] > 100);
    assert_eq!(kinds, every_kind());
}

#[test]
fn every_truncation_and_change_of_one_byte_of_small_pairs() {
    let small = accepted_costs().into_iter().filter(|(model, certificate)| (60..=220).contains(&(model.len() + certificate.len())));
    let (mut told, pairs) = (Told::new(), small.take(8).collect::<Vec<_>>());
    pairs.iter().for_each(|pair| small_damage(judge_costs, pair, &mut told));
    println!("{} small cost pairs: {told:?}", pairs.len());
    assert!(pairs.len() == 8 && [(15, 2), (16, 2), (20, 2), (21, 2), (29, 1), (30, 2)].iter().all(|number| told.contains_key(number)), "{told:?}");
}

/// Document 01's small pair S with costs, and L at the end of each refutation.
fn small(costs: [i64; 2], prices: [i32; 2]) -> (Model, Certificate) {
    let model = Model::new(vec![0; 3], 2, vec![Transition::step(0, 1, 2), Transition::step(1, 0, 0)]);
    let refutations = vec![
        Refutation::new(0, 2, vec![vec![1, 1, 0], vec![1, 1, 1], vec![1, 1, 1]]),
        Refutation::new(1, 2, vec![vec![1, 1, 0], vec![1, 0, 0]]),
    ];
    let moves = Flow { d: 1, ks: vec![((0, 1), 1), ((1, 0), 1)], ws: vec![((2, 2), 1)] };
    let stays = Flow { d: 1, ks: vec![], ws: vec![((0, 0), 1)] };
    let certificate = Certificate::new(refutations, vec![0, 0, 1], vec![moves, stays]);
    (model.with_costs(|i, _| costs[i]), certificate.with_l(|i| prices[i]))
}

#[test]
fn the_small_pair_with_costs() {
    let says = |costs: [i64; 2], prices: [i32; 2]| {
        let (model, certificate) = bytes(small(costs, prices));
        told(judge_costs(&model, &certificate, 3).0)
    };
    assert_eq!(small([5, 0], [0, 0]).0.bytes()[31..], *b"CO\x05\0");
    assert_eq!(says([5, 0], [0, 0]), (0, 0, 0, 0));
    assert_eq!(says([63, 0], [0, 0]), (0, 0, 0, 0));
    assert_eq!(says([5, 64], [0, 0]), (29, 34, 0, 0));
    assert_eq!(says([255, 64], [0, 0]), (29, 33, 0, 0));
    // The first flow pays for the internal step as well; the second one stays, where the challenger is that step.
    assert_eq!(says([5, 1], [0, 0]), (30, 87, 0, 0));
    // L is added to the side of the targets and of G: above 0 it breaks a condition, below 0 the last one, by 5 less 1.
    assert_eq!(says([5, 0], [1, 0]), (15, 4, 0, 0));
    assert_eq!(says([5, 0], [-1, 0]), (16, 4, 2, 4));
    // A(1) is 1 and A(0) is 1, so the second refutation bears no L for the internal step; G(0) is 1, A(2) is 0.
    assert_eq!(says([0, 3], [0, 1]), (15, 49, 0, 0));
    assert_eq!(says([0, 3], [0, -1]), (16, 49, 2, 2));
    assert_eq!(says([0, 3], [0, i32::MIN]), (16, 49, 2, 3 * (1 << 31) - 1));
}

#[test]
fn a_cycle_that_pays_breaks_the_cost_equation_alone() {
    let mut numbers = Numbers::new(66);
    let mut broken = 0;
    while broken < rounds(300) {
        let mut model = random_cost_model(&mut numbers, 5);
        let (v, cost) = (numbers.below(model.n()), 1 + numbers.below(63) as i64);
        model.transitions.push(Transition { cost, ..Transition::step(v, 0, v) });
        model.transitions.sort_by_key(|r| r.source);
        let cycle = model.transitions.iter().position(|r| (r.source, r.action, r.cost, r.weights.len()) == (v, 0, cost, 1)).unwrap();
        let Some(mut certificate) = maker::certificate(&model, &mut numbers) else { continue };
        if model.transitions[cycle].weights[0].0 != v || certificate.flows.is_empty() {
            continue;
        }
        let i = numbers.below(certificate.flows.len());
        let mut ks: BTreeMap<_, u32> = certificate.flows[i].ks.iter().copied().collect();
        let Some(k) = ks.get(&(0, cycle)).unwrap_or(&0).checked_add(1 + numbers.below(9) as u32) else { continue };
        ks.insert((0, cycle), k);
        certificate.flows[i].ks = ks.into_iter().collect();
        let place = Certificate { flows: certificate.flows[..i].to_vec(), ..certificate.clone() }.bytes().len();
        assert_eq!(told(judge_costs(&model.bytes(), &certificate.bytes(), STATES).0), (30, place, 0, 0), "{model:?} {certificate:?}");
        broken += 1;
    }
}

#[test]
fn the_first_cost_above_63_is_where_a_model_breaks() {
    for (model, certificate) in accepted_costs().into_iter().filter(|(model, _)| model.ends_with(&[0])).chain([bytes(tolls(128))]) {
        let count = usize::from(model[4]) * 256 + usize::from(model[5]);
        let first = model.len() - count;
        for (at, cost) in (first..model.len()).flat_map(|at| [(at, 64), (at, 255)]) {
            let mut dearer = model.clone();
            dearer[at] = cost;
            *dearer.last_mut().unwrap() = cost;
            dearer.extend([0; 3]); // bytes left are looked at later, and so is the length of the buffer
            let answer = judge_costs(&dearer, &certificate, 0).0;
            assert_eq!((answer.number, answer.file, answer.place, answer.stretch_length), (29, 1, at, dearer.len() - at));
        }
    }
}

/// The largest sum that a flow may pay, sums that only the cost equation refuses, and the largest prices. They need transitions to one state in
/// the longest terms, so the rewriting judges, without 34.
#[test]
fn the_largest_sums() {
    let wide = |source, action, target| Transition { cost: 63, ..Transition::step(source, action, target).times(65_535) };
    let model = Model::new(vec![0; 2], 2, [vec![wide(0, 1, 0), wide(1, 0, 0)], vec![wide(1, 0, 1); 254]].concat());
    let model = model.with_costs(|_, _| 63);
    let says = |model: &Model, certificate: Certificate| told(rewrite_costs(&model.bytes(), &certificate.with_l(|_| i32::MIN).bytes()).0.answer);
    let met = |ks: Vec<((u8, usize), u32)>| {
        Certificate::new(vec![], vec![0; 2], vec![Flow { d: u32::MAX, ks, ws: vec![((0, 0), u32::MAX)] }])
    };
    let most = |layer: u8, of: std::ops::Range<usize>| of.map(move |r| ((layer, r), u32::MAX));
    // 9,061,385,655,254,220,225: 255 internal transitions twice and the move. State 1 has D, and its step to 0 takes 65,535 times that.
    let all: Vec<_> = most(0, 1..256).chain(most(1, 0..1)).chain(most(2, 1..256)).collect();
    assert_eq!(says(&model, met(all)), (20, 8, 1, i64::from(u32::MAX) * (1 - 65_535)));
    // The step and the move carry D, 65,537 times 65,535, and the self loops only pay.
    let step_and_move = |loops: usize| {
        let step = [((0, 1), 65_537)].into_iter().chain(most(0, 2..2 + loops)).chain([((1, 0), 65_537)]);
        met(step.chain(most(2, 2..2 + loops)).collect())
    };
    assert_eq!(says(&model, step_and_move(254)), (30, 8, 0, 0));
    assert_eq!(says(&model, step_and_move(0)), (30, 8, 0, 0), "the step and the move pay twice what the challenger costs");
    let free = model.with_costs(|i, _| if i == 0 { 63 } else { 0 });
    assert_eq!(says(&free, step_and_move(254)).0, 11, "the first flow is met, and the next one is missing");

    // State 1 stays, and a self loop pays a power of 2 for a challenger that costs nothing.
    let stays = Model::new(vec![0; 2], 1, vec![Transition::step(0, 0, 0), Transition::step(1, 0, 1).times(1 << 15)]);
    for (cost, k) in [(1, 1 << 17), (2, 1 << 16), (1, 1 << 31), (4, 1 << 31), (32, 1 << 31)] {
        let flow = Flow { d: 1, ks: vec![((0, 1), k)], ws: vec![((1, 0), 1)] };
        let model = stays.with_costs(|i, _| cost * i as i64);
        assert_eq!(says(&model, Certificate::new(vec![], vec![0; 2], vec![flow])), (30, 8, 0, 0));
    }

    let [low, high] = [i32::MIN, i32::MAX];
    let refuted = |action: usize, cost: i64, sides: Vec<Vec<i32>>, l: i32| {
        let model = Model::new(vec![0; 2], 2, vec![wide(0, action, 0)]).with_costs(|_, _| cost);
        let refutation = Refutation::new(0, 1, sides).with_l(l);
        let certificate = Certificate { refutations: vec![refutation], ..Certificate::new(vec![], vec![0, 1], vec![]) };
        let certificate = Certificate { rule: Rule::Costs, ..certificate };
        told(rewrite_costs(&model.bytes(), &certificate.bytes()).0.answer)
    };
    assert_eq!(refuted(0, 63, vec![vec![high; 2], vec![low; 2]], low), (16, 4, 1, 65_535 * (65 * (1 << 31) - 1)));
    assert_eq!(refuted(0, 63, vec![vec![high; 2], vec![low; 2]], high), (15, 4, 0, 0));
    // A(0) bears B(0) and L: -2,147,483,648 and 2,147,483,647 are -1, below which A(1) must be.
    assert_eq!(refuted(1, 1, vec![vec![high, -1], vec![low; 2], vec![low; 2]], high), (16, 4, 1, 0));
    assert_eq!(refuted(1, 1, vec![vec![high, -2], vec![low; 2], vec![low; 2]], high), (0, 0, 0, 0));
    assert_eq!(refuted(1, 1, vec![vec![-1, -2], vec![low; 2], vec![low; 2]], high), (0, 0, 0, 0));
    assert_eq!(refuted(1, 1, vec![vec![-2, -3], vec![low; 2], vec![low; 2]], high), (15, 4, 0, 0));
    assert_eq!(refuted(1, 63, vec![vec![high, low], vec![low; 2], vec![low; 2]], low), (16, 4, 1, 65_535 * 63 * (1 << 31)));
}

/// Where the costs of a cost model begin, every other call finds bytes left.
#[test]
fn every_other_call_refuses_a_cost_model() {
    let still = b"PA\x01\x01\0\0LB\0";
    let mut pairs = accepted_costs();
    assert!(pairs.iter().any(|(model, _)| model.ends_with(b"CO")), "one without transitions");
    pairs.push(bytes(tolls(128)));
    pairs.push(bytes(flow_heavy_with_costs(3)));
    for (model, certificate) in &pairs {
        let count = usize::from(model[4]) * 256 + usize::from(model[5]);
        let (length, place) = (model.len(), model.len() - 2 - count);
        let left = |file: u32| Answer { number: 9, file, place, stretch_start: place, stretch_length: length - place, ..Answer::default() };
        assert_eq!(judge_costs(model, certificate, STATES).0.number, 0);
        for ct in [certificate.clone(), [b"CT", &certificate[2..]].concat()] {
            assert_eq!(judge(model, &ct, STATES).0, left(1));
            assert_eq!(judge(model, &ct, 0).0, left(1), "before the length of the buffer is looked at");
            assert_eq!(reduce(model, &ct, MODEL).0, left(1));
            assert_eq!(sheet(model, &ct, SHEET).0, left(1));
            assert_eq!(alike(model, &ct, [1, 0, 1]).answer, left(1));
        }
        assert_eq!(fetch(model, 0), left(1));
        assert_eq!(fetch(model, 128), left(1));
        assert_eq!(hide(model, &[1], MODEL).0, left(1));
        for call in [join as Lent, compose] {
            assert_eq!(call(model, still, MODEL).0, left(1));
            assert_eq!(call(still, model, MODEL).0, left(3));
            assert_eq!(call(model, model, MODEL).0, left(1));
        }
        // Without the record it is a model, which in turn is no cost model.
        assert_eq!(fetch(&model[..place], 128).number, 24);
        let answer = judge_costs(&model[..place], certificate, STATES).0;
        assert_eq!((answer.number, answer.file, answer.place, answer.stretch_length), (1, 1, place, 0));
    }
}

#[test]
fn a_certificate_of_the_other_rule_has_a_wrong_mark() {
    let (mut numbers, mut pairs) = (Numbers::new(67), 0);
    while pairs < rounds(50) {
        let model = random_model(&mut numbers, 5);
        let Some(certificate) = maker::certificate(&model, &mut numbers) else { continue };
        let (free, with_l) = (model.with_costs(|_, _| 0), certificate.with_l(|_| 0));
        accepted(&free, &with_l);
        let length = with_l.bytes().len();
        let answer = judge(&model.bytes(), &with_l.bytes(), STATES).0;
        assert_eq!((answer.number, answer.file, answer.place, answer.stretch_length), (12, 2, 0, length));
        let answer = judge_costs(&free.bytes(), &certificate.bytes(), STATES).0;
        assert_eq!((answer.number, answer.file, answer.place), (12, 2, 0));
        pairs += 1;
    }
}
