//! K14, strong pairs: the library and the plain judge answer alike, for certificates made for random automata and structured families by the strong
//! rule, and once these are damaged; their blocks lie inside the weak ones; what is known beforehand; and what calls answer to other kinds.
mod compare;
mod maker;
mod plain;
mod records;

use compare::{accepted, accepted_costs, accepted_strong, alike, every_kind, judge, judge_costs, judge_strong, kind_by, reduce, rewrite};
use compare::{rewrite_costs, rounds, sheet, told, Kind, Numbers};
use maker::families::{
    bytes, copies_are_accepted, in_any_order, large_of, no_answer, one_source, still, strong, strong_chain, strong_fan, strong_largest,
    strong_loops,
};
use maker::files::{by_appearance, count, inside, Certificate, Flow, Model, Refutation, Transition};
use maker::random::random_strong_model;
use maker::Missed;
use plain::{Answer, Broken, Rule, TODAY};
use records::{crowded, damaged_by, respelled, small_damage, Told};
use std::collections::{BTreeMap, BTreeSet};
use zolkirta::{MODEL, SHEET, STATES};

fn is_accepted(model: &Model, certificate: &Certificate) {
    maker::is_accepted(judge_strong, model, certificate);
}

/// The model, to be certified by the weak rule.
fn weak(model: &Model) -> Model {
    Model { rule: Rule::Plain, ..model.clone() }
}

/// The blocks that are found where each transition must be met by one transition, none by several together: states are told apart by the
/// probabilities that their transitions have of the blocks, until no more are.
fn met_by_one(model: &Model) -> Vec<u8> {
    let mut blocks = by_appearance(&model.labels);
    loop {
        let shares = |r: &Transition| {
            let mut shares: BTreeMap<u8, i64> = BTreeMap::new();
            r.lowest().weights.iter().for_each(|&(v, p)| *shares.entry(blocks[v]).or_default() += p);
            let common = shares.values().fold(0, |g, &p| maker::files::gcd(g, p));
            (r.action, shares.into_iter().map(|(block, p)| (block, p / common)).collect::<Vec<_>>())
        };
        let moves = |v: usize| model.transitions.iter().filter(|r| r.source == v).map(shares).collect::<BTreeSet<_>>();
        let told: Vec<_> = (0..model.n()).map(|v| (blocks[v], moves(v))).collect();
        let next: Vec<u8> = told.iter().map(|own| told.iter().position(|other| other == own).unwrap() as u8).collect();
        let next = by_appearance(&next);
        if next == blocks {
            return blocks;
        }
        blocks = next;
    }
}

/// Whether some state has two transitions with one action: only then may several be needed together.
fn has_choices(model: &Model) -> bool {
    let moves: BTreeSet<_> = model.transitions.iter().map(|r| (r.source, r.action)).collect();
    moves.len() < model.transitions.len()
}

#[test]
fn all_certificates_of_a_model_name_the_same_blocks_inside_the_weak_ones() {
    let mut numbers = Numbers::new(141);
    let mut missed = Missed::default();
    let (mut several, mut apart, mut finer, mut same, mut by_several) = (0, 0, 0, 0, 0);
    let (mut refuted, mut met, mut of_several, mut of_several_d) = ([0; 2], [0; 2], [0; 2], 0);
    let models = rounds(600);
    for _ in 0..models {
        let model = random_strong_model(&mut numbers, 9);
        let made: Vec<Certificate> = (0..3).filter_map(|_| missed.certificate(&model, &mut numbers)).collect();
        for certificate in &made {
            is_accepted(&model, certificate);
            let pair = (model.bytes(), certificate.bytes());
            assert_eq!(judge_strong(&pair.0, &respelled(&pair, &mut numbers), STATES).1, certificate.blocks);
        }
        several += u64::from(made.iter().map(Certificate::bytes).collect::<BTreeSet<_>>().len() == 3);
        let named: BTreeSet<&Vec<u8>> = made.iter().map(|certificate| &certificate.blocks).collect();
        assert!(named.len() <= 1, "{named:?} for {model:?}");
        let Some(&blocks) = named.first() else { continue };
        apart += u64::from((2..model.n()).contains(&count(blocks)));
        let one_by_one = met_by_one(&model);
        assert!(inside(&one_by_one, blocks) && (has_choices(&model) || one_by_one == *blocks), "{model:?}");
        by_several += u64::from(one_by_one != *blocks);
        if let Some(without) = missed.certificate(&weak(&model), &mut numbers) {
            assert_eq!(judge(&model.bytes(), &without.bytes(), STATES).1, without.blocks);
            assert!(inside(blocks, &without.blocks), "{model:?}");
            *(if count(blocks) > count(&without.blocks) { &mut finer } else { &mut same }) += 1;
        }
        for certificate in &made {
            let external = |q: usize| usize::from(model.transitions[q].action > 0);
            certificate.refutations.iter().for_each(|r| refuted[external(r.challenger)] += 1);
            for ((_, _, q), flow) in certificate.questions(&model).into_iter().zip(&certificate.flows) {
                met[external(q)] += 1;
                of_several[external(q)] += u64::from(flow.ks.len() > 1);
                let denominators: BTreeSet<i64> = flow.ks.iter().map(|&((_, r), _)| model.transitions[r].d).collect();
                of_several_d += u64::from(denominators.len() > 1);
            }
        }
    }
    println!("{models} models, {several} with three different certificates, {apart} with more blocks than one and fewer than states");
    println!("{finer} with more blocks than weakly, {same} with the same; {by_several} with fewer than where one transition must meet one");
    println!("internal and external: {refuted:?} refutations, {met:?} flows, {of_several:?} of several transitions; {of_several_d} of several d");
    assert!(3 * several > models && 4 * apart > models && 4 * finer > models && 4 * same > models && 50 * by_several > models);
    let often = |counts: [u64; 2], least: u64| counts.into_iter().all(|count| count > least);
    assert!(often(refuted, models) && often(met, models) && often(of_several, models / 6) && of_several_d > models / 2);
}

/// Prices of states that the defender's own moves do not lead to are bound by none of the model's transitions.
#[test]
fn no_other_transition_has_a_condition() {
    let mut numbers = Numbers::new(142);
    let (mut models, mut broken_weakly) = (0, 0);
    while models < rounds(200) {
        let model = random_strong_model(&mut numbers, 7);
        let Some(mut certificate) = maker::certificate(&model, &mut numbers) else { continue };
        for Refutation { challenger, defender, prices } in &mut certificate.refutations {
            let q = &model.transitions[*challenger];
            let reaches = |r: &Transition, v: usize| r.weights.iter().any(|e| e.0 == v);
            let own = |v: usize| model.transitions.iter().any(|r| (r.source, r.action) == (*defender, q.action) && reaches(r, v));
            let [b, g] = &mut prices.sides[..] else { panic!("B and G") };
            let mut between = |low: i32, high: i32| (i64::from(low) + numbers.below((i64::from(high) - i64::from(low)) as usize + 1) as i64) as i32;
            (0..b.len()).filter(|&v| !own(v)).for_each(|v| b[v] = between(b[v], i32::MAX));
            (0..g.len()).filter(|&u| !reaches(q, u)).for_each(|u| g[u] = between(i32::MIN, g[u]));
            let price = |r: &Transition| r.weights.iter().map(|&(v, p)| p * i64::from(b[v])).sum::<i64>();
            let steps = model.transitions.iter().filter(|r| r.action == 0);
            broken_weakly += u64::from(steps.clone().any(|r| r.d * i64::from(b[r.source]) < price(r)));
        }
        is_accepted(&model, &certificate);
        models += 1;
    }
    println!("{broken_weakly} refutations in which an internal step breaks the weak condition on B");
    assert!(broken_weakly > rounds(200));
}

/// Pairs of structured families, by an internal action and by an external one.
fn families(n: usize) -> Vec<(Model, Certificate)> {
    let of_action = |action: usize| [strong_chain(n, action), strong_loops(n, action), strong_fan(n.max(3), action)];
    let without_moves = [strong(still(&vec![0; n])), strong(still(&(0..n as u8).map(|v| v % 64).collect::<Vec<_>>()))];
    of_action(0).into_iter().chain(of_action(1)).chain(without_moves).collect()
}

#[test]
fn families_up_to_128_states() {
    let mut numbers = Numbers::new(143);
    for (model, certificate) in [strong_largest(), strong(one_source())] {
        is_accepted(&model, &certificate);
    }
    let (chain, apart) = strong_chain(STATES, 0);
    assert_eq!((apart.refutations.len(), apart.flows.len()), (TODAY.refutations, 0));
    assert_eq!(strong_loops(STATES, 0).1.flows.len(), zolkirta::flows(STATES, 256));
    assert_eq!(strong_fan(STATES, 1).1.flows.iter().map(|flow| flow.ks.len()).max(), Some(STATES - 2));
    for n in [1, 2, 3, 5, 8, 64, 65, 128] {
        for (model, certificate) in families(n) {
            is_accepted(&model, &certificate);
            if n <= 65 {
                let (mixed, told) = in_any_order((model.clone(), certificate.clone()), &mut numbers);
                is_accepted(&mixed, &told);
            }
            if model.transitions.len() <= 16 {
                let found = maker::certificate(&model, &mut numbers).expect("small numbers");
                assert_eq!(found.blocks, certificate.blocks);
                is_accepted(&model, &found);
            }
        }
    }
    // As many k entries as there can be: state 0 steps once to state 2, and state 1 meets that by all of its 255 steps there.
    let model = Model::new(vec![0, 0, 1], 2, [vec![Transition::step(0, 1, 2)], vec![Transition::step(1, 1, 2); 255]].concat());
    let by = |of: std::ops::Range<usize>| Flow { d: of.len() as u32, ws: vec![((2, 2), of.len() as u32)], ks: of.map(|r| ((1, r), 1)).collect() };
    is_accepted(&model, &Certificate::strong(Vec::new(), vec![0, 0, 1], [vec![by(1..256)], vec![by(0..1); 255]].concat()));
    // Weakly all states of a chain of internal steps are alike, as each may stay where it is.
    let stays = |t: usize, u: usize| Flow { d: 1, ks: Vec::new(), ws: vec![((t, u), 1)] };
    let flows = (1..STATES).flat_map(|s| (0..STATES).filter(move |&t| t != s).map(move |t| stays(t, s - 1))).collect();
    let weakly = Certificate::new(Vec::new(), vec![0; STATES], flows);
    assert_eq!(judge(&chain.bytes(), &weakly.bytes(), STATES).1, vec![0; STATES]);
    copies_are_accepted(judge_strong, random_strong_model, 2500, &mut numbers); // more take long
}

#[test]
fn pairs_of_65_to_128_states() {
    let mut numbers = Numbers::new(144);
    let (mut refuted, mut met) = (0, 0);
    for _ in 0..rounds(30) {
        let (model, certificate) = large_of(random_strong_model, &mut numbers);
        is_accepted(&model, &certificate);
        assert!((65..=128).contains(&model.n()));
        refuted += certificate.refutations.len();
        met += certificate.flows.len();
    }
    println!("{refuted} refutations, {met} flows");
    assert!(refuted > 1000 && met > 500);
}

/// Every kind of 16, 20 and 21: an internal challenger has the same equations as an external one.
fn every_strong_kind() -> BTreeSet<Kind> {
    every_kind().into_iter().filter(|kind| kind.0 != Broken::AtState).collect()
}

#[test]
fn damaged_pairs_are_answered_alike() {
    let mut numbers = Numbers::new(145);
    let (model, certificate) = crowded();
    let mut pairs = accepted_strong();
    pairs.extend(vec![(model, [b"CS", &certificate[2..]].concat()); 5]); // few damages make its entries too many
    pairs.extend([0, 1].into_iter().flat_map(|action| [strong_chain(6, action), strong_fan(7, action)]).map(bytes));
    pairs.push(bytes(large_of(random_strong_model, &mut numbers)));
    while pairs.len() < 300 {
        let model = random_strong_model(&mut numbers, 6);
        pairs.extend(maker::certificate(&model, &mut numbers).map(|certificate| bytes((model, certificate))));
    }
    let (_, kinds) = damaged_by(Rule::Strong, judge_strong, &pairs, rounds(150_000), 146);
    assert_eq!(kinds, every_strong_kind());
}

#[test]
fn every_truncation_and_change_of_one_byte_of_small_pairs() {
    let asks = |certificate: &[u8]| certificate.windows(2).any(|mark| mark == b"FL") && certificate.windows(2).any(|mark| mark == b"PX");
    let small = accepted_strong().into_iter().filter(|(model, certificate)| model.len() + certificate.len() <= 260 && asks(certificate));
    let (mut told, pairs) = (Told::new(), small.take(8).collect::<Vec<_>>());
    pairs.iter().for_each(|pair| small_damage(judge_strong, pair, &mut told));
    println!("{} small strong pairs: {told:?}", pairs.len());
    assert!(pairs.len() == 8 && (14..=21).all(|number| told.contains_key(&(number, 2))), "{told:?}");
}

fn says(model: &Model, certificate: Certificate) -> (u32, usize, u32, i64) {
    told(judge_strong(&model.bytes(), &certificate.bytes(), STATES).0)
}

/// Document 01's model S, whose states are all apart, and prices that break each condition.
#[test]
fn the_small_model_by_the_strong_rule() {
    let model = Model::new(vec![0; 3], 2, vec![Transition::step(0, 1, 2), Transition::step(1, 0, 0)]);
    let refuted = [(0, 1), (0, 2), (1, 2)].map(|(q, t)| no_answer(3, q, t));
    let apart = Certificate::strong(refuted.to_vec(), vec![0, 1, 2], Vec::new());
    assert_eq!((apart.bytes().len(), says(&model, apart.clone())), (108, (0, 0, 0, 0)));
    let changed = |i: usize, refutation: Refutation| {
        let mut certificate = apart.clone();
        certificate.refutations[i] = refutation;
        says(&model, certificate)
    };
    // State 2 leads nowhere, so any A and any B above G will do; and B(0) below G(2) breaks a condition as long as 0 and 2 are related.
    assert_eq!(changed(0, Refutation::strong(0, 1, i32::MIN, vec![9, 7, 8], vec![7, i32::MIN, 7])), (0, 0, 0, 0));
    assert_eq!(changed(0, Refutation::strong(0, 1, 0, vec![0, 1, 1], vec![0, 0, 1])), (15, 4, 0, 0));
    // In the last one 1 and 2 are related, and neither is to 0 any more.
    assert_eq!(changed(2, Refutation::strong(1, 2, 0, vec![1, 0, 0], vec![1, 0, 1])), (15, 70, 0, 0));
    assert_eq!(changed(2, Refutation::strong(1, 2, 0, vec![1, 5, 5], vec![1, 5, 5])), (0, 0, 0, 0));
    assert_eq!(changed(0, Refutation::strong(0, 1, 0, vec![1, 5, 5], vec![1, 5, 5])), (15, 4, 0, 0));
    assert_eq!(changed(1, Refutation::strong(0, 2, 1, vec![1; 3], vec![1; 3])), (16, 37, 2, 0));
    assert_eq!(changed(1, Refutation::strong(0, 2, 4, vec![1; 3], vec![-3; 3])), (16, 37, 2, 7));
    // State 1 as challenger of 0, whose only move has another action.
    assert_eq!(changed(0, no_answer(3, 1, 0)), (0, 0, 0, 0));
    assert_eq!(changed(1, no_answer(3, 0, 1)), (14, 37, 0, 0));
    // The weak prices of document 01, of three states each.
    let weakly = Refutation::new(0, 1, vec![vec![1, 1, 0], vec![1; 3], vec![1; 3]]);
    assert_eq!(changed(0, weakly), (15, 4, 0, 0), "B(1) is 0");
}

/// States 0 and 1 step to state 2, which has another label, internally.
#[test]
fn answers_that_are_none() {
    let model = Model::new(vec![0, 0, 1], 1, vec![Transition::step(0, 0, 2), Transition::step(1, 0, 2)]);
    let says = |d: u32, ks: &[((u8, usize), u32)], ws: &[((usize, usize), u32)]| {
        let first = Flow { d, ks: ks.to_vec(), ws: ws.to_vec() };
        let last = Flow { d: 1, ks: vec![((1, 0), 1)], ws: vec![((2, 2), 1)] };
        says(&model, Certificate::strong(Vec::new(), vec![0, 0, 1], vec![first, last]))
    };
    let to_2 = |w: u32| [((2, 2), w)];
    assert_eq!(says(1, &[((1, 1), 1)], &to_2(1)), (0, 0, 0, 0));
    assert_eq!(says(7, &[((1, 1), 7)], &to_2(7)), (0, 0, 0, 0));
    assert_eq!(says(1, &[((0, 1), 1)], &to_2(1)), (19, 9, 0, 0), "layer 0");
    assert_eq!(says(1, &[((2, 1), 1)], &to_2(1)), (19, 9, 0, 0), "layer 2");
    assert_eq!(says(1, &[((3, 1), 1)], &to_2(1)), (19, 9, 0, 0), "no layer");
    assert_eq!(says(1, &[((1, 0), 1)], &to_2(1)), (19, 9, 0, 0), "the transition of another state");
    assert_eq!(says(1, &[], &to_2(1)), (20, 9, 1, 1), "staying put");
    assert_eq!(says(1, &[], &[]), (20, 9, 1, 1));
    assert_eq!(says(2, &[((1, 1), 1)], &to_2(1)), (20, 9, 1, 1));
    assert_eq!(says(1, &[((1, 1), 2)], &to_2(2)), (20, 9, 1, -1));
    assert_eq!(says(2, &[((1, 1), 2)], &to_2(1)), (20, 9, 2, 1));
    assert_eq!(says(2, &[((1, 1), 2)], &to_2(5)), (20, 9, 2, -3));
    assert_eq!(says(1, &[((1, 1), 1)], &[((0, 0), 1), ((2, 2), 1)]), (20, 9, 0, -1), "the equation of D holds, and then comes the first v");
    assert_eq!(says(2, &[((1, 1), 1)], &[((0, 0), 1), ((2, 2), 1)]), (20, 9, 1, 1), "ahead of those at v");

    // A step of another action is none of the question either, in whichever layer.
    let both = Model::new(vec![0, 0, 1], 2, [0, 1].into_iter().flat_map(|s| [0, 1].map(|action| Transition::step(s, action, 2))).collect());
    let by = |r: usize| Flow { d: 1, ks: vec![((1, r), 1)], ws: vec![((2, 2), 1)] };
    let met = |order: [usize; 4]| self::says(&both, Certificate::strong(Vec::new(), vec![0, 0, 1], order.map(by).to_vec()));
    assert_eq!([met([2, 3, 0, 1]), met([3, 3, 0, 1]), met([2, 2, 0, 1])].map(|said| (said.0, said.1)), [(0, 0), (19, 9), (19, 32)]);
}

/// A transition with d 6 is met by two with d 2 and 3, in shares that need both.
#[test]
fn moves_of_different_d_are_combined() {
    let [one, other] = [[(2, 1), (3, 1)], [(2, 1), (3, 2)]];
    for action in [0, 1] {
        let mean = Transition::to(0, action, &[(2, 5), (3, 7)]); // half of each
        let of = |source: usize| [one, other].map(|weights| Transition::to(source, action, &weights));
        let model = Model::new(vec![0, 0, 1, 2], 2, [&of(0)[..], &[mean], &of(1)].concat());
        let by = |d: u32, ks: &[(usize, u32)], ws: [u32; 2]| Flow {
            d,
            ks: ks.iter().map(|&(r, k)| ((1, r), k)).collect(),
            ws: vec![((2, 2), ws[0]), ((3, 3), ws[1])],
        };
        let met = |flow: Flow| {
            let flows = vec![by(2, &[(3, 1)], [1, 1]), by(3, &[(4, 1)], [1, 2]), flow, by(2, &[(0, 1)], [1, 1]), by(3, &[(1, 1)], [1, 2])];
            says(&model, Certificate::strong(Vec::new(), vec![0, 0, 1, 2], flows))
        };
        let place = 10 + 2 * 29;
        assert_eq!(met(by(12, &[(3, 3), (4, 2)], [5, 7])), (0, 0, 0, 0));
        assert_eq!(met(by(12, &[(3, 6)], [6, 6])), (21, place, 2, 12 * 6 - 5 * 12));
        assert_eq!(met(by(12, &[(4, 4)], [4, 8])), (21, place, 2, 12 * 4 - 5 * 12));
        assert_eq!(met(by(10, &[(3, 2), (4, 2)], [4, 6])), (21, place, 2, 12 * 4 - 5 * 10));
        assert_eq!(met(by(11, &[(3, 3), (4, 2)], [5, 7])), (20, place, 1, 11 - 12));
        assert_eq!(met(by(12, &[(3, 2), (4, 2)], [5, 7])), (20, place, 1, 12 - 10));
        assert_eq!(met(by(12, &[(3, 3), (4, 2)], [4, 7])), (20, place, 2, 1));
        assert_eq!(met(by(12, &[(3, 3), (4, 2)], [5, 8])), (20, place, 3, -1));
        assert_eq!(met(by(12, &[(4, 2), (3, 3)], [5, 7])), (19, place, 0, 0));
        assert_eq!(met(by(12, &[(2, 1)], [5, 7])), (19, place, 0, 0));
    }
}

/// A met question's flow with a number changed by a known amount, and what it must be off by: number, state and remainder.
fn changed_flow(model: &Model, (t, q): (usize, usize), blocks: &[u8], met: &Flow, numbers: &mut Numbers) -> Option<(Flow, (u32, usize, i64))> {
    let mut flow = met.clone();
    let (i, j, by) = (numbers.below(flow.ks.len()), numbers.below(flow.ws.len()), 1 + numbers.below(1000) as u32);
    let ((v, u), _) = flow.ws[j];
    let r = &model.transitions[flow.ks[i].0 .1];
    let told = match numbers.below(6) {
        0 => {
            flow.d = flow.d.checked_add(by)?;
            (20, t, i64::from(by))
        }
        1 => {
            flow.ks[i].1 = flow.ks[i].1.checked_add(by)?;
            (20, t, -r.d * i64::from(by))
        }
        2 => {
            let (_, k) = flow.ks.remove(i);
            (20, t, r.d * i64::from(k))
        }
        3 => {
            // The equation of D holds: too much comes to the first state that the transition leads to.
            flow.ks[i].1 = flow.ks[i].1.checked_add(by)?;
            flow.d = flow.d.checked_add(u32::try_from(r.d).ok()?.checked_mul(by)?)?;
            (20, r.weights[0].0, r.weights[0].1 * i64::from(by))
        }
        4 => {
            flow.ws[j].1 = flow.ws[j].1.checked_add(by)?;
            (20, v, -i64::from(by))
        }
        _ => {
            // One w onto another state of the block.
            let to = (0..model.n()).find(|&to| to != u && blocks[to] == blocks[u])?;
            let mut ws: BTreeMap<_, u32> = flow.ws.into_iter().collect();
            *ws.get_mut(&(v, u))? -= 1;
            *ws.entry((v, to)).or_default() += 1;
            flow.ws = ws.into_iter().filter(|e| e.1 > 0).collect();
            let d = model.transitions[q].d;
            if u < to { (21, u, -d) } else { (21, to, d) }
        }
    };
    Some((flow, told))
}

#[test]
fn a_changed_number_is_off_by_the_change() {
    let mut numbers = Numbers::new(147);
    let (mut kinds, mut changes) = (BTreeSet::new(), 0);
    for _ in 0..rounds(200) {
        let model = random_strong_model(&mut numbers, 7);
        let Some(certificate) = maker::certificate(&model, &mut numbers) else { continue };
        let pa = model.bytes();
        let mut tell = |changed: Certificate, expected: (u32, usize, i64)| {
            let ct = changed.bytes();
            let answer = judge_strong(&pa, &ct, STATES).0;
            assert_eq!((answer.number, answer.state as usize, answer.remainder), expected, "{model:?} {changed:?}");
            kinds.extend(kind_by(Rule::Strong, answer, &pa, &ct));
            changes += 1;
        };
        for (i, r) in certificate.refutations.iter().enumerate() {
            // A raised until the sides are equal, or by more; it is bound from above by the last condition alone.
            let q = &model.transitions[r.challenger];
            let right: i64 = q.weights.iter().map(|&(u, p)| p * i64::from(r.prices.sides[1][u])).sum();
            let least = right.div_euclid(q.d) + i64::from(right.rem_euclid(q.d) > 0);
            let Ok(a) = i32::try_from(least + *numbers.of(&[0, 0, 1, 1000])) else { continue };
            let mut changed = certificate.clone();
            changed.refutations[i].prices.a = Some(a);
            tell(changed, (16, r.defender, q.d * i64::from(a) - right));
        }
        for (i, (_, t, q)) in certificate.questions(&model).into_iter().enumerate() {
            let told = changed_flow(&model, (t, q), &certificate.blocks, &certificate.flows[i], &mut numbers);
            let Some((flow, expected)) = told else { continue };
            let mut changed = certificate.clone();
            changed.flows[i] = flow;
            tell(changed, expected);
        }
    }
    println!("{changes} changes");
    assert!(changes > 10 * rounds(200));
    assert_eq!(kinds, every_strong_kind());
}

/// Sums as large as they can be. The equations at v are looked at where that of D holds, and then all k d together are D.
#[test]
fn the_largest_sums() {
    let most = i64::from(u32::MAX);
    let wide = |source: usize, target: usize| Transition::to(source, 1, &[(target, 65_534), (STATES - 1, 1)]);
    let tell = |transitions: Vec<Transition>, refutations: Vec<Refutation>, flow: Flow| {
        let model = Model::new(vec![0; STATES], 2, transitions);
        let (number, _, state, remainder) = says(&model, Certificate::strong(refutations, vec![0; STATES], vec![flow]));
        (number, state, remainder)
    };
    let all = |d: u32, ks: Vec<((u8, usize), u32)>, ws: Vec<((usize, usize), u32)>| Flow { d, ks, ws };
    let own = |k: u32| (1..256).map(|r| ((1, r), k)).collect::<Vec<_>>();
    let everywhere: Vec<_> = (0..STATES * STATES).map(|i| ((i / STATES, i % STATES), u32::MAX)).collect();
    let moves = || [vec![wide(0, 0)], vec![wide(1, 2); 255]].concat();
    assert_eq!(255 * 65_535 * most, 71_775_023_827_845_375);
    assert_eq!(tell(moves(), vec![], all(1, own(u32::MAX), everywhere.clone())), (20, 1, 1 - 71_775_023_827_845_375));
    assert_eq!(tell(moves(), vec![], all(u32::MAX, vec![], everywhere.clone())), (20, 1, most));
    // 65,537 times 65,535 is the largest D: at state 0 nothing arrives and all w leave; at state 2 much arrives and nothing leaves.
    let one = || vec![((1, 1), 65_537)];
    assert_eq!(tell(moves(), vec![], all(u32::MAX, one(), everywhere)), (20, 0, -(STATES as i64) * most));
    assert_eq!(tell(moves(), vec![], all(u32::MAX, one(), vec![])), (20, 2, 65_534 * 65_537));
    // All of it onto state 1, to which the challenger does not lead; and nothing onto state 0, to which it leads almost always.
    let onto = |u: usize| all(u32::MAX, one(), vec![((2, u), 65_534 * 65_537), ((STATES - 1, u), 65_537)]);
    assert_eq!(tell(moves(), vec![], onto(1)), (21, 0, -65_534 * most));
    let leads_on = [vec![wide(0, 1)], vec![wide(1, 2); 255]].concat();
    assert_eq!(tell(leads_on, vec![], onto(0)), (21, 0, 65_535 * most));
    let refuted = |a: i32, price: i32| vec![Refutation::strong(0, STATES - 1, a, vec![price; STATES], vec![price; STATES])];
    let any = || all(1, vec![], vec![]);
    assert_eq!(tell(moves(), refuted(i32::MAX, i32::MIN), any()), (16, STATES as u32 - 1, 65_535 * most));
    assert_eq!(tell(moves(), refuted(i32::MAX, i32::MAX), any()), (16, STATES as u32 - 1, 0));
    assert_eq!(tell(moves(), refuted(i32::MIN, i32::MIN), any()), (16, STATES as u32 - 1, 0));
    assert_eq!(tell(moves(), refuted(i32::MIN, i32::MAX), any()).0, 18, "all conditions hold, and a pair is gone");
}

/// Number, file and place of a certificate that has the mark of another kind.
fn has_a_foreign_mark(answer: Answer, certificate: &[u8]) {
    assert_eq!((answer.number, answer.file, answer.place, answer.stretch_length), (12, 2, 0, certificate.len()));
}

#[test]
fn other_calls_refuse_a_strong_certificate() {
    let mut pairs = accepted_strong();
    pairs.extend([strong_loops(128, 0), strong_chain(20, 1), strong(still(&[0]))].map(bytes));
    for (model, certificate) in &pairs {
        has_a_foreign_mark(judge(model, certificate, STATES).0, certificate);
        has_a_foreign_mark(reduce(model, certificate, MODEL).0, certificate);
        has_a_foreign_mark(sheet(model, certificate, SHEET).0, certificate);
        has_a_foreign_mark(alike(model, certificate, [1, 0, 1]).answer, certificate);
        has_a_foreign_mark(rewrite(model, certificate).0.answer, certificate);
        let costly = [&model[..], b"CO", &vec![0; usize::from(model[4]) << 8 | usize::from(model[5])]].concat();
        has_a_foreign_mark(judge_costs(&costly, certificate, STATES).0, certificate);
        has_a_foreign_mark(rewrite_costs(&costly, certificate).0.answer, certificate);
        let answer = judge_strong(&costly, certificate, 0).0;
        assert_eq!((answer.number, answer.file, answer.place), (9, 1, model.len()), "before the length of the buffer is looked at");
    }
}

#[test]
fn only_a_strong_certificate_has_the_right_mark() {
    for (model, certificate) in &accepted() {
        has_a_foreign_mark(judge_strong(model, certificate, STATES).0, certificate);
    }
    for (model, certificate) in &accepted_costs() {
        let count = usize::from(model[4]) << 8 | usize::from(model[5]);
        let without = &model[..model.len() - 2 - count];
        has_a_foreign_mark(judge_strong(without, certificate, STATES).0, certificate);
        assert_eq!(judge_strong(model, certificate, STATES).0.number, 9);
    }
    let (model, mut certificate) = bytes(strong_fan(4, 1));
    for mark in 0..=u16::MAX {
        certificate[..2].copy_from_slice(&mark.to_be_bytes());
        match judge_strong(&model, &certificate, STATES).0 {
            answer if mark == 0x4353 => assert_eq!(answer.number, 0),
            answer => has_a_foreign_mark(answer, &certificate),
        }
    }
}
