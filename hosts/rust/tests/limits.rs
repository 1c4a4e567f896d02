//! K7's limits: both sides of each of them, what the older ones made of the same files, and states on either side of a row's two words.
mod compare;
mod maker;
mod plain;

use compare::{accepted, accepted_costs, accepted_strong, alike, fetch, judge, judge_costs, judge_strong, reduce, sheet, Answering, Both, Numbers};
use maker::families::{
    bytes, copies, flow_heavy, flow_heavy_with_costs, half, in_any_order, internal_chain, largest, late_steps, one_source, random_large,
    refutation_heavy, still, strong_chain, strong_fan, strong_largest, strong_loops, tolls,
};
use maker::files::{by_appearance, Certificate, Flow, Model, Refutation, Transition};
use plain::{Limits, Rule, TODAY, TRANSITIONS};
use std::collections::BTreeMap;
use zolkirta::{MODEL, SHEET, STATES};

type Pair = (Vec<u8>, Vec<u8>);

/// The limits from before K7, with today's terms: nothing but the limits makes a difference.
const BEFORE_K7: Limits = Limits { terms: TODAY.terms, ..plain::BEFORE_K7 };

/// Number and place by today's limits, from both, and by the older ones.
fn now_and_before(model: &[u8], certificate: &[u8]) -> [(u32, usize); 2] {
    [judge(model, certificate, STATES).0, BEFORE_K7.lent("judge", model, certificate, STATES).0].map(|answer| (answer.number, answer.place))
}

#[test]
fn the_limits_are_the_crates() {
    assert_eq!(TODAY.states, STATES);
    assert_eq!(8 + TODAY.states + 7 * TRANSITIONS + 3 * TODAY.entries, MODEL);
    assert_eq!(TODAY.states * (TODAY.states - 1) / 2, TODAY.refutations);
    assert_eq!(73 * TODAY.states, SHEET);
}

#[test]
fn states() {
    for (n, told) in [(1, [0, 0]), (64, [0, 0]), (65, [0, 3]), (127, [0, 3]), (128, [0, 3]), (129, [3, 3]), (255, [3, 3])] {
        let (model, certificate) = bytes(still(&vec![0; n]));
        assert_eq!(now_and_before(&model, &certificate), told.map(|number| (number, 0)), "{n}");
        let last = fetch(&model, n as u32 - 1);
        assert_eq!((last.number, fetch(&model, n as u32).number), if n > STATES { (3, 3) } else { (0, 24) });
        assert_eq!(judge(&model, &certificate, n - 1).0.number, if n > STATES { 3 } else { 10 });
    }
    assert_eq!(fetch(&still(&[]).0.bytes(), 0).number, 3);
}

/// 64 states with another label each, and transitions of so many entries.
fn with_entries(sizes: &[usize]) -> Pair {
    let (apart, certificate) = still(&(0..64).collect::<Vec<u8>>());
    let spread = |(i, &size): (usize, &usize)| {
        let weights = (0..size).map(|v| (v, 1)).collect();
        Transition { source: i * 64 / sizes.len(), action: 0, d: size as i64, weights, cost: 0 }
    };
    bytes((Model { transitions: sizes.iter().enumerate().map(spread).collect(), ..apart }, certificate))
}

#[test]
fn entries() {
    let place = |before: usize| 72 + before * (7 + 3 * 64);
    let of_64 = |count: usize, more: &[usize]| [&vec![64; count][..], more].concat();
    let refused_before = [(0, 0), (8, place(16))];
    for (sizes, told) in [
        (of_64(16, &[]), [(0, 0), (0, 0)]),
        (of_64(16, &[1]), refused_before),
        (of_64(32, &[]), refused_before),
        (of_64(32, &[1]), [(8, place(32)), (8, place(16))]),
        (of_64(31, &[64, 1]), [(8, place(32)), (8, place(16))]),
        (of_64(31, &[63, 1]), refused_before),
        (of_64(31, &[63, 2]), [(8, place(32) - 3), (8, place(16))]),
    ] {
        let (model, certificate) = with_entries(&sizes);
        assert_eq!(now_and_before(&model, &certificate), told, "{sizes:?}");
        assert_eq!(fetch(&model, 0).number, told[0].0);
    }
    // 2,049 entries are refused before the last ones must be there.
    let (model, certificate) = with_entries(&of_64(32, &[1]));
    assert_eq!(now_and_before(&model[..model.len() - 3], &certificate)[0], (8, place(32)));
    // 128 entries in one transition, and 16 of these.
    let whole = |source: usize| Transition { source, action: 0, d: 128, weights: (0..128).map(|v| (v, 1)).collect(), cost: 0 };
    let all = |count: usize| Model { transitions: (0..count).map(whole).collect(), ..still(&[0; 128]).0 }.bytes();
    let [full, over] = [all(16), all(17)].map(|model| fetch(&model, 15));
    assert_eq!((full.number, full.stretch_start, full.stretch_length), (0, 136 + 15 * 391, 391));
    assert_eq!((over.number, over.place), (8, 136 + 16 * 391));
}

#[test]
fn refutation_counts() {
    let model = still(&[0, 0]).0;
    let costly = model.with_costs(|_, _| 0).bytes();
    for (count, told) in [(2016u16, [(11, 4), (11, 4)]), (2017, [(11, 4), (13, 0)]), (8128, [(11, 4), (13, 0)]), (8129, [(13, 0), (13, 0)])] {
        let heads = [Rule::Plain, Rule::Costs, Rule::Strong].map(|rule| [&rule.mark()[..], &count.to_be_bytes()].concat());
        assert_eq!(now_and_before(&model.bytes(), &heads[0]), told);
        for answer in [judge_costs(&costly, &heads[1], STATES).0, judge_strong(&model.bytes(), &heads[2], STATES).0] {
            assert_eq!((answer.number, answer.place), told[0]);
        }
    }
}

/// 128 states of one label, all apart: as many refutations as there are pairs, and no certificate can have one more.
#[test]
fn as_many_refutations_as_pairs() {
    let (model, certificate) = refutation_heavy(STATES);
    assert_eq!(certificate.refutations.len(), TODAY.refutations);
    let (pa, mut ct) = bytes((model.clone(), certificate));
    let (answer, blocks) = judge(&pa, &ct, STATES);
    assert_eq!((answer.number, blocks), (0, (0..128).collect()));
    assert_eq!(reduce(&pa, &ct, MODEL).1, model.bytes());
    assert_eq!(BEFORE_K7.lent("judge", &pa, &ct, STATES).0.number, 3);
    // The count one less: a refutation stands where the blocks should.
    ct[2..4].copy_from_slice(&8127u16.to_be_bytes());
    let answer = judge(&pa, &ct, STATES).0;
    assert_eq!((answer.number, answer.place), (12, 4 + 8127 * (5 + 12 * 128)));
    ct[2..4].copy_from_slice(&8129u16.to_be_bytes());
    assert_eq!(now_and_before(&pa, &ct)[0], (13, 0));
}

/// A state with a move that no other has, refuted against some states of its label in order, and against the rest.
fn one_moves(n: usize, mover: usize, first: &[usize]) -> (Model, Certificate) {
    let model = Model::new(vec![0; n], 2, vec![Transition::step(mover, 1, mover)]);
    let only = (0..n).map(|v| i32::from(v == mover)).collect::<Vec<_>>();
    let rest = (0..n).filter(|t| *t != mover && !first.contains(t));
    let refuted = |t: usize| Refutation::new(0, t, vec![only.clone(), vec![1; n], vec![1; n]]);
    let refutations = first.iter().copied().chain(rest).map(refuted).collect();
    let blocks = by_appearance(&(0..n).map(|v| u8::from(v == mover)).collect::<Vec<_>>());
    (model, Certificate::new(refutations, blocks, Vec::new()))
}

/// States at the ends of a row's words.
const EDGES: [usize; 8] = [0, 1, 62, 63, 64, 65, 126, 127];

fn edge_pairs() -> impl Iterator<Item = (usize, usize)> {
    EDGES.into_iter().flat_map(|s| EDGES.map(|t| (s, t))).filter(|(s, t)| s != t)
}

/// One refutation removes one pair, in both orders, and no other: judged at the ends of both words.
#[test]
fn a_refutation_removes_its_pair_alone() {
    for (mover, t) in edge_pairs() {
        let (model, certificate) = one_moves(STATES, mover, &[t]);
        let (pa, size) = (model.bytes(), 5 + 12 * STATES);
        assert_eq!(judge(&pa, &certificate.bytes(), STATES).1, certificate.blocks);
        // The same once more: the pair is not related.
        let twice = Certificate { refutations: vec![certificate.refutations[0].clone(); 2], ..certificate.clone() };
        assert_eq!(now_and_before(&pa, &twice.bytes())[0], (14, 4 + size));
        // One pair short, whichever it is: the blocks differ from the pairs left.
        for missing in 0..certificate.refutations.len() {
            let mut short = certificate.clone();
            let other = short.refutations.remove(missing).defender;
            if other == t || EDGES.contains(&other) {
                assert_eq!(now_and_before(&pa, &short.bytes())[0], (18, 4 + 126 * size), "{mover} {other}");
            }
        }
    }
}

/// B(v) is below G(u) for one v and one u: that breaks a condition where the two share a label, and none where v has one of its own.
#[test]
fn prices_across_two_words() {
    fn but<T: Copy>(one: T, at: usize, others: T) -> Vec<T> {
        (0..STATES).map(|v| if v == at { one } else { others }).collect()
    }
    for (v, u) in edge_pairs() {
        let refutation = Refutation::new(0, 3, vec![but(2, 2, 0), but(1, v, 2), but(2, u, 1)]);
        // Once it passes, the blocks differ from the pairs left.
        let certificate = Certificate::new(vec![refutation], vec![0; STATES], Vec::new()).bytes();
        let refutation = Refutation::strong(0, 3, 0, but(1, v, 2), but(2, u, 1));
        let strong = Certificate::strong(vec![refutation], vec![0; STATES], Vec::new()).bytes();
        for (label, told) in [(0, (15, 4)), (1, (18, 4 + 5 + 12 * STATES))] {
            let model = Model::new(but(label, v, 0), 2, vec![Transition::step(2, 1, 2)]).bytes();
            assert_eq!(now_and_before(&model, &certificate), [told, (3, 0)], "{v} {u}");
            let answer = judge_strong(&model, &strong, STATES).0;
            assert_eq!((answer.number, answer.place), (told.0, if told.0 == 15 { 4 } else { 4 + 5 + 4 + 8 * STATES }), "{v} {u}");
        }
    }
}

/// Blocks that the labels make, in which one state stands apart, and what is said where the record has it with the others or another one apart.
#[test]
fn blocks_across_two_words() {
    for apart in 0..STATES {
        let with = |apart: usize| still(&(0..STATES).map(|v| u8::from(v == apart)).collect::<Vec<_>>());
        let (model, certificate) = bytes(with(apart));
        let blocks = judge(&model, &certificate, STATES).1;
        assert!((0..STATES).all(|v| (blocks[v] == blocks[apart]) == (v == apart)));
        for other in EDGES.into_iter().filter(|&other| other != apart) {
            assert_eq!(now_and_before(&model, &with(other).1.bytes())[0], (18, 4));
            let said = alike(&model, &certificate, [apart.max(other), apart.min(other), apart.max(other)].map(|x| x as u32));
            assert_eq!((said.answer.number, said.alike), (0, 0), "{apart} {other}");
        }
        assert_eq!(now_and_before(&model, &still(&[0; STATES]).1.bytes())[0], (18, 4));
    }
    // Two states of one block, each in one word or both in one.
    for (v, u) in edge_pairs().filter(|(v, u)| v < u) {
        let labels: Vec<u8> = (0..STATES).map(|s| if s == v || s == u { 63 } else { (s % 63) as u8 }).collect();
        let (model, certificate) = bytes(still(&labels));
        assert_eq!(judge(&model, &certificate, STATES).1, by_appearance(&labels));
        let said = alike(&model, &certificate, [u, v, u].map(|x| x as u32));
        assert_eq!((said.answer.number, said.alike), (0, 1));
    }
}

/// A flow may lead from a state to one of its block and to no other: a w between states of both words.
#[test]
fn flows_across_two_words() {
    for (s, t) in edge_pairs() {
        // s and t are alike, and all others have another label; s steps to itself and t stays.
        let labels: Vec<u8> = (0..STATES).map(|v| u8::from(v != s && v != t)).collect();
        let model = Model::new(labels.clone(), 1, vec![Transition::step(s, 0, s)]).bytes();
        let met = |w: (usize, usize)| {
            let flow = Flow { d: 1, ks: Vec::new(), ws: vec![(w, 1)] };
            judge(&model, &Certificate::new(Vec::new(), by_appearance(&labels), vec![flow]).bytes(), STATES).0
        };
        assert_eq!(met((t, s)).number, 0);
        assert_eq!((met((t, t)).number, met((t, t)).state as usize), (21, s.min(t)));
        assert_eq!((met((s, s)).number, met((s, s)).state as usize), (20, s.min(t)));
        for other in EDGES.into_iter().filter(|&v| v != s && v != t) {
            assert_eq!([met((t, other)), met((other, s))].map(|answer| answer.number), [19, 19]);
        }
        assert_eq!(met((t, 128)).number, 19);
    }
}

/// By the strong rule s and t both step to themselves, and each answers by its own step.
#[test]
fn strong_flows_across_two_words() {
    for (s, t) in edge_pairs() {
        let labels: Vec<u8> = (0..STATES).map(|v| u8::from(v != s && v != t)).collect();
        let steps = [s.min(t), s.max(t)].map(|v| Transition::step(v, 0, v)).to_vec();
        let model = Model::new(labels.clone(), 1, steps).bytes();
        let own = |v: usize| usize::from(v == s.max(t));
        let met = |d: u32, r: usize, w: (usize, usize)| {
            let flow = |d: u32, r: usize, w: (usize, usize)| Flow { d, ks: vec![((1, r), 1)], ws: vec![(w, 1)] };
            let mut flows = vec![flow(d, r, w), flow(1, own(s), (s, t))];
            flows.rotate_left(usize::from(s > t));
            let answer = judge_strong(&model, &Certificate::strong(Vec::new(), by_appearance(&labels), flows).bytes(), STATES).0;
            (answer.number, answer.state as usize, answer.remainder)
        };
        let (first, onto_first) = (s.min(t), if s < t { -1 } else { 1 });
        assert_eq!(met(1, own(t), (t, s)), (0, 0, 0));
        assert_eq!(met(2, own(t), (t, s)), (20, t, 1));
        assert_eq!(met(1, own(s), (t, s)), (19, 0, 0));
        assert_eq!(met(1, own(t), (s, s)), (20, first, onto_first));
        assert_eq!(met(1, own(t), (t, t)), (21, first, onto_first));
    }
}

#[test]
fn sheets_with_three_digits() {
    let lines = |pair: (Model, Certificate)| {
        let (model, certificate) = bytes(pair);
        let text = String::from_utf8(sheet(&model, &certificate, SHEET).1).unwrap();
        assert_eq!(text.len() % 73, 0);
        text.lines().map(|line| line.trim_end().to_string()).collect::<Vec<_>>()
    };
    let one_block = lines(still(&[0; 128]));
    assert_eq!(one_block.len(), 8);
    assert_eq!(one_block[0], "   0 128   0   1   2   3   4   5   6   7   8   9  10  11  12  13  14  15");
    assert_eq!(one_block[6], "          96  97  98  99 100 101 102 103 104 105 106 107 108 109 110 111");
    assert_eq!(one_block[7], "         112 113 114 115 116 117 118 119 120 121 122 123 124 125 126 127");
    let two_blocks = lines(still(&(0..128).map(|v| v % 2).collect::<Vec<u8>>()));
    assert_eq!(two_blocks[3], "          96  98 100 102 104 106 108 110 112 114 116 118 120 122 124 126");
    assert_eq!(two_blocks[4], "   1  64   1   3   5   7   9  11  13  15  17  19  21  23  25  27  29  31");
    let each = lines(refutation_heavy(128));
    assert_eq!(each.len(), 128);
    assert_eq!([&each[9], &each[99], &each[100], &each[127]], ["   9   1   9", "  99   1  99", " 100   1 100", " 127   1 127"]);
    assert_eq!(lines(internal_chain(128))[8], "   1   1 127");
    assert_eq!(sheet(&refutation_heavy(8).0.bytes(), &refutation_heavy(8).1.bytes(), 8 * 73 - 1).0.number, 28);
    let (model, certificate) = bytes(still(&[0; 128]));
    assert_eq!(sheet(&model, &certificate, 8 * 73 - 1).0.number, 28);
}

/// What a call says of two models by today's limits, from both, and by the older ones.
fn of_two(call: &str, first: &[u8], second: &[u8]) -> [u32; 2] {
    [Both.lent(call, first, second, MODEL).0, BEFORE_K7.lent(call, first, second, MODEL).0].map(|answer| answer.number)
}

/// So many states of one label without transitions.
fn states_alone(n: usize) -> Vec<u8> {
    still(&vec![0; n]).0.bytes()
}

/// A state with so many transitions to itself by each action, from internal on.
fn loops(counts: &[usize]) -> Vec<u8> {
    let each = counts.iter().enumerate().flat_map(|(action, &count)| vec![Transition::step(0, action, 0); count]);
    Model::new(vec![0], counts.len(), each.collect()).bytes()
}

#[test]
fn joined_models() {
    let joined = |first: &[u8], second: &[u8]| of_two("join", first, second);
    let spread = |sizes: &[usize]| with_entries(sizes).0;
    assert_eq!(joined(&states_alone(32), &states_alone(32)), [0, 0]);
    assert_eq!(joined(&states_alone(64), &states_alone(1)), [0, 25]);
    assert_eq!(joined(&states_alone(64), &states_alone(64)), [0, 25]);
    assert_eq!(joined(&states_alone(127), &states_alone(1)), [0, 3]);
    assert_eq!(joined(&states_alone(1), &states_alone(128)), [25, 3]);
    assert_eq!(joined(&states_alone(65), &states_alone(64)), [25, 3]);
    assert_eq!(joined(&loops(&[128]), &loops(&[128])), [0, 0]);
    assert_eq!(joined(&loops(&[128]), &loops(&[129])), [25, 25]);
    assert_eq!(joined(&loops(&[256]), &loops(&[1])), [25, 25]);
    assert_eq!(joined(&spread(&[64; 16]), &spread(&[64; 16])), [0, 25]);
    assert_eq!(joined(&spread(&[64; 16]), &spread(&[&[64; 16][..], &[1]].concat())), [25, 8]);
    assert_eq!(joined(&spread(&[64; 31]), &spread(&[64, 1])), [25, 8]);
    assert_eq!(joined(&spread(&[64; 31]), &spread(&[63, 1])), [0, 8]);
}

/// Each limit of a composition by itself, with all others kept: the most that is within, and what passes it by the least and by a lot. The two
/// models change sides.
#[test]
fn composed_models() {
    let composed = |left: &[u8], right: &[u8], told: [u32; 2]| {
        assert_eq!([of_two("compose", left, right), of_two("compose", right, left)], [told; 2]);
        for shorter in [0, 8] {
            assert_eq!(Both.lent("compose", left, right, shorter).0.number, if told[0] == 0 { 38 } else { told[0] });
        }
    };
    let both_kept = [(8, 8, [0, 0]), (13, 5, [0, 37]), (16, 8, [0, 37]), (43, 3, [37, 37]), (16, 16, [37, 37])];
    let one_larger = [(1, 128, [0, 3]), (2, 65, [37, 3]), (2, 128, [37, 3]), (128, 128, [37, 3])];
    for (left, right, told) in both_kept.into_iter().chain(one_larger) {
        composed(&states_alone(left), &states_alone(right), told);
    }

    // Internal ones of both, of which each side makes its own; shared ones, each with each; and one that only one side declares.
    let within: [[&[usize]; 2]; 5] = [[&[128], &[128]], [&[256], &[0]], [&[0, 16], &[0, 16]], [&[0, 256], &[0, 1]], [&[0, 256], &[0, 0]]];
    let passing: [[&[usize]; 2]; 6] =
        [[&[128], &[129]], [&[256], &[1]], [&[1, 16], &[0, 16]], [&[0, 16, 1], &[0, 16, 1]], [&[0, 256], &[0, 256]], [&[0, 256], &[1]]];
    for ([left, right], number) in within.map(|pair| (pair, 0)).into_iter().chain(passing.map(|pair| (pair, 37))) {
        composed(&loops(left), &loops(right), [number; 2]);
    }

    // Of 8 and of 16 states the first moves by action 1 to all, together 128 entries, and by action 2 to one.
    let spread = |n: usize, actions: &[usize]| {
        let entries = |action: usize| if action == 1 { n } else { 1 };
        let step = |&action: &usize| Transition::to(0, action, &(0..entries(action)).map(|v| (v, 1)).collect::<Vec<_>>());
        Model::new(vec![0; n], 3, actions.iter().map(step).collect()).bytes()
    };
    for (actions, told) in [(vec![1; 16], [0, 37]), ([&[1; 16][..], &[2]].concat(), [37, 37]), (vec![1; 17], [37, 37]), (vec![1; 256], [37, 8])] {
        composed(&spread(8, &actions), &spread(16, &[1, 2]), told);
    }

    // d by a shared action, where the product counts, and where one side makes its move alone.
    let over = |d: i64| Model::new(vec![0; 2], 2, vec![Transition::to(0, 1, &[(0, 1), (1, d - 1)])]).bytes();
    let within = [[255, 257], [2, 32_767], [3, 21_845]].map(|pair| (pair, 0));
    let passing = [[256, 256], [2, 32_768], [3, 21_846], [65_535, 2], [65_535, 65_535]].map(|pair| (pair, 37));
    for ([left, right], number) in within.into_iter().chain(passing) {
        composed(&over(left), &over(right), [number; 2]);
        composed(&over(left), &Both.lent("hide", &over(right), &[1], MODEL).1, [0; 2]);
    }

    // The highest label of each side.
    let within = [[7, 7], [63, 0], [31, 1]].map(|pair| (pair, 0));
    let passing = [[12, 4], [32, 1], [63, 1], [8, 31], [63, 63]].map(|pair| (pair, 37));
    for ([left, right], number) in within.into_iter().chain(passing) {
        composed(&still(&[0, left]).0.bytes(), &still(&[right, 0]).0.bytes(), [number; 2]);
    }
}

/// What a pair that is accepted today gets by the older limits: the same answer and the same bytes, or 3 or 8 as its model is larger.
fn older_answer(call: &str, rule: Rule, model: &[u8], certificate: &[u8], length: usize) -> u32 {
    let now = Both.lent(call, model, certificate, length);
    assert_eq!(now.0.number, 0);
    let before = BEFORE_K7.lent(call, model, certificate, length);
    let (n, sound) = (usize::from(model[2]), plain::read(&TODAY, rule, model).ok().expect("a sound model"));
    let entries: usize = sound.transitions.iter().map(|r| r.weights().count()).sum();
    let expected = if n > BEFORE_K7.states { 3 } else if entries > BEFORE_K7.entries { 8 } else { 0 };
    if expected == 0 {
        assert_eq!(before, now);
    }
    assert_eq!((before.0.number, before.0.file), (expected, u32::from(expected > 0)));
    expected
}

#[test]
fn what_was_accepted_is_accepted_with_the_same_blocks() {
    let mut numbers = Numbers::new(71);
    let mut pairs = accepted();
    let both_sizes = [64, 65, 128].into_iter();
    pairs.extend(both_sizes.clone().flat_map(|n| [flow_heavy(n, 2), internal_chain(n)]).map(bytes));
    pairs.extend([largest(), half(), one_source(), refutation_heavy(64), refutation_heavy(65)].map(bytes));
    pairs.extend((0..10).map(|_| bytes(random_large(&mut numbers))));
    pairs.push(with_entries(&[64; 32]));
    pairs.push(with_entries(&[64; 16]));
    let (model, certificate) = internal_chain(8);
    pairs.extend([8, 9, 16].map(|k| bytes(in_any_order(copies(&model, &certificate, k), &mut numbers))));
    let mut told: BTreeMap<u32, u32> = BTreeMap::new();
    for (model, certificate) in &pairs {
        for (call, length) in [("judge", STATES), ("reduce", MODEL), ("sheet", SHEET)] {
            *told.entry(older_answer(call, Rule::Plain, model, certificate, length)).or_default() += 1;
        }
    }
    let mut cost_pairs = accepted_costs();
    cost_pairs.extend(both_sizes.flat_map(|n| [tolls(n), flow_heavy_with_costs(n), late_steps(n)]).map(bytes));
    for (model, certificate) in &cost_pairs {
        *told.entry(older_answer("judge_costs", Rule::Costs, model, certificate, STATES)).or_default() += 1;
    }
    let mut strong_pairs = accepted_strong();
    strong_pairs.extend([64, 65, 128].into_iter().flat_map(|n| [strong_chain(n, 0), strong_loops(n, 1), strong_fan(n, 0)]).map(bytes));
    strong_pairs.push(bytes(strong_largest()));
    for (model, certificate) in &strong_pairs {
        *told.entry(older_answer("judge_strong", Rule::Strong, model, certificate, STATES)).or_default() += 1;
    }
    println!("accepted pairs by the older limits: {told:?}");
    assert!(told.keys().copied().eq([0, 3, 8]) && told.values().all(|&count| count > 2), "{told:?}");
}

/// Of the numbers of a pair only 3, 8 and 13 go by the limits: where the older ones refuse with another or accept, the library says the same.
#[test]
fn only_three_numbers_of_a_pair_go_by_the_limits() {
    let mut numbers = Numbers::new(72);
    let pairs = accepted();
    let (mut same, mut other) = (0, 0);
    for _ in 0..20_000 {
        let (mut model, mut certificate) = numbers.of(&pairs).clone();
        match numbers.below(4) {
            0 => model[2] = numbers.below(140) as u8,
            1 => certificate[2..4].copy_from_slice(&(numbers.below(9000) as u16).to_be_bytes()),
            _ => {}
        }
        let file = if numbers.below(2) == 0 { &mut model } else { &mut certificate };
        let at = numbers.below(file.len());
        file[at] ^= 1 << numbers.below(8);
        let before = BEFORE_K7.lent("judge", &model, &certificate, STATES);
        let now = judge(&model, &certificate, STATES);
        assert!(before == now || matches!(before.0.number, 3 | 8 | 13));
        *(if before == now { &mut same } else { &mut other }) += 1;
    }
    println!("{same} answers the same, {other} others");
    assert!(same > 5_000 && other > 1_000);
}
