//! K10's lowest terms: where 34 stands among the refusals of a model, in every call; the two calls that rewrite stored pairs, which the library
//! and the plain judge answer alike, for made pairs in any terms and once these are damaged; and merged models in lowest terms.
mod compare;
mod maker;
mod plain;
mod records;

use compare::{
    alike, around_both, changes, compose, every_kind, fetch, hide, in_lowest_terms, join, judge, judge_costs, judge_strong, kind_by, reduce,
    rewrite, rewrite_by, rewrite_costs, rounds, sheet, stored, stored_costs, Answering, Numbers, WrittenPair,
};
use maker::families::{bytes, flow_heavy, flow_heavy_with_costs, internal_chain, largest, late_steps, one_source, tolls, with_costs};
use maker::files::{Certificate, Flow, Model, Refutation, Transition};
use maker::random::{in_any_terms, random_cost_model, random_model};
use maker::Missed;
use plain::{Answer, Rule, BEFORE_K10};
use records::{crowded, each_damaged, split, Records};
use std::collections::{BTreeMap, BTreeSet};
use zolkirta::{MODEL, SHEET, STATES};

type Pair = (Vec<u8>, Vec<u8>);

/// The rule that a rewriting call judges by, its judging call, and the pairs of the vectors that it is for.
struct Kind {
    rule: Rule,
    name: &'static str,
    judging: &'static str,
    stored: fn() -> Vec<Pair>,
}

const KINDS: [Kind; 2] = [
    Kind { rule: Rule::Plain, name: "rewrite", judging: "judge", stored },
    Kind { rule: Rule::Costs, name: "rewrite_costs", judging: "judge_costs", stored: stored_costs },
];

impl Kind {
    /// Rewrites with buffers of just the pair's lengths.
    fn rewrite(&self, model: &[u8], certificate: &[u8]) -> WrittenPair {
        rewrite_by(self.name, model, certificate, [model.len(), certificate.len()])
    }

    fn judge(&self, model: &[u8], certificate: &[u8]) -> (Answer, Vec<u8>) {
        compare::Both.lent(self.judging, model, certificate, STATES)
    }

    /// What the rules from before K10 say.
    fn judged_before(&self, model: &[u8], certificate: &[u8]) -> (Answer, Vec<u8>) {
        BEFORE_K10.lent(self.judging, model, certificate, STATES)
    }

    fn random(&self, numbers: &mut Numbers) -> Model {
        match self.rule {
            Rule::Costs => random_cost_model(numbers, 6),
            _ => random_model(numbers, 7),
        }
    }

    /// Families, with all fractions in the longest terms that powers of 2 make, and flows to match; in that the k of some are 1.
    fn families(&self) -> Vec<Pair> {
        let plain = [one_source(), largest(), internal_chain(9), flow_heavy(4, 2)];
        let of_costs = [tolls(6), late_steps(5), flow_heavy_with_costs(3), with_costs(one_source(), |i, _| i as i64 % 64)];
        let all = if self.rule == Rule::Plain { plain } else { of_costs };
        all.into_iter().map(|(model, certificate)| bytes(spelled(&model, &certificate))).collect()
    }

    /// Accepted pairs in any terms: of the vectors, of families and made ones.
    fn pairs(&self, numbers: &mut Numbers) -> Vec<Pair> {
        let mut pairs = (self.stored)();
        pairs.extend(self.families());
        let (mut entries, its) = crowded();
        if self.rule == Rule::Costs {
            entries.extend([&b"CO"[..], &[7; 81]].concat());
        }
        pairs.extend(vec![(entries, [self.rule.mark(), &its[2..]].concat()); 5]); // few damages make its entries too many
        while pairs.len() < 300 {
            let model = self.random(numbers);
            let spelled = in_any_terms(&model, numbers);
            pairs.extend(maker::certificate(&spelled, numbers).map(|certificate| bytes((spelled, certificate))));
        }
        pairs
    }
}

/// A pair with its fractions times a power of 2, and all numbers of a flow times the highest, by which each k is then divided as its transition asks.
fn spelled(model: &Model, certificate: &Certificate) -> (Model, Certificate) {
    let spelled = Model { transitions: model.transitions.iter().map(|r| r.times(4)).collect(), ..model.clone() };
    let flow = |flow: &Flow| {
        let factor = |r: usize| 4 / (spelled.transitions[r].d / model.transitions[r].d) as u32;
        Flow {
            d: 4 * flow.d,
            ks: flow.ks.iter().map(|&((layer, r), k)| ((layer, r), k * factor(r))).collect(),
            ws: flow.ws.iter().map(|&(at, w)| (at, 4 * w)).collect(),
        }
    };
    let flows = certificate.flows.iter().map(flow).collect();
    (spelled, Certificate { flows, ..certificate.clone() })
}

#[test]
fn a_rewritten_pair_is_accepted_with_the_same_blocks() {
    let mut numbers = Numbers::new(101);
    for kind in &KINDS {
        let (mut in_other_terms, mut k_moved, mut not_fitting) = (0, 0, 0);
        for (model, certificate) in kind.pairs(&mut numbers) {
            let (before, blocks) = kind.judged_before(&model, &certificate);
            assert_eq!(before.number, 0);
            let (said, [pa, ct]) = kind.rewrite(&model, &certificate);
            if said.answer.number == 35 {
                not_fitting += 1;
                continue;
            }
            assert_eq!((said.answer.number, said.answer.written, said.certificate_written), (0, model.len(), certificate.len()));
            assert_eq!(pa, in_lowest_terms(&model));
            let (answer, same) = kind.judge(&pa, &ct);
            assert_eq!((answer.number, same), (0, blocks));
            assert_eq!(kind.judge(&model, &certificate).0.number, if pa == model { 0 } else { 34 });
            // Rewriting again changes nothing.
            assert_eq!(kind.rewrite(&pa, &ct).1, [pa.clone(), ct.clone()]);
            in_other_terms += u32::from(pa != model);
            k_moved += u32::from(ct != certificate);
        }
        println!("{}: {in_other_terms} in other terms, {k_moved} with another k, {not_fitting} that do not fit", kind.name);
        assert!(in_other_terms > 100 && k_moved > 80 && not_fitting > 0);
    }
}

/// Where the rewriting accepts a damaged pair, the rewritten one is accepted with the blocks of the rules from before K10; where it refuses
/// but for 35 and 36, so do these, with the same answer.
#[test]
fn damaged_pairs_are_answered_alike() {
    let mut numbers = Numbers::new(102);
    for kind in &KINDS {
        let pairs: Vec<Records> = kind.pairs(&mut numbers).iter().map(split).collect();
        let (mut told, mut kinds): (BTreeMap<(u32, u32), u64>, _) = (BTreeMap::new(), BTreeSet::new());
        each_damaged(&pairs, rounds(80_000), 103, |model, certificate, _, numbers| {
            let lengths = [model.len(), certificate.len()].map(|length| match numbers.below(16) {
                0 => numbers.below(length + 2),
                1 => length.saturating_sub(1),
                2 => length + 1 + numbers.below(40),
                _ => length,
            });
            let (said, [pa, ct]) = rewrite_by(kind.name, model, certificate, lengths);
            let (before, blocks) = kind.judged_before(model, certificate);
            match said.answer.number {
                0 => assert_eq!(kind.judge(&pa, &ct), (Answer { written: blocks.len(), ..Answer::default() }, blocks)),
                35 | 36 => assert_eq!(before.number, 0),
                _ => assert_eq!(said.answer, before),
            }
            *told.entry((said.answer.number, said.answer.file)).or_insert(0) += 1;
            kinds.extend(kind_by(kind.rule, said.answer, model, certificate));
        });
        println!("damaged pairs, {}: {told:?}", kind.name);
        let of_model = (1..=9).chain((kind.rule == Rule::Costs).then_some(29)).map(|number| (number, 1));
        let of_certificate = (11..=22).chain((kind.rule == Rule::Costs).then_some(30)).chain([35]).map(|number| (number, 2));
        assert_eq!(told.keys().copied().collect::<BTreeSet<_>>(), of_model.chain(of_certificate).chain([(0, 0), (36, 0)]).collect());
        assert!(told[&(35, 2)] > 100 && told[&(36, 0)] > 100, "{told:?}");
        assert_eq!(kinds, every_kind());
    }
}

#[test]
fn every_truncation_and_change_of_one_byte_of_small_pairs() {
    for kind in &KINDS {
        let small = (kind.stored)().into_iter().filter(|(model, certificate)| in_lowest_terms(model) != *model && certificate.len() > 30);
        let (mut pairs, mut told) = (0, BTreeSet::new());
        for (model, certificate) in small.filter(|(model, certificate)| model.len() + certificate.len() <= 220).take(6) {
            for size in 0..model.len() {
                let answer = kind.rewrite(&model[..size], &certificate).0.answer;
                assert_eq!((answer.number, answer.file, answer.place + answer.stretch_length), (1, 1, size));
            }
            for size in 0..certificate.len() {
                let answer = kind.rewrite(&model, &certificate[..size]).0.answer;
                assert_eq!((answer.number, answer.file, answer.place + answer.stretch_length), (11, 2, size));
            }
            changes(&model, |damaged| _ = told.insert(kind.rewrite(damaged, &certificate).0.answer.number));
            changes(&certificate, |damaged| _ = told.insert(kind.rewrite(&model, damaged).0.answer.number));
            pairs += 1;
        }
        println!("{}: {pairs} small pairs, {told:?}", kind.name);
        assert!(pairs >= 4 && [0, 5, 6, 7, 19, 20, 21].iter().all(|number| told.contains(number)), "{told:?}");
        assert!(!told.contains(&10) && !told.contains(&34));
    }
}

/// Either buffer around its file's length: 36 where one is shorter, after every other refusal, and later bytes stay.
#[test]
fn buffers_around_both_lengths() {
    for kind in &KINDS {
        for (model, certificate) in (kind.stored)() {
            let (sizes, files) = ([model.len(), certificate.len()], kind.rewrite(&model, &certificate));
            for lengths in around_both(sizes) {
                let (said, written) = rewrite_by(kind.name, &model, &certificate, lengths);
                let short = lengths[0] < sizes[0] || lengths[1] < sizes[1];
                match (files.0.answer.number, short) {
                    (35, _) | (0, false) => assert_eq!((said, written), files),
                    _ => assert_eq!((said.answer, said.certificate_written), (Answer { number: 36, ..Answer::default() }, 0)),
                }
            }
            let cut = &certificate[..certificate.len() - 1];
            assert_eq!(rewrite_by(kind.name, &model, cut, [0, 0]).0.answer.number, 11);
            assert_eq!(rewrite_by(kind.name, &model[..4], &certificate, [0, 0]).0.answer.number, 1);
        }
    }
}

/// Every call that reads a model refuses it so, as the first of two and as the second.
fn read_by_all(model: &[u8], told: (u32, usize)) {
    let (certificate, still) = (b"CT\0\0", b"PA\x01\x01\0\0LB\0");
    let answers = [
        judge(model, certificate, 0).0,
        judge_strong(model, certificate, 0).0,
        reduce(model, certificate, MODEL).0,
        sheet(model, certificate, SHEET).0,
        alike(model, certificate, [1, 0, 1]).answer,
        fetch(model, 200),
        hide(model, &[], 0).0,
        join(model, still, 0).0,
        compose(model, still, 0).0,
        join(still, model, 0).0,
        compose(still, model, 0).0,
    ];
    for (answer, file) in answers.into_iter().zip([1, 1, 1, 1, 1, 1, 1, 1, 1, 3, 3]) {
        let stretch = (answer.stretch_start, answer.stretch_length);
        assert_eq!((answer.number, answer.place, answer.file, stretch), (told.0, told.1, file, (told.1, model.len() - told.1)), "{model:?}");
    }
    // With costs behind it, unless it is cut, the same is said, and the rewriting looks further.
    let costly = [model, b"CO\0\0\0"].concat();
    let answer = judge_costs(&costly, certificate, 0).0;
    assert!(told.0 == 1 || (answer.number, answer.file, answer.place) == (told.0, 1, told.1));
    if told.0 == 34 {
        assert!(![0, 34, 36].contains(&rewrite(model, certificate).0.answer.number));
        assert!(![0, 34, 36].contains(&rewrite_costs(&costly, b"CC\0\0").0.answer.number));
    }
}

fn transition(source: usize, weights: &[(usize, i64)]) -> Transition {
    Transition::to(source, 0, weights)
}

#[test]
fn the_divisor_comes_after_7_and_before_the_next_record() {
    let model = |transitions: Vec<Transition>| Model::new(vec![0; 3], 1, transitions).bytes();
    let sound = transition(0, &[(0, 6), (1, 10), (2, 15)]);
    let at = |before: usize| 11 + 16 * before;
    let three = |weights: [i64; 3]| transition(1, &[(0, weights[0]), (1, weights[1]), (2, weights[2])]);
    assert_eq!(fetch(&model(vec![sound.clone(); 3]), 3).number, 24);
    read_by_all(&model(vec![sound.clone(), three([6, 10, 14]), sound.clone()]), (34, at(1)));
    read_by_all(&model(vec![three([2, 2, 2])]), (34, at(0)));
    read_by_all(&model(vec![sound.clone(), sound.clone(), transition(2, &[(0, 65_535)])]), (34, at(2)));
    read_by_all(&model(vec![transition(0, &[(2, 2)])]), (34, at(0)));
    for weights in [[2, 4, 6], [3, 6, 9], [65_533, 1, 1], [1, 1, 65_533], [32_766, 32_766, 2], [1, 32_766, 32_766], [4, 6, 9]] {
        let lowest = weights.into_iter().any(|p| p % 2 > 0) && weights.into_iter().any(|p| p % 3 > 0);
        let file = model(vec![sound.clone(), three(weights)]);
        match lowest {
            true => assert_eq!(fetch(&file, 0).number, 0, "{weights:?}"),
            false => read_by_all(&file, (34, at(1))),
        }
    }
    let other = three([6, 10, 14]);
    let both = || vec![other.clone(), other.clone()];
    // In its own record 5, 1, 6 and 7 come first, and nothing behind it is looked at.
    let changed = |change: &dyn Fn(&mut Vec<u8>)| {
        let mut file = model(both());
        change(&mut file);
        file
    };
    for (number, (byte, value)) in [(5, (2, 3)), (5, (3, 1)), (5, (6, 0)), (5, (6, 4)), (6, (7, 3)), (6, (10, 0)), (7, (5, 31)), (7, (9, 7))] {
        read_by_all(&changed(&|file| file[at(0) + byte] = value), (number, at(0)));
        read_by_all(&changed(&|file| file[at(1) + byte] = value), (34, at(0)));
    }
    read_by_all(&changed(&|file| file.truncate(at(1) - 1)), (1, at(0)));
    read_by_all(&changed(&|file| file.truncate(at(1))), (34, at(0)));
    read_by_all(&changed(&|file| file.truncate(at(1) + 9)), (34, at(0)));
    read_by_all(&changed(&|file| file[at(1)] = 0), (34, at(0)));
    read_by_all(&changed(&|file| file.extend([0; 5])), (34, at(0)));
    read_by_all(&changed(&|file| file[at(0) + 1] = 0), (2, at(0)));
    // 8 comes first too: the entries are too many with the last one, and it alone is in other terms.
    let each = |source: usize| Transition { source, action: 0, d: 128, weights: (0..128).map(|v| (v, 1)).collect(), cost: 0 };
    let full = |last: Transition| Model::new(vec![0; 128], 1, (0..16).map(each).chain([last]).collect()).bytes();
    read_by_all(&full(transition(16, &[(0, 2)])), (8, 136 + 16 * 391));
    let twos = Transition { d: 256, weights: (0..128).map(|v| (v, 2)).collect(), ..each(15) };
    read_by_all(&Model::new(vec![0; 128], 1, (0..15).map(each).chain([twos]).collect()).bytes(), (34, 136 + 15 * 391));
}

/// The largest divisors, and every divisor of a transition to two states up to a limit.
#[test]
fn every_divisor() {
    for g in (1..=300).chain([32_767, 21_845, 13_107, 4_369, 257 * 85]) {
        let weights = [(0, g), (1, 2 * g)];
        let file = Model::new(vec![0; 2], 1, vec![transition(0, if 3 * g <= 65_535 { &weights } else { &weights[..1] })]).bytes();
        assert_eq!(fetch(&file, 0).number, if g > 1 { 34 } else { 0 }, "{g}");
        let certificate = [&b"CT\0\0BK\0\0"[..], b"FL\0\0\0\x03\0\0\0\x02\x01\0\0\0\0\x01\x01\x01\0\0\0\x02"].concat();
        if 3 * g <= 65_535 {
            let (said, [pa, ct]) = rewrite(&file, &certificate);
            assert_eq!((said.answer.number, &pa[10..], ct), (0, &b"TR\0\0\0\x03\x02\0\0\x01\x01\0\x02"[..], certificate));
        }
    }
}

/// What is written is known beforehand: state 0 steps to itself with 3/3, and to 2 with 4/6 and to 1 with 2/6; state 1 stays, or goes the first way.
#[test]
fn known_pairs() {
    let loops = |k: u32| Flow { d: 3, ks: vec![((0, 0), k)], ws: vec![((1, 0), 3)] };
    let spread = |k: u32| Flow { d: 3, ks: vec![((0, 0), k)], ws: vec![((1, 1), 1), ((1, 2), 2)] };
    let model = Model::new(vec![0; 3], 1, vec![transition(0, &[(0, 3)]), transition(0, &[(1, 2), (2, 4)])]);
    let stays = |flow: &Flow| Flow { ws: flow.ws.iter().map(|&((_, u), w)| ((2, u), w)).collect(), ..flow.clone() };
    let pair = |ks: [u32; 4]| {
        let flows = vec![loops(ks[0]), spread(ks[1]), stays(&loops(ks[2])), stays(&spread(ks[3]))];
        bytes((model.clone(), Certificate::new(vec![], vec![0; 3], flows)))
    };
    let most = 1_431_655_765;
    let (pa, ct) = pair([1, most, 7, 1_000_000]);
    let (said, files) = rewrite(&pa, &ct);
    let lowest = Model::new(vec![0; 3], 1, vec![transition(0, &[(0, 1)]), transition(0, &[(1, 1), (2, 2)])]);
    assert_eq!((said.answer, said.certificate_written), (Answer { written: 34, ..Answer::default() }, ct.len()));
    assert_eq!(files, [lowest.bytes(), pair([3, u32::MAX, 21, 3_000_000]).1]);
    // The first flow with one that does not fit is named, whichever entry it is, and before a buffer that is too short.
    let place = |flow: usize| 9 + [0, 23, 52, 75][flow];
    for (ks, flow) in [([most + 1, 1, 1, u32::MAX], 0), ([1, most + 1, most + 1, 1], 1), ([1, 1, u32::MAX, 1], 2), ([1, 1, most, 2 * most], 3)] {
        let (pa, ct) = pair(ks);
        for lengths in [[pa.len(), ct.len()], [0, 0]] {
            let answer = rewrite_by("rewrite", &pa, &ct, lengths).0.answer;
            let stretch = (answer.stretch_start, answer.stretch_length);
            assert_eq!((answer.number, answer.file, answer.place, stretch), (35, 2, place(flow), (place(flow), ct.len() - place(flow))));
        }
        // What refuses the certificate later comes first.
        let answer = rewrite(&pa, &[&ct[..], b"x"].concat()).0.answer;
        assert_eq!((answer.number, answer.place), (22, ct.len()));
    }
    // Prices, D and w, costs and L stay.
    let refuted = Refutation::new(0, 1, vec![vec![9, 0], vec![9, 9], vec![9, 9]]);
    let apart = Certificate::new(vec![refuted], vec![0, 1], vec![]);
    let moving = Model::new(vec![0; 2], 2, vec![Transition { action: 1, ..transition(0, &[(0, 7)]) }]);
    for (costs, l) in [([0], 0), ([63], -1)] {
        let (pa, ct) = bytes((moving.with_costs(|i, _| costs[i]), apart.with_l(|_| l)));
        let (said, files) = rewrite_costs(&pa, &ct);
        let expected = moving.lowest().with_costs(|i, _| costs[i]).bytes();
        match l {
            0 => assert_eq!((said.answer.number, files), (0, [expected, ct])),
            _ => assert_eq!((said.answer.number, said.answer.state, said.answer.remainder), (16, 1, 7 * (63 - 9))),
        }
    }
}

#[test]
fn a_pair_of_the_other_kind_is_refused() {
    let (model, certificate) = &stored()[0];
    let (costly, its) = &stored_costs()[0];
    let count = usize::from(costly[4]) * 256 + usize::from(costly[5]);
    let told = |(said, _): WrittenPair| (said.answer.number, said.answer.file, said.answer.place);
    assert_eq!(told(rewrite(costly, its)), (9, 1, costly.len() - 2 - count));
    assert_eq!(told(rewrite_costs(model, certificate)), (1, 1, model.len()));
    assert_eq!(told(rewrite(model, &[b"CC", &certificate[2..]].concat())), (12, 2, 0));
    assert_eq!(told(rewrite_costs(costly, &[b"CT", &its[2..]].concat())), (12, 2, 0));
    assert_eq!(told(rewrite(&[], &[])), (1, 1, 0));
}

/// What reduce writes is read by every call, though weights that are added up by block have a divisor.
#[test]
fn a_merged_model_is_in_lowest_terms() {
    let (mut numbers, mut missed) = (Numbers::new(104), Missed::default());
    let mut divided = 0;
    for _ in 0..rounds(500) {
        let model = random_model(&mut numbers, 9);
        let Some(certificate) = missed.certificate(&model, &mut numbers) else { continue };
        let (answer, merged) = reduce(&model.bytes(), &certificate.bytes(), MODEL);
        assert_eq!((answer.number, fetch(&merged, 200).number, in_lowest_terms(&merged)), (0, 24, merged.clone()));
        // By the rules from before K10 the same without the division.
        let (_, before) = BEFORE_K10.lent("reduce", &model.bytes(), &certificate.bytes(), MODEL);
        assert_eq!(in_lowest_terms(&before), merged);
        divided += u64::from(before != merged);
    }
    println!("{divided} merged models divided");
    assert!(divided > rounds(200));
}
