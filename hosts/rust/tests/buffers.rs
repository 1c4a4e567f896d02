//! Buffers of every length, null pointers, states of every size, and long files.
mod compare;
mod maker;
mod plain;

use compare::{accepted, accepted_costs, accepted_strong, accepted_texts, alike, compose, fetch, hide, join, judge, judge_costs, judge_strong};
use compare::{lines, read_prism, reduce, rewrite_by, sentence, sheet, Answering, Both, Counts, Lent};
use maker::families::{bytes, flow_heavy, half, largest, parts, refutation_heavy, still, strong_chain, strong_loops};
use plain::Answer;
use std::ptr::{null, null_mut};
use zolkirta::raw::{zolkirta_alike, zolkirta_compose, zolkirta_fetch, zolkirta_hide, zolkirta_join, zolkirta_judge, zolkirta_judge_costs};
use zolkirta::raw::{zolkirta_read_prism, zolkirta_reduce, zolkirta_rewrite, zolkirta_rewrite_costs, zolkirta_sentence, zolkirta_sheet};
use zolkirta::raw::{zolkirta_judge_strong, zolkirta_largest, Lending, LendingTwo};
use zolkirta::{largest_certificate, largest_model, MODEL, SENTENCE, SHEET, STATES, TRANSITIONS};

/// Makes a call with buffers from none to one byte longer than what it writes, and with these: a shorter one is refused with a number.
fn every_length(call: impl Fn(usize) -> (Answer, Vec<u8>), shorter: u32, more: &[usize]) {
    let whole = call(MODEL.max(SHEET)).1;
    for length in (0..=whole.len() + 1).chain(more.iter().copied()) {
        let (answer, written) = call(length);
        let expected = if length < whole.len() { (shorter, &[][..]) } else { (0, &whole[..]) };
        assert_eq!((answer.number, &written[..]), expected);
    }
}

#[test]
fn buffers_of_every_length() {
    let pairs = accepted();
    for (model, certificate) in &pairs {
        assert_eq!(judge(model, certificate, STATES).1.len(), usize::from(model[2]));
        every_length(|length| judge(model, certificate, length), 10, &[STATES, STATES + 1, 255, 256, 257]);
        every_length(|length| reduce(model, certificate, length), 23, &[model.len() + 1]);
        every_length(|length| sheet(model, certificate, length), 28, &[SHEET, SHEET + 1]);
        assert_eq!(hide(model, &[1, 2], MODEL).1.len(), model.len());
        every_length(|length| hide(model, &[1, 2], length), 38, &[MODEL, MODEL + 1]);
    }
    for (pairs, call) in [(accepted_costs(), judge_costs as Lent), (accepted_strong(), judge_strong)] {
        for (model, certificate) in &pairs {
            assert_eq!(call(model, certificate, STATES).1.len(), usize::from(model[2]));
            every_length(|length| call(model, certificate, length), 10, &[STATES, STATES + 1, 255, 256, 257]);
        }
    }
    let half = half().0.bytes();
    let small = || pairs.iter().map(|(model, _)| model).filter(|model| model[2] <= 64 && model.len() < 1000);
    for (first, second) in small().zip(small().rev()).chain([(&half, &half)]) {
        assert_eq!(join(first, second, MODEL).1.len(), first.len() + second.len() - 8); // one head and one mark of labels less
        every_length(|length| join(first, second, length), 26, &[MODEL, MODEL + 1]);
    }
    let parts = parts().map(|model| model.bytes());
    assert_eq!(compose(&parts[0], &parts[1], MODEL).1.len(), MODEL);
    let side_by_side = small().zip(small().rev()).filter(|(left, right)| compose(left, right, MODEL).0.number == 0);
    for (left, right) in side_by_side.chain([(&parts[0], &parts[1])]) {
        every_length(|length| compose(left, right, length), 38, &[MODEL, MODEL + 1]);
    }
    for text in &accepted_texts() {
        every_length(|length| read_prism(text, length), 33, &[MODEL, MODEL + 1]);
    }
    for number in (0..=42).chain([u32::MAX]) {
        let [short, long] = [(1, 0), (u32::MAX, i64::MIN)].map(|(file, remainder)| Answer { number, file, remainder, ..Answer::default() });
        for of in [short, long] {
            every_length(|length| sentence(of, length), 39, &[SENTENCE, SENTENCE + 1]);
        }
    }
}

#[test]
fn a_refusal_writes_nothing_whatever_the_length() {
    let mut refused = 0;
    let all = lines();
    let said = |calls: &'static [&str], file: u32| all.iter().filter(move |v| calls.contains(&v.call.as_str()) && v.said.0.file >= file);
    for v in said(&["judge", "reduce"], 1).filter(|v| matches!(v.name, "base" | "k7")) {
        for length in (0..=66).chain(126..=130) {
            judge(&v.files[0], &v.files[1], length);
            assert_eq!(reduce(&v.files[0], &v.files[1], length).0.number, v.number());
            assert_eq!(sheet(&v.files[0], &v.files[1], length).0.number, v.number());
            refused += 1;
        }
    }
    assert!(refused > 10_000);
    let mut refused = 0;
    for v in said(&["judge_costs", "judge_strong"], 1) {
        for length in (0..=66).chain(126..=130) {
            let number = Both.lent(&v.call, &v.files[0], &v.files[1], length).0.number;
            // 10 comes between the model's faults and the certificate's.
            let short = v.said.0.file == 2 && length < usize::from(v.files[0][2]);
            assert_eq!(number, if short { 10 } else { v.number() });
            refused += 1;
        }
    }
    assert!(refused > 40_000);
    let mut refused = 0;
    for v in said(&["join", "compose", "hide"], 0).filter(|v| !matches!(v.number(), 0 | 26 | 38)) {
        for length in (0..=66).chain(126..=130) {
            assert_eq!(Both.lent(&v.call, &v.files[0], &v.files[1], length).0, v.said.0);
            refused += 1;
        }
    }
    assert!(refused > 15_000, "{refused}");
    let mut refused = 0;
    for v in said(&["read_prism"], 1) {
        for length in (0..=66).chain([MODEL]) {
            assert_eq!(read_prism(&v.files[0], length).0, v.said.0);
            refused += 1;
        }
    }
    assert!(refused > 5_000);
}

#[test]
fn null_pointers_at_length_0() {
    let (model, certificate) = &accepted()[0];
    let (costly, its_certificate) = &accepted_costs()[0];
    let (strong, strong_certificate) = &accepted_strong()[0];
    let text = b"1 0 0\n";
    let (m, m_length, c, c_length) = (model.as_ptr(), model.len(), certificate.as_ptr(), certificate.len());
    let mut blocks = [7; STATES];
    let b = blocks.as_mut_ptr();
    // The same call with an empty slice for every null pointer.
    let lending: [(Lending, Lent, &[u8], &[u8]); 7] = [
        (zolkirta_judge, judge, model, certificate),
        (zolkirta_judge_costs, judge_costs, costly, its_certificate),
        (zolkirta_judge_strong, judge_strong, strong, strong_certificate),
        (zolkirta_reduce, reduce, model, certificate),
        (zolkirta_sheet, sheet, model, certificate),
        (zolkirta_join, join, model, model),
        (zolkirta_compose, compose, model, model),
    ];
    for (call, same, one, other) in lending {
        let (p, p_length, o, o_length) = (one.as_ptr(), one.len(), other.as_ptr(), other.len());
        unsafe {
            assert_eq!(call(null(), 0, null(), 0, null_mut(), 0), same(&[], &[], 0).0);
            assert_eq!(call(null(), 0, o, o_length, b, STATES), same(&[], other, STATES).0);
            assert_eq!(call(p, p_length, null(), 0, b, STATES), same(one, &[], STATES).0);
            assert_eq!(call(p, p_length, o, o_length, null_mut(), 0), same(one, other, 0).0);
            assert_eq!(call(p, p_length, null(), 0, null_mut(), 0), same(one, &[], 0).0);
        }
    }
    unsafe {
        assert_eq!(zolkirta_fetch(null(), 0, 0), fetch(&[], 0));
        assert_eq!(zolkirta_read_prism(null(), 0, null_mut(), 0), read_prism(&[], 0).0);
        assert_eq!(zolkirta_read_prism(null(), 0, b, STATES), read_prism(&[], STATES).0);
        assert_eq!(zolkirta_read_prism(text.as_ptr(), text.len(), null_mut(), 0), read_prism(text, 0).0);
        assert_eq!(zolkirta_sentence(0, 0, 0, 0, 0, null_mut(), 0), sentence(Answer::default(), 0).0);
        assert_eq!(zolkirta_alike(null(), 0, 1, null(), 0, 0, 1), alike(&[], &[], [1, 0, 1]));
        assert_eq!(zolkirta_alike(m, m_length, 1, null(), 0, 0, 1), alike(model, &[], [1, 0, 1]));
        assert_eq!(zolkirta_alike(null(), 0, 1, c, c_length, 0, 1), alike(&[], certificate, [1, 0, 1]));
    }
    let rewriting: [(LendingTwo, &str, &[u8], &[u8]); 2] =
        [(zolkirta_rewrite, "rewrite", model, certificate), (zolkirta_rewrite_costs, "rewrite_costs", costly, its_certificate)];
    for (call, name, one, other) in rewriting {
        let same = |one: &[u8], other: &[u8], lengths| rewrite_by(name, one, other, lengths).0;
        let (p, p_length, o, o_length) = (one.as_ptr(), one.len(), other.as_ptr(), other.len());
        unsafe {
            assert_eq!(call(null(), 0, null(), 0, null_mut(), 0, null_mut(), 0), same(&[], &[], [0, 0]));
            assert_eq!(call(p, p_length, null(), 0, null_mut(), 0, null_mut(), 0), same(one, &[], [0, 0]));
            assert_eq!(call(null(), 0, o, o_length, b, 0, b, 0), same(&[], other, [0, 0]));
            assert_eq!(call(p, p_length, o, o_length, null_mut(), 0, b, STATES), same(one, other, [0, STATES]));
            assert_eq!(call(p, p_length, o, o_length, b, STATES, null_mut(), 0), same(one, other, [STATES, 0]));
        }
    }
    for (states, transitions, number) in [(1, 0, 41), (0, 0, 40), (1, 257, 40)] {
        let same = |lengths| Both.largest(states, transitions, lengths).0;
        assert_eq!(same([0, 0]).answer.number, number);
        unsafe {
            assert_eq!(zolkirta_largest(states, transitions, null_mut(), 0, null_mut(), 0), same([0, 0]));
            assert_eq!(zolkirta_largest(states, transitions, null_mut(), 0, b, STATES), same([0, STATES]));
            assert_eq!(zolkirta_largest(states, transitions, b, STATES, null_mut(), 0), same([STATES, 0]));
        }
    }
    assert_eq!(blocks, [7; STATES]);
    let judged = [judge(model, certificate, 0).0, reduce(model, certificate, 0).0, sheet(model, certificate, 0).0];
    assert_eq!(judged.map(|answer| (answer.number, answer.file)), [(10, 0), (23, 0), (28, 0)]);
    let with_costs = [(costly, its_certificate, 0), (costly, &Vec::new(), STATES), (model, certificate, STATES)];
    let with_costs = with_costs.map(|(model, certificate, length)| judge_costs(model, certificate, length).0);
    assert_eq!(with_costs.map(|answer| (answer.number, answer.file)), [(10, 0), (11, 2), (1, 1)]);
    let strongly = [(strong, strong_certificate, 0), (strong, &Vec::new(), STATES), (model, certificate, STATES)];
    let strongly = strongly.map(|(model, certificate, length)| judge_strong(model, certificate, length).0);
    assert_eq!(strongly.map(|answer| (answer.number, answer.file)), [(10, 0), (11, 2), (12, 2)]);
    let texts = [read_prism(text, 0).0, read_prism(&[], STATES).0];
    assert_eq!(texts.map(|answer| (answer.number, answer.file)), [(33, 0), (31, 1)]);
    for (call, shorter) in [(join as Lent, 26), (compose, 38)] {
        let two_models = [call(model, model, 0).0, call(model, &[], STATES).0];
        assert_eq!(two_models.map(|answer| (answer.number, answer.file)), [(shorter, 0), (1, 3)]);
    }
    // A set may be empty, and its pointer null.
    let mut whole = vec![7; m_length];
    unsafe {
        assert_eq!(zolkirta_hide(null(), 0, null(), 0, null_mut(), 0), hide(&[], &[], 0).0);
        assert_eq!(zolkirta_hide(null(), 0, c, c_length, b, STATES), hide(&[], certificate, STATES).0);
        assert_eq!(zolkirta_hide(m, m_length, null(), 0, null_mut(), 0), hide(model, &[], 0).0);
        assert_eq!(zolkirta_hide(m, m_length, null(), 0, whole.as_mut_ptr(), m_length), hide(model, &[], m_length).0);
    }
    assert_eq!((&whole, blocks), (model, [7; STATES]));
    assert_eq!([hide(model, &[], 0), hide(&[], &[1], STATES)].map(|(answer, _)| (answer.number, answer.file)), [(38, 0), (1, 1)]);
}

/// Numbers below this, and those that are one of them in their lowest bits.
fn every_size_below(limit: u32) -> impl Iterator<Item = u32> {
    let low = 0..limit;
    let wide = low.clone().flat_map(|state| [8, 16, 24, 31].map(|bit| state + (1 << bit)));
    low.chain([255, 65_535, u32::MAX]).chain(wide)
}

/// The same around the states of a model.
fn every_size() -> impl Iterator<Item = u32> {
    every_size_below(130)
}

#[test]
fn states_of_every_size() {
    let mut models: Vec<_> = lines().into_iter().filter(|v| matches!(v.name, "base" | "k7")).map(|mut v| v.files.remove(0)).collect();
    models.push(largest().0.bytes());
    models.sort();
    models.dedup();
    for model in models {
        for state in every_size() {
            let answer = fetch(&model, state);
            assert_eq!(answer.number == 24, answer.file == 0 && state >= model[2].into());
        }
    }
}

#[test]
fn parts_and_states_of_every_size() {
    let small = accepted().into_iter().filter(|(_, certificate)| certificate.len() < 500);
    for (model, certificate) in small.chain([bytes(half()), bytes(still(&[0; STATES]))]) {
        let n = u32::from(model[2]);
        let in_parts = [n / 2, 0, n - 1];
        let each = every_size().flat_map(|x| [0, 1, 2].map(|i| (i, x)));
        let one_changed = each.map(|(i, x)| std::array::from_fn(|j| if i == j { x } else { in_parts[j] }));
        let edges = [0, 1, n - 1, n, n + 1, 256, u32::MAX];
        let all_changed = (0..343).map(|i| [edges[i / 49], edges[i / 7 % 7], edges[i % 7]]);
        for [count, s, t] in one_changed.chain(all_changed) {
            let said = alike(&model, &certificate, [count, s, t]);
            let parted = count <= n && s < count && (count..n).contains(&t);
            assert_eq!(said.answer.number, if parted { 0 } else { 27 });
        }
    }
}

/// Both counts of the largest certificate go by their whole width, and 40 comes before 41.
#[test]
fn counts_of_every_size() {
    let each_count = every_size().flat_map(|states| [0, 2, 256, 257, u32::MAX].map(|transitions| (states, transitions)));
    let counts = each_count.chain(every_size_below(260).flat_map(|transitions| [0, 1, 2, 129, u32::MAX].map(|states| (states, transitions))));
    for (states, transitions) in counts {
        let [n, count] = [states, transitions].map(|asked| asked as usize);
        let within = (1..=STATES).contains(&n) && count <= TRANSITIONS;
        let exact = if within { [largest_model(n, count), largest_certificate(n, count)] } else { [MODEL; 2] };
        assert_eq!(Both.largest(states, transitions, exact).0.answer.number, if within { 0 } else { 40 });
        assert_eq!(Both.largest(states, transitions, [0, 0]).0.answer.number, if within { 41 } else { 40 });
    }
}

/// Truncations of a long certificate, bytes added to it, and changes of so many bytes along it and of these at its end.
fn long_certificate(mut judged: impl FnMut(&[u8]) -> Answer, certificate: &[u8], along: usize, last: Vec<usize>) {
    let size = certificate.len();
    assert!(size > 300_000 && judged(certificate).number == 0);
    for end in [65_534, 65_535, 65_536, 65_537, 262_143, 262_144, 262_145, size - 1] {
        judged(&certificate[..end]);
    }
    let longer = [certificate, &[0; 70_000]].concat();
    assert_eq!(judged(&longer).place, size);
    let mut damaged = certificate.to_vec();
    for at in (1 << 18..size).step_by(size / along).chain(last) {
        damaged[at] ^= 1;
        let answer = judged(&damaged);
        assert!(answer.number == 0 || answer.file == 2 && answer.place > 1 << 17);
        damaged[at] = certificate[at];
    }
}

#[test]
fn long_certificates() {
    let mut counts = Counts::default();
    for n in [64, 128] {
        let (flows, refutations) = (bytes(flow_heavy(n, 3)), bytes(refutation_heavy(n)));
        // Bytes of the last flow; fields and some prices of the last refutation, and the blocks.
        let last_flow = (flows.1.len() - 37..flows.1.len()).collect();
        let blocks = refutations.1.len() - 2 - n;
        let start = blocks - 5 - 12 * n;
        // One judging takes eight times as long at 128 states, with four times as many refutations.
        let (along, step) = if n == 64 { (30, 1) } else { (4, 48) };
        let prices = (start + 8..blocks).step_by(8 * step);
        let last_refutation = (start..start + 5).step_by(step).chain(prices).chain((blocks..blocks + 2 + n).step_by(step)).collect();
        long_certificate(|certificate| counts.pair(&flows.0, certificate), &flows.1, 30, last_flow);
        long_certificate(|certificate| counts.pair(&refutations.0, certificate), &refutations.1, along, last_refutation);
    }
    println!("long certificates: {counts}");
    for number in [0, 11, 12, 14, 15, 16, 17, 18, 19, 20, 21, 22] {
        assert!(counts.answers[number] > 0, "no long certificate was answered with {number}");
    }
}

#[test]
fn long_strong_certificates() {
    let mut counts = Counts::default();
    for (model, certificate) in [strong_loops(64, 0), strong_chain(64, 1)].map(bytes) {
        let last = (certificate.len() - 29..certificate.len()).collect();
        long_certificate(|certificate| counts.count(judge_strong(&model, certificate, STATES).0), &certificate, 20, last);
    }
    for number in [0, 11, 12, 15, 17, 18, 19, 20, 22] {
        assert!(counts.answers[number] > 0, "no long certificate was answered with {number}");
    }
}

#[test]
fn long_models() {
    let mut counts = Counts::default();
    let largest = largest().0.bytes();
    assert_eq!(largest.len(), MODEL);
    assert_eq!(fetch(&largest, 127).stretch_length, 2 * 31);
    for more in [1, 65_535, 300_000] {
        let long = [&largest[..], &vec![0; more]].concat();
        let answer = counts.pair(&long, &long);
        assert_eq!((answer.number, answer.place, answer.stretch_length), (9, largest.len(), more));
    }
}
