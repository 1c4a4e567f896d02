//! K13: the pair with the most flow records, for every number of states and transitions; that no accepted certificate without costs, weak or
//! strong, has more of them; and how long one may be.
mod compare;
mod maker;
mod plain;
mod records;

use compare::{accepted_strong, alike, all_lines, around_both, judge, judge_strong, largest, reduce, rewrite, rounds, sheet, Line, Numbers};
use maker::families::{bytes, flow_heavy, in_any_order, internal_chain, large_of, random_large, refutation_heavy, still, strong_fan, strong_loops};
use maker::files::{Certificate, Flow, Model, Transition};
use maker::random::{random_model, random_strong_model};
use maker::Missed;
use plain::Answer;
use records::split;
use zolkirta::{flows, largest_certificate, largest_model, MODEL, SHEET, STATES, TRANSITIONS};

type Pair = (Vec<u8>, Vec<u8>);

/// The pair of so many states and transitions, by both, in buffers of just its lengths.
fn written(n: usize, count: usize) -> Pair {
    let lengths = [8 + n + 10 * count, 6 + n + 16 * count * (n - 1)];
    assert_eq!([largest_model(n, count), largest_certificate(n, count)], lengths);
    let (said, [model, certificate]) = largest(n as u32, count as u32, lengths);
    assert_eq!((said.answer, said.certificate_written), (Answer { written: lengths[0], ..Answer::default() }, lengths[1]));
    (model, certificate)
}

#[test]
fn pairs_of_every_size_are_written() {
    let each_n = (1..=STATES).flat_map(|n| [0, 1, 255].map(|count| (n, count)));
    let each_count = (0..=TRANSITIONS).flat_map(|count| [1, 2, 65, STATES].map(|n| (n, count)));
    each_n.chain(each_count).for_each(|(n, count)| _ = written(n, count));
    for n in 1..=STATES {
        assert_eq!(written(n, TRANSITIONS), bytes(flow_heavy(n, 0)), "what the maker makes of {n} states");
    }
    assert_eq!([largest_model(STATES, TRANSITIONS), largest_certificate(STATES, TRANSITIONS)], [2_696, 520_326]);
}

/// They are accepted by every call, with one block, and have their flows by the words of K13; one flow less or more is refused.
#[test]
fn pairs_go_through_every_call() {
    for (n, count) in [1, 2, 3, 10, 63, 64, 65, 127, 128].into_iter().flat_map(|n| [0, 1, 2, 7, 100, 255, 256].map(|count| (n, count))) {
        let pair = written(n, count);
        let (model, certificate) = &pair;
        assert_eq!(judge(model, certificate, n), (Answer { written: n, ..Answer::default() }, vec![0; n]));
        let one_state = Model::new(vec![0], 1, vec![Transition::step(0, 0, 0); count.min(1)]);
        assert_eq!(reduce(model, certificate, MODEL).1, one_state.bytes());
        let (answer, text) = sheet(model, certificate, SHEET);
        assert_eq!((answer.number, text.len(), &text[..8]), (0, 73 * n.div_ceil(16), format!("   0{n:4}").as_bytes()));
        assert_eq!(rewrite(model, certificate).1, [model.clone(), certificate.clone()]);
        if n > 1 {
            assert_eq!(alike(model, certificate, [1, 0, n as u32 - 1]).alike, 1);
        }

        let [_, records] = split(&pair);
        assert_eq!(records[..2], [b"CT\0\0".to_vec(), [&b"BK"[..], &vec![0; n]].concat()]);
        assert_eq!(records[2..].len(), flows(n, count));
        assert!(records[2..].iter().all(|flow| flow.len() == 16 && flow.starts_with(b"FL\0\0\0\x01")));

        let size = certificate.len();
        let answer = judge(model, &[&certificate[..], b"FL\0\0\0\x01\0\0\0\x01\x01\0\0\0\0\x01"].concat(), n).0;
        assert_eq!((answer.number, answer.place), (22, size));
        if flows(n, count) > 0 {
            let answer = judge(model, &certificate[..size - 16], n).0;
            assert_eq!((answer.number, answer.place), (11, size - 16));
        }
    }
}

/// Either buffer around its file's length: 41 where one is shorter, and later bytes stay.
#[test]
fn buffers_around_both_lengths() {
    for (n, count) in [(1, 0), (1, 1), (1, 256), (2, 0), (2, 1), (3, 5), (64, 3), (128, 0), (128, 2), (128, 256)] {
        let (model, certificate) = written(n, count);
        for lengths in around_both([model.len(), certificate.len()]) {
            let (said, files) = largest(n as u32, count as u32, lengths);
            if lengths[0] < model.len() || lengths[1] < certificate.len() {
                assert_eq!((said.answer, said.certificate_written), (Answer { number: 41, ..Answer::default() }, 0));
            } else {
                assert_eq!((said.answer.number, files), (0, [model.clone(), certificate.clone()]));
            }
        }
    }
}

/// Counts past a limit, alone and together, whatever the buffers: low bits that are within the limits do not count.
#[test]
fn counts_outside_the_limits_are_refused() {
    let wide = |low: u32| [1 << 8, 1 << 9, 1 << 16, 1 << 24, 1 << 31].map(|high| high + low);
    let states: Vec<u32> = [0, 129, 130, 255, 65_535, u32::MAX].into_iter().chain([1, 128].into_iter().flat_map(wide)).collect();
    let transitions: Vec<u32> = [257, 258, 65_535, u32::MAX].into_iter().chain([1, 256].into_iter().flat_map(wide)).collect();
    let passing = states.iter().flat_map(|&n| [0, 1, 256].map(|count| (n, count)));
    let passing = passing.chain(transitions.iter().flat_map(|&count| [1, 2, 128].map(|n| (n, count))));
    for (n, count) in passing.chain(states.iter().flat_map(|&n| transitions.iter().map(move |&count| (n, count)))) {
        for lengths in [[0, 0], [3_000, 600_000]] {
            let said = largest(n, count, lengths).0;
            assert_eq!((said.answer, said.certificate_written), (Answer { number: 40, ..Answer::default() }, 0), "{n} {count}");
        }
    }
}

/// The accepted pairs without costs of the vectors, those among them that are refused after acceptance, and the pairs that they write.
fn of_vectors() -> Vec<Pair> {
    let accepting = |v: &Line| match v.call.as_str() {
        "judge" | "reduce" | "sheet" | "alike" | "rewrite" => matches!(v.number(), 0 | 23 | 27 | 28 | 35 | 36),
        call => call == "largest" && v.number() == 0,
    };
    let pair = |mut v: Line| if v.call == "largest" { (v.said.2.remove(0), v.said.2.remove(0)) } else { (v.files.remove(0), v.files.remove(0)) };
    all_lines().into_iter().filter(accepting).map(pair).collect()
}

/// Pairs of the maker that both accept.
fn made() -> Vec<Pair> {
    let (mut numbers, mut missed) = (Numbers::new(130), Missed::default());
    let mut made = vec![still(&[0; 5]), refutation_heavy(9), internal_chain(20), flow_heavy(7, 3), in_any_order(flow_heavy(66, 1), &mut numbers)];
    for _ in 0..rounds(400) {
        let model = random_model(&mut numbers, 9);
        made.extend(missed.certificate(&model, &mut numbers).map(|certificate| (model, certificate)));
    }
    made.extend((0..10).map(|_| random_large(&mut numbers)));
    let pairs: Vec<Pair> = made.into_iter().map(bytes).collect();
    assert!(pairs.iter().all(|(model, certificate)| judge(model, certificate, STATES).0.number == 0));
    pairs
}

/// Strong pairs of the vectors and of the maker.
fn strong_ones() -> Vec<Pair> {
    let (mut numbers, mut missed) = (Numbers::new(131), Missed::default());
    let mut made = vec![strong_loops(STATES, 0), strong_loops(5, 1), strong_fan(40, 1), large_of(random_strong_model, &mut numbers)];
    for _ in 0..rounds(300) {
        let model = random_strong_model(&mut numbers, 7);
        made.extend(missed.certificate(&model, &mut numbers).map(|certificate| (model, certificate)));
    }
    let pairs: Vec<Pair> = accepted_strong().into_iter().chain(made.into_iter().map(bytes)).collect();
    assert!(pairs.iter().all(|(model, certificate)| judge_strong(model, certificate, STATES).0.number == 0));
    pairs
}

/// Flow records are counted from the bytes. There is one for each transition and each other state in the block of its source.
#[test]
fn no_accepted_certificate_has_more_flow_records() {
    for (name, pairs, least) in [("vectors", of_vectors(), 50), ("maker", made(), 20), ("strong", strong_ones(), 10)] {
        let (mut reached, mut below) = (0, 0);
        for pair in &pairs {
            let [model, certificate] = split(pair);
            let (n, transitions) = (usize::from(pair.0[2]), &model[2..]);
            let blocks = &certificate.iter().find(|record| record.starts_with(b"BK")).expect("blocks")[2..];
            let others = |r: &Vec<u8>| blocks.iter().filter(|&&block| block == blocks[usize::from(r[2])]).count() - 1;
            let (records, most) = (certificate.iter().filter(|r| r.starts_with(b"FL")).count(), flows(n, transitions.len()));
            assert_eq!(records, transitions.iter().map(others).sum());
            assert!(records <= most, "{records} flow records for {n} states and {} transitions", transitions.len());
            reached += u32::from(records == most && most > 0);
            below += u32::from(records < most);
        }
        println!("{name}: {} pairs, {reached} with as many flow records as there can be, {below} with fewer", pairs.len());
        assert!(reached > least && below > 5 * least);
    }
}

/// What the header and docs/FORMAT.md say of a flow record's length is reached: every k that its layers have, and every w. State 0 moves to all
/// states by action 1, and by an internal step too, every other state steps to state 0, and internal steps of state 0 to itself fill the limit. Each
/// flow goes round all internal steps, before the move and after it.
#[test]
fn the_longest_flow() {
    let n = STATES;
    let everywhere = |action: usize| Transition::to(0, action, &(0..n).map(|v| (v, 1)).collect::<Vec<_>>());
    let loops = vec![Transition::step(0, 0, 0); n - 1];
    let mut transitions = vec![everywhere(1), everywhere(0)];
    transitions.extend(loops);
    transitions.extend((1..n).map(|s| Transition::step(s, 0, 0)));
    assert_eq!(transitions.len(), TRANSITIONS);
    let back = |t: usize| n + t;
    let round = |layer: u8| (1..TRANSITIONS).map(move |r| ((layer, r), 1));
    let longest = |t: usize| {
        let all: u32 = (n * n) as u32;
        let mut ks: Vec<_> = round(0).chain([((1, 0), n as u32)]).chain(round(2)).collect();
        ks[back(t) - 1].1 += all;
        Flow { d: all, ks, ws: (0..n * n).map(|i| ((i / n, i % n), 1)).collect() }
    };
    let stays = |t: usize, targets: usize| Flow { d: targets as u32, ks: Vec::new(), ws: (0..targets).map(|u| ((t, u), 1)).collect() };
    let mut flows_of_pairs = Vec::new();
    for t in 1..n {
        flows_of_pairs.extend([longest(t), stays(t, n)]);
        flows_of_pairs.extend(vec![stays(t, 1); n - 1]);
    }
    for s in 1..n {
        flows_of_pairs.extend((0..n).filter(|&t| t != s).map(|t| stays(t, 1)));
    }
    let pair = bytes((Model::new(vec![0; n], 2, transitions), Certificate::new(Vec::new(), vec![0; n], flows_of_pairs)));
    assert_eq!(judge(&pair.0, &pair.1, n), (Answer { written: n, ..Answer::default() }, vec![0; n]));
    let [_, records] = split(&pair);
    assert_eq!(records[2..].len(), flows(n, TRANSITIONS));
    let longest = 10 + 7 * (2 * TRANSITIONS - 1) + 6 * n * n;
    assert_eq!(records[2..].iter().map(Vec::len).max(), Some(longest));
    assert_eq!(longest, 101_891);
    println!("a certificate of {} bytes with {} flow records", pair.1.len(), records.len() - 2);
}
