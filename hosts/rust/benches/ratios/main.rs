//! The library beside the plain Rust judge of the tests, in one run: `cargo bench --offline`. With `-- --write` the figures also go to
//! docs/BENCHMARKS.md and docs/growth.svg; `-- --quick` makes one pass.
#[path = "../../tests/compare/mod.rs"]
mod compare;
#[path = "../../tests/maker/mod.rs"]
mod maker;
mod picture;
#[path = "../../tests/plain/mod.rs"]
mod plain;
mod report;

use compare::Numbers;
use maker::families::{bytes, copies, filled, flow_heavy, flow_heavy_with_costs, half, largest, most_copies, one_source, parts};
use maker::families::{refutation_heavy, still, strong_chain, strong_loops};
use maker::files::{Certificate, Model, Transition};
use maker::prism::largest_text;
use maker::random::random_model;
use plain::{Limits, TODAY};
use std::hint::black_box;
use std::time::{Duration, Instant};
use zolkirta::raw;

/// Nanoseconds of one call.
#[derive(Clone, Copy)]
pub struct Times {
    pub library: f64,
    pub plain: f64,
}

impl Times {
    pub fn ratio(&self) -> f64 {
        self.library / self.plain
    }

    fn keep_least(&mut self, other: Times) {
        self.library = self.library.min(other.library);
        self.plain = self.plain.min(other.plain);
    }
}

/// The least time of each over rounds that alternate for so long, so that both meet the same machine. Both must answer alike.
fn measured(length: Duration, mut library: impl FnMut() -> u32, mut plain: impl FnMut() -> u32) -> Times {
    let round = |calls: u32, call: &mut dyn FnMut() -> u32| {
        let start = Instant::now();
        for _ in 0..calls {
            black_box(call());
        }
        start.elapsed().as_nanos() as f64 / f64::from(calls)
    };
    assert_eq!(library(), plain());
    let calls = (200_000.0 / round(3, &mut plain)).max(1.0) as u32;
    let mut least = Times { library: f64::MAX, plain: f64::MAX };
    let start = Instant::now();
    while start.elapsed() < length {
        least.keep_least(Times { library: round(calls, &mut library), plain: round(calls, &mut plain) });
    }
    least
}

/// Model and certificate, two models, or a model and a set.
type Files = (Vec<u8>, Vec<u8>);

fn fetching(length: Duration, model: &[u8], state: u32) -> Times {
    let library = || unsafe { raw::zolkirta_fetch(black_box(model).as_ptr(), model.len(), state) }.number;
    measured(length, library, || TODAY.fetch(black_box(model), state).number)
}

/// The sum over the pairs of a call that lends a buffer, one that is long enough.
fn lending(length: Duration, library: raw::Lending, plain: compare::PlainLending, pairs: &[Files]) -> Times {
    let room = zolkirta::MODEL.max(zolkirta::SHEET);
    let (mut lent, mut lent_plain) = (vec![0; room], vec![0; room]);
    let mut proved = |(one, other): &Files| {
        let (one, other) = (black_box(one), black_box(other));
        unsafe { library(one.as_ptr(), one.len(), other.as_ptr(), other.len(), lent.as_mut_ptr(), lent.len()) }.number
    };
    let mut by_hand = |(one, other): &Files| plain(&TODAY, black_box(one), black_box(other), &mut lent_plain).number;
    measured(length, || pairs.iter().map(&mut proved).sum(), || pairs.iter().map(&mut by_hand).sum())
}

fn judging(length: Duration, pairs: &[Files]) -> Times {
    lending(length, raw::zolkirta_judge, Limits::judge, pairs)
}

fn judging_costs(length: Duration, pairs: &[Files]) -> Times {
    lending(length, raw::zolkirta_judge_costs, Limits::judge_costs, pairs)
}

fn judging_strong(length: Duration, pairs: &[Files]) -> Times {
    lending(length, raw::zolkirta_judge_strong, Limits::judge_strong, pairs)
}

fn reducing(length: Duration, pairs: &[Files]) -> Times {
    lending(length, raw::zolkirta_reduce, Limits::reduce, pairs)
}

fn joining(length: Duration, pairs: &[Files]) -> Times {
    lending(length, raw::zolkirta_join, Limits::join, pairs)
}

fn composing(length: Duration, [left, right]: [Vec<u8>; 2]) -> Times {
    lending(length, raw::zolkirta_compose, Limits::compose, &[(left, right)])
}

fn hiding(length: Duration, model: Vec<u8>, actions: Vec<u8>) -> Times {
    lending(length, raw::zolkirta_hide, Limits::hide, &[(model, actions)])
}

/// A stored pair in any terms that is accepted, with buffers of just its lengths.
fn rewriting(length: Duration, library: raw::LendingTwo, plain: compare::PlainLendingTwo, (model, certificate): &Files) -> Times {
    let buffers = || (vec![0; model.len()], vec![0; certificate.len()]);
    let ((mut pa, mut ct), (mut pa_plain, mut ct_plain)) = (buffers(), buffers());
    let proved = || {
        let (one, other) = (black_box(model), black_box(certificate));
        let (out, other_out) = (pa.as_mut_ptr(), ct.as_mut_ptr());
        unsafe { library(one.as_ptr(), one.len(), other.as_ptr(), other.len(), out, one.len(), other_out, other.len()) }.answer.number
    };
    let by_hand = || plain(&TODAY, black_box(model), black_box(certificate), &mut pa_plain, &mut ct_plain).answer.number;
    measured(length, proved, by_hand)
}

/// The pair with the most flow records, with buffers of just its lengths.
fn writing_largest(length: Duration, states: usize, transitions: usize) -> Times {
    let buffers = || [zolkirta::largest_model, zolkirta::largest_certificate].map(|bytes| vec![0; bytes(states, transitions)]);
    let ([mut pa, mut ct], [mut pa_plain, mut ct_plain]) = (buffers(), buffers());
    let asked = || black_box((states as u32, transitions as u32));
    let proved = || {
        let (n, count) = asked();
        unsafe { raw::zolkirta_largest(n, count, pa.as_mut_ptr(), pa.len(), ct.as_mut_ptr(), ct.len()) }.answer.number
    };
    let by_hand = || {
        let (n, count) = asked();
        TODAY.largest(n, count, &mut pa_plain, &mut ct_plain).answer.number
    };
    measured(length, proved, by_hand)
}

fn on_paper(length: Duration, pairs: &[Files]) -> Times {
    lending(length, raw::zolkirta_sheet, Limits::sheet, pairs)
}

/// A text of PRISM, with a buffer that is long enough.
fn reading(length: Duration, text: &[u8]) -> Times {
    let (mut lent, mut lent_plain) = (vec![0; zolkirta::MODEL], vec![0; zolkirta::MODEL]);
    let library = || unsafe { raw::zolkirta_read_prism(black_box(text).as_ptr(), text.len(), lent.as_mut_ptr(), lent.len()) }.number;
    measured(length, library, || TODAY.read_prism(black_box(text), &mut lent_plain).number)
}

/// State 0 compared with the last one.
fn comparing(length: Duration, (model, certificate): &Files) -> Times {
    let last = u32::from(model[2]) - 1;
    let said = |said: raw::AlikeAnswer| said.answer.number + said.alike;
    let library = || {
        let (pa, ct) = (black_box(model), black_box(certificate));
        said(unsafe { raw::zolkirta_alike(pa.as_ptr(), pa.len(), last, ct.as_ptr(), ct.len(), 0, last) })
    };
    measured(length, library, || said(TODAY.alike(black_box(model), last, black_box(certificate), 0, last)))
}

/// Accepted pairs of 1 to 10 states, always the same ones.
fn random_pairs() -> Vec<Files> {
    let mut numbers = Numbers::new(6);
    let mut pairs = Vec::new();
    while pairs.len() < 300 {
        let model = random_model(&mut numbers, 10);
        if let Some(certificate) = maker::certificate(&model, &mut numbers) {
            pairs.push(bytes((model, certificate)));
        }
    }
    pairs
}

/// Accepted pairs of random models with every state copied, always the same ones: so many, a model of n states as often as `times` says. A copy meets
/// another's transition by a flow of one k entry and a w entry for each target.
fn copied_pairs(count: usize, times: fn(usize) -> usize) -> Vec<Files> {
    let mut numbers = Numbers::new(7);
    let mut pairs = Vec::new();
    while pairs.len() < count {
        let model = random_model(&mut numbers, 8);
        let k = times(model.n());
        if most_copies(&model) < k {
            continue;
        }
        let Some(certificate) = maker::certificate(&model, &mut numbers) else { continue };
        if certificate.refutations.len() * k * k <= TODAY.refutations {
            pairs.push(bytes(copies(&model, &certificate, k)));
        }
    }
    pairs
}

/// The largest model with weights whose divisor takes long to find: the first two are neighbours among Fibonacci's numbers.
fn in_longer_terms() -> Model {
    let model = largest().0;
    let longer = |r: &Transition| {
        let weights: Vec<_> = r.weights.iter().map(|e| e.0).zip([17_711, 28_657, 2, 4, 6, 8, 10, 12]).collect();
        Transition { d: weights.iter().map(|e| e.1).sum(), weights, ..r.clone() }
    };
    Model { transitions: model.transitions.iter().map(longer).collect(), ..model }
}

/// The same with D and w of every flow twice as large.
fn paying_twice((model, mut certificate): (Model, Certificate)) -> (Model, Certificate) {
    for flow in &mut certificate.flows {
        flow.d *= 2;
        flow.ws.iter_mut().for_each(|e| e.1 *= 2);
    }
    (model, certificate)
}

/// A line of the table: what was called, the times, the ratio that is the goal, and what is known of the reason where it is missed.
pub struct Case {
    pub name: &'static str,
    pub times: Times,
    pub goal: f64,
    pub reason: &'static str,
}

impl Case {
    pub fn met(&self) -> bool {
        self.times.ratio() <= self.goal
    }
}

const COMPARED: &str = "every record is compared with all before it; the library finds the next one by its entry count, plain Rust by a list of places";

/// A call on a family of pairs, and its times at each number of states.
pub type Growth = (&'static str, Vec<(usize, Times)>);

fn cases(random: &[Files], small: &[Files], large: &[Files]) -> Vec<Case> {
    let (length, no_slower, by_a_third) = (Duration::from_millis(400), 1.0, 2.0 / 3.0);
    let (largest, one_source, once_largest) = (bytes(largest()), bytes(one_source()), filled(64, 4, 4).0.bytes());
    let [refutations, refutations_128] = [64, 128].map(|n| [bytes(refutation_heavy(n))]);
    let [flows, flows_128] = [64, 128].map(|n| [bytes(flow_heavy(n, 0))]);
    let [paying, paying_128] = [64, 128].map(|n| [bytes(flow_heavy_with_costs(n))]);
    let [strong_apart, strong_apart_128] = [64, 128].map(|n| [bytes(strong_chain(n, 1))]);
    let [strong_flows, strong_flows_128] = [64, 128].map(|n| [bytes(strong_loops(n, 0))]);
    let (half, two) = (half().0.bytes(), still(&[0; 2]).0.bytes());
    let (shared, alone) = (parts().map(|part| part.bytes()), [half.clone(), two]);
    assert!([&shared, &alone].into_iter().all(|[left, right]| compare::compose(left, right, zolkirta::MODEL).1.len() == zolkirta::MODEL));
    let longer_terms = in_longer_terms().bytes();
    let times = |(model, certificate): (Model, Certificate), factor: i64| {
        let transitions = model.transitions.iter().map(|r| r.times(factor)).collect();
        bytes((Model { transitions, ..model }, certificate))
    };
    // A self loop that no equation notices, or a refutation, is good in any terms; the flows of the last pay twice, and so does their D.
    let stored_largest = times(maker::families::largest(), 8191);
    let [stored_refutations, stored_flows] = [times(refutation_heavy(64), 2), times(flow_heavy(64, 3), 2)];
    let stored_paying = times(paying_twice(flow_heavy_with_costs(64)), 2);
    assert!([&stored_largest, &stored_refutations, &stored_flows].into_iter().all(|(pa, ct)| compare::rewrite(pa, ct).0.answer.number == 0));
    assert_eq!(compare::rewrite_costs(&stored_paying.0, &stored_paying.1).0.answer.number, 0);
    let rewriting_plain = |pair: &Files| rewriting(length, raw::zolkirta_rewrite, Limits::rewrite, pair);
    let rewriting_costs = |pair: &Files| rewriting(length, raw::zolkirta_rewrite_costs, Limits::rewrite_costs, pair);
    let cut = (largest.0[..1].to_vec(), largest.1.clone());
    let case = |name, times, goal, reason| Case { name, times, goal, reason };
    vec![
        case("model read: fetch, 64 states, 256 transitions, 1,024 entries; no state 64", fetching(length, &once_largest, 64), no_slower, ""),
        case("largest model read: fetch, 128 states, 256 transitions, 2,048 entries; no state 128", fetching(length, &largest.0, 128), no_slower, ""),
        case("largest model read, divisors that take long: fetch, d 46,410; no state 128", fetching(length, &longer_terms, 128), no_slower, ""),
        case("refusal at the first byte: judge, the model cut after it", judging(length, &[cut]), no_slower, ""),
        case("refutation-heavy: judge, 64 states, 2,016 refutations of 192 prices", judging(length, &refutations), by_a_third, ""),
        case("flow-heavy: judge, 64 states, 16,128 flows of one w entry", judging(length, &flows), by_a_third, ""),
        case("refutation-heavy: judge, 128 states, 8,128 refutations of 384 prices", judging(length, &refutations_128), by_a_third, ""),
        case("flow-heavy: judge, 128 states, 32,512 flows of one w entry", judging(length, &flows_128), by_a_third, ""),
        case("random accepted pairs: judge, 300 pairs of 1 to 10 states, sum", judging(length, random), no_slower, ""),
        case("copied random pairs: judge, 200 pairs of 2 to 16 states, sum", judging(length, small), no_slower, ""),
        case("copied random pairs: judge, 20 pairs of 60 to 64 states, sum", judging(length, large), no_slower, ""),
        case("judge_costs, flow-heavy: 64 states, 16,128 flows of one k and one w entry", judging_costs(length, &paying), by_a_third, ""),
        case("judge_costs, flow-heavy: 128 states, 32,512 flows of one k and one w entry", judging_costs(length, &paying_128), by_a_third, ""),
        case("judge_strong, refutation-heavy: 64 states, 2,016 refutations of 129 prices", judging_strong(length, &strong_apart), by_a_third, ""),
        case("judge_strong, refutation-heavy: 128 states, 8,128 refutations of 257 prices", judging_strong(length, &strong_apart_128), by_a_third, ""),
        case("judge_strong, flow-heavy: 64 states, 16,128 flows of one k and one w entry", judging_strong(length, &strong_flows), by_a_third, ""),
        case("judge_strong, flow-heavy: 128 states, 32,512 flows of one k and one w entry", judging_strong(length, &strong_flows_128), by_a_third, ""),
        case("sheet, the largest model, every state a block", on_paper(length, &[largest.clone()]), no_slower, ""),
        case("hide, the largest model, all 31 actions", hiding(length, largest.0.clone(), (1..32).collect()), no_slower, ""),
        case("reduce, the largest model, every state a block", reducing(length, &[largest]), no_slower, ""),
        case("reduce, 256 different transitions of one state", reducing(length, &[one_source]), no_slower, COMPARED),
        case("reduce, flow-heavy, 64 states", reducing(length, &flows), no_slower, ""),
        case("reduce, flow-heavy, 128 states", reducing(length, &flows_128), no_slower, ""),
        case("reduce, copied random pairs, 200 of 2 to 16 states, sum", reducing(length, small), no_slower, ""),
        case("reduce, copied random pairs, 20 of 60 to 64 states, sum", reducing(length, large), no_slower, ""),
        case("join, two models of 64 states, 128 transitions, 1,024 entries", joining(length, &[(half.clone(), half)]), no_slower, ""),
        case("compose, 8 states with 16 to the largest model, every move shared", composing(length, shared), no_slower, ""),
        case("compose, 64 states with 2 to the largest model, every move alone", composing(length, alone), no_slower, ""),
        case("rewrite, the largest model times 8,191, every state a block", rewriting_plain(&stored_largest), no_slower, ""),
        case("rewrite, refutation-heavy, 64 states, all transitions 2/2", rewriting_plain(&stored_refutations), by_a_third, ""),
        case("rewrite, flow-heavy, 64 states, all transitions 2/2, 16,128 flows of three k", rewriting_plain(&stored_flows), by_a_third, ""),
        case("rewrite_costs, flow-heavy, 64 states, all transitions 2/2", rewriting_costs(&stored_paying), by_a_third, ""),
        case("alike, refutation-heavy, 64 states: no", comparing(length, &refutations[0]), by_a_third, ""),
        case("alike, flow-heavy, 64 states: yes", comparing(length, &flows[0]), by_a_third, ""),
        case("read_prism, 128 states, 256 choices, 2,048 lines, 31 names", reading(length, &largest_text(true)), no_slower, ""),
        case("read_prism, 128 states, 256 choices, 2,048 lines without names", reading(length, &largest_text(false)), no_slower, ""),
        case("largest, 128 states, 256 transitions: 32,512 flows written", writing_largest(length, 128, 256), no_slower, ""),
    ]
}

fn growths() -> Vec<Growth> {
    let of = |call: fn(Duration, &[Files]) -> Times, family: fn(usize) -> (Model, Certificate)| {
        let sizes = (8..=zolkirta::STATES).step_by(8);
        sizes.map(|n| (n, call(Duration::from_millis(200), &[bytes(family(n))]))).collect()
    };
    vec![
        ("Judging refutation-heavy", of(judging, refutation_heavy)),
        ("Judging flow-heavy", of(judging, |n| flow_heavy(n, 0))),
        ("Judging flow-heavy, a k entry a flow", of(judging, |n| flow_heavy(n, 1))),
        ("Reducing two transitions a state, every state a block", of(reducing, |n| filled(n, 2, 4))),
    ]
}

/// All cases are run so often, so that what disturbs the machine for some seconds disturbs none of them throughout.
pub const PASSES: usize = 6;

fn main() {
    let asked = |option: &str| std::env::args().any(|argument| argument == option);
    let (random, small, large) = (random_pairs(), copied_pairs(200, |_| 2), copied_pairs(20, |n| 64 / n));
    let (mut least, mut grown) = (cases(&random, &small, &large), growths());
    let passes = if asked("--quick") { 1 } else { PASSES };
    for _ in 1..passes {
        for (case, again) in least.iter_mut().zip(cases(&random, &small, &large)) {
            case.times.keep_least(again.times);
        }
        for ((_, sizes), (_, again)) in grown.iter_mut().zip(growths()) {
            for ((_, times), (_, again)) in sizes.iter_mut().zip(again) {
                times.keep_least(again);
            }
        }
    }
    let tables = report::tables(&least, &grown);
    println!("{tables}");
    if asked("--write") {
        let docs = concat!(env!("CARGO_MANIFEST_DIR"), "/../../docs");
        std::fs::write(format!("{docs}/BENCHMARKS.md"), report::page(&tables)).unwrap();
        std::fs::write(format!("{docs}/growth.svg"), picture::drawn(&grown)).unwrap();
    }
}
