//! Two models side by side, and models with actions hidden: the library and the plain judge answer alike, for damaged files too; what is written is
//! what the words of K11 say; and states that are alike stay so, by the certificates that the maker finds.
mod compare;
mod maker;
mod plain;
mod records;

use compare::{compose, fetch, hide, join, judge, judge_strong, lines, reduce, rounds, Numbers};
use maker::files::{Certificate, Model, Transition};
use maker::random::random_model;
use maker::{certificate, shuffle};
use plain::Rule;
use records::{damaged_models, each_damaged, pairs_of_models, small_damage_of_models};
use std::collections::{BTreeMap, BTreeSet};
use zolkirta::{MODEL, STATES};

/// The composition of two sound models, which is in lowest terms and reads back; none where it passes a limit.
fn composed(left: &Model, right: &Model) -> Option<Model> {
    let (answer, file) = compose(&left.bytes(), &right.bytes(), MODEL);
    (answer.number == 0).then(|| read_back(&file)).or_else(|| {
        assert_eq!(answer.number, 37);
        None
    })
}

/// The model with these actions hidden, likewise.
fn hidden(model: &Model, actions: &[u8]) -> Model {
    let (answer, file) = hide(&model.bytes(), actions, MODEL);
    assert_eq!(answer.number, 0);
    read_back(&file)
}

fn read_back(file: &[u8]) -> Model {
    assert_eq!(fetch(file, 0).number, 0);
    let model = Model::read(file);
    assert_eq!((model.bytes(), model.lowest()), (file.to_vec(), model.clone()));
    model
}

/// Some of the actions, and bytes that are none of the model.
fn any_actions(numbers: &mut Numbers) -> Vec<u8> {
    let count = numbers.below(5);
    (0..count).map(|_| *numbers.of(&[0, 1, 1, 2, 2, 3, 4, 31, 32, 255])).collect()
}

/// A random model of few actions that does one of them.
fn busy_model(numbers: &mut Numbers, most: usize) -> Model {
    loop {
        let model = random_model(numbers, most);
        if model.m <= 4 && model.transitions.iter().any(|r| r.action > 0) {
            return model;
        }
    }
}

/// Shared moves in both orders of files, one of each side alone for each reason, and a shared one that finds no partner.
#[test]
fn a_composition_whose_bytes_are_known() {
    let to = Transition::to;
    let left = [to(0, 0, &[(1, 1)]), to(0, 1, &[(0, 1), (1, 1)]), to(0, 2, &[(1, 1)]), to(0, 1, &[(0, 1)])];
    let right = [to(0, 0, &[(1, 1)]), to(0, 1, &[(0, 1), (1, 2)]), to(0, 1, &[(1, 1)])];
    let (left, right) = (Model::new(vec![0, 1], 3, left.into()), Model::new(vec![0, 2], 2, right.into()));
    let from_0 = [
        to(0, 0, &[(2, 1)]),
        to(0, 1, &[(0, 1), (1, 2), (2, 1), (3, 2)]),
        to(0, 1, &[(1, 1), (3, 1)]),
        to(0, 2, &[(2, 1)]),
        to(0, 1, &[(0, 1), (1, 2)]),
        to(0, 1, &[(1, 1)]),
        to(0, 0, &[(1, 1)]),
    ];
    let from_others = [to(1, 0, &[(3, 1)]), to(1, 2, &[(3, 1)]), to(2, 0, &[(3, 1)])];
    let expected = Model::new(vec![0, 2, 3, 5], 3, [&from_0[..], &from_others].concat());
    assert_eq!(composed(&left, &right), Some(expected.clone()));

    // With one action more on the right, action 2 is shared, and nobody does it any more; with one less, all go alone.
    let more = Model { m: 3, ..right.clone() };
    let without_2 = expected.transitions.iter().filter(|r| r.action != 2).cloned().collect();
    assert_eq!(composed(&left, &more), Some(Model { transitions: without_2, ..expected.clone() }));
    let alone = composed(&left, &Model { m: 1, ..hidden(&right, &[1]) }).unwrap();
    let actions: Vec<usize> = alone.transitions.iter().filter(|r| r.source == 0).map(|r| r.action).collect();
    assert_eq!(actions, [0, 1, 2, 1, 0, 0, 0]);

    let all_internal = expected.transitions.iter().map(|r| Transition { action: r.action / 2 * 2, ..r.clone() }).collect();
    assert_eq!(hidden(&expected, &[1]), Model { transitions: all_internal, ..expected.clone() });
    assert_eq!(hidden(&expected, &[0, 3, 31, 32, 255]), expected);
}

/// What (s,e) may do is what K11 says, counted and not in order: for each move of the left, each of the right that goes with it, and none else.
fn moves_are_those_of_the_parts(left: &Model, right: &Model, both: &Model) {
    let n = right.n();
    let shared = |action: usize| (1..left.m.min(right.m)).contains(&action);
    // A move by its action and its probability of each pair of states, over d of both sides.
    type Move = (usize, BTreeMap<(usize, usize), (i64, i64)>);
    let stays = |state: usize| Transition::to(state, 0, &[(state, 1)]);
    let side_by_side = |action: usize, l: &Transition, r: &Transition| -> Move {
        let pairs = l.weights.iter().flat_map(|&(v, p)| r.weights.iter().map(move |&(f, q)| ((v, f), (p * q, l.d * r.d))));
        (action, pairs.collect())
    };
    for state in 0..both.n() {
        let (s, e) = (state / n, state % n);
        let [of_left, of_right]: [Vec<&Transition>; 2] =
            [(left, s), (right, e)].map(|(model, state)| model.transitions.iter().filter(|r| r.source == state).collect());
        let mut expected: Vec<Move> = Vec::new();
        for (l, r) in of_left.iter().flat_map(|l| of_right.iter().map(move |r| (l, r))).filter(|(l, r)| l.action == r.action && shared(l.action)) {
            expected.push(side_by_side(l.action, l, r));
        }
        expected.extend(of_left.iter().filter(|l| !shared(l.action)).map(|l| side_by_side(l.action, l, &stays(e))));
        expected.extend(of_right.iter().filter(|r| !shared(r.action)).map(|r| side_by_side(r.action, &stays(s), r)));
        let own = both.transitions.iter().filter(|r| r.source == state);
        let mut told: Vec<Move> = own.map(|r| (r.action, r.weights.iter().map(|&(v, p)| ((v / n, v % n), (p, r.d))).collect())).collect();
        [&mut expected, &mut told].into_iter().for_each(|moves| moves.sort());
        assert_eq!(told, expected, "{left:?} {right:?} {state}");
    }
    let highest = right.labels.iter().max().unwrap();
    let label = |state: usize| left.labels[state / n] * (highest + 1) + right.labels[state % n];
    assert!(both.labels.iter().enumerate().all(|(state, &own)| own == label(state)));
    assert_eq!((both.n(), both.m), (left.n() * n, left.m.max(right.m)));
}

/// Composing is associative, byte by byte, and a state that never moves beside a model leaves it as it is.
#[test]
fn compositions_of_random_models() {
    let mut numbers = Numbers::new(61);
    let alone = Model::new(vec![0], 1, Vec::new());
    let (mut written, mut of_three, mut together) = (0, 0, 0);
    for _ in 0..rounds(2_000) {
        let of_any_actions = numbers.below(2) == 0;
        let [one, two, three] = [(); 3].map(|_| if of_any_actions { random_model(&mut numbers, 4) } else { busy_model(&mut numbers, 4) });
        assert_eq!([composed(&one, &alone), composed(&alone, &one)], [Some(one.clone()), Some(one.clone())]);
        let (front, back) = (composed(&one, &two), composed(&two, &three));
        if let Some(both) = &front {
            moves_are_those_of_the_parts(&one, &two, both);
            written += 1;
            together += u64::from(both.transitions.iter().any(|r| (1..one.m.min(two.m)).contains(&r.action)));
        }
        let Some((front, back)) = front.zip(back) else { continue };
        let whole = composed(&front, &three);
        assert_eq!(composed(&one, &back), whole);
        of_three += u64::from(whole.is_some_and(|whole| !whole.transitions.is_empty()));
    }
    println!("{written} compositions, {together} with shared moves, {of_three} of three");
    assert!(written > rounds(1_000) && together > rounds(300) && of_three > rounds(300));
}

/// The set alone counts, not its order; hiding twice is hiding all at once; and what one side does alone may be hidden before or after.
#[test]
fn hidden_actions_of_random_models() {
    let mut numbers = Numbers::new(62);
    let (mut changed, mut before) = (0, 0);
    for _ in 0..rounds(3_000) {
        let (model, right) = (busy_model(&mut numbers, 4), random_model(&mut numbers, 4));
        let [one, other] = [(); 2].map(|_| any_actions(&mut numbers));
        let mut both = [&one[..], &other, &one].concat();
        shuffle(&mut both, &mut numbers);
        let once = hidden(&model, &both);
        assert_eq!(hidden(&hidden(&model, &one), &other), once);
        for (r, now) in model.transitions.iter().zip(&once.transitions) {
            let action = if both.iter().any(|&a| usize::from(a) == r.action) { 0 } else { r.action };
            assert_eq!(*now, Transition { action, ..r.clone() });
        }
        assert_eq!(Model { transitions: model.transitions.clone(), ..once.clone() }, model);
        changed += u64::from(once != model);
        let own: Vec<u8> = both.into_iter().filter(|&action| usize::from(action) >= right.m).collect();
        if let Some(side_by_side) = composed(&model, &right) {
            assert_eq!(composed(&hidden(&model, &own), &right), Some(hidden(&side_by_side, &own)));
            before += u64::from(hidden(&side_by_side, &own) != side_by_side);
        }
    }
    println!("{changed} models with an action hidden, {before} compositions");
    assert!(changed > rounds(500) && before > rounds(100));
}

/// Each byte as the only member of a set, for a model of 32 actions.
#[test]
fn every_member_of_a_set() {
    let model = Model::new(vec![0], 32, (0..32).map(|action| Transition::step(0, action, 0)).collect());
    for member in 0..=255u8 {
        let told: Vec<usize> = hidden(&model, &[member]).transitions.iter().map(|r| r.action).collect();
        assert!(told.iter().enumerate().all(|(action, &now)| now == if action == usize::from(member) { 0 } else { action }));
    }
    let all: Vec<u8> = (0..=255).collect();
    assert!(hidden(&model, &all).transitions.iter().all(|r| r.action == 0));
    assert_eq!(hidden(&model, &all.repeat(1_000)), hidden(&model, &all));
}

/// A certificate that the maker finds for the model by its rule, and that both accept.
fn certified(model: &Model, numbers: &mut Numbers) -> Option<Certificate> {
    let own = certificate(model, numbers)?;
    let call = if model.rule == Rule::Strong { judge_strong } else { judge };
    assert_eq!(call(&model.bytes(), &own.bytes(), STATES).1, own.blocks, "{model:?}");
    Some(own)
}

/// Pairs of different states of a block.
fn linked(blocks: &[u8]) -> impl Iterator<Item = (usize, usize)> + '_ {
    (0..blocks.len()).flat_map(|t| (0..t).map(move |s| (s, t))).filter(|&(s, t)| blocks[s] == blocks[t])
}

/// Document 02, K11: for linked s and t of the left, (s,e) and (t,e) are linked in the composition.
#[test]
fn states_that_are_alike_stay_so_side_by_side() {
    linked_side_by_side(Numbers::new(63), |model| model.clone());
}

/// K14: those that are strongly alike stay so strongly.
#[test]
fn states_that_are_strongly_alike_stay_so_side_by_side() {
    linked_side_by_side(Numbers::new(148), Model::strong);
}

fn linked_side_by_side(mut numbers: Numbers, by_rule: fn(&Model) -> Model) {
    let (mut links, mut apart, mut shared) = (0, 0, 0);
    for _ in 0..rounds(1_000) {
        let (left, right) = (busy_model(&mut numbers, 5), busy_model(&mut numbers, 3));
        let Some(both) = composed(&left, &right) else { continue };
        let Some((own, told)) = certified(&by_rule(&left), &mut numbers).zip(certified(&by_rule(&both), &mut numbers)) else { continue };
        for ((s, t), e) in linked(&own.blocks).flat_map(|pair| (0..right.n()).map(move |e| (pair, e))) {
            let [v, u] = [s, t].map(|state| told.blocks[state * right.n() + e]);
            assert_eq!(v, u, "{left:?} {right:?} {s} {t} {e}");
            links += 1;
            shared += u64::from(both.transitions.iter().any(|r| r.source == s * right.n() + e && (1..left.m.min(right.m)).contains(&r.action)));
        }
        apart += u64::from(BTreeSet::from_iter(&told.blocks).len() > right.n());
    }
    println!("{links} links, {shared} of states with shared moves; {apart} compositions with more blocks than the right has states");
    assert!(links > rounds(500) && shared > rounds(50) && apart > rounds(50));
}

/// A part may be reduced before it is composed: beside each other, (s,e) is alike to the merged state of s with e.
#[test]
fn a_reduced_part_stands_for_the_part() {
    let mut numbers = Numbers::new(68);
    let (mut smaller, mut apart) = (0, 0);
    for _ in 0..rounds(300) {
        let (left, right) = (busy_model(&mut numbers, 4), busy_model(&mut numbers, 2));
        let Some(own) = certified(&left, &mut numbers) else { continue };
        let merged = read_back(&reduce(&left.bytes(), &own.bytes(), MODEL).1);
        let Some((large, small)) = composed(&left, &right).zip(composed(&merged, &right)) else { continue };
        let joined = read_back(&join(&large.bytes(), &small.bytes(), MODEL).1);
        let Some(told) = certified(&joined, &mut numbers) else { continue };
        for (s, e) in (0..left.n()).flat_map(|s| (0..right.n()).map(move |e| (s, e))) {
            let (of_large, of_small) = (s * right.n() + e, usize::from(own.blocks[s]) * right.n() + e);
            assert_eq!(told.blocks[of_large], told.blocks[large.n() + of_small], "{left:?} {right:?} {s} {e}");
        }
        smaller += u64::from(small.n() < large.n());
        apart += u64::from(told.blocks.iter().any(|&block| block > 1));
    }
    println!("{smaller} compositions with fewer states of the reduced part, {apart} with more blocks than two");
    assert!(smaller > rounds(50) && apart > rounds(50));
}

/// Document 02, K11: linked states stay linked with actions hidden; others may become so.
#[test]
fn states_that_are_alike_stay_so_with_actions_hidden() {
    linked_with_actions_hidden(Numbers::new(64), |model| model.clone());
}

#[test]
fn states_that_are_strongly_alike_stay_so_with_actions_hidden() {
    linked_with_actions_hidden(Numbers::new(149), Model::strong);
}

fn linked_with_actions_hidden(mut numbers: Numbers, by_rule: fn(&Model) -> Model) {
    let (mut links, mut more, mut apart) = (0, 0, 0);
    for _ in 0..rounds(1_000) {
        let model = busy_model(&mut numbers, 8);
        let without = hidden(&model, &any_actions(&mut numbers));
        if without == model {
            continue;
        }
        let Some((own, told)) = certified(&by_rule(&model), &mut numbers).zip(certified(&by_rule(&without), &mut numbers)) else { continue };
        for (s, t) in linked(&own.blocks) {
            assert_eq!(told.blocks[s], told.blocks[t], "{model:?} {without:?} {s} {t}");
            links += 1;
        }
        more += u64::from(linked(&told.blocks).count() > linked(&own.blocks).count());
        apart += u64::from(told.blocks.iter().any(|&block| block > 0));
    }
    println!("{links} links, {more} models in which more states are alike then, {apart} with more blocks than one then");
    assert!(links > rounds(300) && more > rounds(50) && apart > rounds(50));
}

#[test]
fn damaged_models_are_composed_alike() {
    damaged_models(compose, [37, 38], rounds(60_000), 65);
}

#[test]
fn damaged_models_are_hidden_alike() {
    let mut told = BTreeSet::new();
    each_damaged(&pairs_of_models(), rounds(40_000), 66, |one, other, _, numbers| {
        for model in [one, other] {
            let length = if numbers.below(4) == 0 { numbers.below(model.len() + 2) } else { model.len() };
            let (answer, _) = hide(model, &any_actions(numbers), length);
            told.insert((answer.number, answer.file));
        }
    });
    assert_eq!(told, (1..=9).chain([34]).map(|number| (number, 1)).chain([(0, 0), (38, 0)]).collect());
}

#[test]
fn every_truncation_and_change_of_one_byte_of_small_models() {
    let mut numbers = Numbers::new(67);
    let mut pairs = 0;
    while pairs < rounds(4) {
        let [left, right] = [(); 2].map(|_| random_model(&mut numbers, 2));
        let Some(both) = composed(&left, &right).filter(|both| both.transitions.len() > 1) else { continue };
        pairs += 1;
        small_damage_of_models(compose, &left.bytes(), &right.bytes());
        let file = both.bytes();
        for size in 0..file.len() {
            let answer = hide(&file[..size], &[1], MODEL).0;
            assert_eq!((answer.number, answer.file, answer.place + answer.stretch_length), (1, 1, size));
        }
        compare::changes(&file, |damaged| _ = hide(damaged, &[1, 2], MODEL));
    }
}

/// The lines of the vectors that are accepted: a byte less of the buffer is 38, and just the file's length is enough.
#[test]
fn a_buffer_shorter_by_one_byte() {
    let mut shorter = [0; 2];
    for v in lines().iter().filter(|v| v.number() == 0) {
        let (call, count) = match v.call.as_str() {
            "compose" => (compose as compare::Lent, 0),
            "hide" => (hide as compare::Lent, 1),
            _ => continue,
        };
        let whole = &v.said.2[0];
        assert_eq!(call(&v.files[0], &v.files[1], whole.len()).1, *whole);
        let answer = call(&v.files[0], &v.files[1], whole.len() - 1).0;
        assert_eq!((answer.number, answer.file, answer.place, answer.written), (38, 0, 0, 0));
        shorter[count] += 1;
    }
    assert_eq!(shorter, [93, 180]);
}
