//! Two models as one, and whether a state of one behaves as a state of the other: the library and the plain judge answer alike, for
//! damaged files and for certificates made for random automata.
mod compare;
mod maker;
mod plain;
mod records;

use compare::{accepted, alike, changes, every_kind, join, judge, kind, reduce, rewrite, rounds, Numbers};
use maker::families::{half, in_any_order, internal_chain, refutation_heavy, still};
use maker::files::{Certificate, Model, Transition};
use maker::random::{in_any_terms, random_model};
use records::{crowded, damaged_models, each_damaged, small_damage_of_models, split, Records};
use std::collections::BTreeSet;
use zolkirta::{MODEL, STATES};

/// A joined model with a certificate, and the first's state count.
struct Joined {
    model: Vec<u8>,
    certificate: Certificate,
    count: usize,
}

impl Joined {
    /// None where the maker finds no certificate.
    fn new(first: &Model, second: &Model, numbers: &mut Numbers) -> Option<Joined> {
        let (answer, model) = join(&first.bytes(), &second.bytes(), MODEL);
        assert_eq!(answer.number, 0);
        let certificate = maker::certificate(&Model::read(&model), numbers)?;
        assert_eq!(judge(&model, &certificate.bytes(), STATES).1, certificate.blocks);
        Some(Joined { model, certificate, count: first.n() })
    }

    /// Asks for every state of the first and every state of the second, each by its own number: the blocks decide.
    fn asked(&self) -> Vec<Vec<bool>> {
        let (certificate, blocks) = (self.certificate.bytes(), &self.certificate.blocks);
        let second = self.count..blocks.len();
        let yes = |s: usize, t: usize| {
            let said = alike(&self.model, &certificate, [self.count, s, t].map(|x| x as u32));
            assert_eq!((said.answer.number, said.alike), (0, u32::from(blocks[s] == blocks[t])));
            said.alike == 1
        };
        (0..self.count).map(|s| second.clone().map(|t| yes(s, t)).collect()).collect()
    }
}

fn turned(rows: &[Vec<bool>]) -> Vec<Vec<bool>> {
    (0..rows[0].len()).map(|t| rows.iter().map(|row| row[t]).collect()).collect()
}

#[test]
fn states_are_alike_in_either_order_of_joining() {
    let mut numbers = Numbers::new(31);
    let (mut yes, mut no) = (0, 0);
    for _ in 0..rounds(150) {
        let first = random_model(&mut numbers, 5);
        let second = random_model(&mut numbers, 5);
        let both = Joined::new(&first, &second, &mut numbers).zip(Joined::new(&second, &first, &mut numbers));
        let Some((one, other)) = both else { continue };
        let rows = one.asked();
        assert_eq!(other.asked(), turned(&rows), "{first:?} {second:?}");
        yes += rows.iter().flatten().filter(|&&yes| yes).count() as u64;
        no += rows.iter().flatten().filter(|&&yes| !yes).count() as u64;
    }
    println!("{yes} times yes, {no} times no");
    assert!(yes > rounds(50) && no > rounds(500));
}

/// Asks for every state of a model and of a second one, each with its blocks: yes for two of one block, no for all others. False where the
/// maker finds no certificate.
fn alike_by_blocks(first: (&Model, &[u8]), second: (&Model, &[u8]), numbers: &mut Numbers) -> bool {
    let Some(joined) = Joined::new(first.0, second.0, numbers) else { return false };
    let expected: Vec<Vec<bool>> = first.1.iter().map(|s| second.1.iter().map(|t| s == t).collect()).collect();
    assert_eq!(joined.asked(), expected, "{:?} {:?}", first.0, second.0);
    true
}

/// In other terms a model is not joined, as the first or the second; rewritten, it is the same file.
#[test]
fn a_model_is_alike_to_itself_in_other_terms_as_its_blocks_say() {
    let mut numbers = Numbers::new(32);
    let (mut split, mut other_terms) = (0, 0);
    for _ in 0..rounds(100) {
        let model = random_model(&mut numbers, 5);
        let spelled = in_any_terms(&model, &mut numbers);
        let (own, stored) = (maker::certificate(&model, &mut numbers), maker::certificate(&spelled, &mut numbers));
        let Some((own, stored)) = own.zip(stored) else { continue };
        let (said, [rewritten, _]) = rewrite(&spelled.bytes(), &stored.bytes());
        if spelled != model {
            let first = spelled.transitions.iter().position(|r| r.common() > 1).unwrap();
            let place = Model { transitions: spelled.transitions[..first].to_vec(), ..spelled.clone() }.bytes().len();
            for (one, other, file) in [(&spelled, &model, 1), (&model, &spelled, 3), (&spelled, &spelled, 1)] {
                let answer = join(&one.bytes(), &other.bytes(), 0).0;
                let length = spelled.bytes().len() - place;
                assert_eq!((answer.number, answer.file, answer.place, answer.stretch_length), (34, file, place, length));
            }
            other_terms += u64::from(said.answer.number == 0);
        }
        if said.answer.number == 0 {
            assert_eq!(rewritten, model.bytes());
        }
        let asked = alike_by_blocks((&model, &own.blocks), (&model, &stored.blocks), &mut numbers);
        split += u64::from(asked && own.blocks.iter().any(|&block| block > 0));
    }
    println!("{split} joined models whose first has more blocks than one, {other_terms} rewritten from other terms");
    assert!(split > rounds(50) && other_terms > rounds(50));
}

/// Document 02, K8, 'The small model for the large one': a state is alike to the merged state of its block and to no other.
#[test]
fn a_merged_model_stands_for_its_original() {
    let mut numbers = Numbers::new(37);
    let mut made: Vec<(Model, Certificate)> = Vec::new();
    for n in [2, 3, 5, 6] {
        made.extend([refutation_heavy(n), internal_chain(n), still(&vec![0; n])]);
    }
    for _ in 0..rounds(400) {
        let model = random_model(&mut numbers, 6);
        made.extend(maker::certificate(&model, &mut numbers).map(|own| in_any_order((model, own), &mut numbers)));
    }
    let (mut smaller, mut fewer) = (0, 0);
    for (model, own) in &made {
        let (answer, merged) = reduce(&model.bytes(), &own.bytes(), MODEL);
        assert_eq!(answer.number, 0);
        let merged = Model::read(&merged);
        let blocks: Vec<u8> = (0..merged.n() as u8).collect();
        if alike_by_blocks((model, &own.blocks), (&merged, &blocks), &mut numbers) {
            smaller += u64::from((2..model.n()).contains(&merged.n()));
            fewer += u64::from(merged.transitions.len() < model.transitions.len());
        }
    }
    println!("{smaller} merged models of fewer states and more than one, {fewer} of fewer transitions");
    assert!(smaller > rounds(100) && fewer > rounds(200));
}

#[test]
fn damaged_models_are_joined_alike() {
    damaged_models(join, [25, 26], rounds(60_000), 33);
}

#[test]
fn damaged_pairs_are_compared_alike() {
    let mut numbers = Numbers::new(34);
    let mut pairs = accepted();
    pairs.extend(vec![crowded(); 5]); // few damages make its entries too many
    while pairs.len() < 200 {
        let [first, second] = [(); 2].map(|_| random_model(&mut numbers, 4));
        pairs.extend(Joined::new(&first, &second, &mut numbers).map(|joined| (joined.model, joined.certificate.bytes())));
    }
    let pairs: Vec<Records> = pairs.iter().map(split).collect();
    let (mut told, mut kinds) = (BTreeSet::new(), BTreeSet::new());
    each_damaged(&pairs, rounds(60_000), 35, |model, certificate, n, numbers| {
        let count = numbers.below(n) + 1;
        let named = match numbers.below(4) {
            0 => [count, numbers.below(n + 2), numbers.below(n + 2)],
            _ => [count, numbers.below(count), numbers.below(n - count + 1) + count],
        };
        let said = alike(model, certificate, named.map(|x| x as u32));
        told.insert((said.answer.number, said.answer.file, said.alike));
        kinds.extend(kind(said.answer, model, certificate));
    });
    let refused = (1..=9).chain([34]).map(|number| (number, 1, 0)).chain((11..=22).map(|number| (number, 2, 0)));
    assert_eq!(told, refused.chain([(0, 0, 0), (0, 0, 1), (27, 0, 0)]).collect());
    assert_eq!(kinds, every_kind());
}

/// Joins with every truncation and every change of one byte of either model, and compares two states of the joined pair likewise.
#[test]
fn every_truncation_and_change_of_one_byte_of_small_models() {
    let mut numbers = Numbers::new(36);
    let mut pairs = 0;
    while pairs < rounds(3) {
        let [first, second] = [(); 2].map(|_| random_model(&mut numbers, 2));
        let Some(joined) = Joined::new(&first, &second, &mut numbers) else { continue };
        if first.transitions.is_empty() || second.transitions.is_empty() {
            continue;
        }
        pairs += 1;
        let (first, second, certificate) = (first.bytes(), second.bytes(), joined.certificate.bytes());
        let named = [joined.count, 0, joined.count].map(|x| x as u32);
        small_damage_of_models(join, &first, &second);
        for size in 0..certificate.len() {
            assert_eq!(alike(&joined.model, &certificate[..size], named).answer.number, 11);
        }
        changes(&joined.model, |damaged| _ = alike(damaged, &certificate, named));
        changes(&certificate, |damaged| _ = alike(&joined.model, damaged, named));
    }
}

/// Two models that fill the limits together, and what one state, transition or entry more does.
#[test]
fn a_joined_model_keeps_the_limits() {
    let half = half().0;
    assert_eq!(join(&half.bytes(), &half.bytes(), MODEL).1.len(), MODEL);
    let state = Model { labels: [&half.labels[..], &[63]].concat(), ..half.clone() };
    let (mut transition, mut entry) = (half.clone(), half.clone());
    let weights = transition.transitions[0].weights.split_off(4);
    transition.transitions[0].d = 4;
    transition.transitions.insert(0, Transition { source: 0, action: 31, d: 4, weights, cost: 0 });
    entry.transitions[127].weights.insert(0, (0, 9));
    entry.transitions[127].d += 9;
    for larger in [state, transition, entry].map(|model| model.bytes()) {
        assert_eq!(join(&larger, b"PA\x01\x01\0\0LB\0", MODEL).0.number, 0, "sound by itself");
        for length in [0, MODEL, 2 * MODEL] {
            assert_eq!(join(&half.bytes(), &larger, length).0.number, 25);
            assert_eq!(join(&larger, &half.bytes(), length).0.number, 25);
        }
    }
}
