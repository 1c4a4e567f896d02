//! Certificates made for random automata and structured families: accepted by the library and the plain judge alike, with the maker's
//! own blocks, whichever certificate it is and, once rewritten, however the fractions are spelled; and what both answer once they are damaged.
mod compare;
mod maker;
mod plain;
mod records;

use compare::{every_kind, judge, reduce, rewrite, rounds, Counts, Numbers};
use maker::families::{
    bytes, copies, flow_heavy, half, in_any_order, internal_chain, largest, most_copies, one_source, random_large, refutation_heavy, still,
};
use maker::files::{Certificate, Model};
use maker::random::{in_any_terms, random_model};
use maker::{is_accepted, Missed};
use records::{crowded, damaged, respelled};
use std::collections::BTreeSet;
use zolkirta::STATES;

/// Both accept with the blocks of the certificate, and write the merged model into a buffer of just its length and none shorter. Hands
/// the merged model back.
fn accepted(model: &Model, certificate: &Certificate) -> Vec<u8> {
    is_accepted(judge, model, certificate);
    let (pa, ct) = (model.bytes(), certificate.bytes());
    let (answer, merged) = reduce(&pa, &ct, pa.len());
    assert_eq!(answer.number, 0);
    assert_eq!(reduce(&pa, &ct, merged.len()).1, merged);
    assert_eq!(reduce(&pa, &ct, merged.len() - 1).0.number, 23);
    merged
}

/// A pair in any terms is refused unless it is in lowest ones, and accepted once it is rewritten, where every k fits: the new pair and its merged
/// model.
fn accepted_rewritten(model: &Model, certificate: &Certificate) -> Option<(Model, Certificate, Vec<u8>)> {
    let (pa, ct) = (model.bytes(), certificate.bytes());
    if model.lowest() != *model {
        assert_eq!([judge(&pa, &ct, STATES).0, reduce(&pa, &ct, pa.len()).0].map(|answer| answer.number), [34; 2]);
    }
    let (lowest, own) = maker::rewritten(model, certificate, rewrite(&pa, &ct))?;
    let merged = accepted(&lowest, &own);
    Some((lowest, own, merged))
}

/// How many transitions the merged model leaves out that differ from an earlier one of their block in their terms alone.
fn dropped_in_other_terms(model: &Model, blocks: &[u8], merged: &Model) -> usize {
    let mut fields = BTreeSet::new();
    for r in &model.transitions {
        let mut weights = [0; STATES];
        r.weights.iter().for_each(|&(v, p)| weights[usize::from(blocks[v])] += p);
        fields.insert((blocks[r.source], r.action, r.d, weights));
    }
    fields.len() - merged.transitions.len()
}

#[test]
fn all_certificates_of_an_automaton_name_the_same_blocks() {
    let mut numbers = Numbers::new(1);
    let mut missed = Missed::default();
    let (mut several, mut apart, mut refuted, mut met, mut detours) = (0, 0, 0, 0, 0);
    let (mut rewritten, mut not_fitting, mut dropped) = (0, 0, 0);
    let models = rounds(800);
    for _ in 0..models {
        let model = random_model(&mut numbers, 10);
        let (mut all, mut merged_files) = (Vec::new(), BTreeSet::new());
        let spelled = [in_any_terms(&model, &mut numbers), model.respelled(4), model.longest()].map(|file| (file, 1));
        for (file, times) in spelled.into_iter().chain([(model.clone(), 3)]) {
            let made: Vec<Certificate> = (0..times).filter_map(|_| missed.certificate(&file, &mut numbers)).collect();
            several += u64::from(made.iter().map(Certificate::bytes).collect::<BTreeSet<_>>().len() == 3);
            for certificate in &made {
                let pair = (file.bytes(), certificate.bytes());
                if let Some((lowest, own, merged)) = accepted_rewritten(&file, certificate) {
                    assert_eq!(lowest, model, "two spellings of one automaton are rewritten to one file");
                    dropped += dropped_in_other_terms(&lowest, &own.blocks, &Model::read(&merged));
                    merged_files.insert(merged);
                    rewritten += u64::from(file != model);
                    let pair = (lowest.bytes(), own.bytes());
                    assert_eq!(judge(&pair.0, &respelled(&pair, &mut numbers), STATES).1, certificate.blocks);
                } else {
                    not_fitting += 1;
                }
                let number = rewrite(&pair.0, &respelled(&pair, &mut numbers)).0.answer.number;
                assert!(matches!(number, 0 | 35), "accepted without 34 in either case");
            }
            all.extend(made);
        }
        assert!(merged_files.len() <= 1, "one automaton has one merged file: {model:?}");
        let named: BTreeSet<&Vec<u8>> = all.iter().map(|certificate| &certificate.blocks).collect();
        assert!(named.len() <= 1, "{named:?} for {model:?}");
        apart += u64::from(named.iter().any(|blocks| (2..model.n()).contains(&BTreeSet::from_iter(*blocks).len())));
        for certificate in all {
            refuted += certificate.refutations.len() as u64;
            met += certificate.flows.len() as u64;
            detours += certificate.flows.iter().filter(|flow| flow.ks.iter().any(|&((layer, _), _)| layer != 1)).count() as u64;
        }
    }
    println!("{models} models, {several} with three different certificates, {apart} with more blocks than one and fewer than states");
    println!("{refuted} refutations, {met} flows, {detours} with internal steps");
    println!("{rewritten} pairs rewritten from other terms, {not_fitting} with a k that does not fit then");
    println!("{dropped} transitions dropped that differed in their terms alone");
    assert!(rewritten > models && 10 * not_fitting > models && dropped as u64 > models);
    assert!(4 * several > 3 * models && 4 * apart > models);
    assert!(refuted > 10 * models && met > 100 * models && detours > 50 * models);
}

#[test]
fn a_merged_model_merges_no_further() {
    let mut numbers = Numbers::new(2);
    let mut missed = Missed::default();
    let mut smaller = 0;
    for _ in 0..rounds(600) {
        let model = random_model(&mut numbers, 10);
        let Some(certificate) = missed.certificate(&model, &mut numbers) else { continue };
        let merged = accepted(&model, &certificate);
        let quotient = Model::read(&merged);
        assert_eq!(quotient.bytes(), merged);
        let Some(again) = missed.certificate(&quotient, &mut numbers) else { continue };
        assert!(again.blocks.iter().copied().eq(0..quotient.n() as u8), "two states of the merged model are alike: {model:?}");
        assert_eq!(accepted(&quotient, &again), merged);
        smaller += u64::from(quotient.n() < model.n());
    }
    println!("{smaller} merged models with fewer states");
    assert!(smaller > rounds(200));
}

#[test]
fn families_up_to_128_states() {
    let sizes = || (8..=64).step_by(8).chain([65, 100, 128]);
    for (model, certificate) in [largest(), half(), one_source()] {
        assert_eq!(accepted(&model, &certificate), model.bytes());
    }
    let mut numbers = Numbers::new(3);
    for family in [refutation_heavy, |n| flow_heavy(n, n % 3), internal_chain] {
        for (model, certificate) in sizes().chain([2, 3, 5]).map(family) {
            accepted(&model, &certificate);
            if model.n() <= 8 {
                let found = maker::certificate(&model, &mut numbers).expect("small numbers");
                assert_eq!(found.blocks, certificate.blocks);
                accepted(&model, &found);
            }
        }
    }
    let (mut most, mut records, mut across) = (0, 0, 0);
    for i in 0..rounds(60) as usize {
        let model = random_model(&mut numbers, 6);
        let Some(certificate) = maker::certificate(&model, &mut numbers) else { continue };
        let room = most_copies(&model);
        let k = if i % 2 == 0 { room } else { 1 + numbers.below(room) };
        if certificate.refutations.len() * k * k > 2500 {
            continue; // more of them take long
        }
        let (copied, lifted) = copies(&model, &certificate, k);
        accepted(&copied, &lifted);
        let (mixed, told) = in_any_order((copied.clone(), lifted.clone()), &mut numbers);
        accepted(&mixed, &told);
        across += across_words(&told.blocks);
        if copied.n() <= 10 {
            let found = maker::certificate(&copied, &mut numbers);
            assert!(found.is_none_or(|found| found.blocks == lifted.blocks));
        }
        most = most.max(copied.n());
        records += lifted.refutations.len() + lifted.flows.len();
    }
    println!("copies up to {most} states, {records} refutations and flows, {across} blocks across two words");
    assert!(most > 120 && records > 20_000 && across > 50);
}

/// How many blocks have states below 64 and from 64 on: their bits stand in two words.
fn across_words(blocks: &[u8]) -> usize {
    let (low, high) = blocks.split_at(blocks.len().min(64));
    BTreeSet::from_iter(low).intersection(&BTreeSet::from_iter(high)).count()
}

#[test]
fn pairs_of_65_to_128_states() {
    let mut numbers = Numbers::new(7);
    let (mut sizes, mut across, mut refuted, mut met) = (BTreeSet::new(), 0, 0, 0);
    for _ in 0..rounds(40) {
        let (model, certificate) = random_large(&mut numbers);
        let merged = Model::read(&accepted(&model, &certificate));
        assert_eq!(merged.n(), BTreeSet::from_iter(&certificate.blocks).len());
        let pair = (model.bytes(), certificate.bytes());
        assert_eq!(judge(&pair.0, &respelled(&pair, &mut numbers), STATES).1, certificate.blocks);
        sizes.insert(model.n());
        across += across_words(&certificate.blocks);
        refuted += certificate.refutations.len();
        met += certificate.flows.len();
    }
    println!("{sizes:?} states, {across} blocks across two words, {refuted} refutations, {met} flows");
    assert!(sizes.iter().all(|n| (65..=128).contains(n)) && sizes.first() < Some(&80) && sizes.last() > Some(&110));
    assert!(across > 200 && refuted > 1000 && met > 1000);
}

#[test]
fn damaged_pairs_are_answered_alike() {
    let mut numbers = Numbers::new(4);
    let mut missed = Missed::default();
    let mut pairs = vec![bytes(one_source()), bytes(refutation_heavy(8)), bytes(flow_heavy(3, 2)), bytes(internal_chain(12))];
    for _ in 0..rounds(400) {
        let model = random_model(&mut numbers, 8);
        pairs.extend(missed.certificate(&model, &mut numbers).map(|certificate| bytes((model, certificate))));
    }
    let counts = damaged(&pairs, rounds(100_000), 5);
    println!("made pairs damaged by records and fields: {counts}");
    assert!((11..=22).all(|number| counts.answers[number] > 0));
    assert_eq!(counts.kinds, every_kind());
}

#[test]
fn damaged_pairs_of_65_to_128_states_are_answered_alike() {
    let mut numbers = Numbers::new(8);
    let mut pairs: Vec<_> = (0..20).map(|_| bytes(random_large(&mut numbers))).collect();
    pairs.push(bytes(internal_chain(70)));
    pairs.push(bytes(in_any_order(flow_heavy(66, 2), &mut numbers)));
    pairs.extend((0..3).map(|_| bytes(in_any_order(largest(), &mut numbers))));
    // One entry more is too many in these, and in short certificates the count is often changed.
    pairs.extend(vec![crowded(); 10]);
    pairs.extend((0..5).map(|i| bytes(still(&vec![i; 128 - usize::from(i)]))));
    let counts = damaged(&pairs, rounds(4_000), 9);
    println!("pairs of 65 to 128 states damaged by records and fields: {counts}");
    assert!((1..=9).chain(11..=22).all(|number| counts.answers[number] > 0), "{counts}");
}

#[test]
fn every_truncation_and_change_of_one_byte_of_small_pairs() {
    let mut numbers = Numbers::new(6);
    let mut counts = Counts::default();
    let mut pairs = 0;
    while pairs < rounds(6) {
        let model = random_model(&mut numbers, 3);
        let Some(certificate) = maker::certificate(&model, &mut numbers) else { continue };
        if !certificate.refutations.is_empty() && !certificate.flows.is_empty() {
            let (pa, ct) = bytes((model, certificate));
            counts.truncations(&pa, &ct);
            counts.changes(&pa, &ct);
            pairs += 1;
        }
    }
    println!("{pairs} small made pairs: {counts}");
    assert!((11..=21).all(|number| counts.answers[number] > 0));
}
