//! The library and the plain judge answer alike on damaged pairs: every truncation, every change of one byte of small pairs, damage
//! by records and fields, and random bytes. Damage by records and fields reaches every number, and every way to be off of 16, 20 and 21.
mod compare;
mod plain;
mod records;

use compare::{accepted, every_kind, judge, of_todays_limits, rounds, Counts, Line, Numbers};
use records::{crowded, damaged, respelled};
use std::collections::BTreeSet;
use zolkirta::STATES;

/// Sends every truncation of both files of these pairs through.
fn truncations<'a>(pairs: impl IntoIterator<Item = &'a (Vec<u8>, Vec<u8>)>) -> Counts {
    let mut counts = Counts::default();
    for (model, certificate) in pairs {
        counts.truncations(model, certificate);
    }
    counts
}

#[test]
fn every_truncation() {
    let counts = truncations(&accepted());
    println!("truncations of accepted pairs: {counts}");
    // What is cut off is missing in some record: no other number can be, but for fetches of whole models.
    let [fetched, model_ends, certificate_ends] = [0, 1, 11].map(|number| counts.answers[number]);
    assert_eq!(fetched + model_ends + certificate_ends, 3 * counts.pairs);
    let judged = |v: &Line| matches!(v.name, "base" | "k7" | "k10") && matches!(v.call.as_str(), "judge" | "reduce");
    let refused = of_todays_limits().filter(judged);
    let refused: BTreeSet<_> = refused.filter(|v| v.said.0.file != 0).map(|mut v| (v.files.remove(0), v.files.remove(0))).collect();
    assert!(refused.len() > 500);
    println!("truncations of {} refused pairs: {}", refused.len(), truncations(&refused));
}

#[test]
fn every_change_of_one_byte() {
    let mut counts = Counts::default();
    let small: Vec<_> = accepted().into_iter().filter(|(model, certificate)| model.len() + certificate.len() <= 170).collect();
    assert!(small.iter().any(|(model, certificate)| model.len() == 31 && certificate.len() == 125)); // S has these lengths
    for (model, certificate) in &small {
        counts.changes(model, certificate);
    }
    println!("changes of one byte: {counts}");
}

#[test]
fn random_bytes() {
    let mut counts = Counts::default();
    let mut numbers = Numbers::new(11);
    let pairs = accepted();
    for _ in 0..rounds(30_000) {
        let (size, model) = (numbers.below(60), &numbers.of(&pairs).0);
        let noise = numbers.bytes(size);
        // Alone, after a sound model's first bytes, after a right mark, and as the certificate of a sound model.
        counts.pair(&noise, &noise);
        counts.pair(&[&model[..numbers.below(model.len())], &noise].concat(), &noise);
        counts.pair(&[b"PA\x02\x02\0\x01LB\0\0TR", &noise[..]].concat(), &noise);
        let heads: [&[u8]; 4] = [b"CT\0\0BK", b"CT\0\x01PX\0\0", b"CT\0\0FL", b"CT"];
        counts.pair(model, &[*numbers.of(&heads), &noise].concat());
    }
    println!("random bytes: {counts}");
}

#[test]
fn respelled_certificates_name_the_same_blocks() {
    let mut numbers = Numbers::new(3);
    for pair in accepted() {
        let blocks = judge(&pair.0, &pair.1, STATES).1;
        for _ in 0..100 {
            let (answer, same) = judge(&pair.0, &respelled(&pair, &mut numbers), STATES);
            assert_eq!((answer.number, &same), (0, &blocks));
        }
    }
}

#[test]
fn damage_by_records_and_fields() {
    let mut pairs = accepted();
    pairs.push(crowded());
    assert_eq!(judge(&pairs.last().unwrap().0, &pairs.last().unwrap().1, STATES).0.number, 0);
    let counts = damaged(&pairs, rounds(600_000), 7);
    println!("damage by records and fields: {counts}");
    for number in (0..=24).chain([34]) {
        assert!(counts.answers[number] > 0, "no damaged pair was answered with {number}");
    }
    assert_eq!(counts.kinds, every_kind());
}
