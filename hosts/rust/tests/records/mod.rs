//! Damage by records and fields: a sound pair is split into its records, some are changed, and the rest stays right.
#![allow(dead_code)] // each test file uses its own part

use crate::compare::{accepted, changes, kind_by, Counts, Kind, Lent, Numbers};
use crate::plain::Rule;
use std::collections::{BTreeMap, BTreeSet};
use std::iter::once;
use std::ops::Range;
use zolkirta::{MODEL, STATES};

/// The records of two files: a model and its certificate, or two models.
pub type Records = [Vec<Vec<u8>>; 2];

fn value(record: &[u8], field: Range<usize>) -> u64 {
    record[field].iter().fold(0, |value, &byte| value << 8 | u64::from(byte))
}

fn put(record: &mut [u8], field: Range<usize>, value: u64) {
    let bytes = value.to_be_bytes();
    record[field.clone()].copy_from_slice(&bytes[8 - field.len()..]);
}

/// A file as its records, by the size of the record that a part of it begins with.
fn cut(mut file: &[u8], size: impl Fn(&[u8]) -> usize) -> Vec<Vec<u8>> {
    let mut records = Vec::new();
    while !file.is_empty() {
        let (record, rest) = file.split_at(size(file));
        records.push(record.to_vec());
        file = rest;
    }
    records
}

/// A sound model as its records.
fn cut_model(model: &[u8]) -> Vec<Vec<u8>> {
    cut(model, |r| match &r[..2] {
        b"PA" => 6,
        b"LB" => 2 + usize::from(model[2]),
        b"CO" => 2 + value(model, 4..6) as usize,
        _ => 7 + 3 * usize::from(r[6]),
    })
}

/// Two sound models as their records.
fn split_models(first: &[u8], second: &[u8]) -> Records {
    [cut_model(first), cut_model(second)]
}

/// A sound pair as its records.
pub fn split((model, certificate): &(Vec<u8>, Vec<u8>)) -> Records {
    let n = usize::from(model[2]);
    let model = cut_model(model);
    let (strong, price_of_costs) = (certificate.starts_with(b"CS"), if certificate.starts_with(b"CC") { 4 } else { 0 });
    let certificate = cut(certificate, |r| match &r[..2] {
        b"CT" | b"CC" | b"CS" => 4,
        b"BK" => 2 + n,
        b"PX" if strong => 5 + 4 + 8 * n,
        b"PX" if model[2 + value(r, 2..4) as usize][3] == 0 => 5 + 8 * n + price_of_costs,
        b"PX" => 5 + 12 * n + price_of_costs,
        _ => w_count(r) + 2 + 6 * value(r, w_count(r)..w_count(r) + 2) as usize,
    });
    [model, certificate]
}

/// Where a flow's w count stands.
fn w_count(flow: &[u8]) -> usize {
    8 + 7 * value(flow, 6..8) as usize
}

/// The fields of a record, as far as it is whole.
fn fields(record: &[u8]) -> Vec<Range<usize>> {
    let widths: Box<dyn Iterator<Item = &usize>> = match record {
        [b'P', b'A', ..] => Box::new([1, 1, 2].iter()),
        [b'C', b'T' | b'C' | b'S', ..] => Box::new([2].iter()),
        [b'T', b'R', ..] => Box::new([1, 1, 2, 1].iter().chain([1, 2].iter().cycle())),
        [b'P', b'X', ..] => Box::new([2, 1].iter().chain([4].iter().cycle())),
        [b'F', b'L', _, _, _, _, high, low, ..] => {
            let k_fields = 3 * (usize::from(*high) << 8 | usize::from(*low));
            Box::new([4, 2].iter().chain([1, 2, 4].iter().cycle().take(k_fields)).chain(&[2]).chain([1, 1, 4].iter().cycle()))
        }
        _ => Box::new([1].iter().cycle()),
    };
    let mut end = 0;
    let fields = once(&2).chain(widths).map(|width| {
        end += width;
        end - width..end
    });
    fields.take_while(|field| field.end <= record.len()).collect()
}

/// A list of entries in a record: where its count stands, where it starts and the size of an entry.
fn entries(record: &[u8]) -> Vec<(Range<usize>, usize, usize)> {
    let lists = match record {
        [b'T', b'R', _, _, _, _, _, ..] => vec![(6..7, 7, 3)],
        [b'F', b'L', _, _, _, _, _, _, ..] => vec![(6..8, 8, 7), (w_count(record)..w_count(record) + 2, w_count(record) + 2, 6)],
        _ => Vec::new(),
    };
    let whole = |count: &Range<usize>, start: usize, size: usize| {
        start <= record.len() && start + size * value(record, count.clone()) as usize <= record.len()
    };
    lists.into_iter().filter(|(count, start, size)| whole(count, *start, *size)).collect()
}

/// Drops, doubles or swaps entries of a list in a record; the count stays right.
fn damage_entries(record: &mut Vec<u8>, numbers: &mut Numbers) {
    let lists = entries(record);
    if lists.is_empty() {
        return;
    }
    let (count, start, size) = numbers.of(&lists).clone();
    let number = value(record, count.clone()) as usize;
    if number == 0 {
        return;
    }
    let at = start + size * numbers.below(number);
    let entry = record[at..at + size].to_vec();
    match numbers.below(3) {
        0 => {
            record.drain(at..at + size);
            put(record, count, number as u64 - 1);
        }
        1 => {
            record.splice(at..at, entry);
            put(record, count, number as u64 + 1);
        }
        _ => {
            let with = start + size * numbers.below(number);
            record.copy_within(with..with + size, at);
            record[with..with + size].copy_from_slice(&entry);
        }
    }
}

/// A value on an edge, or near the one that is there.
fn edge(old: u64, width: usize, n: u64, numbers: &mut Numbers) -> u64 {
    let top = 1u64 << (8 * width - 1);
    let bit = 1 << numbers.below(8 * width);
    let near = [old.wrapping_add(1), old.wrapping_sub(1), old ^ bit, old ^ top, old << 1, old >> 1];
    let small = [0, 1, 2, n - 1, n, n + 1, 31, 32, 33, 63, 64, 65, 127, 128, 129];
    let large = [255, 256, 257, 1024, 2016, 2017, 2048, 8128, 8129, 65535, top - 1, top, top + 1, u64::MAX];
    match numbers.below(4) {
        0 | 1 => *numbers.of(&near),
        2 => *numbers.of(&small),
        _ => *numbers.of(&large),
    }
}

/// Spells a record otherwise, so that what is accepted stays so: D, k and w of a flow or the prices of a refutation times a factor, and
/// the prices but L moved by one amount; d and the weights of a transition times a factor, which only flows that use it notice.
fn respell(record: &mut [u8], rule: Rule, numbers: &mut Numbers) {
    let (width, most) = match &record[..2] {
        b"TR" => (2, i64::from(u16::MAX)),
        b"FL" => (4, i64::from(u32::MAX)),
        b"PX" => (4, i64::from(i32::MAX)),
        _ => return,
    };
    let prices = record.starts_with(b"PX");
    let amounts: Vec<_> = fields(record).into_iter().skip(1).filter(|field| field.len() == width).collect();
    let read = |field: &Range<usize>| match value(record, field.clone()) {
        price if prices => i64::from(price as u32 as i32),
        amount => amount as i64,
    };
    let old: Vec<i64> = amounts.iter().map(read).collect();
    let largest = old.iter().map(|x| x.abs()).max().unwrap_or(0).max(1);
    let room = (most / largest).max(1);
    let factor = [1, room, room.min(2), 1 + numbers.below(room as usize) as i64][numbers.below(4)];
    let space = (most - largest * factor).max(0);
    let moved = if prices { [0, space, -space][numbers.below(3)] } else { 0 };
    let count = old.len();
    for (i, (field, x)) in amounts.into_iter().zip(old).enumerate() {
        let is_l = rule == Rule::Costs && i + 1 == count;
        put(record, field, x.wrapping_mul(factor).wrapping_add(if is_l { 0 } else { moved }) as u64);
    }
}

/// The rule that the certificate of a sound pair, or of none, is for.
fn rule_of(pair: &Records) -> Rule {
    let rules = [Rule::Costs, Rule::Strong];
    rules.into_iter().find(|rule| pair[1][0].starts_with(rule.mark())).unwrap_or(Rule::Plain)
}

/// One damage to one file; `other` is another sound pair, which lends a record or a whole file.
fn damage(pair: &mut Records, other: &Records, n: u64, numbers: &mut Numbers) {
    let which = usize::from(numbers.below(4) > 0);
    let file = &mut pair[which];
    let (at, several) = (numbers.below(file.len()), file.len() > 1);
    let record = &mut file[at];
    match numbers.below(20) {
        0 if several => drop(file.remove(at)),
        1 => {
            let copy = record.clone();
            file.insert(at, copy);
        }
        2 => {
            let with = numbers.below(file.len());
            file.swap(at, with);
        }
        3 => *record = numbers.of(&other[which]).clone(),
        4 => *file = other[which].clone(),
        5 => {
            let mark = numbers.of(&[b"PA", b"LB", b"TR", b"CO", b"CT", b"CC", b"CS", b"PX", b"BK", b"FL", b"pa", b"AP"]);
            record[..2].copy_from_slice(*mark);
        }
        6 => damage_entries(record, numbers),
        7 => {
            // Blocks or labels under other numbers.
            if let Some(named) = file.iter_mut().find(|record| matches!(&record[..2], b"BK" | b"LB")) {
                let (one, two) = (numbers.below(4) as u8, numbers.below(4) as u8);
                for byte in &mut named[2..] {
                    *byte = if *byte == one { two } else if *byte == two { one } else { *byte };
                }
            }
        }
        8 => {
            // One weight, price or amount more and another one less.
            let all = fields(record);
            let (from, to) = (numbers.of(&all).clone(), numbers.of(&all).clone());
            if from.len() == to.len() && from != to {
                let (less, more) = (value(record, from.clone()).wrapping_sub(1), value(record, to.clone()).wrapping_add(1));
                put(record, from, less);
                put(record, to, more);
            }
        }
        9 => {
            let size = 1 + numbers.below(9);
            record.extend(numbers.bytes(size));
        }
        10 => respell(record, rule_of(other), numbers),
        _ => {
            let field = numbers.of(&fields(record)).clone();
            let new = edge(value(record, field.clone()), field.len(), n, numbers);
            put(record, field, new);
        }
    }
    // Half of the time the head's count follows.
    if numbers.below(2) == 0 {
        let (mark, field) = if other[which][0].starts_with(b"PA") { (b"TR", 4..6) } else { (b"PX", 2..4) };
        let count = pair[which].iter().filter(|record| record.starts_with(mark)).count();
        if pair[which][0].len() >= field.end {
            put(&mut pair[which][0], field, count as u64);
        }
    }
}

/// A sound pair with some of its certificate's records spelled otherwise; of two models none are.
fn respell_some(pair: &mut Records, numbers: &mut Numbers) {
    let rule = rule_of(pair);
    for record in &mut pair[1] {
        if !record.starts_with(b"TR") && numbers.below(4) == 0 {
            respell(record, rule, numbers);
        }
    }
}

/// An accepted pair's certificate, with some records spelled otherwise.
pub fn respelled(pair: &(Vec<u8>, Vec<u8>), numbers: &mut Numbers) -> Vec<u8> {
    let mut pair = split(pair);
    respell_some(&mut pair, numbers);
    pair[1].concat()
}

/// Hands out so many damaged pairs of files: each is one of these pairs, respelled and then damaged. With it come the state count of
/// its model, the first of two, as it was, and the numbers for further choices.
pub fn each_damaged(pairs: &[Records], times: u64, seed: u64, mut each: impl FnMut(&[u8], &[u8], usize, &mut Numbers)) {
    let mut numbers = Numbers::new(seed);
    for _ in 0..times {
        let mut pair = numbers.of(pairs).clone();
        let n = pair[0][1].len() - 2;
        respell_some(&mut pair, &mut numbers);
        for _ in 0..1 + numbers.below(4) / 2 + numbers.below(8) / 7 {
            damage(&mut pair, numbers.of(pairs), n as u64, &mut numbers);
        }
        let [mut one, mut other] = pair.map(|records| records.concat());
        match numbers.below(24) {
            0 => one.truncate(numbers.below(one.len() + 1)),
            1 => other.truncate(numbers.below(other.len() + 1)),
            _ => {}
        }
        each(&one, &other, n, &mut numbers);
    }
}

/// Sends so many damaged pairs through the three calls of document 01.
pub fn damaged(pairs: &[(Vec<u8>, Vec<u8>)], times: u64, seed: u64) -> Counts {
    let pairs: Vec<Records> = pairs.iter().map(split).collect();
    let mut counts = Counts::default();
    each_damaged(&pairs, times, seed, |model, certificate, n, numbers| {
        let (blocks, out, state) = match numbers.below(4) {
            0 => (numbers.below(n + 2), numbers.below(model.len() + 2), numbers.below(n + 2)),
            _ => (STATES, model.len(), numbers.below(n)),
        };
        counts.pair_with(model, certificate, blocks, out, state as u32);
    });
    counts
}

/// How often each number was answered, with the file.
pub type Told = BTreeMap<(u32, u32), u64>;

/// Sends so many damaged pairs through the call that judges by a rule. What it answers must be all of its numbers and no other: how often each came,
/// and the kinds of 16, 20 and 21.
pub fn damaged_by(rule: Rule, call: Lent, pairs: &[(Vec<u8>, Vec<u8>)], times: u64, seed: u64) -> (Told, BTreeSet<Kind>) {
    assert!(pairs.iter().all(|(model, certificate)| call(model, certificate, STATES).0.number == 0));
    let pairs: Vec<Records> = pairs.iter().map(split).collect();
    let (mut told, mut kinds) = (Told::new(), BTreeSet::new());
    each_damaged(&pairs, times, seed, |model, certificate, n, numbers| {
        let length = if numbers.below(8) == 0 { numbers.below(n + 2) } else { STATES };
        let (answer, _) = call(model, certificate, length);
        *told.entry((answer.number, answer.file)).or_insert(0) += 1;
        kinds.extend(kind_by(rule, answer, model, certificate));
    });
    println!("pairs of the rule {rule:?} damaged by records and fields: {told:?}");
    let of_costs = |number: u32| (rule == Rule::Costs).then_some(number);
    let of_model = (1..=9).chain([34]).chain(of_costs(29)).map(|number| (number, 1));
    let of_certificate = (11..=22).chain(of_costs(30)).map(|number| (number, 2));
    assert_eq!(told.keys().copied().collect::<BTreeSet<_>>(), of_model.chain(of_certificate).chain([(0, 0), (10, 0)]).collect());
    (told, kinds)
}

/// Makes a call that judges with every truncation of either file of a pair, which then ends too early, and with every change of one byte.
pub fn small_damage(call: Lent, (model, certificate): &(Vec<u8>, Vec<u8>), told: &mut Told) {
    for size in 0..model.len() {
        let answer = call(&model[..size], certificate, STATES).0;
        assert_eq!((answer.number, answer.file, answer.place + answer.stretch_length), (1, 1, size));
    }
    for size in 0..certificate.len() {
        let answer = call(model, &certificate[..size], STATES).0;
        assert_eq!((answer.number, answer.file, answer.place + answer.stretch_length), (11, 2, size));
    }
    let mut tell = |model: &[u8], certificate: &[u8]| {
        let answer = call(model, certificate, STATES).0;
        *told.entry((answer.number, answer.file)).or_insert(0) += 1;
    };
    changes(model, |damaged| tell(damaged, certificate));
    changes(certificate, |damaged| tell(model, damaged));
}

/// Pairs of sound models as their records: the accepted models of the vectors, and a crowded one beside some of them.
pub fn pairs_of_models() -> Vec<Records> {
    let mut models: Vec<Vec<u8>> = accepted().into_iter().map(|(model, _)| model).collect();
    models.dedup();
    let mut pairs: Vec<Records> = models.iter().zip(models.iter().rev()).map(|(first, second)| split_models(first, second)).collect();
    let crowded = crowded().0;
    pairs.extend(models.iter().take(10).flat_map(|small| [split_models(small, &crowded), split_models(&crowded, small)]));
    pairs
}

/// Sends so many damaged pairs of models through a call that takes two. What it answers must be all of its numbers, in either file, and no other:
/// beside those of a model this one for a limit and this one for the buffer.
pub fn damaged_models(call: Lent, [limit, buffer]: [u32; 2], times: u64, seed: u64) {
    let mut told = BTreeSet::new();
    each_damaged(&pairs_of_models(), times, seed, |first, second, _, numbers| {
        let length = if numbers.below(4) == 0 { numbers.below(first.len() + second.len() + 2) } else { MODEL };
        let (answer, _) = call(first, second, length);
        told.insert((answer.number, answer.file));
    });
    let in_models = (1..=9).chain([34]).flat_map(|number| [(number, 1), (number, 3)]);
    assert_eq!(told, in_models.chain([(0, 0), (limit, 0), (buffer, 0)]).collect());
}

/// Makes a call that takes two models with every truncation and every change of one byte of either.
pub fn small_damage_of_models(call: Lent, first: &[u8], second: &[u8]) {
    for size in 0..first.len() {
        assert_eq!(call(&first[..size], second, MODEL).0.file, 1);
    }
    for size in 0..second.len() {
        let answer = call(first, &second[..size], MODEL).0;
        assert_eq!((answer.number, answer.file, answer.place + answer.stretch_length), (1, 3, size));
    }
    changes(first, |damaged| _ = call(damaged, second, MODEL));
    changes(second, |damaged| _ = call(first, damaged, MODEL));
}

/// 128 states, those from 63 on one block without transitions and all others a block each, and 2,048 entries, 40 of them alone in their
/// transition: one of these doubled is one entry too many.
pub fn crowded() -> (Vec<u8>, Vec<u8>) {
    let sizes = [vec![1; 40], vec![8; 27], vec![128; 14]].concat();
    let blocks: Vec<u8> = (0..128).map(|v| v.min(63)).collect();
    let mut model = [&b"PA\x80\x01\0\x51LB"[..], &blocks].concat();
    for (size, source) in sizes.into_iter().zip(0..) {
        model.extend([b'T', b'R', source / 2, 0, 0, size, size]);
        model.extend((0..size).flat_map(|state| [state, 0, 1]));
    }
    (model, [&b"CT\0\0BK"[..], &blocks].concat())
}
