//! The block sheet: the library and the plain judge write the same, for damaged pairs and for certificates made for random automata; and
//! what a reader of the sheet goes by.
mod compare;
mod maker;
mod plain;
mod records;

use compare::{accepted, every_kind, judge, kind, rounds, sheet, Numbers};
use maker::families::{bytes, flow_heavy, internal_chain, largest, refutation_heavy};
use maker::random::random_model;
use records::{crowded, each_damaged, split, Records};
use std::collections::BTreeSet;
use zolkirta::{SHEET, STATES};

/// A cell of a line: a number to its right, or none.
fn cell(line: &str, i: usize) -> Option<usize> {
    let cell = &line[4 * i..4 * i + 4];
    let number = cell.trim_start();
    assert!(number == cell.trim() && (number == "0" || !number.starts_with('0')), "{cell:?}");
    (!number.is_empty()).then(|| number.parse().unwrap())
}

/// Reads a sheet by K4's words: the states of each block, ascending, and the sizes that stand before them.
fn read(text: &str) -> Vec<(usize, Vec<usize>)> {
    let mut blocks: Vec<(usize, Vec<usize>)> = Vec::new();
    for line in text.split_terminator('\n') {
        assert_eq!(line.len(), 72);
        match (cell(line, 0), cell(line, 1)) {
            (Some(block), Some(size)) => {
                assert_eq!(block, blocks.len());
                blocks.push((size, Vec::new()));
            }
            front => assert_eq!(front, (None, None)),
        }
        let cells: Vec<Option<usize>> = (2..18).map(|i| cell(line, i)).collect();
        let states: Vec<usize> = cells.iter().map_while(|&state| state).collect();
        assert!(!states.is_empty() && cells[states.len()..].iter().all(Option::is_none));
        let (_, members) = blocks.last_mut().expect("a block");
        assert_eq!(members.len() % 16, 0);
        members.extend(states);
    }
    assert!(text.ends_with('\n'));
    blocks
}

/// The sheet of an accepted pair tells its blocks; a buffer one byte shorter is refused.
fn tells_its_blocks(model: &[u8], certificate: &[u8]) -> usize {
    let (answer, blocks) = judge(model, certificate, STATES);
    assert_eq!(answer.number, 0);
    let (answer, written) = sheet(model, certificate, SHEET);
    assert_eq!((answer.number, answer.written), (0, written.len()));
    let told = read(std::str::from_utf8(&written).unwrap());
    assert_eq!(told.len(), BTreeSet::from_iter(&blocks).len());
    for (block, (size, members)) in told.iter().enumerate() {
        assert_eq!(*size, members.len());
        assert!(members.iter().copied().eq((0..blocks.len()).filter(|&v| usize::from(blocks[v]) == block)));
    }
    assert_eq!(sheet(model, certificate, written.len() - 1).0.number, 28);
    written.len() / 73
}

#[test]
fn a_sheet_tells_the_blocks() {
    let mut numbers = Numbers::new(41);
    let mut lines = BTreeSet::new();
    let large = [largest(), refutation_heavy(128), flow_heavy(128, 0), internal_chain(128)];
    let small = [refutation_heavy(64), flow_heavy(17, 1), internal_chain(64), internal_chain(34)];
    let families = large.into_iter().chain(small).map(bytes);
    for (model, certificate) in accepted().into_iter().chain(families) {
        lines.insert(tells_its_blocks(&model, &certificate));
    }
    for _ in 0..rounds(200) {
        let model = random_model(&mut numbers, 10);
        let Some(certificate) = maker::certificate(&model, &mut numbers) else { continue };
        lines.insert(tells_its_blocks(&model.bytes(), &certificate.bytes()));
    }
    // From one block in a line to 128 blocks; SHEET is the longest.
    assert!(lines.contains(&1) && lines.contains(&8) && lines.last() == Some(&(SHEET / 73)), "{lines:?}");
}

#[test]
fn damaged_pairs_are_answered_alike() {
    let mut numbers = Numbers::new(42);
    let mut pairs = accepted();
    pairs.push(crowded());
    while pairs.len() < 150 {
        let model = random_model(&mut numbers, 6);
        pairs.extend(maker::certificate(&model, &mut numbers).map(|certificate| bytes((model, certificate))));
    }
    let pairs: Vec<Records> = pairs.iter().map(split).collect();
    let (mut told, mut kinds) = (BTreeSet::new(), BTreeSet::new());
    each_damaged(&pairs, rounds(60_000), 43, |model, certificate, _, numbers| {
        let length = if numbers.below(4) == 0 { numbers.below(300) } else { SHEET };
        let (answer, _) = sheet(model, certificate, length);
        told.insert((answer.number, answer.file));
        kinds.extend(kind(answer, model, certificate));
    });
    let all = (1..=9).chain([34]).map(|number| (number, 1)).chain((11..=22).map(|number| (number, 2))).chain([(0, 0), (28, 0)]);
    assert_eq!(told, all.collect());
    assert_eq!(kinds, every_kind());
}
