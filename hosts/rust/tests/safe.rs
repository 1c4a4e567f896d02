//! The safe calls say what the raw ones say, and hand back the caller's own bytes.
mod compare;
mod plain;

use compare::{accepted, accepted_costs, accepted_strong, accepted_texts, lines, of_todays_limits, sentence, stored, stored_costs};
use compare::{Answering, Both, Counts, Numbers, WrittenPair};
use plain::sentence::sentence_of;
use plain::{AlikeAnswer, Answer};
use std::collections::BTreeSet;
use zolkirta::{Difference, File, Refusal, MODEL, SENTENCE, STATES};

/// The slice lies in this file from this place on: the same bytes at the same address.
fn same_bytes(slice: &[u8], file: &[u8], from: usize, length: usize) {
    assert_eq!(slice.len(), length);
    assert!(length == 0 || std::ptr::eq(slice, &file[from..from + length]));
}

/// The refusal of a call with a first file, which is this one, and another is what the answer says.
fn same_refusal(refusal: Refusal, answer: Answer, first: File, one: &[u8], other: &[u8]) {
    let (file, bytes) = match answer.file {
        0 => (None, &[][..]),
        1 => (Some(first), one),
        2 => (Some(File::Certificate), other),
        _ => (Some(File::SecondModel), other),
    };
    assert_eq!((refusal.number, refusal.file, refusal.place), (answer.number, file, answer.place));
    same_bytes(refusal.stretch, bytes, answer.stretch_start, answer.stretch_length);
    let told = Difference { state: answer.state, remainder: answer.remainder };
    assert_eq!(refusal.difference, [16, 20, 21].contains(&answer.number).then_some(told));
    assert_eq!(refusal.to_string(), sentence_of(answer));
    let owned = refusal.into_owned();
    assert_eq!((owned.number, owned.file, owned.place, owned.difference), (answer.number, file, answer.place, refusal.difference));
    assert_eq!(owned.to_string(), refusal.to_string());
}

type Call = for<'a, 'b> fn(&'a [u8], &'a [u8], &'b mut [u8]) -> Result<&'b [u8], Refusal<'a>>;

/// Makes a safe call that lends a buffer and compares it with the answer of the raw one, which it hands back.
fn same_lent(call: Call, told: (Answer, Vec<u8>), first: File, [one, other]: [&[u8]; 2], length: usize) -> (Answer, Vec<u8>) {
    let mut buffer = vec![0x3c; length];
    let start = buffer.as_ptr();
    match call(one, other, &mut buffer) {
        Ok(written) => {
            assert!(told.0.number == 0 && written == told.1 && written.as_ptr() == start);
            let size = written.len();
            assert!(buffer[size..].iter().all(|&byte| byte == 0x3c));
        }
        Err(refusal) => {
            same_refusal(refusal, told.0, first, one, other);
            assert!(buffer.iter().all(|&byte| byte == 0x3c));
        }
    }
    told
}

/// Makes a safe call that lends two buffers and compares it with the answer of the raw one, which it hands back.
fn same_two<'a>(
    call: impl for<'b> Fn(&'b mut [u8], &'b mut [u8]) -> Result<(&'b [u8], &'b [u8]), Refusal<'a>>,
    (said, files): WrittenPair,
    [model, certificate]: [&[u8]; 2],
    lengths: [usize; 2],
) -> WrittenPair {
    let [mut pa, mut ct] = lengths.map(|length| vec![0x3c; length]);
    let starts = [pa.as_ptr(), ct.as_ptr()];
    match call(&mut pa, &mut ct) {
        Ok((written, its)) => {
            assert_eq!((said.answer.number, [written, its]), (0, [&files[0][..], &files[1]]));
            assert_eq!([written.as_ptr(), its.as_ptr()], starts);
        }
        Err(refusal) => same_refusal(refusal, said.answer, File::Model, model, certificate),
    }
    let later = [&pa[files[0].len()..], &ct[files[1].len()..]];
    assert!(later.concat().iter().all(|&byte| byte == 0x3c));
    (said, files)
}

fn sheet_bytes<'a, 'b>(model: &'a [u8], certificate: &'a [u8], buffer: &'b mut [u8]) -> Result<&'b [u8], Refusal<'a>> {
    zolkirta::sheet(model, certificate, buffer).map(str::as_bytes)
}

fn read_prism<'a, 'b>(text: &'a [u8], _: &'a [u8], buffer: &'b mut [u8]) -> Result<&'b [u8], Refusal<'a>> {
    zolkirta::read_prism(text, buffer)
}

/// The safe calls, each compared with the raw one.
struct Safe;

impl Answering for Safe {
    fn fetch(&self, model: &[u8], state: u32) -> Answer {
        let answer = Both.fetch(model, state);
        match zolkirta::fetch(model, state) {
            Ok(run) => {
                assert_eq!(answer.number, 0);
                same_bytes(run, model, answer.stretch_start, answer.stretch_length);
            }
            Err(refusal) => same_refusal(refusal, answer, File::Model, model, &[]),
        }
        answer
    }

    fn read_prism(&self, text: &[u8], length: usize) -> (Answer, Vec<u8>) {
        same_lent(read_prism, Both.read_prism(text, length), File::Text, [text, &[]], length)
    }

    fn lent(&self, call: &str, one: &[u8], other: &[u8], length: usize) -> (Answer, Vec<u8>) {
        let safe: Call = match call {
            "judge" => zolkirta::judge,
            "judge_costs" => zolkirta::judge_costs,
            "judge_strong" => zolkirta::judge_strong,
            "reduce" => zolkirta::reduce,
            "sheet" => sheet_bytes,
            "join" => zolkirta::join,
            "compose" => zolkirta::compose,
            "hide" => zolkirta::hide as Call,
            _ => panic!("no such call: {call}"),
        };
        same_lent(safe, Both.lent(call, one, other, length), File::Model, [one, other], length)
    }

    fn alike(&self, model: &[u8], certificate: &[u8], [count, s, t]: [u32; 3]) -> AlikeAnswer {
        let said = Both.alike(model, certificate, [count, s, t]);
        match zolkirta::alike(model, count, certificate, s, t) {
            Ok(yes) => assert_eq!((said.answer.number, said.alike), (0, yes.into())),
            Err(refusal) => same_refusal(refusal, said.answer, File::Model, model, certificate),
        }
        said
    }

    fn rewrite(&self, call: &str, model: &[u8], certificate: &[u8], lengths: [usize; 2]) -> WrittenPair {
        let safe = if call == "rewrite" { zolkirta::rewrite } else { zolkirta::rewrite_costs };
        let told = Both.rewrite(call, model, certificate, lengths);
        same_two(|pa, ct| safe(model, certificate, pa, ct), told, [model, certificate], lengths)
    }

    fn largest(&self, states: u32, transitions: u32, lengths: [usize; 2]) -> WrittenPair {
        let told = Both.largest(states, transitions, lengths);
        same_two(|pa, ct| zolkirta::largest(states, transitions, pa, ct), told, [&[], &[]], lengths)
    }
}

fn same(counts: &mut Counts, model: &[u8], certificate: &[u8], state: u32, blocks: usize, out: usize) {
    counts.count(Safe.fetch(model, state));
    counts.count(Safe.lent("judge", model, certificate, blocks).0);
    counts.count(Safe.lent("reduce", model, certificate, out).0);
    Safe.lent("sheet", model, certificate, out);
}

fn change_one_bit(file: &mut [u8], numbers: &mut Numbers) {
    let at = numbers.below(file.len());
    file[at] ^= 1 << numbers.below(8);
}

/// One of these pairs with a bit of one of its files changed.
fn one_bit_changed(pairs: &[(Vec<u8>, Vec<u8>)], numbers: &mut Numbers) -> (Vec<u8>, Vec<u8>) {
    let (mut model, mut certificate) = numbers.of(pairs).clone();
    let file = if numbers.below(5) == 0 { &mut model } else { &mut certificate };
    change_one_bit(file, numbers);
    (model, certificate)
}

#[test]
fn safe_calls_say_what_the_raw_ones_say() {
    let mut counts = Counts::default();
    for v in lines().into_iter().filter(|v| matches!(v.call.as_str(), "fetch" | "judge" | "reduce")) {
        let (number, certificate) = (v.numbers[0].min(20_000), v.files.get(1).map_or(&[][..], Vec::as_slice));
        same(&mut counts, &v.files[0], certificate, number, number as usize, number as usize);
    }
    let mut numbers = Numbers::new(13);
    let pairs = accepted();
    for _ in 0..20_000 {
        let (model, certificate) = one_bit_changed(&pairs, &mut numbers);
        same(&mut counts, &model, &certificate, numbers.below(9) as u32, STATES, model.len());
    }
    for number in (0..=24).chain([34]) {
        assert!(counts.answers[number] > 0, "no safe call was answered with {number}");
    }
}

#[test]
fn the_safe_calls_for_cost_and_strong_pairs_say_what_the_raw_ones_say() {
    let mut numbers = Numbers::new(14);
    for (call, pairs, of_costs) in [("judge_costs", accepted_costs(), &[29, 30][..]), ("judge_strong", accepted_strong(), &[])] {
        let mut told = BTreeSet::new();
        for _ in 0..20_000 {
            let (model, certificate) = one_bit_changed(&pairs, &mut numbers);
            let length = if numbers.below(8) == 0 { numbers.below(12) } else { STATES };
            told.insert(Safe.lent(call, &model, &certificate, length).0.number);
        }
        assert!([0, 1, 2, 10, 16, 20, 21].iter().chain(of_costs).all(|number| told.contains(number)), "{call} {told:?}");
    }
}

#[test]
fn the_safe_calls_that_rewrite_say_what_the_raw_ones_say() {
    let mut numbers = Numbers::new(16);
    for (call, pairs, of_costs) in [("rewrite", stored(), &[][..]), ("rewrite_costs", stored_costs(), &[29, 30])] {
        let mut told = BTreeSet::new();
        for _ in 0..20_000 {
            let (model, certificate) = one_bit_changed(&pairs, &mut numbers);
            let less = if numbers.below(8) == 0 { [numbers.below(2), numbers.below(2)] } else { [0; 2] };
            let said = Safe.rewrite(call, &model, &certificate, [model.len() - less[0], certificate.len() - less[1]]).0;
            told.insert(said.answer.number);
        }
        assert!([0, 1, 2, 7, 16, 20, 21, 35, 36].iter().chain(of_costs).all(|number| told.contains(number)), "{call} {told:?}");
        assert!(!told.contains(&10) && !told.contains(&34));
    }
}

#[test]
fn the_safe_call_for_the_largest_says_what_the_raw_one_says() {
    let mut numbers = Numbers::new(20);
    let mut told = BTreeSet::new();
    for _ in 0..2_000 {
        let (states, below) = (numbers.below(140), *numbers.of(&[9, 270]));
        let transitions = numbers.below(below);
        let exact = [zolkirta::largest_model(states, transitions), zolkirta::largest_certificate(states, transitions)];
        let lengths = exact.map(|length| length + [0, 0, 0, 1, 7][numbers.below(5)] - usize::from(numbers.below(6) == 0));
        let said = Safe.largest(states as u32, transitions as u32, lengths).0;
        told.insert((said.answer.number, said.certificate_written == exact[1]));
    }
    assert_eq!(told, BTreeSet::from([(0, true), (40, false), (41, false)]));
}

#[test]
fn the_safe_calls_that_compose_and_hide_say_what_the_raw_ones_say() {
    let mut numbers = Numbers::new(17);
    let models: Vec<_> = stored().into_iter().map(|(model, _)| model).filter(|model| model.len() < 200).collect();
    let mut told = BTreeSet::new();
    for _ in 0..20_000 {
        let (mut left, mut right) = (numbers.of(&models).clone(), numbers.of(&models).clone());
        let changed = if numbers.below(2) == 0 { &mut left } else { &mut right };
        change_one_bit(changed, &mut numbers);
        let length = if numbers.below(8) == 0 { numbers.below(90) } else { MODEL };
        for (call, other) in [("compose", &right), ("hide", &numbers.bytes(3))] {
            let answer = Safe.lent(call, &left, other, length).0;
            told.insert((call, answer.file, answer.number));
        }
    }
    let of_models = [("compose", 1), ("compose", 3), ("hide", 1)].map(|(call, file)| [1, 2, 7, 9, 34].map(|number| (call, file, number)));
    let of_calls = [("compose", 0), ("compose", 37), ("compose", 38), ("hide", 0), ("hide", 38)].map(|(call, number)| (call, 0, number));
    assert!(of_models.as_flattened().iter().chain(&of_calls).all(|answer| told.contains(answer)), "{told:?}");
}

#[test]
fn the_safe_call_for_texts_says_what_the_raw_one_says() {
    let mut numbers = Numbers::new(15);
    let texts = accepted_texts();
    let mut told = BTreeSet::new();
    for _ in 0..20_000 {
        let mut text = numbers.of(&texts).clone();
        change_one_bit(&mut text, &mut numbers);
        let length = if numbers.below(8) == 0 { numbers.below(40) } else { MODEL };
        told.insert(Safe.read_prism(&text, length).0.number);
    }
    assert_eq!(told, BTreeSet::from([0, 31, 32, 33]));
}

#[test]
fn the_safe_sentence_is_what_the_raw_call_writes() {
    let mut numbers = Numbers::new(19);
    for _ in 0..20_000 {
        let of = numbers.answer();
        let length = if numbers.below(2) == 0 { numbers.below(SENTENCE) } else { SENTENCE };
        let (answer, written) = sentence(of, length);
        let mut buffer = vec![0x3c; length];
        let start = buffer.as_ptr();
        match zolkirta::sentence(of.number, of.file, of.place, of.state, of.remainder, &mut buffer) {
            Ok(said) => assert!(answer.number == 0 && said.as_bytes() == written && said.as_ptr() == start),
            Err(refusal) => same_refusal(refusal, answer, File::Model, &[], &[]),
        }
        assert!(buffer[written.len()..].iter().all(|&byte| byte == 0x3c));
    }
}

#[test]
fn safe_calls_give_the_answers_of_the_vectors() {
    let all = lines();
    all.iter().for_each(|v| v.holds_for(&Safe));
    assert!((1..=3).all(|file| all.iter().any(|v| v.said.0.file == file)));
    of_todays_limits().filter(|v| v.before_k10()).for_each(|v| _ = v.held_by(&Safe));
}

#[test]
fn a_refusal_is_an_error_of_few_words() {
    let model = [&b"PA\x01\x01\0\0LB\0"[..], &[0; 10_000]].concat();
    let refusal = zolkirta::fetch(&model, 0).unwrap_err();
    assert_eq!(format!("{refusal:?}"), "Refusal { number: 9, file: Some(Model), place: 9, stretch: 10000 bytes, difference: None }");
    let error: &dyn std::error::Error = &refusal;
    let said = "the model file goes on after the model has ended";
    assert_eq!(error.to_string(), format!("Answer 9: {said} (file 1, place 9, state 0, remainder 0)."));
}

#[test]
fn an_owned_refusal_outlives_the_files_and_the_thread() {
    let judged = std::thread::spawn(|| {
        let (model, certificate) = (b"PA\x02\x01\0\0LB\0\0".to_vec(), b"CT\0\0BK\0\x01".to_vec());
        zolkirta::judge(&model, &certificate, &mut [0; STATES]).map(<[u8]>::to_vec).map_err(Refusal::into_owned)
    });
    let error: Box<dyn std::error::Error + Send + Sync + 'static> = judged.join().unwrap().unwrap_err().into();
    let said = "the blocks of the certificate do not agree with the pairs of states that are still related";
    assert_eq!(error.to_string(), format!("Answer 18: {said} (file 2, place 4, state 0, remainder 0)."));
    assert_eq!(format!("{error:?}"), "OwnedRefusal { number: 18, file: Some(Certificate), place: 4, difference: None }");
}
