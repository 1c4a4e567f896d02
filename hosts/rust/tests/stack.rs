//! The stack that each call uses, measured on a painted stack of its own, beside the figures that the C header states.
mod compare;
mod maker;
mod plain;

use compare::{accepted, accepted_costs, accepted_strong, accepted_texts, compose, hide, judge_costs, judge_strong, read_prism, rewrite};
use compare::{rewrite_costs, sentence, stored, stored_costs, Counts, WrittenPair};
use maker::families::{
    bytes, flow_heavy, flow_heavy_with_costs, half, internal_chain, largest, one_source, parts, refutation_heavy, still, strong_chain,
    strong_fan, strong_largest, strong_loops, tolls, with_costs,
};
use maker::prism::largest_text;
use std::arch::asm;
use zolkirta::raw::{zolkirta_alike, zolkirta_compose, zolkirta_fetch, zolkirta_hide, zolkirta_join, zolkirta_judge, zolkirta_judge_costs};
use zolkirta::raw::{zolkirta_read_prism, zolkirta_reduce, zolkirta_rewrite, zolkirta_rewrite_costs, zolkirta_sentence, zolkirta_sheet};
use zolkirta::raw::{zolkirta_judge_strong, zolkirta_largest, Answer, PairAnswer};
use zolkirta::{MODEL, SENTENCE, SHEET, STATES, TRANSITIONS};

/// Several times what a call uses.
#[repr(align(16))]
struct Stack([u8; 1 << 16]);

/// The words that a call takes, in the order of the System V calling convention: after the place of its answer five in registers and
/// three on the stack. A call that takes fewer looks at no others.
type Words = [usize; 8];

/// Makes a call on a stack painted with a byte, and hands back how many bytes it touched, its return address among them.
fn touched(call: *const (), words: Words, paint: u8) -> usize {
    let mut stack = Box::new(Stack([paint; 1 << 16]));
    let start = stack.0.len() - 32;
    for (place, word) in stack.0[start..].chunks_exact_mut(8).zip(&words[5..]) {
        place.copy_from_slice(&word.to_ne_bytes());
    }
    // As long as the longest answer; others are shorter, and all begin with the same.
    let mut said = PairAnswer::default();
    said.answer.number = u32::MAX;
    // SAFETY: the call is one of the library's, with words that it takes. r12, which it preserves, keeps the test's stack pointer.
    unsafe {
        asm!(
            "xchg rsp, r12",
            "call {call}",
            "mov rsp, r12",
            call = in(reg) call,
            inout("r12") stack.0.as_mut_ptr().add(start) => _,
            in("rdi") &mut said,
            in("rsi") words[0],
            in("rdx") words[1],
            in("rcx") words[2],
            in("r8") words[3],
            in("r9") words[4],
            clobber_abi("C"),
        );
    }
    assert_eq!(said.answer.number, 0);
    start - stack.0.iter().take_while(|&&byte| byte == paint).count()
}

/// The figure that stands behind a call's name in the header's paragraph on the stack.
fn stated(name: &str) -> usize {
    let header = include_str!("../../../include/zolkirta.h");
    let (_, paragraph) = header.split_once("* Stack.").expect("a paragraph on the stack");
    // A name that goes on is that of another call.
    let mut behind = paragraph.match_indices(name).map(|(at, _)| &paragraph[at + name.len()..]);
    let behind = behind.find(|behind| !behind.starts_with('_'));
    let behind = behind.unwrap_or_else(|| panic!("the header states no stack for {name}"));
    let figure = behind.trim_start_matches(|c: char| !c.is_ascii_digit());
    let digits = figure.chars().take_while(|&c| c.is_ascii_digit() || c == ',').filter(|&c| c != ',');
    digits.collect::<String>().parse().unwrap()
}

#[test]
fn calls_use_the_stack_that_the_header_states() {
    let mut pairs = accepted();
    pairs.extend([largest(), one_source(), refutation_heavy(128), flow_heavy(128, 3), internal_chain(128)].map(bytes));
    // On the test's own stack first: a loader that binds memcpy and memset at their first call does it here.
    for (model, certificate) in &pairs {
        assert_eq!(Counts::default().pair(model, certificate).number, 0);
    }
    let mut cost_pairs = accepted_costs();
    let moves_cost = with_costs(internal_chain(128), |_, r| r.action as i64);
    cost_pairs.extend([with_costs(largest(), |_, _| 63), tolls(128), flow_heavy_with_costs(128), moves_cost].map(bytes));
    for (model, certificate) in &cost_pairs {
        assert_eq!(judge_costs(model, certificate, STATES).0.number, 0);
    }
    let mut strong_pairs = accepted_strong();
    strong_pairs.extend([strong_largest(), strong_chain(128, 0), strong_loops(128, 1), strong_fan(128, 0)].map(bytes));
    for (model, certificate) in &strong_pairs {
        assert_eq!(judge_strong(model, certificate, STATES).0.number, 0);
    }
    let fits = |(said, _): WrittenPair| said.answer.number == 0;
    let mut stored_pairs = [stored(), pairs.clone()].concat();
    stored_pairs.retain(|(model, certificate)| fits(rewrite(model, certificate)));
    let mut stored_cost_pairs = [stored_costs(), cost_pairs.clone()].concat();
    stored_cost_pairs.retain(|(model, certificate)| fits(rewrite_costs(model, certificate)));
    let mut texts = accepted_texts();
    texts.extend([true, false].map(largest_text));
    for text in &texts {
        assert_eq!(read_prism(text, MODEL).0.number, 0);
    }
    let half = half().0.bytes();
    let joins = [(half.clone(), half.clone())];
    let two = still(&[0; 2]).0.bytes();
    let [left, right] = parts().map(|model| model.bytes());
    let compositions = [(left, right), (half.clone(), two.clone()), (two, half)];
    for (left, right) in &compositions {
        assert_eq!(compose(left, right, MODEL).1.len(), MODEL);
    }
    let sets: Vec<_> = pairs.iter().map(|(model, _)| (model.clone(), (0..=255).collect::<Vec<u8>>())).collect();
    for (model, actions) in &sets {
        assert_eq!(hide(model, actions, MODEL).0.number, 0);
    }
    let mut buffer = vec![0u8; MODEL.max(SHEET)];
    let [lent, room] = [buffer.as_mut_ptr() as usize, buffer.len()];
    let words = |file: &Vec<u8>| (file.as_ptr() as usize, file.len());
    let lending = |(one, other): &(Vec<u8>, Vec<u8>)| -> Words {
        let ((one, size), (other, other_size)) = (words(one), words(other));
        [one, size, other, other_size, lent, room, 0, 0]
    };
    let mut long = vec![0u8; stored_pairs.iter().chain(&stored_cost_pairs).map(|(_, certificate)| certificate.len()).max().unwrap()];
    let [lent_too, room_too] = [long.as_mut_ptr() as usize, long.len()];
    let rewriting = |pair: &(Vec<u8>, Vec<u8>)| -> Words {
        let mut words = lending(pair);
        [words[6], words[7]] = [lent_too, room_too];
        words
    };
    // State 0 is fetched, and compared with the last one.
    let fetching = |(model, _): &(Vec<u8>, Vec<u8>)| -> Words { [words(model).0, words(model).1, 0, 0, 0, 0, 0, 0] };
    let comparing = |(model, certificate): &(Vec<u8>, Vec<u8>)| -> Words {
        let last = usize::from(model[2]) - 1;
        [words(model).0, words(model).1, last, words(certificate).0, words(certificate).1, 0, last, 0]
    };
    let answers = (0..=42).flat_map(|number| [(0, 0), (u32::MAX, i64::MIN)].map(|(file, remainder)| (number, file, remainder)));
    let saying = |(number, file, remainder): (u32, u32, i64)| -> Words {
        let of = Answer { number, file, place: file as usize, state: file, remainder, ..Answer::default() };
        assert_eq!(sentence(of, SENTENCE).0.number, 0);
        [number as usize, file as usize, of.place, file as usize, remainder as usize, lent, room, 0]
    };
    let reading = |text: &Vec<u8>| -> Words { [words(text).0, words(text).1, lent, room, 0, 0, 0, 0] };
    let sizes = [1, 2, STATES].into_iter().flat_map(|n| [0, 1, TRANSITIONS].map(|transitions| (n, transitions)));
    let writing = |(n, transitions): (usize, usize)| -> Words { [n, transitions, lent, room, lent_too, room_too, 0, 0] };
    let several_states = pairs.iter().filter(|(model, _)| model[2] > 1);
    let calls: [(&str, *const (), Vec<Words>); 15] = [
        ("zolkirta_fetch", zolkirta_fetch as *const (), pairs.iter().map(fetching).collect()),
        ("zolkirta_judge", zolkirta_judge as *const (), pairs.iter().map(lending).collect()),
        ("zolkirta_judge_costs", zolkirta_judge_costs as *const (), cost_pairs.iter().map(lending).collect()),
        ("zolkirta_judge_strong", zolkirta_judge_strong as *const (), strong_pairs.iter().map(lending).collect()),
        ("zolkirta_reduce", zolkirta_reduce as *const (), pairs.iter().map(lending).collect()),
        ("zolkirta_sheet", zolkirta_sheet as *const (), pairs.iter().map(lending).collect()),
        ("zolkirta_join", zolkirta_join as *const (), joins.iter().map(lending).collect()),
        ("zolkirta_alike", zolkirta_alike as *const (), several_states.map(comparing).collect()),
        ("zolkirta_read_prism", zolkirta_read_prism as *const (), texts.iter().map(reading).collect()),
        ("zolkirta_rewrite", zolkirta_rewrite as *const (), stored_pairs.iter().map(rewriting).collect()),
        ("zolkirta_rewrite_costs", zolkirta_rewrite_costs as *const (), stored_cost_pairs.iter().map(rewriting).collect()),
        ("zolkirta_compose", zolkirta_compose as *const (), compositions.iter().map(lending).collect()),
        ("zolkirta_hide", zolkirta_hide as *const (), sets.iter().map(lending).collect()),
        ("zolkirta_sentence", zolkirta_sentence as *const (), answers.map(saying).collect()),
        ("zolkirta_largest", zolkirta_largest as *const (), sizes.map(writing).collect()),
    ];
    for (name, call, asked) in calls {
        // A byte that is written in the colour of one paint shows in the other.
        let used = asked.into_iter().flat_map(|words| [0xa5, 0x5a].map(|paint| touched(call, words, paint))).max().unwrap();
        let stated = stated(name);
        println!("{name}: {used} bytes of stack used, {stated} stated");
        assert!(used <= stated, "{name} uses {used} bytes of stack, more than the {stated} that include/zolkirta.h states");
        assert!(10 * used >= 9 * stated, "{name} uses {used} bytes of stack, far less than the {stated} that include/zolkirta.h states");
    }
}
