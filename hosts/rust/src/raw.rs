//! The calls of `include/zolkirta.h` as they are, for hosts that keep to pointers and lengths.
//!
//! # Safety
//!
//! Each pointer is to as many readable bytes as the length after it says, for a lent buffer writable ones, and may be null where that
//! is 0. A lent buffer overlaps no other one and no input. The library keeps no pointer.

use std::mem::{offset_of, size_of};

/// What a call answers.
#[repr(C)]
#[derive(Clone, Copy, Debug, Default, PartialEq, Eq)]
pub struct Answer {
    /// 0, or the number of the refusal.
    pub number: u32,
    /// The file at fault: 1 model or text, 2 certificate, 3 the second model; 0 where none is.
    pub file: u32,
    /// The byte of that file where the record or line at fault begins; for bytes left, the first of them; for 29, the cost; for 31 where only
    /// the head's counts are wrong, the text's length.
    pub place: usize,
    /// Where the stretch, or the run that was fetched, starts in its file; 0 where it is empty and has no file.
    pub stretch_start: usize,
    /// The length of the stretch or run.
    pub stretch_length: usize,
    /// Bytes written into the lent buffer; 0 on refusal, and where none is lent.
    pub written: usize,
    /// For 16, 20 and 21 the state whose condition or equation breaks; else 0.
    pub state: u32,
    /// For 16, 20 and 21 that condition's or equation's left side less its right one; else 0.
    pub remainder: i64,
}

/// What [`zolkirta_alike`] answers.
#[repr(C)]
#[derive(Clone, Copy, Debug, Default, PartialEq, Eq)]
pub struct AlikeAnswer {
    pub answer: Answer,
    /// 1 for yes, 0 for no; 0 on refusal.
    pub alike: u32,
}

/// What [`zolkirta_rewrite`], [`zolkirta_rewrite_costs`] and [`zolkirta_largest`] answer.
#[repr(C)]
#[derive(Clone, Copy, Debug, Default, PartialEq, Eq)]
pub struct PairAnswer {
    /// Its `written` is of the model's buffer.
    pub answer: Answer,
    /// Bytes written into the certificate's buffer; 0 on refusal.
    pub certificate_written: usize,
}

// The library's layout: a build for another one stops here.
const _: () = {
    let fields = [offset_of!(Answer, number), offset_of!(Answer, file), offset_of!(Answer, place), offset_of!(Answer, stretch_start)];
    assert!(matches!(fields, [0, 4, 8, 16]));
    assert!(offset_of!(Answer, stretch_length) == 24 && offset_of!(Answer, written) == 32);
    assert!(offset_of!(Answer, state) == 40 && offset_of!(Answer, remainder) == 48 && size_of::<Answer>() == 56);
    assert!(offset_of!(AlikeAnswer, answer) == 0 && offset_of!(AlikeAnswer, alike) == 56 && size_of::<AlikeAnswer>() == 64);
    let pair = [offset_of!(PairAnswer, answer), offset_of!(PairAnswer, certificate_written), size_of::<PairAnswer>()];
    assert!(matches!(pair, [0, 56, 64]));
};

/// A call that lends a buffer: two files, or a model and a set, and the buffer, each a pointer and a length.
pub type Lending = unsafe extern "C" fn(*const u8, usize, *const u8, usize, *mut u8, usize) -> Answer;

/// A call that lends two buffers: model and certificate, then a buffer for each, all four a pointer and a length.
pub type LendingTwo = unsafe extern "C" fn(*const u8, usize, *const u8, usize, *mut u8, usize, *mut u8, usize) -> PairAnswer;

extern "C" {
    /// [`fetch`](crate::fetch): the run is in `stretch_start` and `stretch_length`.
    pub fn zolkirta_fetch(model: *const u8, model_length: usize, state: u32) -> Answer;
    /// [`judge`](crate::judge)
    pub fn zolkirta_judge(
        model: *const u8,
        model_length: usize,
        certificate: *const u8,
        certificate_length: usize,
        blocks: *mut u8,
        blocks_length: usize,
    ) -> Answer;
    /// [`judge_costs`](crate::judge_costs)
    pub fn zolkirta_judge_costs(
        model: *const u8,
        model_length: usize,
        certificate: *const u8,
        certificate_length: usize,
        blocks: *mut u8,
        blocks_length: usize,
    ) -> Answer;
    /// [`judge_strong`](crate::judge_strong)
    pub fn zolkirta_judge_strong(
        model: *const u8,
        model_length: usize,
        certificate: *const u8,
        certificate_length: usize,
        blocks: *mut u8,
        blocks_length: usize,
    ) -> Answer;
    /// [`reduce`](crate::reduce)
    pub fn zolkirta_reduce(
        model: *const u8,
        model_length: usize,
        certificate: *const u8,
        certificate_length: usize,
        out: *mut u8,
        out_length: usize,
    ) -> Answer;
    /// [`sheet`](crate::sheet): bytes of ASCII.
    pub fn zolkirta_sheet(
        model: *const u8,
        model_length: usize,
        certificate: *const u8,
        certificate_length: usize,
        sheet: *mut u8,
        sheet_length: usize,
    ) -> Answer;
    /// [`join`](crate::join)
    pub fn zolkirta_join(
        first: *const u8,
        first_length: usize,
        second: *const u8,
        second_length: usize,
        out: *mut u8,
        out_length: usize,
    ) -> Answer;
    /// [`alike`](crate::alike)
    pub fn zolkirta_alike(
        model: *const u8,
        model_length: usize,
        first_count: u32,
        certificate: *const u8,
        certificate_length: usize,
        first_state: u32,
        second_state: u32,
    ) -> AlikeAnswer;
    /// [`read_prism`](crate::read_prism)
    pub fn zolkirta_read_prism(text: *const u8, text_length: usize, out: *mut u8, out_length: usize) -> Answer;
    /// [`rewrite`](crate::rewrite)
    pub fn zolkirta_rewrite(
        model: *const u8,
        model_length: usize,
        certificate: *const u8,
        certificate_length: usize,
        model_out: *mut u8,
        model_out_length: usize,
        certificate_out: *mut u8,
        certificate_out_length: usize,
    ) -> PairAnswer;
    /// [`rewrite_costs`](crate::rewrite_costs)
    pub fn zolkirta_rewrite_costs(
        model: *const u8,
        model_length: usize,
        certificate: *const u8,
        certificate_length: usize,
        model_out: *mut u8,
        model_out_length: usize,
        certificate_out: *mut u8,
        certificate_out_length: usize,
    ) -> PairAnswer;
    /// [`compose`](crate::compose)
    pub fn zolkirta_compose(
        left: *const u8,
        left_length: usize,
        right: *const u8,
        right_length: usize,
        out: *mut u8,
        out_length: usize,
    ) -> Answer;
    /// [`hide`](crate::hide)
    pub fn zolkirta_hide(
        model: *const u8,
        model_length: usize,
        actions: *const u8,
        actions_length: usize,
        out: *mut u8,
        out_length: usize,
    ) -> Answer;
    /// [`sentence`](crate::sentence): bytes of ASCII.
    pub fn zolkirta_sentence(
        number: u32,
        file: u32,
        place: usize,
        state: u32,
        remainder: i64,
        out: *mut u8,
        out_length: usize,
    ) -> Answer;
    /// [`largest`](crate::largest)
    pub fn zolkirta_largest(
        states: u32,
        transitions: u32,
        model_out: *mut u8,
        model_out_length: usize,
        certificate_out: *mut u8,
        certificate_out_length: usize,
    ) -> PairAnswer;
}
