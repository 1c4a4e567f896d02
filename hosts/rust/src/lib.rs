//! Judges certificates of weak and of strong bisimulation for probabilistic automata: safe calls of the proved library.
//!
//! A model file holds an automaton, a certificate file the reasons for which of its states are weakly bisimilar. [`judge`] accepts
//! the certificate and names the block of each state, [`reduce`] writes the model with each block merged into one state, [`fetch`]
//! finds the transitions that leave a state. [`sheet`] writes the blocks as text for paper. [`join`] writes two models as one, and
//! [`alike`] says whether a state of the one behaves as a state of the other. [`judge_costs`] judges where each transition has a cost, and
//! [`judge_strong`] by strong bisimulation, where internal steps may not be skipped. [`read_prism`] makes a model of PRISM's transition file.
//! [`rewrite`] and [`rewrite_costs`] take a stored pair whose fractions are not in lowest terms, which every other call refuses, and write it in
//! lowest terms. [`compose`] writes two models that work side by side, and [`hide`] a model with some of its actions made internal. [`largest`]
//! writes a pair with as many flow records as any accepted one has. What is not accepted gets one numbered [`Refusal`], which says itself in the
//! words of [`sentence`]. The tool `zolkirta` makes these calls by file name: `zolkirta --help` tells how.
//!
//! The small pair S of document 01: state 0 moves to state 2 by action 1, state 1 moves to state 0 internally.
//!
//! ```
//! let model = b"PA\x03\x02\0\x02LB\0\0\0\
//!     TR\0\x01\0\x01\x01\x02\0\x01\
//!     TR\x01\0\0\x01\x01\0\0\x01";
//! let certificate = b"CT\0\x02\
//!     PX\0\0\x02\0\0\0\x01\0\0\0\x01\0\0\0\0\0\0\0\x01\0\0\0\x01\0\0\0\x01\0\0\0\x01\0\0\0\x01\0\0\0\x01\
//!     PX\0\x01\x02\0\0\0\x01\0\0\0\x01\0\0\0\0\0\0\0\x01\0\0\0\0\0\0\0\0\
//!     BK\0\0\x01\
//!     FL\0\0\0\x01\0\x02\0\0\x01\0\0\0\x01\x01\0\0\0\0\0\x01\0\x01\x02\x02\0\0\0\x01\
//!     FL\0\0\0\x01\0\0\0\x01\0\0\0\0\0\x01";
//! assert_eq!((model.len(), certificate.len()), (31, 125));
//!
//! let mut buffer = [0; zolkirta::STATES];
//! let blocks = zolkirta::judge(model, certificate, &mut buffer).expect("accepted");
//! assert_eq!(blocks, [0, 0, 1]); // states 0 and 1 are weakly bisimilar
//! ```

use std::fmt;

pub mod raw;

/// The README's Rust is run as a doc test.
#[cfg(doctest)]
#[doc = include_str!("../../../README.md")]
mod readme {}

/// The most states that a model has. A block buffer of this length is always long enough.
pub const STATES: usize = 128;

/// The most transitions that a model has.
pub const TRANSITIONS: usize = 256;

/// The bytes of the longest model. An output buffer of this length is always long enough for [`reduce`], [`join`], [`read_prism`],
/// [`compose`] and [`hide`].
pub const MODEL: usize = 8072;

/// The bytes of the longest sheet. A sheet buffer of this length is always long enough.
pub const SHEET: usize = 9344;

/// A sentence buffer of this length is always long enough.
pub const SENTENCE: usize = 201;

/// How many flow records there are at most: no accepted certificate without costs, weak or strong, for a model of so many states and transitions has
/// more, and the one that [`largest`] writes has as many. This bounds no length of a certificate: a flow record has 10 bytes, 7 for each of up to
/// twice `transitions` less 1 k entries and 6 for each of up to `states` times `states` w entries, and refutations stand before the flows.
pub const fn flows(states: usize, transitions: usize) -> usize {
    transitions.saturating_mul(states.saturating_sub(1))
}

/// The bytes of the model that [`largest`] writes: 2,696 at most.
pub const fn largest_model(states: usize, transitions: usize) -> usize {
    transitions.saturating_mul(10).saturating_add(states).saturating_add(8)
}

/// The bytes of the certificate that [`largest`] writes: 520,326 at most.
pub const fn largest_certificate(states: usize, transitions: usize) -> usize {
    flows(states, transitions).saturating_mul(16).saturating_add(states).saturating_add(6)
}

/// A file that was handed to a call.
#[derive(Clone, Copy, Debug, PartialEq, Eq, Hash)]
#[non_exhaustive]
pub enum File {
    /// The model; of two that are joined or composed, the first.
    Model,
    Certificate,
    /// The second of two models that are joined or composed.
    SecondModel,
    /// The text of PRISM that a model is read from.
    Text,
    /// A file that this crate does not know, by the number that the library gives it.
    Unknown(u32),
}

impl File {
    /// The library's number of the file: 1 model or text, no call taking both, 2 certificate, 3 the second model.
    pub fn number(self) -> u32 {
        match self {
            File::Model | File::Text => 1,
            File::Certificate => 2,
            File::SecondModel => 3,
            File::Unknown(number) => number,
        }
    }
}

/// By how much a price condition or an equation of the certificate is off, so that a solver's writer need not add up its terms.
///
/// The last price condition asks that its left side be below its right one, an equation that the two be equal. So the left side is to
/// be lessened or the right one raised by the remainder, for a price condition by one more; the other way where it is negative.
#[derive(Clone, Copy, Debug, PartialEq, Eq, Hash)]
pub struct Difference {
    /// For 16 the refutation's defender t; for 20 the first v where an equation breaks, those before the move first, in a strong pair t first, for
    /// the equation of D; for 21 the first u.
    pub state: u32,
    /// The left side less the right one: 0 or more for 16, never 0 for 20 and 21.
    pub remainder: i64,
}

/// ```
/// let difference = zolkirta::Difference { state: 3, remainder: -5 };
/// assert_eq!(difference.to_string(), "at state 3 the left side is 5 less than the right");
/// ```
impl fmt::Display for Difference {
    fn fmt(&self, out: &mut fmt::Formatter) -> fmt::Result {
        let (state, size) = (self.state, self.remainder.unsigned_abs());
        match self.remainder {
            0 => write!(out, "at state {state} the sides are equal, and the left must be below"),
            1.. => write!(out, "at state {state} the left side is {size} more than the right"),
            _ => write!(out, "at state {state} the left side is {size} less than the right"),
        }
    }
}

/// Why a call did not accept, which it says as the library's [`sentence`]. A refusal writes no byte of any lent buffer.
///
/// It borrows the file at fault. [`into_owned`](Refusal::into_owned) makes an error of it that outlives the files.
#[derive(Clone, Copy, PartialEq, Eq)]
#[non_exhaustive]
pub struct Refusal<'a> {
    /// 1 to 41.
    pub number: u32,
    /// The file at fault, if one is.
    pub file: Option<File>,
    /// The byte of that file where the record or line at fault begins; for bytes left (9 and 22), the first of them; for 29, the cost; for
    /// 31 where only the head's counts are wrong, the text's length. 0 without a file.
    pub place: usize,
    /// The caller's own bytes of that file from the place to its end. Empty without a file, and for one that this crate does not know.
    pub stretch: &'a [u8],
    /// For 16, 20 and 21, at which state and by how much the condition or equation breaks; none for all other numbers.
    pub difference: Option<Difference>,
}

impl Refusal<'_> {
    /// The same without the stretch, so that it may outlive the files: an error to hand upwards with `?`.
    ///
    /// ```
    /// use zolkirta::Refusal;
    ///
    /// fn blocks(model: &str, certificate: &str) -> Result<Vec<u8>, Box<dyn std::error::Error>> {
    ///     let (model, certificate) = (std::fs::read(model)?, std::fs::read(certificate)?);
    ///     let mut buffer = [0; zolkirta::STATES];
    ///     let blocks = zolkirta::judge(&model, &certificate, &mut buffer).map_err(Refusal::into_owned)?;
    ///     Ok(blocks.to_vec())
    /// }
    /// # let (model, certificate) = ("../../examples/small.model", "../../examples/small.certificate");
    /// assert_eq!(blocks(model, certificate).unwrap(), [0, 0, 1]);
    /// let error = blocks(model, model).unwrap_err();
    /// let said = "a record of the certificate does not begin with the mark that belongs there";
    /// assert_eq!(error.to_string(), format!("Answer 12: {said} (file 2, place 0, state 0, remainder 0)."));
    /// assert_eq!(error.downcast::<zolkirta::OwnedRefusal>().unwrap().number, 12);
    /// ```
    pub fn into_owned(self) -> OwnedRefusal {
        OwnedRefusal { number: self.number, file: self.file, place: self.place, difference: self.difference }
    }
}

/// ```
/// let refusal = zolkirta::fetch(b"PA\x03\x02\0\x02XX", 0).unwrap_err();
/// let said = "a record of the model does not begin with the mark that belongs there";
/// assert_eq!(refusal.to_string(), format!("Answer 2: {said} (file 1, place 6, state 0, remainder 0)."));
/// ```
impl fmt::Display for Refusal<'_> {
    fn fmt(&self, out: &mut fmt::Formatter) -> fmt::Result {
        self.into_owned().fmt(out)
    }
}

/// Says the stretch's length in place of its bytes.
impl fmt::Debug for Refusal<'_> {
    fn fmt(&self, out: &mut fmt::Formatter) -> fmt::Result {
        out.debug_struct("Refusal")
            .field("number", &self.number)
            .field("file", &self.file)
            .field("place", &self.place)
            .field("stretch", &format_args!("{} bytes", self.stretch.len()))
            .field("difference", &self.difference)
            .finish()
    }
}

impl std::error::Error for Refusal<'_> {}

/// A [`Refusal`] that borrows no file: an error that may be kept, sent to another thread and handed upwards.
#[derive(Clone, Copy, Debug, PartialEq, Eq, Hash)]
#[non_exhaustive]
pub struct OwnedRefusal {
    /// As in [`Refusal`].
    pub number: u32,
    /// As in [`Refusal`].
    pub file: Option<File>,
    /// As in [`Refusal`].
    pub place: usize,
    /// As in [`Refusal`].
    pub difference: Option<Difference>,
}

impl fmt::Display for OwnedRefusal {
    fn fmt(&self, out: &mut fmt::Formatter) -> fmt::Result {
        let (state, remainder) = self.difference.map_or((0, 0), |told| (told.state, told.remainder));
        let file = self.file.map_or(0, File::number);
        let mut buffer = [0; SENTENCE];
        out.write_str(sentence(self.number, file, self.place, state, remainder, &mut buffer).expect("a buffer that is long enough"))
    }
}

impl std::error::Error for OwnedRefusal {}

/// A file that is handed to a call, and its bytes.
type Handed<'a> = (File, &'a [u8]);

/// The refusal that an answer to a call with these files tells, or the answer where it tells none.
fn accepted<'a>(answer: raw::Answer, files: &[Handed<'a>]) -> Result<raw::Answer, Refusal<'a>> {
    if answer.number == 0 {
        return Ok(answer);
    }
    let at_fault = files.iter().find(|(file, _)| file.number() == answer.file);
    let (file, stretch) = match (answer.file, at_fault) {
        (0, _) => (None, &[][..]),
        (_, Some((file, bytes))) => (Some(*file), &bytes[answer.place..]),
        (unknown, None) => (Some(File::Unknown(unknown)), &[][..]),
    };
    let told = Difference { state: answer.state, remainder: answer.remainder };
    let difference = matches!(answer.number, 16 | 20 | 21).then_some(told);
    Err(Refusal { number: answer.number, file, place: answer.place, stretch, difference })
}

/// The run of the model's own bytes that holds the transitions that leave `state`, empty where none leave.
///
/// Refusals: 1 to 9 and 34 in the model, and 24 where the model has no such state.
///
/// ```
/// let model = b"PA\x02\x01\0\x01LB\0\0TR\x01\0\0\x01\x01\0\0\x01"; // state 1 moves to state 0
/// assert_eq!(zolkirta::fetch(model, 1).unwrap(), b"TR\x01\0\0\x01\x01\0\0\x01");
/// assert_eq!(zolkirta::fetch(model, 0).unwrap(), b"");
/// assert_eq!(zolkirta::fetch(model, 2).unwrap_err().number, 24);
/// ```
pub fn fetch(model: &[u8], state: u32) -> Result<&[u8], Refusal<'_>> {
    // SAFETY: pointer and length are those of the slice.
    let answer = accepted(unsafe { raw::zolkirta_fetch(model.as_ptr(), model.len(), state) }, &[(File::Model, model)])?;
    Ok(&model[answer.stretch_start..answer.stretch_start + answer.stretch_length])
}

/// Judges a certificate for a model. On acceptance the first bytes of `buffer`, one for each state, are the states' blocks, and they
/// are what is handed back; the buffer's later bytes stay.
///
/// Refusals: 1 to 9 and 34 in the model, 10 where the buffer is shorter than the state count ([`STATES`] is always enough), 11 to 22 in the
/// certificate.
///
/// ```
/// // Two states with one label and no transitions.
/// let (model, certificate) = (b"PA\x02\x01\0\0LB\0\0", b"CT\0\0BK\0\0");
/// let mut buffer = [0xff; zolkirta::STATES];
/// assert_eq!(zolkirta::judge(model, certificate, &mut buffer).unwrap(), [0, 0]);
/// assert_eq!(buffer[2], 0xff);
/// ```
///
/// A refusal says where it is, and hands the rest of the file back from there:
///
/// ```
/// # let model = b"PA\x02\x01\0\0LB\0\0";
/// let certificate = b"CT\0\0BK\0\x01"; // tells two states apart without a refutation
/// let refusal = zolkirta::judge(model, certificate, &mut [0; 2]).unwrap_err();
/// assert_eq!(refusal.number, 18);
/// assert_eq!(refusal.file, Some(zolkirta::File::Certificate));
/// assert_eq!(refusal.place, 4);
/// assert_eq!(refusal.stretch, b"BK\0\x01");
/// assert_eq!(refusal.stretch.as_ptr(), certificate[4..].as_ptr());
/// ```
///
/// Where a flow does not add up, it says at which state and by how much:
///
/// ```
/// let model = b"PA\x02\x01\0\x01LB\0\0TR\0\0\0\x01\x01\x01\0\x01"; // state 0 moves to state 1 internally
/// let certificate = b"CT\0\0BK\0\0FL\0\0\0\x01\0\0\0\x01\x01\x01\0\0\0\x03"; // state 1 stays, but w(1,1) is 3 where D is 1
/// let refusal = zolkirta::judge(model, certificate, &mut [0; 2]).unwrap_err();
/// assert_eq!((refusal.number, refusal.place), (20, 8));
/// assert_eq!(refusal.difference, Some(zolkirta::Difference { state: 1, remainder: -2 }));
/// ```
pub fn judge<'a, 'b>(model: &'a [u8], certificate: &'a [u8], buffer: &'b mut [u8]) -> Result<&'b [u8], Refusal<'a>> {
    lend(raw::zolkirta_judge, [(File::Model, model), (File::Certificate, certificate)], buffer)
}

/// Judges a certificate for a cost model, in which each transition has a cost from 0 to 63: a flow must pay what its challenger costs, that
/// is k times d times cost, added up, equals the challenger's cost times D. On acceptance the first bytes of `buffer`, one for each state,
/// are the states' blocks, and they are what is handed back; the buffer's later bytes stay. Each block lies inside one of the same model
/// without its costs.
///
/// Refusals: 1 to 9, 29 and 34 in the model, 10 where the buffer is shorter than the state count ([`STATES`] is always enough), 11 to 22 and 30
/// in the certificate. No merged model is written for cost pairs: every other call but [`rewrite_costs`] refuses a cost model with 9, where
/// its costs begin.
///
/// The small pair S with costs 5 and 0: behind the transitions stands the record of costs, the certificate begins with `CC`, and each
/// refutation ends with one more price, here 0.
///
/// ```
/// let model = b"PA\x03\x02\0\x02LB\0\0\0\
///     TR\0\x01\0\x01\x01\x02\0\x01\
///     TR\x01\0\0\x01\x01\0\0\x01\
///     CO\x05\0";
/// let certificate = b"CC\0\x02\
///     PX\0\0\x02\0\0\0\x01\0\0\0\x01\0\0\0\0\0\0\0\x01\0\0\0\x01\0\0\0\x01\0\0\0\x01\0\0\0\x01\0\0\0\x01\0\0\0\0\
///     PX\0\x01\x02\0\0\0\x01\0\0\0\x01\0\0\0\0\0\0\0\x01\0\0\0\0\0\0\0\0\0\0\0\0\
///     BK\0\0\x01\
///     FL\0\0\0\x01\0\x02\0\0\x01\0\0\0\x01\x01\0\0\0\0\0\x01\0\x01\x02\x02\0\0\0\x01\
///     FL\0\0\0\x01\0\0\0\x01\0\0\0\0\0\x01";
/// let mut buffer = [0; zolkirta::STATES];
/// assert_eq!(zolkirta::judge_costs(model, certificate, &mut buffer).unwrap(), [0, 0, 1]);
///
/// // Where the internal step costs 1, the first flow pays 6 for a challenger that costs 5.
/// let mut dearer = *model;
/// dearer[34] = 1;
/// let refusal = zolkirta::judge_costs(&dearer, certificate, &mut buffer).unwrap_err();
/// assert_eq!((refusal.number, refusal.place, refusal.difference), (30, 87, None));
///
/// dearer[34] = 64;
/// let refusal = zolkirta::judge_costs(&dearer, certificate, &mut buffer).unwrap_err();
/// assert_eq!((refusal.number, refusal.place), (29, 34)); // at the byte of the cost
/// assert_eq!(zolkirta::fetch(model, 0).unwrap_err().place, 31); // 9: a model without costs would end here
/// ```
pub fn judge_costs<'a, 'b>(model: &'a [u8], certificate: &'a [u8], buffer: &'b mut [u8]) -> Result<&'b [u8], Refusal<'a>> {
    lend(raw::zolkirta_judge_costs, [(File::Model, model), (File::Certificate, certificate)], buffer)
}

/// Judges a certificate for a model by strong bisimulation: internal steps count as every other action does. The defender answers a challenger by
/// its own transitions with the challenger's action alone, each used as often as it likes. On acceptance the first bytes of `buffer`, one for each
/// state, are the states' blocks, and they are what is handed back; the buffer's later bytes stay. Each block lies inside one that [`judge`] gives
/// for the same model.
///
/// Refusals: those of [`judge`]. For 20 the equation of D comes first, with the defender as its state. The certificate begins with `CS`; every other
/// call that takes one refuses it with 12. No merged model is written for strong pairs.
///
/// The small model S, whose states 0 and 1 are weakly bisimilar. State 1 has no transition with action 1 of its own, and so no answer to transition
/// 0: each refutation has one price A, here 0, then B and G for every state.
///
/// ```
/// let model = b"PA\x03\x02\0\x02LB\0\0\0\
///     TR\0\x01\0\x01\x01\x02\0\x01\
///     TR\x01\0\0\x01\x01\0\0\x01";
/// let refuted = |challenger: u8, defender: u8| [&[b'P', b'X', 0, challenger, defender][..], &[0; 4], &[0, 0, 0, 1].repeat(6)].concat();
/// let certificate = [b"CS\0\x03".to_vec(), refuted(0, 1), refuted(0, 2), refuted(1, 2), b"BK\0\x01\x02".to_vec()].concat();
/// assert_eq!(certificate.len(), 108);
/// let mut buffer = [0; zolkirta::STATES];
/// assert_eq!(zolkirta::judge_strong(model, &certificate, &mut buffer).unwrap(), [0, 1, 2]);
/// assert_eq!(zolkirta::judge(model, &certificate, &mut buffer).unwrap_err().number, 12);
///
/// // Two states that each move to themselves internally: staying put is no answer, and all of D is missing.
/// let model = b"PA\x02\x01\0\x02LB\0\0TR\0\0\0\x01\x01\0\0\x01TR\x01\0\0\x01\x01\x01\0\x01";
/// let refusal = zolkirta::judge_strong(model, b"CS\0\0BK\0\0FL\0\0\0\x01\0\0\0\x01\x01\0\0\0\0\x01", &mut buffer).unwrap_err();
/// assert_eq!((refusal.number, refusal.place), (20, 8));
/// assert_eq!(refusal.difference, Some(zolkirta::Difference { state: 1, remainder: 1 }));
/// ```
pub fn judge_strong<'a, 'b>(model: &'a [u8], certificate: &'a [u8], buffer: &'b mut [u8]) -> Result<&'b [u8], Refusal<'a>> {
    lend(raw::zolkirta_judge_strong, [(File::Model, model), (File::Certificate, certificate)], buffer)
}

/// Judges a certificate for a model and writes the merged model: each block is one state. On acceptance the first bytes of `buffer`
/// are the merged model's file, and they are what is handed back; the buffer's later bytes stay. Of the transitions of a block with one
/// action and the same probabilities the first is kept. All are written in lowest terms: weights are added up by block, then divided.
///
/// The merged model may be used for the model: each state behaves as the merged state that has its block's number, and [`alike`] says yes
/// of the two wherever model and merged model are joined and certified.
///
/// Refusals: 1 to 9 and 34 in the model, 11 to 22 in the certificate, and 23 where the certificate is accepted and the buffer is shorter
/// than the file. A buffer as long as the model is always enough, and so is one of [`MODEL`] bytes.
///
/// ```
/// let (model, certificate) = (b"PA\x02\x01\0\0LB\0\0", b"CT\0\0BK\0\0");
/// let mut buffer = vec![0; model.len()];
/// assert_eq!(zolkirta::reduce(model, certificate, &mut buffer).unwrap(), b"PA\x01\x01\0\0LB\0");
/// assert_eq!(zolkirta::reduce(model, certificate, &mut [0; 8]).unwrap_err().number, 23);
/// ```
pub fn reduce<'a, 'b>(model: &'a [u8], certificate: &'a [u8], buffer: &'b mut [u8]) -> Result<&'b [u8], Refusal<'a>> {
    lend(raw::zolkirta_reduce, [(File::Model, model), (File::Certificate, certificate)], buffer)
}

/// Judges a certificate for a model and writes its blocks as a sheet for paper. Each line has 72 characters and a newline: block number in 4
/// columns, its size in 4, and up to 16 of its states in 4 each, all right-aligned; further lines of a block leave the first 8 columns
/// blank. On acceptance the first bytes of `buffer` are the sheet, and its text is handed back; the buffer's later bytes stay.
///
/// Refusals: 1 to 9 and 34 in the model, 11 to 22 in the certificate, and 28 where the certificate is accepted and the buffer is shorter than
/// the sheet ([`SHEET`] bytes are always enough).
///
/// ```
/// // Three states without transitions, of which the second has another label.
/// let (model, certificate) = (b"PA\x03\x01\0\0LB\0\x01\0", b"CT\0\0BK\0\x01\0");
/// let mut buffer = [0; zolkirta::SHEET];
/// let sheet = zolkirta::sheet(model, certificate, &mut buffer).unwrap();
/// let lines: Vec<&str> = sheet.lines().map(str::trim_end).collect();
/// assert_eq!(lines, ["   0   2   0   2", "   1   1   1"]);
/// assert_eq!(sheet.len(), 2 * 73);
/// assert_eq!(zolkirta::sheet(model, certificate, &mut [0; 145]).unwrap_err().number, 28);
/// ```
pub fn sheet<'a, 'b>(model: &'a [u8], certificate: &'a [u8], buffer: &'b mut [u8]) -> Result<&'b str, Refusal<'a>> {
    lend(raw::zolkirta_sheet, [(File::Model, model), (File::Certificate, certificate)], buffer).map(text)
}

/// Writes two models as one: the second's states and transitions follow the first's, its state numbers raised by the first's state
/// count. The first bytes of `buffer` are then the joined model's file, and they are what is handed back; the buffer's later bytes stay.
///
/// Refusals: 1 to 9 and 34 in the first model, then in the second; 25 where the joined model passes a limit; 26 where the buffer is shorter than
/// the file ([`MODEL`] bytes are always enough).
///
/// ```
/// let (first, second) = (b"PA\x01\x01\0\0LB\x05", b"PA\x02\x01\0\x01LB\0\0TR\x01\0\0\x01\x01\0\0\x01");
/// let mut buffer = [0; zolkirta::MODEL];
/// let joined = zolkirta::join(first, second, &mut buffer).unwrap();
/// assert_eq!(joined, b"PA\x03\x01\0\x01LB\x05\0\0TR\x02\0\0\x01\x01\x01\0\x01");
///
/// let refusal = zolkirta::join(first, b"PA\0", &mut buffer).unwrap_err();
/// assert_eq!((refusal.number, refusal.file), (1, Some(zolkirta::File::SecondModel)));
/// ```
pub fn join<'a, 'b>(first: &'a [u8], second: &'a [u8], buffer: &'b mut [u8]) -> Result<&'b [u8], Refusal<'a>> {
    lend(raw::zolkirta_join, [(File::Model, first), (File::SecondModel, second)], buffer)
}

/// Writes the parallel composition of two models, which work side by side: external actions below both action counts are done together, all
/// others by one side alone while the other stands still. State s of `left` with state e of `right` is state s times the right's state
/// count, plus e; label l with label r is l times (one more than the right's highest label), plus r. The first bytes of `buffer` are then
/// the composition's file, and they are what is handed back; the buffer's later bytes stay.
///
/// States of `left` that behave alike do so beside every state of `right`.
///
/// Refusals: 1 to 9 and 34 in the left model, then in the right ([`File::SecondModel`]); 37 where the composition passes a limit; 38 where the
/// buffer is shorter than the file ([`MODEL`] bytes are always enough).
///
/// ```
/// // Both do action 1: a switch that is on one time in two, and a user of it who then rests by an internal step.
/// let left = b"PA\x02\x02\0\x01LB\0\x01TR\0\x01\0\x02\x02\0\0\x01\x01\0\x01";
/// let right = b"PA\x02\x02\0\x02LB\0\0TR\0\x01\0\x01\x01\x01\0\x01TR\x01\0\0\x01\x01\0\0\x01";
/// let mut buffer = [0; zolkirta::MODEL];
/// let composed = zolkirta::compose(left, right, &mut buffer).unwrap();
/// assert_eq!(composed[..12], *b"PA\x04\x02\0\x03LB\0\0\x01\x01"); // (0,0), (0,1), (1,0) and (1,1)
/// assert_eq!(composed[12..25], *b"TR\0\x01\0\x02\x02\x01\0\x01\x03\0\x01"); // together, from (0,0) to (0,1) and (1,1)
/// assert_eq!(composed[25..], *b"TR\x01\0\0\x01\x01\0\0\x01TR\x03\0\0\x01\x01\x02\0\x01"); // the right alone
///
/// let refusal = zolkirta::compose(left, b"PA\0", &mut buffer).unwrap_err();
/// assert_eq!((refusal.number, refusal.file), (1, Some(zolkirta::File::SecondModel)));
/// ```
pub fn compose<'a, 'b>(left: &'a [u8], right: &'a [u8], buffer: &'b mut [u8]) -> Result<&'b [u8], Refusal<'a>> {
    lend(raw::zolkirta_compose, [(File::Model, left), (File::SecondModel, right)], buffer)
}

/// Writes a model with the external actions of a set made internal. `actions` has the set's members, in any order and as often as it likes;
/// members that are 0 or not below the action count change nothing, and the action count stays. The first bytes of `buffer` are then the
/// file, as long as the model's, and they are what is handed back; the buffer's later bytes stay.
///
/// States that behave alike do so with actions hidden.
///
/// Refusals: 1 to 9 and 34 in the model; 38 where the buffer is shorter than the file (as many bytes as the model has are always enough, and so
/// are [`MODEL`]).
///
/// ```
/// let model = b"PA\x01\x03\0\x02LB\0TR\0\x01\0\x01\x01\0\0\x01TR\0\x02\0\x01\x01\0\0\x01"; // actions 1 and 2
/// let mut buffer = [0; zolkirta::MODEL];
/// let hidden = zolkirta::hide(model, &[2, 9], &mut buffer).unwrap();
/// assert_eq!(hidden, b"PA\x01\x03\0\x02LB\0TR\0\x01\0\x01\x01\0\0\x01TR\0\0\0\x01\x01\0\0\x01");
/// assert_eq!(zolkirta::hide(model, &[], &mut [0; 28]).unwrap_err().number, 38);
/// ```
pub fn hide<'a, 'b>(model: &'a [u8], actions: &[u8], buffer: &'b mut [u8]) -> Result<&'b [u8], Refusal<'a>> {
    lend_to(raw::zolkirta_hide, [model, actions], &[(File::Model, model)], buffer)
}

/// Makes a call that lends a buffer, and hands back the part of it that was written.
fn lend<'a, 'b>(call: raw::Lending, files: [Handed<'a>; 2], buffer: &'b mut [u8]) -> Result<&'b [u8], Refusal<'a>> {
    lend_to(call, files.map(|(_, bytes)| bytes), &files, buffer)
}

/// The same for two slices, of which these are files.
fn lend_to<'a, 'b>(
    call: raw::Lending,
    [one, other]: [&[u8]; 2],
    files: &[Handed<'a>],
    buffer: &'b mut [u8],
) -> Result<&'b [u8], Refusal<'a>> {
    // SAFETY: pointers and lengths are those of the slices, and a `&mut` overlaps no other slice.
    let answer = unsafe { call(one.as_ptr(), one.len(), other.as_ptr(), other.len(), buffer.as_mut_ptr(), buffer.len()) };
    Ok(&buffer[..accepted(answer, files)?.written])
}

/// Judges a certificate for a joined model, and says whether a state of the first part behaves as a state of the second: whether the two
/// share a block. `first_count` is the first's state count, and both states go by their numbers in the joined model.
///
/// Refusals: 1 to 9 and 34 in the model, 11 to 22 in the certificate, and 27 where the certificate is accepted, but `first_count` is above the
/// state count or a state is not in its part.
///
/// ```
/// // A state without transitions, joined with two such states of which the second has another label.
/// let (model, certificate) = (b"PA\x03\x01\0\0LB\0\0\x01", b"CT\0\0BK\0\0\x01");
/// assert_eq!(zolkirta::alike(model, 1, certificate, 0, 1), Ok(true));
/// assert_eq!(zolkirta::alike(model, 1, certificate, 0, 2), Ok(false));
/// assert_eq!(zolkirta::alike(model, 1, certificate, 1, 2).unwrap_err().number, 27); // state 1 is not of the first
/// ```
pub fn alike<'a>(
    model: &'a [u8],
    first_count: u32,
    certificate: &'a [u8],
    first_state: u32,
    second_state: u32,
) -> Result<bool, Refusal<'a>> {
    let (m, c) = (model.as_ptr(), certificate.as_ptr());
    // SAFETY: pointers and lengths are those of the slices.
    let said = unsafe { raw::zolkirta_alike(m, model.len(), first_count, c, certificate.len(), first_state, second_state) };
    accepted(said.answer, &[(File::Model, model), (File::Certificate, certificate)])?;
    Ok(said.alike == 1)
}

/// Reads PRISM's transition file of a decision process (`prism model.nm -exporttrans model.tra`), and writes the model: each choice is a
/// transition, in lowest terms. Names become the actions 1, 2, .. by first sight, and a choice without one is internal. All labels are 0:
/// labels and rewards of the PRISM model stand in other files. On acceptance the first bytes of `buffer` are the model's file, and they are
/// what is handed back; the buffer's later bytes stay. The C header says the text's form.
///
/// Refusals, in the text ([`File::Text`]): 31 at a line that breaks the form or a limit, or at the text's end where the head's counts are not
/// the text's, and 32 at the first line of a choice that does not add up to 1. Then 33, where the buffer is shorter than the file ([`MODEL`]
/// bytes are always enough).
///
/// ```
/// // Three states: state 0 sends, which fails one time in four, and is done by itself; state 1 resets.
/// let text = b"3 3 4\n0 0 1 0.75 send\n0 0 2 0.25 send\n0 1 2 1\n1 0 0 1 reset\n";
/// let mut buffer = [0; zolkirta::MODEL];
/// let model = zolkirta::read_prism(text, &mut buffer).unwrap();
/// assert_eq!(model[..11], *b"PA\x03\x03\0\x03LB\0\0\0");
/// assert_eq!(model[11..24], *b"TR\0\x01\0\x04\x02\x01\0\x03\x02\0\x01"); // 3/4 and 1/4, by action 1
/// assert_eq!(model[24..34], *b"TR\0\0\0\x01\x01\x02\0\x01"); // internal
/// assert_eq!(model[34..], *b"TR\x01\x02\0\x01\x01\0\0\x01");
///
/// let refusal = zolkirta::read_prism(b"2 1 1\n0 0 1 0.9\n", &mut buffer).unwrap_err();
/// assert_eq!((refusal.number, refusal.file), (32, Some(zolkirta::File::Text)));
/// assert_eq!(refusal.stretch, b"0 0 1 0.9\n");
/// assert_eq!(zolkirta::read_prism(b"1 0 0\n", &mut [0; 8]).unwrap_err().number, 33);
/// ```
pub fn read_prism<'a, 'b>(text: &'a [u8], buffer: &'b mut [u8]) -> Result<&'b [u8], Refusal<'a>> {
    // SAFETY: pointers and lengths are those of the slices, and a `&mut` overlaps no other slice.
    let answer = unsafe { raw::zolkirta_read_prism(text.as_ptr(), text.len(), buffer.as_mut_ptr(), buffer.len()) };
    Ok(&buffer[..accepted(answer, &[(File::Text, text)])?.written])
}

/// Judges a stored pair by the rules from before lowest terms were asked for, without 34, and writes it in lowest terms: weights and d of each
/// transition are divided by their greatest common divisor, and each k of a flow for that transition is multiplied by it; all else stays. On
/// acceptance the first bytes of each buffer are the rewritten file, as long as the stored one, and they are what is handed back, the model
/// first; later bytes stay. The rewritten pair is accepted, with the same blocks, by [`judge`] and by every other call that takes a weak pair.
///
/// Refusals: 1 to 9 in the model, 11 to 22 in the certificate; then 35 in the certificate, at the first flow in which a k times its
/// transition's divisor is above 4,294,967,295; then 36, where a buffer is shorter than its file.
///
/// ```
/// // State 0 moves to state 1 with 2/2, and state 1 meets that by staying.
/// let (model, certificate) = (b"PA\x02\x01\0\x01LB\0\0TR\0\0\0\x02\x01\x01\0\x02", b"CT\0\0BK\0\0FL\0\0\0\x01\0\0\0\x01\x01\x01\0\0\0\x01");
/// let refusal = zolkirta::judge(model, certificate, &mut [0; 2]).unwrap_err();
/// assert_eq!((refusal.number, refusal.place), (34, 10));
///
/// let (mut pa, mut ct) = (model.to_vec(), certificate.to_vec());
/// let (lowest, same) = zolkirta::rewrite(model, certificate, &mut pa, &mut ct).unwrap();
/// assert_eq!((&lowest[10..], same), (&b"TR\0\0\0\x01\x01\x01\0\x01"[..], &certificate[..])); // no k here
/// assert_eq!(zolkirta::judge(lowest, same, &mut [0; 2]).unwrap(), [0, 0]);
/// ```
pub fn rewrite<'a, 'b>(
    model: &'a [u8],
    certificate: &'a [u8],
    model_buffer: &'b mut [u8],
    certificate_buffer: &'b mut [u8],
) -> Result<(&'b [u8], &'b [u8]), Refusal<'a>> {
    lend_two(raw::zolkirta_rewrite, model, certificate, model_buffer, certificate_buffer)
}

/// The same for a cost pair: judged by the rule with costs, without 34; costs and L stay as well. The rewritten pair is accepted, with the same
/// blocks, by [`judge_costs`].
///
/// Refusals: as of [`rewrite`], with 29 in the model and 30 in the certificate too.
///
/// ```
/// // A state that moves to itself with 3/3, at a cost of 7.
/// let (model, certificate) = (b"PA\x01\x02\0\x01LB\0TR\0\x01\0\x03\x01\0\0\x03CO\x07", b"CC\0\0BK\0");
/// let (mut pa, mut ct) = (model.to_vec(), certificate.to_vec());
/// let (lowest, _) = zolkirta::rewrite_costs(model, certificate, &mut pa, &mut ct).unwrap();
/// assert_eq!(lowest, b"PA\x01\x02\0\x01LB\0TR\0\x01\0\x01\x01\0\0\x01CO\x07");
/// assert_eq!(zolkirta::rewrite_costs(model, certificate, &mut pa, &mut [0; 6]).unwrap_err().number, 36);
/// ```
pub fn rewrite_costs<'a, 'b>(
    model: &'a [u8],
    certificate: &'a [u8],
    model_buffer: &'b mut [u8],
    certificate_buffer: &'b mut [u8],
) -> Result<(&'b [u8], &'b [u8]), Refusal<'a>> {
    lend_two(raw::zolkirta_rewrite_costs, model, certificate, model_buffer, certificate_buffer)
}

/// Makes a call that lends two buffers, and hands back the part of each that was written.
fn lend_two<'a, 'b>(
    call: raw::LendingTwo,
    model: &'a [u8],
    certificate: &'a [u8],
    model_buffer: &'b mut [u8],
    certificate_buffer: &'b mut [u8],
) -> Result<(&'b [u8], &'b [u8]), Refusal<'a>> {
    let (m, c) = (model.as_ptr(), certificate.as_ptr());
    let (m_out, c_out) = (model_buffer.as_mut_ptr(), certificate_buffer.as_mut_ptr());
    // SAFETY: pointers and lengths are those of the slices, and a `&mut` overlaps no other slice.
    let said = unsafe { call(m, model.len(), c, certificate.len(), m_out, model_buffer.len(), c_out, certificate_buffer.len()) };
    written(said, &[(File::Model, model), (File::Certificate, certificate)], model_buffer, certificate_buffer)
}

/// The part of each buffer that a call with these files wrote.
fn written<'a, 'b>(
    said: raw::PairAnswer,
    files: &[Handed<'a>],
    model_buffer: &'b [u8],
    certificate_buffer: &'b [u8],
) -> Result<(&'b [u8], &'b [u8]), Refusal<'a>> {
    let answer = accepted(said.answer, files)?;
    Ok((&model_buffer[..answer.written], &certificate_buffer[..said.certificate_written]))
}

/// Writes a model of so many states and transitions, and for it an accepted certificate with as many flow records as any has, [`flows`]: for
/// hosts that try how large it gets. All labels are 0, and every transition is internal, from state 0 to itself; the certificate has no
/// refutations, one block, and flows of 16 bytes. The first bytes of each buffer are then its file, and they are what is handed back, the model
/// first; later bytes stay.
///
/// Refusals: 40 where `states` is not 1 to [`STATES`] or `transitions` is above [`TRANSITIONS`]; then 41, where a buffer is shorter than its file
/// ([`largest_model`] and [`largest_certificate`] say how long the two are).
///
/// ```
/// let (mut pa, mut ct) = ([0; zolkirta::largest_model(3, 2)], [0; zolkirta::largest_certificate(3, 2)]);
/// let (model, certificate) = zolkirta::largest(3, 2, &mut pa, &mut ct).unwrap();
/// assert_eq!(model[11..], *b"TR\0\0\0\x01\x01\0\0\x01TR\0\0\0\x01\x01\0\0\x01");
/// assert_eq!(certificate[9..25], *b"FL\0\0\0\x01\0\0\0\x01\x01\0\0\0\0\x01"); // the first of zolkirta::flows(3, 2), which are 4
/// assert_eq!(zolkirta::judge(model, certificate, &mut [0; 3]).unwrap(), [0, 0, 0]);
///
/// assert_eq!(zolkirta::largest(129, 2, &mut pa, &mut ct).unwrap_err().number, 40);
/// assert_eq!(zolkirta::largest(3, 3, &mut pa, &mut ct).unwrap_err().number, 41);
/// ```
pub fn largest<'b>(
    states: u32,
    transitions: u32,
    model_buffer: &'b mut [u8],
    certificate_buffer: &'b mut [u8],
) -> Result<(&'b [u8], &'b [u8]), Refusal<'static>> {
    let (m, m_length, c, c_length) =
        (model_buffer.as_mut_ptr(), model_buffer.len(), certificate_buffer.as_mut_ptr(), certificate_buffer.len());
    // SAFETY: pointers and lengths are those of the slices, and a `&mut` overlaps no other slice.
    let said = unsafe { raw::zolkirta_largest(states, transitions, m, m_length, c, c_length) };
    written(said, &[], model_buffer, certificate_buffer)
}

/// Composes the English sentence of an answer, for support staff: its number, what that means, and file, place, state and remainder, all in
/// decimal. Every number has its phrase, and those that no answer has one together. The first bytes of `buffer` are then the sentence, and its
/// text is handed back, in ASCII and without a newline; the buffer's later bytes stay. Answers that differ in any of the five never have the same
/// sentence.
///
/// The values are not tested. Refusal: 39 where the buffer is shorter than the sentence ([`SENTENCE`] bytes are always enough).
///
/// ```
/// let mut buffer = [0; zolkirta::SENTENCE];
/// let said = zolkirta::sentence(20, 2, 79, 1, -2, &mut buffer).unwrap();
/// assert_eq!(said, "Answer 20: what comes to a state in a flow is not what leaves it (file 2, place 79, state 1, remainder -2).");
/// assert_eq!(zolkirta::sentence(20, 2, 79, 1, -2, &mut [0; 105]).unwrap_err().number, 39);
/// ```
pub fn sentence(number: u32, file: u32, place: usize, state: u32, remainder: i64, buffer: &mut [u8]) -> Result<&str, Refusal<'static>> {
    // SAFETY: pointer and length are those of the slice.
    let answer = unsafe { raw::zolkirta_sentence(number, file, place, state, remainder, buffer.as_mut_ptr(), buffer.len()) };
    Ok(text(&buffer[..accepted(answer, &[])?.written]))
}

/// What the library writes for people is ASCII.
fn text(written: &[u8]) -> &str {
    std::str::from_utf8(written).expect("ASCII")
}

#[cfg(test)]
mod tests {
    use super::*;

    const HEADER: &str = include_str!("../../../include/zolkirta.h");

    fn refusal_of(answer: raw::Answer) -> Refusal<'static> {
        let files = [(File::Model, &b"model"[..]), (File::Certificate, b"certificate"), (File::SecondModel, b"second")];
        accepted(answer, &files).unwrap_err()
    }

    fn refusal(number: u32, file: u32, place: usize) -> Refusal<'static> {
        refusal_of(raw::Answer { number, file, place, ..raw::Answer::default() })
    }

    fn off(number: u32, state: u32, remainder: i64) -> Refusal<'static> {
        refusal_of(raw::Answer { number, file: 2, place: 4, state, remainder, ..raw::Answer::default() })
    }

    #[test]
    fn each_file_is_named_by_its_number() {
        let told = [(0, None), (1, Some(File::Model)), (2, Some(File::Certificate)), (3, Some(File::SecondModel))];
        let unknown = [4, 5, u32::MAX].map(|file| (file, Some(File::Unknown(file))));
        for (number, file) in told.into_iter().chain(unknown) {
            assert_eq!(refusal(1, number, 0).file, file);
            assert_eq!(file.map_or(0, File::number), number);
        }
        assert_eq!([refusal(1, 1, 2).stretch, refusal(11, 2, 4).stretch, refusal(1, 3, 3).stretch], [&b"del"[..], b"ificate", b"ond"]);
    }

    #[test]
    fn a_text_is_file_1_of_its_call() {
        let answer = raw::Answer { number: 31, file: 1, place: 6, ..raw::Answer::default() };
        let refusal = accepted(answer, &[(File::Text, b"1 1 1\n0\n")]).unwrap_err();
        assert_eq!((refusal.file, refusal.stretch, File::Text.number()), (Some(File::Text), &b"0\n"[..], 1));
    }

    #[test]
    fn an_unknown_file_has_no_stretch() {
        let refusal = refusal(2, 4, 700);
        assert_eq!((refusal.place, refusal.stretch), (700, &[][..]));
        assert!(refusal.to_string().ends_with(" (file 4, place 700, state 0, remainder 0)."));
    }

    #[test]
    fn a_refusal_is_the_sentence_of_its_answer() {
        let said = |number, file, place, state, remainder| {
            sentence(number, file, place, state, remainder, &mut [0; SENTENCE]).map(str::to_owned)
        };
        for number in (1..=45).chain([u32::MAX]) {
            for file in [0, 1, 2, 3, 4, u32::MAX] {
                assert_eq!(Ok(refusal(number, file, 5).to_string()), said(number, file, 5, 0, 0));
            }
        }
        for (number, state, remainder) in [(16, 2, 0), (16, 127, 7), (20, 0, -1), (21, 3, 5), (20, u32::MAX, i64::MIN), (21, 0, i64::MAX)] {
            let refusal = off(number, state, remainder);
            assert_eq!(Ok(refusal.to_string()), said(number, 2, 4, state, remainder));
            assert_eq!(refusal.into_owned().to_string(), refusal.to_string());
        }
    }

    #[test]
    fn a_difference_says_which_side_is_too_much() {
        let told = [
            (off(20, 3, 5), "at state 3 the left side is 5 more than the right"),
            (off(21, 0, -1), "at state 0 the left side is 1 less than the right"),
            (off(16, 2, 7), "at state 2 the left side is 7 more than the right"),
            (off(16, 2, 0), "at state 2 the sides are equal, and the left must be below"),
            (off(20, 1, i64::MAX), "at state 1 the left side is 9223372036854775807 more than the right"),
            (off(20, u32::MAX, i64::MIN), "at state 4294967295 the left side is 9223372036854775808 less than the right"),
        ];
        for (refusal, words) in told {
            assert_eq!(refusal.difference.unwrap().to_string(), words);
        }
        let debug = "Refusal { number: 20, file: Some(Certificate), place: 4, stretch: 7 bytes, \
                     difference: Some(Difference { state: 63, remainder: -72056769387430080 }) }";
        assert_eq!(format!("{:?}", off(20, 63, -72_056_769_387_430_080)), debug);
    }

    #[test]
    fn only_16_20_and_21_have_a_difference() {
        for number in (1..=45).chain([u32::MAX]) {
            let told = [16, 20, 21].contains(&number).then_some(Difference { state: 5, remainder: 9 });
            assert_eq!(off(number, 5, 9).difference, told, "{number}");
        }
    }

    /// The comment of every number in the C header begins with its phrase; what follows behind a semicolon is more exact.
    #[test]
    fn phrases_are_those_of_the_header() {
        let (_, list) = HEADER.split_once("enum zolkirta_number {").unwrap();
        let (list, _) = list.split_once("};").unwrap();
        let numbers: Vec<&str> = list.split(" = ").skip(1).collect();
        assert_eq!(numbers.len(), 42);
        for (number, said) in (0..).zip(numbers) {
            let (value, comment) = said.split_once(" /* ").unwrap();
            assert_eq!(value.trim_end().trim_end_matches(','), number.to_string());
            let comment = comment.split_once(" */").unwrap().0;
            let phrase = comment.split_once(';').map_or(comment, |(phrase, _)| phrase);
            let expected = format!("Answer {number}: {phrase} (file 0, place 0, state 0, remainder 0).");
            assert_eq!(sentence(number, 0, 0, 0, 0, &mut [0; SENTENCE]).unwrap(), expected);
        }
    }

    #[test]
    fn the_version_is_the_headers() {
        let version = env!("CARGO_PKG_VERSION");
        let number = version.split('.').fold(0, |number, part| 100 * number + part.parse::<u32>().unwrap());
        assert!(HEADER.contains(&format!("#define ZOLKIRTA_VERSION \"{version}\"\n#define ZOLKIRTA_VERSION_NUMBER {number} ")));
    }

    #[test]
    fn limits_are_the_headers() {
        let limits = [("STATES", STATES), ("TRANSITIONS", TRANSITIONS), ("MODEL", MODEL), ("SHEET", SHEET), ("SENTENCE", SENTENCE)];
        for (name, limit) in limits {
            assert!(HEADER.contains(&format!("#define ZOLKIRTA_{name} {limit}\n")), "{name}");
        }
    }
}
