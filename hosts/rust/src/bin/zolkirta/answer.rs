//! What the library answers to each call.

use crate::automaton::{decoded, states, transitions_of, Transition};
use crate::prism;
use std::collections::BTreeMap;
use zolkirta::{largest_certificate, largest_model, OwnedRefusal, Refusal, MODEL, SENTENCE, SHEET, STATES, TRANSITIONS};

/// What an accepted call found.
pub enum Found {
    /// The block of each state.
    Judged(Vec<u8>),
    Reduced {
        blocks: Vec<u8>,
        merged: Vec<u8>,
    },
    Sheet {
        blocks: Vec<u8>,
        sheet: String,
    },
    /// Two models as one, with the state count of each.
    Joined {
        counts: [usize; 2],
        joined: Vec<u8>,
    },
    Fetched(Vec<Transition>),
    Alike(bool),
    /// A pair in lowest terms.
    Rewritten {
        blocks: Vec<u8>,
        model: Vec<u8>,
        certificate: Vec<u8>,
    },
    /// Two models side by side.
    Composed(Vec<u8>),
    /// A model with actions hidden, with how many transitions of each of them were made internal.
    Hidden {
        made_internal: BTreeMap<u8, usize>,
        model: Vec<u8>,
    },
    /// The model of a text, with the names of its actions from 1 on.
    Read {
        names: Vec<String>,
        model: Vec<u8>,
    },
    /// The sentence of an answer.
    Sentence(String),
    /// A pair with the most flow records.
    Largest {
        model: Vec<u8>,
        certificate: Vec<u8>,
    },
}

pub type Answer = Result<Found, OwnedRefusal>;

/// A call of the library that lends a buffer.
type Lending = for<'a, 'b> fn(&'a [u8], &'a [u8], &'b mut [u8]) -> Result<&'b [u8], Refusal<'a>>;

fn owned(written: Result<&[u8], Refusal>) -> Result<Vec<u8>, OwnedRefusal> {
    written.map(<[u8]>::to_vec).map_err(Refusal::into_owned)
}

/// What a call writes into a buffer of so many bytes.
fn lent(call: Lending, files: &[&[u8]], most: usize) -> Result<Vec<u8>, OwnedRefusal> {
    owned(call(files[0], files[1], &mut vec![0; most]))
}

/// A call of the library that lends a buffer for each of two files.
type LendingTwo =
    for<'a, 'b> fn(&'a [u8], &'a [u8], &'b mut [u8], &'b mut [u8]) -> Result<(&'b [u8], &'b [u8]), Refusal<'a>>;

/// What a call rewrites a pair to, and the blocks that judging that gives.
fn rewritten(call: LendingTwo, judge: Lending, files: &[&[u8]]) -> Answer {
    let [mut model, mut certificate] = [0, 1].map(|file: usize| vec![0; files[file].len()]);
    call(files[0], files[1], &mut model, &mut certificate).map_err(Refusal::into_owned)?;
    Ok(Found::Rewritten { blocks: lent(judge, &[&model, &certificate], STATES)?, model, certificate })
}

/// The block of each state.
fn blocks(files: &[&[u8]]) -> Result<Vec<u8>, OwnedRefusal> {
    lent(zolkirta::judge, files, STATES)
}

pub fn judge(files: &[&[u8]], _: &[i128]) -> Answer {
    blocks(files).map(Found::Judged)
}

pub fn judge_costs(files: &[&[u8]], _: &[i128]) -> Answer {
    lent(zolkirta::judge_costs, files, STATES).map(Found::Judged)
}

pub fn judge_strong(files: &[&[u8]], _: &[i128]) -> Answer {
    lent(zolkirta::judge_strong, files, STATES).map(Found::Judged)
}

/// Judges twice: the library hands back either the blocks or the merged model.
pub fn reduce(files: &[&[u8]], _: &[i128]) -> Answer {
    let merged = lent(zolkirta::reduce, files, MODEL)?;
    Ok(Found::Reduced { blocks: blocks(files)?, merged })
}

/// Judges twice, as `reduce` does.
pub fn sheet(files: &[&[u8]], _: &[i128]) -> Answer {
    let mut buffer = [0; SHEET];
    let sheet = zolkirta::sheet(files[0], files[1], &mut buffer).map_err(Refusal::into_owned)?.to_owned();
    Ok(Found::Sheet { blocks: blocks(files)?, sheet })
}

pub fn join(files: &[&[u8]], _: &[i128]) -> Answer {
    let joined = lent(zolkirta::join, files, MODEL)?;
    Ok(Found::Joined { counts: [states(files[0]), states(files[1])], joined })
}

/// A number above 32 bits is the largest of them, which is no state and no count of any model either.
fn in_32_bits(asked: i128) -> u32 {
    asked.try_into().unwrap_or(u32::MAX)
}

pub fn fetch(files: &[&[u8]], asked: &[i128]) -> Answer {
    let (model, state) = (files[0], in_32_bits(asked[0]));
    let run = |state| zolkirta::fetch(model, state).map_err(Refusal::into_owned);
    let asked_for = run(state)?;
    let mut before = 0;
    for lower in 0..state {
        before += decoded(run(lower)?, 0).len();
    }
    Ok(Found::Fetched(decoded(asked_for, before)))
}

pub fn alike(files: &[&[u8]], asked: &[i128]) -> Answer {
    let (certificate, s, t) = (files[2], in_32_bits(asked[0]), in_32_bits(asked[1]));
    let joined = lent(zolkirta::join, files, MODEL)?;
    let first_count = states(files[0]) as u32;
    // A number that would pass 32 bits stays the largest of them, which is no state of any model.
    let alike = zolkirta::alike(&joined, first_count, certificate, s, first_count.saturating_add(t));
    alike.map(Found::Alike).map_err(Refusal::into_owned)
}

pub fn read_prism(files: &[&[u8]], _: &[i128]) -> Answer {
    let model = owned(zolkirta::read_prism(files[0], &mut [0; MODEL]))?;
    Ok(Found::Read { names: prism::names(files[0]), model })
}

pub fn rewrite(files: &[&[u8]], _: &[i128]) -> Answer {
    rewritten(zolkirta::rewrite, zolkirta::judge, files)
}

pub fn rewrite_costs(files: &[&[u8]], _: &[i128]) -> Answer {
    rewritten(zolkirta::rewrite_costs, zolkirta::judge_costs, files)
}

pub fn compose(files: &[&[u8]], _: &[i128]) -> Answer {
    lent(zolkirta::compose, files, MODEL).map(Found::Composed)
}

pub fn hide(files: &[&[u8]], asked: &[i128]) -> Answer {
    let actions: Vec<u8> = asked.iter().map(|&action| action as u8).collect();
    let model = owned(zolkirta::hide(files[0], &actions, &mut [0; MODEL]))?;
    let all = transitions_of(files[0]);
    let made_internal = |action: u8| all.iter().filter(|transition| action > 0 && transition.action == action).count();
    Ok(Found::Hidden { made_internal: actions.iter().map(|&action| (action, made_internal(action))).collect(), model })
}

/// Of numbers that are each of their width.
pub fn sentence(_: &[&[u8]], told: &[i128]) -> Answer {
    let (number, file, state) = (told[0] as u32, told[1] as u32, told[3] as u32);
    let said = zolkirta::sentence(number, file, told[2] as usize, state, told[4] as i64, &mut [0; SENTENCE]).map(str::to_owned);
    said.map(Found::Sentence).map_err(Refusal::into_owned)
}

pub fn largest(_: &[&[u8]], asked: &[i128]) -> Answer {
    let [mut pa, mut ct] = [largest_model, largest_certificate].map(|bytes| vec![0; bytes(STATES, TRANSITIONS)]);
    let written = zolkirta::largest(in_32_bits(asked[0]), in_32_bits(asked[1]), &mut pa, &mut ct);
    let (model, certificate) = written.map_err(Refusal::into_owned)?;
    Ok(Found::Largest { model: model.to_vec(), certificate: certificate.to_vec() })
}
