//! The verdict as one JSON object on one line. Every field is there always, null where it does not apply.

use crate::answer::Found;
use crate::automaton::{most_flows, states, transitions, Target, Transition};
use crate::json::Value;
use crate::verdict::Verdict;

pub fn line(verdict: &Verdict) -> String {
    format!("{}\n", object(verdict))
}

fn object(verdict: &Verdict) -> Value {
    let (found, refusal) = (verdict.answer.as_ref().ok(), verdict.answer.as_ref().err());
    let file = refusal.and_then(|refusal| refusal.file);
    let name = refusal.and_then(|refusal| verdict.place(refusal)).map(|place| place.name.as_os_str());
    let difference = refusal.and_then(|refusal| refusal.difference);
    let mut written = verdict.command.outputs.iter().zip(verdict.products());
    let (product, certificate) = (written.next(), written.next());
    let model = product.map(|(_, bytes)| bytes).filter(|_| !matches!(found, Some(Found::Sheet { .. })));
    Value::Object(vec![
        ("call", verdict.command.call.name.into()),
        ("number", refusal.map_or(0, |refusal| refusal.number).into()),
        ("sentence", sentence(verdict).as_str().into()),
        ("file", file.map(|file| file.number()).into()),
        ("name", name.into()),
        ("place", refusal.filter(|_| file.is_some()).map(|refusal| refusal.place).into()),
        ("state", difference.map(|difference| difference.state).into()),
        ("remainder", difference.map(|difference| difference.remainder).into()),
        ("blocks", found.and_then(blocks).into()),
        ("written", product.map(|(_, bytes)| bytes.len()).into()),
        ("output", product.map(|(output, _)| output.name()).into()),
        ("states", model.map(states).into()),
        ("transitions", model.map(transitions).into()),
        ("names", found.and_then(names).into()),
        ("sheet", found.filter(|_| product.is_none()).and_then(sheet).into()),
        ("run", found.and_then(run).into()),
        ("alike", found.and_then(alike).into()),
        ("certificate_written", certificate.map(|(_, bytes)| bytes.len()).into()),
        ("certificate_output", certificate.map(|(output, _)| output.name()).into()),
        ("right_states", found.and_then(|found| right_states(found, &verdict.files)).into()),
        ("made_internal", found.and_then(made_internal).into()),
        ("flows", found.and_then(flows).into()),
    ])
}

/// That of the answer, or the one that was asked for.
fn sentence(verdict: &Verdict) -> String {
    match &verdict.answer {
        Ok(Found::Sentence(asked_for)) => asked_for.clone(),
        Ok(_) => zolkirta::sentence(0, 0, 0, 0, 0, &mut [0; zolkirta::SENTENCE]).expect("a buffer that is long enough").to_owned(),
        Err(refusal) => refusal.to_string(),
    }
}

fn blocks(found: &Found) -> Option<Value> {
    match found {
        Found::Judged(blocks) | Found::Reduced { blocks, .. } | Found::Sheet { blocks, .. } | Found::Rewritten { blocks, .. } => {
            Some(Value::list(blocks.iter().copied()))
        }
        _ => None,
    }
}

fn names(found: &Found) -> Option<Value> {
    match found {
        Found::Read { names, .. } => Some(Value::list(names.iter().map(String::as_str))),
        _ => None,
    }
}

fn sheet(found: &Found) -> Option<&str> {
    match found {
        Found::Sheet { sheet, .. } => Some(sheet),
        _ => None,
    }
}

fn run(found: &Found) -> Option<Value> {
    match found {
        Found::Fetched(run) => Some(Value::list(run)),
        _ => None,
    }
}

fn right_states(found: &Found, files: &[Vec<u8>]) -> Option<usize> {
    match found {
        Found::Composed(_) => Some(states(&files[1])),
        _ => None,
    }
}

fn made_internal(found: &Found) -> Option<usize> {
    match found {
        Found::Hidden { made_internal, .. } => Some(made_internal.values().sum()),
        _ => None,
    }
}

fn flows(found: &Found) -> Option<usize> {
    match found {
        Found::Largest { model, .. } => Some(most_flows(model)),
        _ => None,
    }
}

fn alike(found: &Found) -> Option<bool> {
    match found {
        Found::Alike(yes) => Some(*yes),
        _ => None,
    }
}

impl From<&Transition> for Value {
    fn from(transition: &Transition) -> Value {
        Value::Object(vec![
            ("number", transition.number.into()),
            ("source", transition.source.into()),
            ("action", transition.action.into()),
            ("denominator", transition.denominator.into()),
            ("targets", Value::list(&transition.targets)),
        ])
    }
}

impl From<&Target> for Value {
    fn from(target: &Target) -> Value {
        Value::Object(vec![("state", target.state.into()), ("weight", target.weight.into())])
    }
}
