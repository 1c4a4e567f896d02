//! The verdict in words: a line that says it, and what else there is.

use crate::answer::Found;
use crate::automaton::{actions, highest_label, most_flows, states, transitions, Target, Transition};
use crate::input::shown_input;
use crate::prism::Line;
use crate::verdict::{Place, Verdict};
use std::fmt::Write;
use zolkirta::{OwnedRefusal, STATES, TRANSITIONS};

/// The refusals of states that a model does not have: of one to fetch, and of one to compare.
const NO_STATE: u32 = 24;
const NOT_IN_PARTS: u32 = 27;

/// The refusal of a composition that passes a limit, and of counts that do.
const COMPOSED_MODEL: u32 = 37;
const LARGEST_COUNTS: u32 = 40;

/// How many bytes of a record at fault are shown, and of a line.
const SHOWN_BYTES: usize = 16;
const SHOWN_OF_LINE: usize = 60;

pub fn lines(verdict: &Verdict) -> String {
    match &verdict.answer {
        Ok(found) => format!("{}\n{}", first_line(verdict, found), further_lines(verdict, found)),
        Err(refusal) => refused_lines(verdict, refusal),
    }
}

fn first_line(verdict: &Verdict, found: &Found) -> String {
    match found {
        Found::Judged(blocks) | Found::Reduced { blocks, .. } | Found::Sheet { blocks, .. } | Found::Rewritten { blocks, .. } => {
            format!("accepted: {} in {}", counted(blocks.len(), "state"), counted(block_count(blocks), "block"))
        }
        Found::Joined { counts: [first, second], joined } => {
            format!("accepted: {}, {first} of the first model and {second} of the second", counted(states(joined), "state"))
        }
        Found::Composed(model) => {
            let [left, right] = [0, 1].map(|file: usize| states(&verdict.files[file]));
            format!("accepted: {}, {left} of the left model times {right} of the right", counted(states(model), "state"))
        }
        Found::Hidden { made_internal, .. } => {
            format!("accepted: {} made internal", counted(made_internal.values().sum(), "transition"))
        }
        Found::Fetched(run) => {
            let leave = if run.len() == 1 { "leaves" } else { "leave" };
            format!("accepted: {} {leave} state {}", counted(run.len(), "transition"), verdict.command.numbers[0])
        }
        Found::Alike(yes) => {
            let (s, t) = (verdict.command.numbers[0], verdict.command.numbers[1]);
            let (word, behaves) = if *yes { ("yes", "behaves") } else { ("no", "does not behave") };
            format!("{word}: state {s} of {} {behaves} as state {t} of {}", verdict.shown(0), verdict.shown(1))
        }
        Found::Read { names, model } => {
            let [states, transitions] = sizes(model);
            format!("accepted: {states}, {transitions}, {}", counted(names.len(), "named action"))
        }
        Found::Sentence(sentence) => sentence.clone(),
        Found::Largest { model, .. } => {
            let [states, transitions] = sizes(model);
            format!("accepted: {} for {states} and {transitions}", counted(most_flows(model), "flow record"))
        }
    }
}

fn further_lines(verdict: &Verdict, found: &Found) -> String {
    match found {
        Found::Judged(blocks) => block_lines(blocks),
        Found::Fetched(run) => run.iter().map(transition_line).collect(),
        Found::Alike(_) | Found::Sentence(_) => String::new(),
        Found::Reduced { merged: model, .. } | Found::Joined { joined: model, .. } => model_line(verdict, model),
        Found::Composed(model) => composition_lines(&verdict.files[0], &verdict.files[1]) + &model_line(verdict, model),
        Found::Hidden { made_internal, model } => {
            let line = |(action, count): (&u8, &usize)| format!("action {action}: {}\n", counted(*count, "transition"));
            made_internal.iter().map(line).collect::<String>() + &model_line(verdict, model)
        }
        Found::Read { names, model } => {
            let name_lines: String = names.iter().zip(1..).map(|(name, action)| format!("action {action}: {name}\n")).collect();
            name_lines + &model_line(verdict, model)
        }
        Found::Rewritten { model, certificate, .. } | Found::Largest { model, certificate } => {
            model_line(verdict, model) + &written_line(verdict, 1, &counted(certificate.len(), "byte"))
        }
        Found::Sheet { sheet, .. } if verdict.command.outputs.is_empty() => sheet.clone(),
        Found::Sheet { sheet, .. } => {
            written_line(verdict, 0, &format!("{}, {}", counted(sheet.lines().count(), "line"), counted(sheet.len(), "byte")))
        }
    }
}

/// Which number, which label and which moves the states of a composition have.
fn composition_lines(left: &[u8], right: &[u8]) -> String {
    let shared = match actions(left).min(actions(right)) - 1 {
        0 => "none is".to_owned(),
        1 => "1 is".to_owned(),
        last => format!("1 to {last} are"),
    };
    let (count, labels) = (states(right), u32::from(highest_label(right)) + 1);
    format!(
        "states: s of the left with e of the right is s * {count} + e\n\
         labels: l of the left with r of the right is l * {labels} + r\n\
         actions: {shared} done together\n"
    )
}

fn model_line(verdict: &Verdict, model: &[u8]) -> String {
    written_line(verdict, 0, &format!("{}, {}", sizes(model).join(", "), counted(model.len(), "byte")))
}

/// The line of the file that is written first, or second.
fn written_line(verdict: &Verdict, file: usize, sizes: &str) -> String {
    verdict.command.outputs.get(file).map_or(String::new(), |output| format!("written: {}: {sizes}\n", output.shown()))
}

/// Blocks are numbered from 0 without gaps.
fn block_count(blocks: &[u8]) -> usize {
    blocks.iter().max().map_or(0, |last| usize::from(*last) + 1)
}

fn block_lines(blocks: &[u8]) -> String {
    let mut lines = String::new();
    for block in 0..block_count(blocks) {
        let members = blocks.iter().enumerate().filter(|(_, of)| usize::from(**of) == block);
        let members: String = members.map(|(state, _)| format!(" {state}")).collect();
        let _ = writeln!(lines, "block {block}:{members}");
    }
    lines
}

fn transition_line(transition: &Transition) -> String {
    let action = match transition.action {
        0 => "internal".to_owned(),
        action => format!("action {action}"),
    };
    let target = |to: &Target| format!(", to {} with {}/{}", to.state, to.weight, transition.denominator);
    let targets: String = transition.targets.iter().map(target).collect();
    format!("transition {}: {action}{targets}\n", transition.number)
}

/// The library's sentence, then what it does not know: the file's name and bytes, or the models' sizes; and what its remainder means.
fn refused_lines(verdict: &Verdict, refusal: &OwnedRefusal) -> String {
    let more: String = match refusal.number {
        NO_STATE | NOT_IN_PARTS => verdict.models().map(|(name, model)| states_line(&name, model)).collect(),
        COMPOSED_MODEL => verdict.models().map(|(name, model)| sizes_line(&name, model)).collect(),
        LARGEST_COUNTS => format!("a model has 1 to {STATES} states and up to {TRANSITIONS} transitions\n"),
        _ => verdict.place(refusal).map_or(String::new(), stretch_line),
    };
    let off = refusal.difference.map_or(String::new(), |difference| format!("{difference}\n"));
    format!("{refusal}\n{more}{off}")
}

/// The states that a sound model has.
fn states_line(name: &str, model: &[u8]) -> String {
    match states(model) {
        1 => format!("{name} has state 0 alone\n"),
        count => format!("{name} has the states 0 to {}\n", count - 1),
    }
}

/// How many states and transitions a sound model has.
fn sizes(model: &[u8]) -> [String; 2] {
    [counted(states(model), "state"), counted(transitions(model), "transition")]
}

/// How large a sound model is, as far as its head and its labels say.
fn sizes_line(name: &str, model: &[u8]) -> String {
    let [states, transitions] = sizes(model);
    format!("{name} has {states}, {transitions} and labels up to {}\n", highest_label(model))
}

/// The file by its own name, and the line or the bytes from the place on.
fn stretch_line(place: Place) -> String {
    let name = shown_input(place.name);
    match place.line {
        _ if place.stretch.is_empty() => format!("in {name}, which ends there\n"),
        Some(line) => format!("in {name}, {}\n", shown_line(line)),
        None => {
            let bytes: String = place.stretch.iter().take(SHOWN_BYTES).map(|byte| format!(" {byte:02x}")).collect();
            format!("in {name}, from there on:{bytes}{}\n", more_bytes(place.stretch, SHOWN_BYTES))
        }
    }
}

/// A line by its number and its text, in quotes, so that spaces at its end are seen.
fn shown_line(Line { number, bytes, has_newline }: Line) -> String {
    let text = bytes[..bytes.len().min(SHOWN_OF_LINE)].escape_ascii();
    let end = if has_newline { "" } else { ", without a newline" };
    format!("line {number}: \"{text}\"{}{end}", more_bytes(bytes, SHOWN_OF_LINE))
}

/// How many bytes there are beyond those that are shown.
fn more_bytes(bytes: &[u8], shown: usize) -> String {
    match bytes.len() {
        length if length > shown => format!(" and {}", counted(length - shown, "more byte")),
        _ => String::new(),
    }
}

fn counted(count: usize, thing: &str) -> String {
    match count {
        0 => format!("no {thing}s"),
        1 => format!("1 {thing}"),
        _ => format!("{count} {thing}s"),
    }
}
