//! The words of the command line: options in any place, a call, its files and its numbers.

use crate::calls::{Call, Number, Numbers, Writes, CALLS};
use crate::failure::{shown, Usage};
use crate::input;
use crate::output::Output;
use std::ffi::{OsStr, OsString};
use std::os::unix::ffi::OsStrExt;

pub enum Asked {
    Call(Command),
    Help(Option<&'static Call>),
    Version,
}

pub struct Command {
    pub call: &'static Call,
    /// The names of its files, in its order.
    pub files: Vec<OsString>,
    /// Its states, actions or counts, or what an answer tells.
    pub numbers: Vec<i128>,
    /// The files that it writes, as many as are named.
    pub outputs: Vec<Output>,
    pub json: bool,
    pub quiet: bool,
}

pub fn parse(words: impl Iterator<Item = OsString>) -> Result<Asked, Usage> {
    let given = Given::sorted(words);
    let call = given.words.first().map(|name| (name, call_of(name)));
    let known = call.and_then(|(_, call)| call);
    let usage = |fault| Usage { call: known, fault };
    if let Some(fault) = given.fault {
        return Err(usage(fault));
    }
    match call {
        Some((name, None)) => Err(usage(format!("there is no call {}", shown(name)))),
        _ if given.version => Ok(Asked::Version),
        _ if given.help => Ok(Asked::Help(known)),
        None => Err(usage("no call is named".to_owned())),
        Some((_, Some(call))) => Command::new(call, given).map(Asked::Call).map_err(usage),
    }
}

/// The command line with its options sorted out.
#[derive(Default)]
struct Given {
    /// The call and what it takes.
    words: Vec<OsString>,
    outputs: Vec<OsString>,
    json: bool,
    quiet: bool,
    help: bool,
    version: bool,
    /// The first thing that is wrong with the options.
    fault: Option<String>,
}

impl Given {
    fn sorted(mut rest: impl Iterator<Item = OsString>) -> Given {
        let mut given = Given::default();
        while let Some(word) = rest.next() {
            match word.as_bytes() {
                b"--" => given.words.extend(rest.by_ref()),
                b"--json" => given.json = true,
                b"--quiet" | b"-q" => given.quiet = true,
                b"--help" | b"-h" => given.help = true,
                b"--version" | b"-V" => given.version = true,
                // An option after -o is more likely a name forgotten than a name.
                b"-o" | b"--output" => given.set_outputs(None, &mut rest),
                [b'-', b'o', name @ ..] => given.set_outputs(Some(OsStr::from_bytes(name).to_owned()), &mut rest),
                bytes => match bytes.strip_prefix(b"--output=") {
                    Some(name) => given.set_outputs(Some(OsStr::from_bytes(name).to_owned()), &mut rest),
                    None if is_option(&word) && !given.takes_below_0(&word) => given.fail(format!("there is no option {}", shown(&word))),
                    None => given.words.push(word),
                },
            }
        }
        given
    }

    /// The call, where it is named already.
    fn call(&self) -> Option<&'static Call> {
        self.words.first().and_then(|name| call_of(name))
    }

    /// Whether a word that looks like an option is a number below 0, for a call that takes one.
    fn takes_below_0(&self, word: &OsStr) -> bool {
        let takes = |call: &Call| call.numbers.kinds().iter().any(|number| *number.range.start() < 0);
        self.call().is_some_and(takes) && decimal(word).is_some()
    }

    /// Takes the name that stands with -o, and as many more as the call writes files, where it is named already.
    fn set_outputs(&mut self, first: Option<OsString>, rest: &mut impl Iterator<Item = OsString>) {
        let count = self.call().map_or(1, |call| call.writes.words().len().max(1));
        let more = count - usize::from(first.is_some());
        let names: Vec<OsString> = first.into_iter().chain(rest.by_ref().take(more).take_while(|name| !is_option(name))).collect();
        if names.len() < count || names.iter().any(|name| name.is_empty()) {
            self.fail(if count == 1 { "-o needs the name of a file" } else { "-o needs the names of two files" }.to_owned());
        } else if !self.outputs.is_empty() {
            self.fail("-o stands twice".to_owned());
        }
        self.outputs = names;
    }

    fn fail(&mut self, fault: String) {
        self.fault.get_or_insert(fault);
    }
}

fn is_option(word: &OsStr) -> bool {
    word.len() > 1 && word.as_bytes()[0] == b'-'
}

impl Command {
    fn new(call: &'static Call, given: Given) -> Result<Command, String> {
        let mut words = given.words.into_iter().skip(1);
        let files = names(call, &mut words)?;
        let numbers = numbers(call, &mut words)?;
        if let Some(word) = words.next() {
            return Err(format!("{} is one word too many", shown(&word)));
        }
        let outputs: Vec<Output> = given.outputs.into_iter().map(Output::new).collect();
        match (&call.writes, &outputs[..]) {
            (Writes::Never, [_, ..]) => Err("it writes no file, and takes no -o".to_owned()),
            (Writes::Always | Writes::Pair, []) => Err(format!("-o {} is missing", call.writes.words().join(" "))),
            (Writes::Pair, [_]) => Err("-o with its two names must stand behind the call".to_owned()),
            (_, [one, other]) if one.same_as(other) => Err(format!("-o names {} twice", one.shown())),
            _ => Ok(Command { call, files, numbers, outputs, json: given.json, quiet: given.quiet }),
        }
    }
}

fn call_of(name: &OsStr) -> Option<&'static Call> {
    CALLS.iter().find(|call| name == call.name)
}

/// The names of the call's files, of which one may be standard input.
fn names(call: &Call, words: &mut impl Iterator<Item = OsString>) -> Result<Vec<OsString>, String> {
    let names: Vec<OsString> = call.files.iter().map(|role| next(words, role.word)).collect::<Result<_, _>>()?;
    match names.iter().filter(|name| input::is_standard(name)).count() {
        0 | 1 => Ok(names),
        _ => Err("- is standard input, and there is only one".to_owned()),
    }
}

/// The call's numbers, or all that are left where it takes as many as are named.
fn numbers(call: &Call, words: &mut impl Iterator<Item = OsString>) -> Result<Vec<i128>, String> {
    let read = |word: OsString, number: &Number| {
        decimal(&word).filter(|value| number.range.contains(value)).ok_or_else(|| format!("{} is no {}", shown(&word), number.said))
    };
    match call.numbers {
        Numbers::Each(all) => all.iter().map(|number| next(words, number.word).and_then(|word| read(word, number))).collect(),
        Numbers::Any(number) => words.map(|word| read(word, number)).collect(),
    }
}

fn next(words: &mut impl Iterator<Item = OsString>, name: &str) -> Result<OsString, String> {
    words.next().ok_or_else(|| format!("{name} is missing"))
}

/// A decimal number, of any length: one beyond all ranges is the last of its side.
fn decimal(word: &OsStr) -> Option<i128> {
    let text = word.to_str()?;
    let (digits, beyond) = text.strip_prefix('-').map_or((text, i128::MAX), |digits| (digits, i128::MIN));
    let is_number = !digits.is_empty() && digits.bytes().all(|byte| byte.is_ascii_digit());
    is_number.then(|| text.parse().unwrap_or(beyond))
}
