//! What keeps the tool from judging: each is said on standard error, and the status is 2.

use crate::calls::{Call, CALLS};
use std::ffi::OsStr;
use std::fmt;
use std::io::{self, Write};

pub enum Failure {
    Usage(Usage),
    /// A file, by its name in messages, and what the system says of it.
    File(String, io::Error),
    /// Nobody reads standard output any more: nobody is told.
    ReaderLeft,
}

/// Words that make no call.
pub struct Usage {
    /// The call, where one is named.
    pub call: Option<&'static Call>,
    pub fault: String,
}

impl Failure {
    pub fn say(&self) {
        match self {
            Failure::Usage(usage) => complain(usage),
            Failure::File(name, error) => complain(format_args!("{name}: {error}")),
            Failure::ReaderLeft => {}
        }
    }
}

/// Says a line on standard error. Where that fails too, the status alone is left.
pub fn complain(words: impl fmt::Display) {
    let _ = writeln!(io::stderr(), "zolkirta: {words}");
}

/// Two lines: what is wrong, and how it goes.
impl fmt::Display for Usage {
    fn fmt(&self, out: &mut fmt::Formatter) -> fmt::Result {
        match self.call {
            Some(call) => write!(out, "{}: {}\nusage: {} (more: zolkirta {} --help)", call.name, self.fault, call.usage(), call.name),
            None => {
                let names: Vec<&str> = CALLS.iter().map(|call| call.name).collect();
                write!(out, "{}\nusage: zolkirta CALL ..., a call being {} (more: zolkirta --help)", self.fault, names.join(", "))
            }
        }
    }
}

/// A name as it is shown in messages: as it is where that is one line of text, else quoted with what is no text escaped.
pub fn shown(name: &OsStr) -> String {
    match name.to_str() {
        Some(text) if !text.is_empty() && !text.contains(char::is_control) => text.to_owned(),
        _ => format!("{name:?}"),
    }
}
