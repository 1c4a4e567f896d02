//! The files that a call reads.

use crate::command::Command;
use crate::failure::{shown, Failure, Usage};
use crate::output::{Identity, Output};
use std::ffi::OsStr;
use std::fs::File;
use std::io::{self, Read};
use std::os::fd::AsFd;

/// Whether the name stands for standard input.
pub fn is_standard(name: &OsStr) -> bool {
    name == "-"
}

pub fn shown_input(name: &OsStr) -> String {
    if is_standard(name) {
        "standard input".to_owned()
    } else {
        shown(name)
    }
}

/// The bytes of all files of a call, in its order. None of them is a file to be written.
pub fn read(command: &Command) -> Result<Vec<Vec<u8>>, Failure> {
    let taken: Vec<Identity> = command.outputs.iter().filter_map(Output::identity).collect();
    command.files.iter().map(|name| read_one(command, name, &taken)).collect()
}

fn read_one(command: &Command, name: &OsStr, taken: &[Identity]) -> Result<Vec<u8>, Failure> {
    let told = |error| Failure::File(shown_input(name), error);
    let mut file = open(name).map_err(told)?;
    if !taken.is_empty() && Identity::of(&file.metadata().map_err(told)?).is_some_and(|own| taken.contains(&own)) {
        let fault = format!("-o names the same file as {}, which would be lost", shown_input(name));
        return Err(Failure::Usage(Usage { call: Some(command.call), fault }));
    }
    let mut bytes = Vec::new();
    file.read_to_end(&mut bytes).map_err(told)?;
    Ok(bytes)
}

fn open(name: &OsStr) -> io::Result<File> {
    if is_standard(name) {
        io::stdin().as_fd().try_clone_to_owned().map(File::from)
    } else {
        File::open(name)
    }
}
