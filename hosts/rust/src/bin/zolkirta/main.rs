//! `zolkirta`, the tool: reads, judges, reduces, joins, compares, rewrites and composes models by file name. Its help says how.

mod answer;
mod automaton;
mod calls;
mod command;
mod failure;
mod help;
mod input;
mod json;
mod object;
mod output;
mod prism;
mod text;
mod verdict;

use command::{Asked, Command};
use failure::Failure;
use output::Output;
use std::process::ExitCode;
use verdict::Verdict;

const YES: u8 = 0;
const NO: u8 = 1;
const NOT_JUDGED: u8 = 2;

fn main() -> ExitCode {
    output::outlive_size_limits();
    ExitCode::from(match command::parse(std::env::args_os().skip(1)) {
        Ok(Asked::Help(call)) => printed(&help::text(call)),
        Ok(Asked::Version) => printed(help::VERSION),
        Ok(Asked::Call(command)) => run(&command),
        Err(usage) => failed(Failure::Usage(usage)),
    })
}

fn printed(text: &str) -> u8 {
    output::to_standard_output(text.as_bytes()).map_or_else(failed, |()| YES)
}

fn failed(failure: Failure) -> u8 {
    failure.say();
    NOT_JUDGED
}

fn run(command: &Command) -> u8 {
    match answer(command) {
        Ok(verdict) => {
            if verdict.answer.is_err() {
                say_what_stays(command);
            }
            report(&verdict).map_or_else(failed, |()| if verdict.is_yes() { YES } else { NO })
        }
        Err(failure) => {
            let status = failed(failure);
            say_what_stays(command);
            status
        }
    }
}

/// Reads the files, has the library judge them, and writes the files that an accepted call is for: all of them, or none.
fn answer(command: &Command) -> Result<Verdict<'_>, Failure> {
    let files = input::read(command)?;
    let slices: Vec<&[u8]> = files.iter().map(Vec::as_slice).collect();
    let answer = command.call.answer(&slices, &command.numbers);
    let verdict = Verdict { command, files, answer };
    output::write(command.outputs.iter().zip(verdict.products()))?;
    Ok(verdict)
}

fn say_what_stays(command: &Command) {
    command.outputs.iter().for_each(Output::say_what_stays);
}

/// Says the verdict, on standard error where standard output is for the file.
fn report(verdict: &Verdict) -> Result<(), Failure> {
    let command = verdict.command;
    if command.quiet {
        return Ok(());
    }
    let said = if command.json { object::line(verdict) } else { text::lines(verdict) };
    match command.outputs.iter().any(Output::is_standard) {
        true => output::to_standard_error(said.as_bytes()),
        false => output::to_standard_output(said.as_bytes()),
    }
}
