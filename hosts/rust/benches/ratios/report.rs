//! The figures as markdown.

use crate::{Case, Growth, Times, PASSES};
use std::fmt::Write;
use std::process::Command;

/// Three digits with a unit.
fn shown(nanoseconds: f64) -> String {
    let (number, unit) = match nanoseconds {
        x if x < 1e3 => (x, "ns"),
        x if x < 1e6 => (x / 1e3, "µs"),
        x => (x / 1e6, "ms"),
    };
    let digits = if number < 10.0 { 2 } else { usize::from(number < 100.0) };
    format!("{number:.digits$} {unit}")
}

fn row(out: &mut String, name: &str, times: &Times, last: &str) {
    writeln!(out, "| {name} | {} | {} | {:.2} |{last}", shown(times.library), shown(times.plain), times.ratio()).unwrap();
}

/// The goals that are missed, with the reason where one is known.
fn missed(out: &mut String, cases: &[Case]) {
    let missed: Vec<&Case> = cases.iter().filter(|case| !case.met()).collect();
    if !missed.is_empty() {
        *out += "\nMissed:\n\n";
    }
    for case in missed {
        let reason = if case.reason.is_empty() { "reason not known" } else { case.reason };
        writeln!(out, "- {}: {:.2} for {:.2}; {reason}.", case.name, case.times.ratio(), case.goal).unwrap();
    }
}

/// The library beside a hand-written C judge that was timed elsewhere.
fn beside_c(out: &mut String, cases: &[Case]) {
    *out += "\n## Beside a C judge\n\n| | C judge, measured elsewhere | library, this run |\n|---|---|---|\n";
    for (name, c, case, count) in [
        ("model of 64 states, 256 transitions, 1,024 entries read", "2.2 µs", "model read: ", 1.0),
        ("one refutation of 192 prices", "1.25 µs", "refutation-heavy: judge, 64 states", 2016.0),
        ("one flow with one w entry, 64 states", "8 to 10 ns", "flow-heavy: judge, 64 states", 16_128.0),
    ] {
        let case = cases.iter().find(|other| other.name.starts_with(case)).expect("a case of this name");
        writeln!(out, "| {name} | {c} | {} |", shown(case.times.library / count)).unwrap();
    }
    *out += "\nThe C figures were given as a goal: to be within 1.2 times of them. They come from another machine, so the columns make no\n\
        measured ratio.\n";
}

pub fn tables(cases: &[Case], growths: &[Growth]) -> String {
    let mut out = String::from("| Case | library | plain Rust | ratio | goal | met |\n|---|---|---|---|---|---|\n");
    for case in cases {
        let met = if case.met() { "yes" } else { "no" };
        row(&mut out, case.name, &case.times, &format!(" {:.2} | {met} |", case.goal));
    }
    missed(&mut out, cases);
    beside_c(&mut out, cases);
    out += "\n## Growth with n\n";
    for (name, sizes) in growths {
        write!(out, "\n{name}:\n\n| n | library | plain Rust | ratio |\n|---|---|---|---|\n").unwrap();
        sizes.iter().for_each(|(n, times)| row(&mut out, &n.to_string(), times, ""));
    }
    out
}

fn processor() -> String {
    let text = std::fs::read_to_string("/proc/cpuinfo").unwrap_or_default();
    let name = text.lines().find(|line| line.starts_with("model name")).and_then(|line| line.split(": ").nth(1));
    format!("{}, {} cores", name.unwrap_or("unknown processor"), text.lines().filter(|line| line.starts_with("processor")).count())
}

fn compiler() -> String {
    let told = Command::new("rustc").arg("--version").output().map(|output| String::from_utf8_lossy(&output.stdout).trim().to_string());
    told.unwrap_or("unknown rustc".into())
}

pub fn page(tables: &str) -> String {
    format!(
        "# Benchmarks

The static library beside the same calls written plainly in Rust from the documents (`hosts/rust/tests/plain`), which the tests compare it
with. `cd hosts/rust && cargo bench --offline` prints the tables; `cargo bench --offline -- --write` also writes this page and the picture.

Measured on {}, with {}, bench profile.
Each of {PASSES} passes runs every case for 0.4 seconds and every size of the growth tables for 0.2, in rounds that alternate between the
two. A round is as many calls as take plain Rust about 0.2 ms, at least one. The figure is the least time of a call over all rounds of all
passes. Before they are timed both must answer alike. The library is called through the C interface, with buffers long enough. The random
pairs, and those that are copied, are made by the tests' certificate maker from fixed seeds.

A ratio below 1 means that the library is faster. The goal is to be no slower than plain Rust in any case (1.00), and faster by a third on
refutation-heavy and flow-heavy (0.67).

## Library and plain Rust

{tables}
![Growth with n](growth.svg)
",
        processor(),
        compiler()
    )
}
