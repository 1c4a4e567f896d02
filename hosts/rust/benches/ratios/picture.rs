//! The growth with n as a drawing: a panel for each table, a curve for the library and one for plain Rust.

use crate::{Growth, Times};
use std::fmt::Write;

/// The inner part of a panel, in pixels.
const WIDTH: f64 = 320.0;
const HEIGHT: f64 = 220.0;

/// The right end of a panel.
const STATES: f64 = zolkirta::STATES as f64;

const LIBRARY: &str = "#0b6e4f";
const PLAIN: &str = "#c2410c";

/// A round step with at most five ticks up to the highest value.
fn step(highest: f64) -> f64 {
    let power = 10f64.powf((highest / 5.0).log10().floor());
    [1.0, 2.0, 5.0, 10.0].map(|times| times * power).into_iter().find(|step| highest / step <= 5.0).unwrap()
}

fn text(out: &mut String, x: f64, y: f64, anchor: &str, words: &str) {
    writeln!(out, "<text x=\"{x:.0}\" y=\"{y:.0}\" text-anchor=\"{anchor}\">{words}</text>").unwrap();
}

fn line(out: &mut String, (x, y): (f64, f64), (to_x, to_y): (f64, f64), color: &str) {
    writeln!(out, "<path d=\"M{x:.1} {y:.1}L{to_x:.1} {to_y:.1}\" stroke=\"{color}\"/>").unwrap();
}

fn curve(out: &mut String, points: &[(f64, f64)], color: &str) {
    let path: Vec<String> = points.iter().map(|(x, y)| format!("{x:.1},{y:.1}")).collect();
    writeln!(out, "<polyline points=\"{}\" fill=\"none\" stroke=\"{color}\" stroke-width=\"2\"/>", path.join(" ")).unwrap();
    for (x, y) in points {
        writeln!(out, "<circle cx=\"{x:.1}\" cy=\"{y:.1}\" r=\"3\" fill=\"{color}\"/>").unwrap();
    }
}

/// A panel whose inner part begins at `left` and `top`. Times are in microseconds.
fn panel(out: &mut String, (left, top): (f64, f64), (name, growth): &Growth) {
    let highest = growth.iter().map(|(_, times)| times.plain.max(times.library) / 1e3).fold(0.0, f64::max);
    let step = step(highest);
    let top_value = (highest / step).ceil() * step;
    let at = |n: f64, microseconds: f64| (left + n / STATES * WIDTH, top + HEIGHT * (1.0 - microseconds / top_value));
    text(out, left + WIDTH / 2.0, top - 30.0, "middle", name);
    text(out, left + WIDTH / 2.0, top - 14.0, "middle", "microseconds by number of states n");
    for tick in 0..=(top_value / step).round() as u32 {
        let value = f64::from(tick) * step;
        let (x, y) = at(0.0, value);
        line(out, (x, y), (x + WIDTH, y), "#d4d4d4");
        text(out, x - 8.0, y + 4.0, "end", &value.to_string());
    }
    for &(n, _) in growth {
        let (x, y) = at(n as f64, 0.0);
        line(out, (x, y), (x, y + 5.0), "#404040");
        if n % 16 == 0 {
            text(out, x, y + 19.0, "middle", &n.to_string());
        }
    }
    line(out, at(0.0, 0.0), at(STATES, 0.0), "#404040");
    line(out, at(0.0, 0.0), at(0.0, top_value), "#404040");
    let points = |of: fn(&Times) -> f64| -> Vec<(f64, f64)> { growth.iter().map(|(n, times)| at(*n as f64, of(times) / 1e3)).collect() };
    curve(out, &points(|times| times.plain), PLAIN);
    curve(out, &points(|times| times.library), LIBRARY);
    for (i, (words, color)) in (0..).zip([("plain Rust", PLAIN), ("library", LIBRARY)]) {
        let y = top + 16.0 + 20.0 * f64::from(i);
        curve(out, &[(left + 16.0, y), (left + 44.0, y)], color);
        text(out, left + 54.0, y + 4.0, "start", words);
    }
}

/// How many panels stand side by side.
const COLUMNS: usize = 2;

/// The background is the picture's own, so that it can be read on a white and on a dark page.
pub fn drawn(growths: &[Growth]) -> String {
    let (across, down) = (WIDTH + 80.0, HEIGHT + 96.0);
    let (width, height) = (across * COLUMNS as f64, down * growths.len().div_ceil(COLUMNS) as f64);
    let mut out = format!(
        "<svg xmlns=\"http://www.w3.org/2000/svg\" viewBox=\"0 0 {width} {height}\" width=\"{width}\" height=\"{height}\" \
         font-family=\"sans-serif\" font-size=\"12\" fill=\"#202020\">\n\
         <title>Time of a call by number of states, library and plain Rust</title>\n\
         <rect width=\"{width}\" height=\"{height}\" rx=\"8\" fill=\"#ffffff\" stroke=\"#d4d4d4\"/>\n"
    );
    for (i, growth) in growths.iter().enumerate() {
        let (column, row) = (i % COLUMNS, i / COLUMNS);
        panel(&mut out, (60.0 + across * column as f64, 60.0 + down * row as f64), growth);
    }
    out + "</svg>\n"
}
