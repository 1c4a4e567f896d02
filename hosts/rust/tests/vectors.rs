//! The vectors get their answers: by the older limits and terms from the plain judge, by today's from the library and the plain judge.
mod compare;
mod plain;

use compare::{all_lines, lines, of_todays_limits, Both, Held, NAMES};
use std::collections::BTreeMap;

/// How many lines of each file are about the limits from before K7, in the order of the files.
const ABOUT_THE_LIMITS: [usize; 12] = [46, 10, 13, 9, 0, 18, 0, 0, 0, 0, 0, 0];

/// How many of the others 34 refuses now.
const IN_OTHER_TERMS: [usize; 12] = [82, 347, 397, 67, 12, 91, 362, 0, 0, 0, 0, 0];

#[test]
fn lines_get_their_answers() {
    let all = lines();
    all.iter().for_each(|v| v.holds_for(&Both));
    let calls = [
        "fetch", "judge", "reduce", "join", "alike", "sheet", "judge_costs", "read_prism", "rewrite", "rewrite_costs", "compose", "hide", "largest",
        "judge_strong",
    ];
    let counts = calls.map(|call| all.iter().filter(|v| v.call == call).count());
    println!("lines by call: {calls:?} {counts:?}");
    assert_eq!(counts, [304, 1239, 565, 230, 410, 186, 970, 250, 115, 114, 236, 238, 67, 568]);
    assert!([16, 20, 21].iter().all(|&number| all.iter().any(|v| v.number() == number && v.said.0.remainder != 0)));
}

/// These get what the library and the plain judge agree on, and by the older limits their own answers: see twin.rs.
#[test]
fn lines_about_the_older_limits_are_few() {
    let about: Vec<_> = all_lines().into_iter().filter(|v| v.about_the_limits()).collect();
    let mut told: BTreeMap<_, u32> = BTreeMap::new();
    for v in &about {
        *told.entry((v.name, v.number(), v.said_by(&Both).0.number)).or_default() += 1;
    }
    println!("file, number by the older limits, number today: lines\n{told:?}");
    assert_eq!(NAMES.map(|name| about.iter().filter(|v| v.name == name).count()), ABOUT_THE_LIMITS);
}

/// Every line from before K10, also one that 34 refuses now, is held to the reading without 34: its pair is rewritten and judged then, or the
/// rewriting refuses it as the line says; models without a certificate are put into lowest terms here.
#[test]
fn older_lines_are_held_through_the_rewriting() {
    let older: Vec<_> = of_todays_limits().filter(|v| v.before_k10()).collect();
    let mut held: BTreeMap<_, u32> = BTreeMap::new();
    for v in &older {
        let in_other_terms = v.in_other_terms();
        if in_other_terms {
            assert_eq!(v.said_by(&Both).0.number, 34);
        }
        *held.entry((v.held_by(&Both), in_other_terms)).or_default() += 1;
    }
    println!("how a line is held, whether 34 refuses it: lines\n{held:?}");
    assert_eq!(NAMES.map(|name| older.iter().filter(|v| v.name == name && v.in_other_terms()).count()), IN_OTHER_TERMS);
    // The last one has a k that does not fit once it is rewritten.
    let expected = [
        ((Held::Rewritten, false), 736),
        ((Held::Rewritten, true), 579),
        ((Held::Refused, false), 1512),
        ((Held::Refused, true), 587),
        ((Held::InLowestTerms, false), 264),
        ((Held::InLowestTerms, true), 191),
        ((Held::Untold(35), true), 1),
    ];
    assert_eq!(held, expected.into());
}
