//! The tool as people and scripts call it: what it says of each call, in words and in JSON, and with which status.
mod program;

use program::{refused, refused_at, Folder, ACCEPTED, MISSING};
use std::fs;

#[test]
fn each_call_accepts() {
    let folder = Folder::new("accepts");
    let said = |words: &str, lines: &str| folder.run(words).is(0, lines, "");
    said("judge small.model small.certificate", "accepted: 3 states in 2 blocks\nblock 0: 0 1\nblock 1: 2\n");
    said("judge-costs costs.model costs.certificate", "accepted: 3 states in 2 blocks\nblock 0: 0 2\nblock 1: 1\n");
    said("judge-strong small.model strong.certificate", "accepted: 3 states in 3 blocks\nblock 0: 0\nblock 1: 1\nblock 2: 2\n");
    said(
        "reduce repeats.model repeats.certificate -o out",
        "accepted: 5 states in 3 blocks\nwritten: out: 3 states, 4 transitions, 54 bytes\n",
    );
    assert_eq!(folder.read("out"), folder.read("repeats.merged"));
    said(
        "reduce small.model small.certificate -o out",
        "accepted: 3 states in 2 blocks\nwritten: out: 2 states, 2 transitions, 30 bytes\n",
    );
    assert_eq!(folder.read("out"), folder.read("small.merged"));
    let sheet = String::from_utf8(folder.read("small.sheet")).unwrap();
    said("sheet small.model small.certificate", &format!("{ACCEPTED}\n{sheet}"));
    said("sheet small.model small.certificate -o out", "accepted: 3 states in 2 blocks\nwritten: out: 2 lines, 146 bytes\n");
    assert_eq!(folder.read("out"), sheet.as_bytes());
    said(
        "join first.model second.model -o out",
        "accepted: 6 states, 2 of the first model and 4 of the second\nwritten: out: 6 states, 3 transitions, 47 bytes\n",
    );
    assert_eq!(folder.read("out"), folder.read("joined.model"));
    said("alike first.model second.model joined.certificate 0 3", "yes: state 0 of first.model behaves as state 3 of second.model\n");
    said(
        "read-prism relay.tra -o out",
        "accepted: 5 states, 6 transitions, 2 named actions\naction 1: send\naction 2: deliver\n\
         written: out: 5 states, 6 transitions, 82 bytes\n",
    );
    assert_eq!(folder.read("out"), folder.read("relay.model"));
    said("judge out relay.certificate", "accepted: 5 states in 2 blocks\nblock 0: 0 4\nblock 1: 1 2 3\n");
    said(
        "rewrite stored.model stored.certificate -o out its",
        "accepted: 5 states in 3 blocks\nwritten: out: 5 states, 8 transitions, 105 bytes\nwritten: its: 224 bytes\n",
    );
    assert_eq!([folder.read("out"), folder.read("its")], ["repeats.model", "repeats.certificate"].map(|name| folder.read(name)));
    write_costs_stored(&folder);
    said(
        "rewrite-costs stored-costs.model stored-costs.certificate -o out its",
        "accepted: 3 states in 2 blocks\nwritten: out: 3 states, 3 transitions, 46 bytes\nwritten: its: 145 bytes\n",
    );
    assert_eq!([folder.read("out"), folder.read("its")], ["costs.model", "costs.certificate"].map(|name| folder.read(name)));
    said(
        "compose sender.model channel.model -o out",
        "accepted: 9 states, 3 of the left model times 3 of the right\n\
         states: s of the left with e of the right is s * 3 + e\n\
         labels: l of the left with r of the right is l * 2 + r\n\
         actions: 1 to 2 are done together\n\
         written: out: 9 states, 8 transitions, 109 bytes\n",
    );
    assert_eq!(folder.read("out"), folder.read("composed.model"));
    said(
        "hide out 1 2 -o its",
        "accepted: 2 transitions made internal\naction 1: 1 transition\naction 2: 1 transition\n\
         written: its: 9 states, 8 transitions, 109 bytes\n",
    );
    assert_eq!(folder.read("its"), folder.read("hidden.model"));
    said(
        "largest 3 5 -o out its",
        "accepted: 10 flow records for 3 states and 5 transitions\nwritten: out: 3 states, 5 transitions, 61 bytes\nwritten: its: 169 bytes\n",
    );
    said("judge out its", "accepted: 3 states in 1 block\nblock 0: 0 1 2\n");
}

#[test]
fn the_largest_certificate_is_told() {
    let folder = Folder::new("most-flows");
    let said = |words: &str, lines: &str| folder.run(&format!("largest {words} -o out its")).is(0, lines, "");
    said(
        "1 0",
        "accepted: no flow records for 1 state and no transitions\nwritten: out: 1 state, no transitions, 9 bytes\nwritten: its: 7 bytes\n",
    );
    said(
        "02 01",
        "accepted: 1 flow record for 2 states and 1 transition\nwritten: out: 2 states, 1 transition, 20 bytes\nwritten: its: 24 bytes\n",
    );
    assert_eq!(folder.read("out"), b"PA\x02\x01\0\x01LB\0\0TR\0\0\0\x01\x01\0\0\x01");
    assert_eq!(folder.read("its"), b"CT\0\0BK\0\0FL\0\0\0\x01\0\0\0\x01\x01\0\0\0\0\x01");
    // A number beyond all counts is refused, and never another.
    let outside = ["0 1", "129 1", "1 257", "0 257", "4294967297 1", "1 4294967296", "18446744073709551617 0"];
    let beyond = format!("1 {}", "9".repeat(60));
    for words in outside.into_iter().chain([beyond.as_str()]) {
        let lines = format!("{}\na model has 1 to 128 states and up to 256 transitions\n", refused_at(40, 0, 0));
        folder.run(&format!("largest {words} -o new its-new")).is(1, &lines, "");
        let stays = "zolkirta: out stays as it was\nzolkirta: its stays as it was\n";
        folder.run(&format!("largest {words} -o out its")).is(1, &lines, stays);
        assert!(!folder.path.join("new").exists() && !folder.path.join("its-new").exists());
    }
    let told = [("call", "\"largest\""), ("number", "40"), ("sentence", &format!("\"{}\"", refused_at(40, 0, 0)))];
    folder.run("largest 129 0 --json -o new its-new").is(1, &object(&told), "");
}

/// What is shared goes by the action counts; a set has its members once, and members that change nothing are told as well.
#[test]
fn compositions_and_hidden_actions_are_told() {
    let folder = Folder::new("composed");
    let shared = |left: &str, right: &str, words: &str| {
        let ran = folder.run(&format!("compose {left} {right} -o out"));
        assert!(ran.status == 0 && ran.out.contains(&format!("\nactions: {words} done together\nwritten: out: ")), "{ran:?}");
    };
    shared("small.model", "small.model", "1 is");
    shared("small.model", "first.model", "none is");
    shared("relay.model", "sender.model", "1 to 2 are");
    let hidden = |actions: &str, lines: &str| {
        let written = "written: out: 9 states, 8 transitions, 109 bytes\n";
        folder.run(&format!("hide composed.model {actions} -o out")).is(0, &format!("accepted: {lines}{written}"), "");
    };
    hidden("", "no transitions made internal\n");
    assert_eq!(folder.read("out"), folder.read("composed.model"));
    hidden("0 4 255", "no transitions made internal\naction 0: no transitions\naction 4: no transitions\naction 255: no transitions\n");
    assert_eq!(folder.read("out"), folder.read("composed.model"));
    hidden("2 9 01 2 1", "2 transitions made internal\naction 1: 1 transition\naction 2: 1 transition\naction 9: no transitions\n");
    assert_eq!(folder.read("out"), folder.read("hidden.model"));
    hidden("3", "3 transitions made internal\naction 3: 3 transitions\n");
    folder.write("many.model", &[&b"PA\x80\x01\0\0LB"[..], &[0; 128]].concat());
    folder.write("labels.model", b"PA\x01\x01\0\0LB\x10");
    let passes = |left: &str, right: &str, sizes: [&str; 2]| {
        let lines = format!("{}\n{left} has {}\n{right} has {}\n", refused_at(37, 0, 0), sizes[0], sizes[1]);
        folder.run(&format!("compose {left} {right} -o new")).is(1, &lines, "");
    };
    let relay = "5 states, 6 transitions and labels up to 0";
    passes("relay.model", "many.model", [relay, "128 states, no transitions and labels up to 0"]);
    let composed = "9 states, 8 transitions and labels up to 3";
    passes("labels.model", "composed.model", ["1 state, no transitions and labels up to 16", composed]);
}

/// The cost pair with its first transition written 2/2, and k to match: of the last flow, 1 for 2.
fn write_costs_stored(folder: &Folder) {
    let (mut model, mut certificate) = (folder.read("costs.model"), folder.read("costs.certificate"));
    let k = certificate.len() - 9;
    [16, 20].into_iter().for_each(|at| model[at] = 2);
    assert_eq!(certificate[k], 2);
    certificate[k] = 1;
    folder.write("stored-costs.model", &model);
    folder.write("stored-costs.certificate", &certificate);
}

#[test]
fn a_stored_pair_is_refused_until_it_is_rewritten() {
    let folder = Folder::new("stored");
    write_costs_stored(&folder);
    let in_other_terms = |words: &str, file, place, more: &str| {
        folder.run(words).is(1, &format!("{}\n{more}\n", refused_at(34, file, place)), "");
    };
    let transition = "in stored.model, from there on: 54 52 02 01 00 04 02 01 00 02 04 00 02 54 52 02 and 30 more bytes";
    in_other_terms("judge stored.model stored.certificate", 1, 59, transition);
    in_other_terms("reduce stored.model stored.certificate -o out", 1, 59, transition);
    in_other_terms("sheet stored.model stored.certificate", 1, 59, transition);
    in_other_terms("fetch stored.model 0", 1, 59, transition);
    in_other_terms("join first.model stored.model -o out", 3, 59, transition);
    in_other_terms("compose first.model stored.model -o out", 3, 59, transition);
    in_other_terms("hide stored.model 1 -o out", 1, 59, transition);
    in_other_terms("alike stored.model first.model joined.certificate 0 1", 1, 59, transition);
    let costly = "in stored-costs.model, from there on: 54 52 00 01 00 02 01 00 00 02 54 52 01 01 00 01 and 19 more bytes";
    in_other_terms("judge-costs stored-costs.model stored-costs.certificate", 1, 11, costly);
    // A loop that no equation notices: 3 times 1,431,655,765 fits, and one more does not.
    folder.write("loop.model", b"PA\x02\x01\0\x01LB\0\0TR\0\0\0\x03\x01\0\0\x03");
    for (k, number) in [(1_431_655_765u32, 0), (1_431_655_766, 35)] {
        let certificate = [b"CT\0\0BK\0\0FL\0\0\0\x01\0\x01\0\0\0", &k.to_be_bytes()[..], b"\0\x01\x01\0\0\0\0\x01"].concat();
        folder.write("loop.certificate", &certificate);
        let ran = folder.run("rewrite loop.model loop.certificate -o out its");
        if number == 0 {
            ran.is(0, "accepted: 2 states in 1 block\nwritten: out: 2 states, 1 transition, 20 bytes\nwritten: its: 31 bytes\n", "");
            assert_eq!(folder.read("its")[19..23], [0xff; 4]);
        } else {
            let bytes = "46 4c 00 00 00 01 00 01 00 00 00 55 55 55 56 00 and 7 more bytes";
            let lines = format!("{}\nin loop.certificate, from there on: {bytes}\n", refused_at(number, 2, 8));
            ran.is(1, &lines, "zolkirta: out stays as it was\nzolkirta: its stays as it was\n");
        }
    }
}

#[test]
fn names_go_by_first_sight() {
    let folder = Folder::new("names");
    let said = |text: &str, lines: &str| {
        folder.write("text", text.as_bytes());
        folder.run("read-prism text -o out").is(0, lines, "");
    };
    said(
        "2 4 5\n0 0 0 0.5 b\n0 0 1 0.5 b\n0 1 1 1 \"a\\\n0 2 1 1\n1 0 1 1 b\n",
        "accepted: 2 states, 4 transitions, 2 named actions\naction 1: b\naction 2: \"a\\\nwritten: out: 2 states, 4 transitions, 53 bytes\n",
    );
    said(
        "1 1 1\n0 0 0 1 1\n",
        "accepted: 1 state, 1 transition, 1 named action\naction 1: 1\nwritten: out: 1 state, 1 transition, 19 bytes\n",
    );
    said("1 0 0\n", "accepted: 1 state, no transitions, no named actions\nwritten: out: 1 state, no transitions, 9 bytes\n");
    let long = "n".repeat(100_000);
    folder.write("text", format!("1 1 1\n0 0 0 1 {long}\n").as_bytes());
    assert!(folder.run("read-prism text -o out").out.contains(&format!("\naction 1: {long}\n")));
}

#[test]
fn a_line_at_fault_is_shown() {
    let folder = Folder::new("lines");
    let long = format!("line 2: \"{}\" and 40 more bytes, without a newline", "7".repeat(60));
    let told = [
        ("", 31, 0, "which ends there"),
        ("1 0 0", 31, 0, "line 1: \"1 0 0\", without a newline"),
        ("1 0 1\n", 31, 6, "which ends there"),
        ("2 1 2\n0 0 0 0.5\n0 0 1 0.5 \n", 31, 16, "line 3: \"0 0 1 0.5 \""),
        ("2 1 2\n0 0 0 0.5\n0 0 1 0.5\r\n", 31, 16, "line 3: \"0 0 1 0.5\\r\""),
        ("2 1 2\n0 0 0 0.5\n0 1 1 0.5\n", 32, 6, "line 2: \"0 0 0 0.5\""),
        ("1 0 0\n\n", 31, 6, "line 2: \"\""),
        ("1 1 1\n0 0 0 1 \"\u{e9}\n", 31, 6, r#"line 2: "0 0 0 1 \"\xc3\xa9""#),
        (&format!("1 0 0\n{}", "7".repeat(100)), 31, 6, &long),
    ];
    for (text, number, place, shown) in told {
        folder.write("a.tra", text.as_bytes());
        let lines = format!("{}\nin a.tra, {shown}\n", refused_at(number, 1, place));
        folder.run("read-prism a.tra -o out").is(1, &lines, "");
        assert!(!folder.path.join("out").exists());
    }
    folder.write("out", b"older");
    let ran = folder.run_fed("read-prism - -o out", b"1 1 1\n0 0 0 0.5\n");
    let lines = format!("{}\nin standard input, line 2: \"0 0 0 0.5\"\n", refused_at(32, 1, 6));
    ran.is(1, &lines, "zolkirta: out stays as it was\n");
    assert_eq!(folder.read("out"), b"older");
}

#[test]
fn a_no_is_no_error() {
    let folder = Folder::new("no");
    let ran = folder.run("alike first.model second.model joined.certificate 0 1");
    ran.is(1, "no: state 0 of first.model does not behave as state 1 of second.model\n", "");
}

#[test]
fn fetched_transitions_are_decoded() {
    let folder = Folder::new("fetch");
    let said = |state: &str, lines: &str| folder.run(&format!("fetch repeats.model {state}")).is(0, lines, "");
    said(
        "2",
        "accepted: 4 transitions leave state 2\n\
         transition 3: internal, to 0 with 1/1\n\
         transition 4: action 1, to 1 with 1/2, to 4 with 1/2\n\
         transition 5: action 1, to 3 with 1/2, to 4 with 1/2\n\
         transition 6: action 2, to 4 with 1/1\n",
    );
    said("01", "accepted: 1 transition leaves state 1\ntransition 2: action 2, to 4 with 1/1\n");
    said("4", "accepted: no transitions leave state 4\n");
}

/// Calls that are refused: number, file and place, and what the second line says.
const REFUSED: [(&str, (u32, u32, usize), &str); 16] = [
    (
        "judge small.model small.model",
        (12, 2, 0),
        "in small.model, from there on: 50 41 03 02 00 02 4c 42 00 00 00 54 52 00 01 00 and 15 more bytes\n",
    ),
    ("judge-costs first.model small.certificate", (1, 1, 10), "in first.model, which ends there\n"),
    (
        "judge-strong small.model small.certificate",
        (12, 2, 0),
        "in small.certificate, from there on: 43 54 00 02 50 58 00 00 02 00 00 00 01 00 00 00 and 109 more bytes\n",
    ),
    ("judge-strong costs.model strong.certificate", (9, 1, 41), "in costs.model, from there on: 43 4f 01 05 01\n"),
    (
        "reduce small.model strong.certificate -o out",
        (12, 2, 0),
        "in strong.certificate, from there on: 43 53 00 03 50 58 00 00 01 00 00 00 00 00 00 00 and 92 more bytes\n",
    ),
    ("reduce costs.model costs.certificate -o out", (9, 1, 41), "in costs.model, from there on: 43 4f 01 05 01\n"),
    ("sheet small.model first.model", (12, 2, 0), "in first.model, from there on: 50 41 02 01 00 00 4c 42 00 00\n"),
    (
        "join first.model small.sheet -o out",
        (2, 3, 0),
        "in small.sheet, from there on: 20 20 20 30 20 20 20 32 20 20 20 30 20 20 20 31 and 130 more bytes\n",
    ),
    ("fetch second.model 4", (24, 0, 0), "second.model has the states 0 to 3\n"),
    (
        "alike small.sheet second.model joined.certificate 0 3",
        (2, 1, 0),
        "in small.sheet, from there on: 20 20 20 30 20 20 20 32 20 20 20 30 20 20 20 31 and 130 more bytes\n",
    ),
    (
        "read-prism small.sheet -o out",
        (31, 1, 0),
        "in small.sheet, line 1: \"   0   2   0   1                                            \" and 12 more bytes\n",
    ),
    (
        "compose small.sheet first.model -o out",
        (2, 1, 0),
        "in small.sheet, from there on: 20 20 20 30 20 20 20 32 20 20 20 30 20 20 20 31 and 130 more bytes\n",
    ),
    ("compose first.model costs.model -o out", (9, 3, 41), "in costs.model, from there on: 43 4f 01 05 01\n"),
    ("hide costs.model 1 -o out", (9, 1, 41), "in costs.model, from there on: 43 4f 01 05 01\n"),
    ("rewrite costs.model costs.certificate -o out its", (9, 1, 41), "in costs.model, from there on: 43 4f 01 05 01\n"),
    ("rewrite-costs first.model costs.certificate -o out its", (1, 1, 10), "in first.model, which ends there\n"),
];

#[test]
fn each_call_refuses() {
    let folder = Folder::new("refuses");
    for (words, (number, file, place), more) in REFUSED {
        folder.run(words).is(1, &format!("{}\n{more}", refused_at(number, file, place)), "");
        assert!(!folder.path.join("out").exists() && !folder.path.join("its").exists());
    }
    let outside = format!("{}\nfirst.model has the states 0 to 1\nsecond.model has the states 0 to 3\n", refused_at(27, 0, 0));
    folder.run("alike first.model second.model joined.certificate 2 3").is(1, &outside, "");
    folder.write("one.model", b"PA\x01\x01\0\0LB\0");
    folder.run("fetch one.model 1").is(1, &format!("{}\none.model has state 0 alone\n", refused_at(24, 0, 0)), "");
    folder.run("alike first.model second.model first.model 0 3").first_line_is(1, &refused_at(12, 2, 0));
    folder.write("many.model", &[&b"PA\x80\x01\0\0LB"[..], &[0; 128]].concat());
    folder.run("join many.model first.model -o out").is(1, &format!("{}\n", refused_at(25, 0, 0)), "");
}

#[test]
fn a_refusal_says_by_how_much_it_is_off() {
    let folder = Folder::new("off");
    // C3, C6 and C7 of document 01, and others that are off the other way
    let told = [
        (20, 1, (16, 4, 2, 0), "at state 2 the sides are equal, and the left must be below"),
        (20, 9, (16, 4, 2, 8), "at state 2 the left side is 8 more than the right"),
        (84, 2, (20, 79, 1, 1), "at state 1 the left side is 1 more than the right"),
        (100, 3, (20, 79, 0, -2), "at state 0 the left side is 2 less than the right"),
        (120, 1, (21, 109, 0, -1), "at state 0 the left side is 1 less than the right"),
    ];
    for (at, byte, (number, place, state, remainder), words) in told {
        folder.write_changed("small.certificate", at, byte, "changed");
        let ran = folder.run("judge small.model changed");
        ran.first_line_is(1, &refused(number, 2, place, state, remainder));
        assert!(ran.out.lines().nth(1).unwrap().starts_with("in changed, from there on: ") && ran.out.lines().nth(2) == Some(words), "{ran:?}");
    }
    // State 0 moves to state 1; the flow matches it with state 0.
    folder.write("step.model", b"PA\x02\x01\0\x01LB\0\0TR\0\0\0\x01\x01\x01\0\x01");
    folder.write("step.certificate", b"CT\0\0BK\0\0FL\0\0\0\x01\0\0\0\x01\x01\0\0\0\0\x01");
    folder.run("judge step.model step.certificate").first_line_is(1, &refused(21, 2, 8, 0, 1));
}

#[test]
fn a_sentence_is_printed() {
    let folder = Folder::new("sentence");
    let said = |words: &str, line: &str| folder.run(&format!("sentence {words}")).is(0, &format!("{line}\n"), "");
    said("20 2 79 1 1", "Answer 20: what comes to a state in a flow is not what leaves it (file 2, place 79, state 1, remainder 1).");
    said("0 0 0 0 0", "Answer 0: everything that was asked for was done and nothing was refused (file 0, place 0, state 0, remainder 0).");
    said("021 002 00109 0 -01", &refused(21, 2, 109, 0, -1));
    said("-- 16 2 4 2 -0", &refused(16, 2, 4, 2, 0));
    let (most, place) = (u32::MAX, usize::MAX);
    for remainder in [i64::MIN, -1, 0, i64::MAX] {
        said(&format!("{most} {most} {place} {most} {remainder}"), &refused(most, most, place, most, remainder));
    }
    let told = [("call", "\"sentence\""), ("number", "0"), ("sentence", &format!("\"{}\"", refused(11, 2, 7, 0, -5)))];
    folder.run("sentence 11 --json 2 7 0 -5").is(0, &object(&told), "");
    folder.run("sentence 11 2 7 0 -5 --quiet").is(0, "", "");
}

#[test]
fn a_state_beyond_all_numbers_is_refused_and_never_another() {
    let folder = Folder::new("states");
    for state in ["5", "4294967294", "4294967295", "4294967296", "18446744073709551616", "999999999999999999999999999999999999999999"] {
        let fetched = folder.run(&format!("fetch repeats.model {state}"));
        fetched.first_line_is(1, &refused_at(24, 0, 0));
        for states in [format!("0 {state}"), format!("{state} 3")] {
            folder.run(&format!("alike first.model second.model joined.certificate {states}")).first_line_is(1, &refused_at(27, 0, 0));
        }
    }
}

/// The fields of the JSON object, in order.
const FIELDS: &str = "call number sentence file name place state remainder blocks written output states transitions names sheet run alike \
                      certificate_written certificate_output right_states made_internal flows";

/// The line with these fields, with the sentence of 0 where none is told, and null for all others.
fn object(told: &[(&str, &str)]) -> String {
    assert!(told.iter().all(|(name, _)| FIELDS.split(' ').any(|field| field == *name)));
    let done = format!("\"{}\"", refused_at(0, 0, 0));
    let untold = |field: &str| if field == "sentence" { done.as_str() } else { "null" };
    let value = |field: &str| told.iter().find(|(name, _)| *name == field).map_or(untold(field), |(_, value)| value);
    let fields: Vec<String> = FIELDS.split(' ').map(|field| format!("\"{field}\":{}", value(field))).collect();
    format!("{{{}}}\n", fields.join(","))
}

#[test]
fn json_has_every_field() {
    let folder = Folder::new("json");
    let accepted = |words: &str, told: &[(&str, &str)]| {
        let call = format!("\"{}\"", words.split(' ').next().unwrap());
        let told = [&[("call", call.as_str()), ("number", "0")], told].concat();
        folder.run(&format!("{words} --json")).is(0, &object(&told), "");
    };
    accepted("judge small.model small.certificate", &[("blocks", "[0,0,1]")]);
    accepted("judge-costs costs.model costs.certificate", &[("blocks", "[0,1,0]")]);
    accepted("judge-strong small.model strong.certificate", &[("blocks", "[0,1,2]")]);
    let merged = [("blocks", "[0,1,0,1,2]"), ("written", "54"), ("output", "\"out\""), ("states", "3"), ("transitions", "4")];
    accepted("reduce repeats.model repeats.certificate -o out", &merged);
    let sheet = String::from_utf8(folder.read("small.sheet")).unwrap().replace('\n', "\\n");
    accepted("sheet small.model small.certificate", &[("blocks", "[0,0,1]"), ("sheet", &format!("\"{sheet}\""))]);
    accepted("sheet small.model small.certificate -o out", &[("blocks", "[0,0,1]"), ("written", "146"), ("output", "\"out\"")]);
    let joined = [("written", "47"), ("output", "\"out\""), ("states", "6"), ("transitions", "3")];
    accepted("join first.model second.model -o out", &joined);
    let names = [("written", "82"), ("output", "\"out\""), ("states", "5"), ("transitions", "6"), ("names", r#"["send","deliver"]"#)];
    accepted("read-prism relay.tra -o out", &names);
    let both = [
        ("blocks", "[0,1,0,1,2]"),
        ("written", "105"),
        ("output", "\"out\""),
        ("states", "5"),
        ("transitions", "8"),
        ("certificate_written", "224"),
        ("certificate_output", "\"its\""),
    ];
    accepted("rewrite stored.model stored.certificate -o out its", &both);
    let composed = [("written", "109"), ("output", "\"out\""), ("states", "9"), ("transitions", "8")];
    accepted("compose sender.model channel.model -o out", &[&composed[..], &[("right_states", "3")]].concat());
    accepted("hide composed.model 1 2 -o out", &[&composed[..], &[("made_internal", "2")]].concat());
    let most_flows = [
        ("written", "61"),
        ("output", "\"out\""),
        ("states", "3"),
        ("transitions", "5"),
        ("certificate_written", "169"),
        ("certificate_output", "\"its\""),
        ("flows", "10"),
    ];
    accepted("largest 3 5 -o out its", &most_flows);
    let step = r#"{"number":1,"source":2,"action":0,"denominator":2,"targets":[{"state":1,"weight":1},{"state":2,"weight":1}]}"#;
    let other = r#"{"number":2,"source":2,"action":0,"denominator":1,"targets":[{"state":3,"weight":1}]}"#;
    accepted("fetch second.model 2", &[("run", &format!("[{step},{other}]"))]);
    accepted("fetch second.model 0", &[("run", "[]")]);
    accepted("alike first.model second.model joined.certificate 0 3", &[("alike", "true")]);
    let no = object(&[("call", "\"alike\""), ("number", "0"), ("alike", "false")]);
    folder.run("alike first.model second.model joined.certificate 0 1 --json").is(1, &no, "");
}

#[test]
fn json_tells_refusals() {
    let folder = Folder::new("json-refusals");
    folder.write_changed("small.certificate", 100, 3, "a \"name\"");
    let quoted = |sentence: String| format!("\"{sentence}\"");
    let [flow, mark, sum, no_state] = [refused(20, 2, 79, 0, -2), refused_at(2, 3, 0), refused_at(32, 1, 6), refused_at(24, 0, 0)].map(quoted);
    let told = [
        ("call", "\"judge\""),
        ("number", "20"),
        ("sentence", flow.as_str()),
        ("file", "2"),
        ("name", r#""a \"name\"""#),
        ("place", "79"),
        ("state", "0"),
        ("remainder", "-2"),
    ];
    folder.run_words(["judge", "--json", "small.model", "a \"name\""]).is(1, &object(&told), "");
    let second = [
        ("call", "\"join\""),
        ("number", "2"),
        ("sentence", &mark),
        ("file", "3"),
        ("name", "\"small.sheet\""),
        ("place", "0"),
    ];
    folder.run("join first.model small.sheet -o out --json").is(1, &object(&second), "");
    folder.write("text", b"1 1 1\n0 0 0 0.5\n");
    let text = [
        ("call", "\"read-prism\""),
        ("number", "32"),
        ("sentence", &sum),
        ("file", "1"),
        ("name", "\"text\""),
        ("place", "6"),
    ];
    folder.run("read-prism text -o out --json").is(1, &object(&text), "");
    let no_state = [("call", "\"fetch\""), ("number", "24"), ("sentence", &no_state)];
    folder.run("fetch second.model 4 --json").is(1, &object(&no_state), "");
    folder.run("judge missing small.certificate --json").is(2, "", &format!("zolkirta: missing: {MISSING}\n"));
}

#[test]
fn quiet_is_the_status_alone() {
    let folder = Folder::new("quiet");
    for quiet in ["-q", "--quiet", "--quiet --json"] {
        folder.run(&format!("judge small.model small.certificate {quiet}")).is(0, "", "");
        folder.run(&format!("sheet small.model small.certificate {quiet}")).is(0, "", "");
        folder.run(&format!("judge small.model small.model {quiet}")).is(1, "", "");
        folder.run(&format!("judge small.model missing {quiet}")).is(2, "", &format!("zolkirta: missing: {MISSING}\n"));
        let sheet = String::from_utf8(folder.read("small.sheet")).unwrap();
        folder.run(&format!("sheet small.model small.certificate {quiet} -o -")).is(0, &sheet, "");
    }
}

#[test]
fn options_stand_in_any_place() {
    let folder = Folder::new("options");
    let spelled = [
        "-o out reduce small.model small.certificate",
        "reduce -oout small.model small.certificate",
        "reduce small.model --output out small.certificate",
        "reduce small.model small.certificate --output=out",
        "reduce --output=out -- small.model small.certificate",
        "-oout -- reduce small.model small.certificate",
    ];
    for words in [
        "rewrite -o out its stored.model stored.certificate",
        "rewrite -oout its stored.model stored.certificate",
        "rewrite stored.model --output out its stored.certificate",
        "rewrite stored.model stored.certificate --output=out its",
    ] {
        folder.run(words).first_line_is(0, "accepted: 5 states in 3 blocks");
        assert_eq!([folder.read("out"), folder.read("its")], ["repeats.model", "repeats.certificate"].map(|name| folder.read(name)));
        fs::remove_file(folder.path.join("out")).unwrap();
    }
    for words in spelled {
        folder.run(words).first_line_is(0, ACCEPTED);
        assert_eq!(folder.read("out"), folder.read("small.merged"));
        fs::remove_file(folder.path.join("out")).unwrap();
    }
    fs::rename(folder.path.join("small.model"), folder.path.join("--json")).unwrap();
    folder.run("judge -- --json small.certificate").first_line_is(0, ACCEPTED);
    let told = object(&[("call", "\"judge\""), ("number", "0"), ("blocks", "[0,0,1]")]);
    folder.run("judge --json ./--json small.certificate").is(0, &told, "");
}

#[test]
fn help_and_version_are_printed() {
    let folder = Folder::new("help");
    for words in ["--version", "-V", "judge --version"] {
        folder.run(words).is(0, concat!("zolkirta ", env!("CARGO_PKG_VERSION"), "\n"), "");
    }
    let general = folder.run("--help");
    assert_eq!(folder.run("-h"), general);
    let (_, told) = general.out.split_once("Fields of the JSON object").unwrap();
    for field in FIELDS.split(' ') {
        assert!(told.contains(&format!(" {field}")), "{field}");
    }
    let judging = ["judge", "judge-costs", "judge-strong", "reduce", "sheet", "join", "fetch", "alike"];
    for call in judging.into_iter().chain(["read-prism", "rewrite", "rewrite-costs", "compose", "hide", "sentence", "largest"]) {
        let help = folder.run(&format!("{call} --help"));
        assert_eq!((help.status, help.err.as_str()), (0, ""));
        let usage = help.out.lines().next().unwrap();
        assert!(usage.starts_with(&format!("zolkirta {call} ")) && general.out.contains(usage));
        assert_eq!(folder.run(&format!("--help {call} extra words")), help);
        assert!(help.out.lines().chain(general.out.lines()).all(|line| line.len() <= 80));
    }
}

#[test]
fn words_that_make_no_call_get_two_lines() {
    let folder = Folder::new("usage");
    let before = folder.names();
    let wrong = [
        ("", "no call is named"),
        ("--json", "no call is named"),
        ("jugde small.model small.certificate", "there is no call jugde"),
        ("jugde --help", "there is no call jugde"),
        ("-x", "there is no option -x"),
        ("--", "no call is named"),
        ("judge", "judge: MODEL is missing"),
        ("judge small.model", "judge: CERTIFICATE is missing"),
        ("judge small.model small.certificate more", "judge: more is one word too many"),
        ("judge small.model small.certificate --verbose", "judge: there is no option --verbose"),
        ("judge --json=1 small.model small.certificate", "judge: there is no option --json=1"),
        ("judge small.model small.certificate -o out", "judge: it writes no file, and takes no -o"),
        ("judge-strong small.model strong.certificate -o out", "judge-strong: it writes no file, and takes no -o"),
        ("fetch small.model", "fetch: STATE is missing"),
        ("fetch small.model one", "fetch: one is no state's number"),
        ("fetch small.model 0x1", "fetch: 0x1 is no state's number"),
        ("fetch small.model +1", "fetch: +1 is no state's number"),
        ("fetch small.model 1.0", "fetch: 1.0 is no state's number"),
        ("fetch small.model ٣", "fetch: ٣ is no state's number"),
        ("fetch small.model -1", "fetch: there is no option -1"),
        ("fetch -- small.model -1", "fetch: -1 is no state's number"),
        ("alike first.model second.model joined.certificate 0", "alike: T is missing"),
        ("alike first.model second.model joined.certificate 0 x", "alike: x is no state's number"),
        ("reduce small.model small.certificate", "reduce: -o OUT is missing"),
        ("reduce small.model small.certificate -o", "reduce: -o needs the name of a file"),
        ("reduce small.model small.certificate --output=", "reduce: -o needs the name of a file"),
        ("reduce small.model small.certificate -o --json", "reduce: -o needs the name of a file"),
        ("reduce small.model small.certificate -o out -o other", "reduce: -o stands twice"),
        ("join first.model second.model", "join: -o OUT is missing"),
        ("read-prism -o out", "read-prism: TEXT is missing"),
        ("read-prism relay.tra", "read-prism: -o OUT is missing"),
        ("read-prism relay.tra relay.tra -o out", "read-prism: relay.tra is one word too many"),
        ("rewrite stored.model stored.certificate", "rewrite: -o MODEL_OUT CERTIFICATE_OUT is missing"),
        ("rewrite stored.model stored.certificate -o out", "rewrite: -o needs the names of two files"),
        ("rewrite stored.model stored.certificate -o out --json", "rewrite: -o needs the names of two files"),
        ("rewrite stored.model stored.certificate -oout", "rewrite: -o needs the names of two files"),
        ("rewrite stored.model stored.certificate -o out out", "rewrite: -o names out twice"),
        ("rewrite stored.model stored.certificate -o - -", "rewrite: -o names standard output twice"),
        ("rewrite stored.model stored.certificate -o out ./out", "rewrite: -o names out twice"),
        ("-o out rewrite stored.model stored.certificate", "rewrite: -o with its two names must stand behind the call"),
        ("rewrite stored.model -o out its", "rewrite: CERTIFICATE is missing"),
        ("rewrite-costs costs.model costs.certificate -o out its more", "rewrite-costs: more is one word too many"),
        ("compose sender.model -o out", "compose: RIGHT is missing"),
        ("compose sender.model channel.model", "compose: -o OUT is missing"),
        ("compose sender.model channel.model 1 -o out", "compose: 1 is one word too many"),
        ("hide -o out", "hide: MODEL is missing"),
        ("hide composed.model 1 2", "hide: -o OUT is missing"),
        ("hide composed.model one -o out", "hide: one is no action's number"),
        ("hide composed.model 1,2 -o out", "hide: 1,2 is no action's number"),
        ("hide composed.model 1 256 -o out", "hide: 256 is no action's number"),
        ("hide composed.model 4294967297 -o out", "hide: 4294967297 is no action's number"),
        ("hide composed.model -1 -o out", "hide: there is no option -1"),
        ("sentence", "sentence: NUMBER is missing"),
        ("sentence 20 2 79 1", "sentence: REMAINDER is missing"),
        ("sentence 20 2 79 1 1 1", "sentence: 1 is one word too many"),
        ("sentence 20 2 79 1 1 -o out", "sentence: it writes no file, and takes no -o"),
        ("sentence twenty 2 79 1 1", "sentence: twenty is no answer's number"),
        ("sentence 4294967296 2 79 1 1", "sentence: 4294967296 is no answer's number"),
        ("sentence 20 4294967296 79 1 1", "sentence: 4294967296 is no file's number"),
        ("sentence 20 2 18446744073709551616 1 1", "sentence: 18446744073709551616 is no place"),
        ("sentence 20 2 -79 1 1", "sentence: -79 is no place"),
        ("sentence 20 2 79 4294967296 1", "sentence: 4294967296 is no state's number"),
        ("sentence 20 2 79 -1 1", "sentence: -1 is no state's number"),
        ("sentence 20 2 79 1 9223372036854775808", "sentence: 9223372036854775808 is no remainder"),
        ("sentence 20 2 79 1 -9223372036854775809", "sentence: -9223372036854775809 is no remainder"),
        ("sentence 20 2 79 1 --1", "sentence: there is no option --1"),
        ("sentence 20 2 79 1 -- -", "sentence: - is no remainder"),
        ("-1 sentence 20 2 79 1", "sentence: there is no option -1"),
        ("largest -o out its", "largest: STATES is missing"),
        ("largest 3 -o out its", "largest: TRANSITIONS is missing"),
        ("largest 3 5", "largest: -o MODEL_OUT CERTIFICATE_OUT is missing"),
        ("largest 3 5 -o out", "largest: -o needs the names of two files"),
        ("largest 3 5 -o out out", "largest: -o names out twice"),
        ("largest 3 5 7 -o out its", "largest: 7 is one word too many"),
        ("largest three 5 -o out its", "largest: three is no number of states"),
        ("largest 3 five -o out its", "largest: five is no number of transitions"),
        ("largest 3 -5 -o out its", "largest: there is no option -5"),
        ("largest -o out its -- 3 -5", "largest: -5 is no number of transitions"),
        ("compose - - -o out", "compose: - is standard input, and there is only one"),
        ("judge - -", "judge: - is standard input, and there is only one"),
        ("alike - second.model - 0 3", "alike: - is standard input, and there is only one"),
    ];
    for (words, fault) in wrong {
        let ran = folder.run(words);
        assert_eq!((ran.status, ran.out.as_str()), (2, ""), "{words}: {ran:?}");
        let lines: Vec<&str> = ran.err.lines().collect();
        assert_eq!((lines.len(), lines[0]), (2, format!("zolkirta: {fault}").as_str()), "{words}");
        assert!(lines[1].starts_with("usage: zolkirta ") && lines[1].ends_with(" --help)"), "{words}: {}", lines[1]);
    }
    let empty = folder.run_words(["fetch", "small.model", ""]);
    assert!(empty.status == 2 && empty.err.starts_with("zolkirta: fetch: \"\" is no state's number\n"));
    assert_eq!(folder.names(), before);
}

#[test]
fn standard_output_may_be_the_file() {
    let folder = Folder::new("output");
    let ran = folder.command(["reduce", "small.model", "small.certificate", "-o", "-"]).output().unwrap();
    assert_eq!((ran.status.code(), ran.stdout), (Some(0), folder.read("small.merged")));
    assert_eq!(ran.stderr, b"accepted: 3 states in 2 blocks\nwritten: standard output: 2 states, 2 transitions, 30 bytes\n");
    let sheet = String::from_utf8(folder.read("small.sheet")).unwrap();
    let told = [
        ("call", "\"sheet\""),
        ("number", "0"),
        ("blocks", "[0,0,1]"),
        ("written", "146"),
        ("output", "\"-\""),
    ];
    folder.run("sheet small.model small.certificate -o - --json").is(0, &sheet, &object(&told));
    let ran = folder.run("reduce small.model small.model -o -");
    assert!(ran.status == 1 && ran.out.is_empty() && ran.err.lines().next() == Some(&refused_at(12, 2, 0)), "{ran:?}");
    assert!(!folder.path.join("-").exists());
}
