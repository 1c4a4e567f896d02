//! The tool's files and streams: what cannot be read or written, what is replaced and what stays, names and sizes, and runs side by side.
mod compare;
mod maker;
mod plain;
mod program;

use maker::families::{bytes, copies, internal_chain, most_copies, parts};
use maker::prism::largest_text;
use program::{refused_at, finished, Folder, ACCEPTED, MISSING, NOBODY};
use std::ffi::OsStr;
use std::fs::{self, File, OpenOptions};
use std::os::unix::ffi::OsStrExt;
use std::os::unix::fs::{chown, symlink, MetadataExt, PermissionsExt};
use std::path::Path;
use std::process::{Command, Stdio};

/// A file of the system to which nothing can be written.
fn full_device() -> File {
    OpenOptions::new().write(true).open("/dev/full").unwrap()
}

const FULL: &str = "No space left on device (os error 28)";
const DENIED: &str = "Permission denied (os error 13)";
const A_FOLDER: &str = "Is a directory (os error 21)";

#[test]
fn files_that_cannot_be_read_are_named() {
    let folder = Folder::new("unread");
    fs::create_dir(folder.path.join("folder")).unwrap();
    let unread = |words: &str, name: &str, words_of_system: &str| {
        folder.run(words).is(2, "", &format!("zolkirta: {name}: {words_of_system}\n"));
    };
    unread("judge missing small.certificate", "missing", MISSING);
    unread("judge small.model no/certificate", "no/certificate", MISSING);
    unread("judge small.model/x small.certificate", "small.model/x", "Not a directory (os error 20)");
    unread("judge folder small.certificate", "folder", A_FOLDER);
    unread("join first.model folder -o out", "folder", A_FOLDER);
    symlink("loop", folder.path.join("loop")).unwrap();
    unread("judge loop small.certificate", "loop", "Too many levels of symbolic links (os error 40)");
    let empty = folder.run_words(["judge", "", "small.certificate"]);
    empty.is(2, "", &format!("zolkirta: \"\": {MISSING}\n"));
    folder.write("out", b"older");
    let stays = format!("zolkirta: missing: {MISSING}\nzolkirta: out stays as it was\n");
    folder.run("reduce missing small.certificate -o out").is(2, "", &stays);
    assert_eq!(folder.read("out"), b"older");
    let from_folder = folder.run_from("judge - small.certificate", File::open(&folder.path).unwrap());
    from_folder.is(2, "", &format!("zolkirta: standard input: {A_FOLDER}\n"));
}

#[test]
fn more_than_the_memory_holds_is_an_error() {
    let folder = Folder::new("memory");
    let ran = folder.run_limited("-v 300000", "judge /dev/zero small.certificate");
    ran.is(2, "", "zolkirta: /dev/zero: out of memory\n");
}

#[test]
fn a_limit_of_file_sizes_is_an_error() {
    let folder = Folder::new("limit");
    folder.write("out", b"older");
    let before = folder.names();
    let ran = folder.run_limited("-f 0", "reduce small.model small.certificate -o out");
    ran.is(2, "", "zolkirta: out: File too large (os error 27)\nzolkirta: out stays as it was\n");
    assert_eq!((folder.read("out"), folder.names()), (b"older".to_vec(), before));
}

#[test]
fn what_only_root_may_do_is_an_error() {
    let Some(folder) = Folder::without_root("denied") else { return };
    let mode = |name: &str, mode| fs::set_permissions(folder.path.join(name), fs::Permissions::from_mode(mode)).unwrap();
    mode("small.model", 0o000);
    folder.run("judge small.model small.certificate").is(2, "", &format!("zolkirta: small.model: {DENIED}\n"));
    mode("small.model", 0o444);
    folder.write("out", b"older");
    mode("out", 0o444);
    let denied = format!("zolkirta: out: {DENIED}\nzolkirta: out stays as it was\n");
    folder.run("reduce small.model small.certificate -o out").is(2, "", &denied);
    assert_eq!(folder.read("out"), b"older");
    fs::create_dir(folder.path.join("locked")).unwrap();
    mode("locked", 0o555);
    folder.run("reduce small.model small.certificate -o locked/out").is(2, "", &format!("zolkirta: locked/out: {DENIED}\n"));
}

#[test]
fn a_file_may_come_from_standard_input() {
    let folder = Folder::new("input");
    let (model, certificate) = (folder.read("small.model"), folder.read("small.certificate"));
    folder.run_fed("judge - small.certificate", &model).first_line_is(0, ACCEPTED);
    folder.run_fed("judge small.model -", &certificate).first_line_is(0, ACCEPTED);
    folder.run_fed("judge -- - small.certificate", &model).first_line_is(0, ACCEPTED);
    let yes = "yes: state 0 of first.model behaves as state 3 of standard input";
    folder.run_fed("alike first.model - joined.certificate 0 3", &folder.read("second.model")).first_line_is(0, yes);
    let composed = folder.run_fed("compose sender.model - -o out", &folder.read("channel.model"));
    composed.first_line_is(0, "accepted: 9 states, 3 of the left model times 3 of the right");
    folder.run_fed("hide - 2 1 -o out", &folder.read("out")).first_line_is(0, "accepted: 2 transitions made internal");
    assert_eq!(folder.read("out"), folder.read("hidden.model"));
    let cut = folder.run_fed("judge small.model -", &certificate[..124]);
    cut.first_line_is(1, &refused_at(11, 2, 109));
    assert!(cut.out.contains("\nin standard input, from there on: 46 4c "));
    folder.run("judge - small.certificate").is(1, &format!("{}\nin standard input, which ends there\n", refused_at(1, 1, 0)), "");
    fs::rename(folder.path.join("small.model"), folder.path.join("-")).unwrap();
    folder.run("judge ./- small.certificate").first_line_is(0, ACCEPTED);
}

#[test]
fn standard_output_that_fails_is_an_error() {
    let folder = Folder::new("full");
    let full = format!("zolkirta: standard output: {FULL}\n");
    for words in [
        "judge small.model small.certificate",
        "judge small.model small.model --json",
        "--version",
        "--help",
        "reduce small.model small.certificate -o -",
    ] {
        folder.run_into(words, full_device()).is(2, "", &full);
    }
    // The file is whole when the verdict is said.
    folder.run_into("reduce small.model small.certificate -o out", full_device()).is(2, "", &full);
    assert_eq!(folder.read("out"), folder.read("small.merged"));
    // Standard error that fails leaves the status.
    for (words, status) in [("judge", 2), ("judge missing missing", 2), ("reduce small.model small.certificate -o -", 2)] {
        let ran = folder.command(words.split(' ')).stdout(Stdio::null()).stderr(full_device()).status().unwrap();
        assert_eq!(ran.code(), Some(status), "{words}");
    }
}

#[test]
fn a_closed_pipe_is_told_by_the_status_alone() {
    let folder = Folder::new("pipe");
    for words in ["judge small.model small.certificate", "sheet small.model small.certificate -o -", "--help"] {
        let (reader, writer) = std::io::pipe().unwrap();
        drop(reader);
        let ran = folder.command(words.split(' ')).stdout(writer).output().unwrap();
        assert_eq!((ran.status.code(), ran.stderr), (Some(2), Vec::new()), "{words}");
    }
}

#[test]
fn a_refusal_leaves_an_older_file() {
    let folder = Folder::new("older");
    folder.write("out", b"older");
    let names = folder.names();
    let stays = "zolkirta: out stays as it was\n";
    for words in [
        "reduce small.model small.model",
        "sheet small.model small.model",
        "join first.model small.sheet",
        "compose first.model small.sheet",
        "hide small.sheet 1",
    ] {
        for more in ["", " --quiet"] {
            let ran = folder.run(&format!("{words} -o out{more}"));
            assert_eq!((ran.status, ran.err.as_str()), (1, stays));
            assert_eq!(ran.out.is_empty(), !more.is_empty());
        }
    }
    assert_eq!((folder.read("out"), folder.names()), (b"older".to_vec(), names));
    let new = folder.run("reduce small.model small.model -o new");
    assert_eq!((new.status, new.err.as_str(), folder.path.join("new").exists()), (1, "", false));
}

#[test]
fn an_older_file_is_replaced_and_its_owner_and_permissions_are_kept() {
    let folder = Folder::new("replaced");
    let out = folder.path.join("out");
    folder.write("out", &[7; 10_000]);
    let _ = chown(&out, Some(NOBODY), Some(NOBODY)); // where root runs this
    let before = folder.names();
    let kept = || fs::metadata(&out).map(|data| (data.mode() & 0o7777, data.uid(), data.gid())).unwrap();
    for mode in [0o600, 0o640, 0o755, 0o666] {
        fs::set_permissions(&out, fs::Permissions::from_mode(mode)).unwrap();
        let older = kept();
        folder.run("reduce small.model small.certificate -o out").first_line_is(0, ACCEPTED);
        assert_eq!((folder.read("out"), kept()), (folder.read("small.merged"), older));
    }
    assert_eq!(folder.names(), before);
}

#[test]
fn symbolic_links_stay() {
    let folder = Folder::new("links");
    let merged = folder.read("small.merged");
    fs::create_dir(folder.path.join("folder")).unwrap();
    folder.write("folder/real", b"older");
    for (to, link) in [("folder/real", "link"), ("link", "further"), ("../dangling", "folder/out"), ("folder/out", "to-nothing")] {
        symlink(to, folder.path.join(link)).unwrap();
    }
    for (link, real) in [("further", "folder/real"), ("to-nothing", "dangling"), ("link", "folder/real")] {
        folder.run(&format!("reduce small.model small.certificate -o {link}")).first_line_is(0, ACCEPTED);
        assert!(fs::symlink_metadata(folder.path.join(link)).unwrap().is_symlink());
        assert!(fs::symlink_metadata(folder.path.join(real)).unwrap().is_file());
        assert_eq!(folder.read(real), merged);
        folder.write(real, b"older");
    }
    symlink("loop", folder.path.join("loop")).unwrap();
    let looped = "zolkirta: loop: Too many levels of symbolic links (os error 40)\n";
    folder.run("reduce small.model small.certificate -o loop").is(2, "", looped);
    assert_eq!(fs::read_dir(folder.path.join("folder")).unwrap().count(), 2);
}

#[test]
fn an_input_is_never_the_output() {
    let folder = Folder::new("same");
    symlink("small.model", folder.path.join("link")).unwrap();
    fs::hard_link(folder.path.join("small.certificate"), folder.path.join("hard")).unwrap();
    let before = folder.names();
    let (model, certificate) = (folder.read("small.model"), folder.read("small.certificate"));
    let hidden = folder.run("hide small.model 1 -o link");
    assert!(hidden.status == 2 && hidden.err.starts_with("zolkirta: hide: -o names the same file as small.model, which would be lost\n"));
    for (out, input) in
        [("small.model", "small.model"), ("./small.model", "small.model"), ("link", "small.model"), ("hard", "small.certificate")]
    {
        let ran = folder.run(&format!("reduce small.model small.certificate -o {out}"));
        let fault = format!("zolkirta: reduce: -o names the same file as {input}, which would be lost");
        assert_eq!((ran.status, ran.out.as_str(), ran.err.lines().next()), (2, "", Some(fault.as_str())));
        assert!(ran.err.ends_with(&format!("zolkirta: {out} stays as it was\n")));
    }
    let fed = folder.run_from("reduce - small.certificate -o small.model", File::open(folder.path.join("small.model")).unwrap());
    assert!(fed.status == 2 && fed.err.starts_with("zolkirta: reduce: -o names the same file as standard input, "));
    assert_eq!((folder.read("small.model"), folder.read("small.certificate"), folder.names()), (model, certificate, before));
}

#[test]
fn an_output_that_cannot_be_written_leaves_nothing() {
    let folder = Folder::new("unwritten");
    fs::create_dir(folder.path.join("folder")).unwrap();
    let before = folder.names();
    let unwritten = [
        ("/dev/full", FULL),
        ("folder", A_FOLDER),
        ("folder/", A_FOLDER),
        ("no/out", MISSING),
        ("small.sheet/out", "Not a directory (os error 20)"),
    ];
    for (out, words) in unwritten {
        folder.run(&format!("reduce small.model small.certificate -o {out}")).is(2, "", &format!("zolkirta: {out}: {words}\n"));
    }
    let slash = folder.run("reduce small.model small.certificate -o new/");
    assert!(slash.status == 2 && slash.out.is_empty(), "{slash:?}");
    let long = "x".repeat(256);
    let named = folder.run(&format!("reduce small.model small.certificate -o {long}"));
    named.is(2, "", &format!("zolkirta: {long}: File name too long (os error 36)\n"));
    assert_eq!(folder.names(), before);
    let longest = "x".repeat(255);
    folder.run(&format!("reduce small.model small.certificate -o {longest}")).first_line_is(0, ACCEPTED);
    folder.run("reduce small.model small.certificate -o /dev/null").first_line_is(0, ACCEPTED);
    let refused = folder.run("reduce small.model small.model -o /dev/null");
    assert_eq!((refused.status, refused.err.as_str()), (1, ""));
}

/// Of two files both are written, or none.
#[test]
fn two_outputs_are_written_both_or_none() {
    let folder = Folder::new("both");
    fs::create_dir(folder.path.join("folder")).unwrap();
    let rewrite = |outputs: &str| folder.run(&format!("rewrite stored.model stored.certificate -o {outputs}"));
    let [model, certificate] = ["repeats.model", "repeats.certificate"].map(|name| folder.read(name));
    folder.write("older", b"older");
    let before = folder.names();
    for (name, words) in [("folder", A_FOLDER), ("no/out", MISSING), ("/dev/full", FULL)] {
        let fault = format!("zolkirta: {name}: {words}\n");
        rewrite(&format!("new {name}")).is(2, "", &fault);
        rewrite(&format!("{name} new")).is(2, "", &fault);
        rewrite(&format!("older {name}")).is(2, "", &format!("{fault}zolkirta: older stays as it was\n"));
    }
    let full = format!("zolkirta: standard output: {FULL}\nzolkirta: older stays as it was\n");
    folder.run_into("rewrite stored.model stored.certificate -o older -", full_device()).is(2, "", &full);
    // One file by two names: a link, whether there is a file at its end or none.
    symlink("older", folder.path.join("link")).unwrap();
    symlink("folder/new", folder.path.join("to-nothing")).unwrap();
    for (one, other) in [("older", "link"), ("link", "./older"), ("to-nothing", "folder/new"), ("folder/new", "folder/../folder/new")] {
        let ran = rewrite(&format!("{one} {other}"));
        assert!(ran.status == 2 && ran.err.starts_with(&format!("zolkirta: rewrite: -o names {one} twice\n")), "{ran:?}");
    }
    ["link", "to-nothing"].into_iter().for_each(|link| fs::remove_file(folder.path.join(link)).unwrap());
    for outputs in ["older stored.certificate", "stored.model older", "stored.certificate older"] {
        let ran = rewrite(outputs);
        assert!(ran.status == 2 && ran.err.starts_with("zolkirta: rewrite: -o names the same file as stored."), "{ran:?}");
    }
    let refused = folder.run("rewrite stored.model small.certificate -o older older2");
    assert_eq!((refused.status, refused.err.as_str()), (1, "zolkirta: older stays as it was\n"));
    assert_eq!((folder.read("older"), folder.names()), (b"older".to_vec(), before));

    rewrite("older new").first_line_is(0, "accepted: 5 states in 3 blocks");
    assert_eq!([folder.read("older"), folder.read("new")], [model.clone(), certificate.clone()]);
    let ran = folder.command("rewrite stored.model stored.certificate -o - new -q".split(' ')).output().unwrap();
    assert_eq!((ran.status.code(), ran.stdout, folder.read("new")), (Some(0), model, certificate));
}

#[test]
fn a_named_pipe_is_written_directly() {
    let folder = Folder::new("fifo");
    assert!(Command::new("mkfifo").arg(folder.path.join("fifo")).status().unwrap().success());
    let child = folder.start("reduce small.model small.certificate -o fifo");
    assert_eq!(folder.read("fifo"), folder.read("small.merged"));
    finished(child).first_line_is(0, ACCEPTED);
}

#[test]
fn runs_side_by_side_do_not_break_each_other() {
    let folder = Folder::new("beside");
    let pairs = ["small", "repeats"];
    let whole = pairs.map(|pair| folder.read(format!("{pair}.merged")));
    folder.write("out", &whole[0]);
    let before = folder.names();
    let runs: Vec<_> = (0..40).map(|run| folder.start(&format!("reduce {0}.model {0}.certificate -o out", pairs[run % 2]))).collect();
    for run in runs {
        assert!(whole.contains(&folder.read("out")));
        let ran = finished(run);
        assert_eq!((ran.status, ran.err.as_str()), (0, ""));
    }
    assert!(whole.contains(&folder.read("out")));
    assert_eq!(folder.names(), before);
}

#[test]
fn names_may_be_any_bytes() {
    let folder = Folder::new("names");
    let names = [
        (&b"with a space"[..], "with a space", "with a space"),
        (b"M\xc3\xbcller", "Müller", "Müller"),
        (b"no \xff UTF-8", "\"no \\xFF UTF-8\"", "no \u{fffd} UTF-8"),
        (b"two\nlines", "\"two\\nlines\"", "two\\nlines"),
    ];
    for (name, shown, in_json) in names {
        let of = |bytes: &[u8]| OsStr::from_bytes(bytes).to_owned();
        let (model, merged) = (of(&[name, b".model"].concat()), of(name));
        folder.write(&model, &folder.read("small.model"));
        let ran = folder.run_words([of(b"reduce"), model, of(b"small.certificate"), of(&[b"-o", name].concat())]);
        ran.is(0, &format!("{ACCEPTED}\nwritten: {shown}: 2 states, 2 transitions, 30 bytes\n"), "");
        assert_eq!(folder.read(&merged), folder.read("small.merged"));
        let refused = folder.run_words([of(b"judge"), of(b"small.model"), merged, of(b"--json")]);
        assert!(refused.status == 1 && refused.out.contains(&format!("\"name\":\"{in_json}\"")), "{refused:?}");
    }
}

/// Makes a file 100 MB long with zeros.
fn lengthen(file: &Path) {
    OpenOptions::new().write(true).open(file).unwrap().set_len(100_000_000).unwrap();
}

#[test]
fn files_may_be_of_any_size() {
    let folder = Folder::new("size");
    lengthen(&folder.path.join("small.certificate"));
    folder.run("judge small.model small.certificate").first_line_is(1, &refused_at(22, 2, 125));
    lengthen(&folder.path.join("small.model"));
    let ran = folder.run("judge small.model small.certificate");
    ran.first_line_is(1, &refused_at(9, 1, 31));
    assert!(ran.out.ends_with(" 00 and 99999953 more bytes\n"));
    let lines = folder.read("relay.tra").len();
    lengthen(&folder.path.join("relay.tra"));
    let ran = folder.run("read-prism relay.tra -o out");
    ran.first_line_is(1, &refused_at(31, 1, lines));
    assert!(ran.out.ends_with(&format!("\\x00\" and {} more bytes, without a newline\n", 99_999_940 - lines)), "{ran:?}");
}

#[test]
fn the_largest_text_goes_through() {
    let folder = Folder::new("text");
    folder.write("text", &largest_text(true));
    let ran = folder.run("read-prism text -o out");
    ran.first_line_is(0, "accepted: 128 states, 256 transitions, 31 named actions");
    assert!(ran.out.contains("\naction 1: action1\naction 2: action2\n") && ran.out.contains("\naction 31: action31\nwritten: out: "));
    assert_eq!(folder.read("out"), zolkirta::read_prism(&largest_text(true), &mut [0; zolkirta::MODEL]).unwrap());
}

#[test]
fn the_largest_composition_goes_through() {
    let folder = Folder::new("parts");
    for (name, part) in ["left", "right"].into_iter().zip(parts()) {
        folder.write(name, &part.bytes());
    }
    let ran = folder.run("compose left right -o out");
    ran.first_line_is(0, "accepted: 128 states, 8 of the left model times 16 of the right");
    assert!(ran.out.ends_with("\nwritten: out: 128 states, 256 transitions, 8072 bytes\n"));
    let ran = folder.run("hide out 1 -o hidden");
    ran.is(0, "accepted: 256 transitions made internal\naction 1: 256 transitions\nwritten: hidden: 128 states, 256 transitions, 8072 bytes\n", "");
    let mut buffer = [0; zolkirta::MODEL];
    assert_eq!(folder.read("hidden"), zolkirta::hide(&folder.read("out"), &[1], &mut buffer).unwrap());
}

#[test]
fn the_certificate_with_the_most_flow_records_goes_through() {
    let folder = Folder::new("flows");
    let ran = folder.run("largest 128 256 -o pa ct");
    let written = "written: pa: 128 states, 256 transitions, 2696 bytes\nwritten: ct: 520326 bytes\n";
    ran.is(0, &format!("accepted: 32512 flow records for 128 states and 256 transitions\n{written}"), "");
    folder.run("judge pa ct").first_line_is(0, "accepted: 128 states in 1 block");
    let merged = "accepted: 128 states in 1 block\nwritten: out: 1 state, 1 transition, 19 bytes\n";
    folder.run("reduce pa ct -o out").is(0, merged, "");
    folder.run("largest 2 2 -o no/pa ct").is(2, "", &format!("zolkirta: no/pa: {MISSING}\nzolkirta: ct stays as it was\n"));
    assert_eq!(folder.read("ct").len(), 520_326);
}

#[test]
fn the_largest_pairs_go_through() {
    let folder = Folder::new("largest");
    let (model, certificate) = internal_chain(4);
    let copied = copies(&model, &certificate, most_copies(&model));
    for (name, pair) in [("chain", internal_chain(128)), ("copies", copied)] {
        let (model, certificate) = bytes(pair);
        assert_eq!(model[2], 128);
        folder.write("pa", &model);
        folder.write("ct", &certificate);
        let (mut merged, mut sheet) = (vec![0; zolkirta::MODEL], vec![0; zolkirta::SHEET]);
        let merged = zolkirta::reduce(&model, &certificate, &mut merged).unwrap();
        let sheet = zolkirta::sheet(&model, &certificate, &mut sheet).unwrap();
        let accepted = format!("accepted: 128 states in {} blocks", merged[2]);
        folder.run("judge pa ct").first_line_is(0, &accepted);
        folder.run("reduce pa ct -o merged").first_line_is(0, &accepted);
        folder.run("sheet pa ct").is(0, &format!("{accepted}\n{sheet}"), "");
        assert_eq!(folder.read("merged"), merged, "{name}");

        // Broken in its last record, it is refused there by all of them, and what was written stays.
        let mut broken = certificate.clone();
        *broken.last_mut().unwrap() ^= 1;
        folder.write("ct", &broken);
        let refusal = zolkirta::judge(&model, &broken, &mut [0; zolkirta::STATES]).unwrap_err();
        for words in ["judge pa ct", "reduce pa ct -o merged", "sheet pa ct"] {
            folder.run(words).first_line_is(1, &refusal.to_string());
        }
        assert_eq!(folder.read("merged"), merged, "{name}");
    }
}

#[test]
fn a_cost_model_longer_than_any_without_costs_goes_through() {
    let folder = Folder::new("long_costs");
    let mut model = b"PA\x40\x01\x01\0LB".to_vec();
    model.extend(0..64);
    for r in 0..=255_u8 {
        model.extend([b'T', b'R', r / 4, 0, 0, 8, 8]);
        model.extend((0..8).flat_map(|i| [8 * (r % 8) + i, 0, 1]));
    }
    model.extend(b"CO");
    model.extend((0..=255_u8).map(|r| r % 64));
    assert_eq!(model.len(), 8266);
    folder.write("pa", &model);
    folder.write("ct", &[&b"CC\0\0BK"[..], &(0..64).collect::<Vec<u8>>()].concat());
    folder.run("judge-costs pa ct").first_line_is(0, "accepted: 64 states in 64 blocks");
}
