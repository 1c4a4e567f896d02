//! Finds the static library, or builds it: ZOLKIRTA_LIB_DIR if it is set, else target/staticlib of the repository, written there by
//! `hosts/build-library` where it is missing.
use std::path::{Path, PathBuf};
use std::process::{exit, Command};
use std::time::SystemTime;

const LIBRARY: &str = "libzolkirta.a";

fn main() {
    println!("cargo:rerun-if-changed=build.rs");
    println!("cargo:rerun-if-env-changed=ZOLKIRTA_LIB_DIR");
    let folder = match std::env::var_os("ZOLKIRTA_LIB_DIR") {
        Some(folder) => PathBuf::from(folder),
        None => repository_folder(),
    };
    let library = folder.join(LIBRARY);
    if !library.is_file() {
        fail(&format!("there is no {}", library.display()));
    }
    println!("cargo:rerun-if-changed={}", library.display());
    println!("cargo:rustc-link-search=native={}", folder.display());
    println!("cargo:rustc-link-lib=static=zolkirta");
}

/// The repository's folder for the library, which is built where it is missing.
fn repository_folder() -> PathBuf {
    let root = Path::new(&std::env::var_os("CARGO_MANIFEST_DIR").unwrap()).join("../..");
    let folder = root.join("target/staticlib");
    if !folder.join(LIBRARY).is_file() {
        // The library is proved before it is written: this takes minutes.
        if !has_rt() {
            fail(&format!(
                "there is no {LIBRARY} in {}, and `rt`, which builds it, is not here. Install the Rattle toolchain, or set ZOLKIRTA_LIB_DIR to \
                 the folder of a {LIBRARY}",
                folder.display()
            ));
        }
        match Command::new(root.join("hosts/build-library")).status() {
            Ok(status) if status.success() => {}
            Ok(status) => fail(&format!("hosts/build-library failed in {}: {status}", root.display())),
            Err(error) => fail(&format!("hosts/build-library cannot be run in {}: {error}", root.display())),
        }
    } else if let Some((source, _)) = newest_source(&root).filter(|(_, time)| *time > modified(&folder.join(LIBRARY))) {
        println!("cargo:warning={LIBRARY} is older than {}: run hosts/build-library", source.display());
    }
    folder
}

/// The source of the library that was changed last, where `rt` is there to build it anew. Asks cargo to look again when one changes.
fn newest_source(root: &Path) -> Option<(PathBuf, SystemTime)> {
    if !has_rt() {
        return None;
    }
    let sources = library_crates(root).into_iter().flat_map(|name| ["src", "specs"].map(|part| root.join("crates").join(&name).join(part)));
    let sources = sources.filter(|folder| folder.is_dir()).flat_map(|folder| {
        println!("cargo:rerun-if-changed={}", folder.display());
        files_below(&folder)
    });
    sources.map(|source| (modified(&source), source)).max().map(|(time, source)| (source, time))
}

/// Whether `rt` is among the commands.
fn has_rt() -> bool {
    let paths = std::env::var_os("PATH").unwrap_or_default();
    let found = std::env::split_paths(&paths).any(|folder| folder.join("rt").is_file());
    found
}

fn files_below(folder: &Path) -> Vec<PathBuf> {
    let paths = std::fs::read_dir(folder).into_iter().flatten().flatten().map(|entry| entry.path());
    paths.flat_map(|path| if path.is_dir() { files_below(&path) } else { vec![path] }).collect()
}

/// The crates that the library is made of. crates.txt names each crate after those that it depends on.
fn library_crates(root: &Path) -> Vec<String> {
    println!("cargo:rerun-if-changed={}", root.join("crates.txt").display());
    let text = std::fs::read_to_string(root.join("crates.txt")).unwrap_or_default();
    let mut names = vec!["zolkirta".to_string()];
    for (head, needs) in text.lines().rev().filter_map(|line| line.split_once(':')) {
        // A static library has that word behind its name.
        if names.iter().any(|known| head.split_whitespace().next() == Some(known)) {
            names.extend(needs.split_whitespace().map(String::from));
        }
    }
    names.sort();
    names.dedup();
    names
}

fn modified(file: &Path) -> SystemTime {
    std::fs::metadata(file).and_then(|data| data.modified()).unwrap_or(SystemTime::UNIX_EPOCH)
}

fn fail(message: &str) -> ! {
    eprintln!("{message}");
    exit(1)
}
