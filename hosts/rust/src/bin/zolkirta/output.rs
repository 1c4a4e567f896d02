//! The files that a call writes, whole or not at all, and the standard streams.

use crate::failure::{complain, shown, Failure};
use std::ffi::{OsStr, OsString};
use std::fs::{self, File, Metadata, OpenOptions};
use std::io::{self, ErrorKind, Write};
use std::os::fd::{AsFd, BorrowedFd};
use std::os::unix::fs::{fchown, MetadataExt};
use std::path::{Path, PathBuf};

/// What tells a regular file from all others, whatever its names: device and inode.
#[derive(Clone, Copy, PartialEq)]
pub struct Identity(u64, u64);

impl Identity {
    pub fn of(file: &Metadata) -> Option<Identity> {
        file.is_file().then(|| Identity(file.dev(), file.ino()))
    }
}

pub struct Output {
    name: OsString,
}

impl Output {
    pub fn new(name: OsString) -> Output {
        Output { name }
    }

    /// Whether it is standard output.
    pub fn is_standard(&self) -> bool {
        self.name == "-"
    }

    pub fn shown(&self) -> String {
        if self.is_standard() {
            "standard output".to_owned()
        } else {
            shown(&self.name)
        }
    }

    /// The name as it was given.
    pub fn name(&self) -> &OsStr {
        &self.name
    }

    /// The regular file that has the name now, if one has.
    pub fn identity(&self) -> Option<Identity> {
        if self.is_standard() {
            return None;
        }
        Identity::of(&fs::metadata(&self.name).ok()?)
    }

    /// Says that an older file of the name is left alone.
    pub fn say_what_stays(&self) {
        if self.identity().is_some() {
            complain(format_args!("{} stays as it was", self.shown()));
        }
    }

    /// Whether both names lead to one file, which is there or not.
    pub fn same_as(&self, other: &Output) -> bool {
        let end = |output: &Output| {
            let path = end_of_links(Path::new(&output.name));
            fs::canonicalize(folder_of(&path)).ok().zip(path.file_name().map(OsStr::to_owned)).filter(|_| !output.is_standard())
        };
        self.name == other.name || end(self).is_some_and(|own| Some(own) == end(other))
    }

    fn prepared<'a>(&self, bytes: &'a [u8]) -> Result<Prepared<'a>, Failure> {
        if self.is_standard() {
            return Ok(Prepared::Standard(bytes));
        }
        prepared(Path::new(&self.name), bytes).map_err(|error| Failure::File(self.shown(), error))
    }
}

/// Writes all files, or none: no file has its name before all are whole.
pub fn write<'a>(files: impl Iterator<Item = (&'a Output, &'a [u8])>) -> Result<(), Failure> {
    let mut all: Vec<(&Output, Prepared)> = Vec::new();
    for (output, bytes) in files {
        all.push((output, output.prepared(bytes)?));
    }
    // What is written directly may still fail.
    all.sort_by_key(|(_, file)| matches!(file, Prepared::Beside { .. }));
    all.into_iter().try_for_each(|(output, file)| file.finish(output))
}

/// A file that is to be written.
enum Prepared<'a> {
    Standard(&'a [u8]),
    /// What is no regular file, as a device, is written directly.
    Direct(File, &'a [u8]),
    /// It stands whole beside its name, and is removed unless it gets it.
    Beside { beside: PathBuf, path: PathBuf },
}

impl Prepared<'_> {
    fn finish(mut self, output: &Output) -> Result<(), Failure> {
        let done = match &mut self {
            Prepared::Standard(bytes) => return to_standard_output(bytes),
            Prepared::Direct(file, bytes) => file.write_all(bytes),
            Prepared::Beside { beside, path } => fs::rename(beside, path),
        };
        done.map_err(|error| Failure::File(output.shown(), error))
    }
}

impl Drop for Prepared<'_> {
    fn drop(&mut self) {
        if let Prepared::Beside { beside, .. } = self {
            let _ = fs::remove_file(beside); // gone where it has its name
        }
    }
}

/// Writes a file beside its name, where it is a regular file.
fn prepared<'a>(path: &Path, bytes: &'a [u8]) -> io::Result<Prepared<'a>> {
    // Opened for writing, since an older file that may not be written may not be replaced either.
    match OpenOptions::new().write(true).open(path) {
        Ok(older) => match older.metadata()? {
            data if data.is_file() => beside(&end_of_links(path), Some(&data), bytes),
            _ => Ok(Prepared::Direct(older, bytes)),
        },
        Err(error) if error.kind() == ErrorKind::NotFound => beside(&end_of_links(path), None, bytes),
        Err(error) => Err(error),
    }
}

/// As many symbolic links as Linux follows.
const MOST_LINKS: usize = 40;

/// The name that the last of the symbolic links from here leads to, whether a file has it or none.
fn end_of_links(path: &Path) -> PathBuf {
    let mut path = path.to_owned();
    for _ in 0..MOST_LINKS {
        let Ok(next) = fs::read_link(&path) else { break };
        path = folder_of(&path).join(next);
    }
    path
}

fn folder_of(path: &Path) -> &Path {
    match path.parent() {
        Some(folder) if !folder.as_os_str().is_empty() => folder,
        _ => Path::new("."),
    }
}

fn beside<'a>(path: &Path, older: Option<&Metadata>, bytes: &[u8]) -> io::Result<Prepared<'a>> {
    let (beside, file) = create_beside(path)?;
    let prepared = Prepared::Beside { beside, path: path.to_owned() };
    fill(file, older, bytes).map(|()| prepared)
}

/// A new file in the folder of this one, with a name that no other run has.
fn create_beside(path: &Path) -> io::Result<(PathBuf, File)> {
    let mut attempt = 0;
    loop {
        let beside = folder_of(path).join(format!(".zolkirta-{}-{attempt}", std::process::id()));
        match OpenOptions::new().write(true).create_new(true).open(&beside) {
            Err(error) if error.kind() == ErrorKind::AlreadyExists => attempt += 1,
            opened => return opened.map(|file| (beside, file)),
        }
    }
}

fn fill(mut file: File, older: Option<&Metadata>, bytes: &[u8]) -> io::Result<()> {
    file.write_all(bytes)?;
    if let Some(older) = older {
        let _ = fchown(&file, Some(older.uid()), Some(older.gid())); // what only root may do for the files of others
        file.set_permissions(older.permissions())?;
    }
    file.sync_all()
}

/// Has a write beyond the limit of a file's size fail, as one to a full device does, in place of ending the program by a signal.
pub fn outlive_size_limits() {
    const SIGXFSZ: i32 = 25;
    const SIG_IGN: usize = 1;
    extern "C" {
        fn signal(number: i32, handler: usize) -> usize;
    }
    // SAFETY: the C library's call, with numbers of Linux; to ignore a signal runs no code.
    unsafe { signal(SIGXFSZ, SIG_IGN) };
}

pub fn to_standard_output(bytes: &[u8]) -> Result<(), Failure> {
    to_stream(io::stdout().as_fd(), bytes).map_err(|error| match error.kind() {
        ErrorKind::BrokenPipe => Failure::ReaderLeft,
        _ => Failure::File("standard output".to_owned(), error),
    })
}

pub fn to_standard_error(bytes: &[u8]) -> Result<(), Failure> {
    to_stream(io::stderr().as_fd(), bytes).map_err(|error| Failure::File("standard error".to_owned(), error))
}

/// Writes without a buffer, so that all has been written, or failed, at the end.
fn to_stream(stream: BorrowedFd, bytes: &[u8]) -> io::Result<()> {
    File::from(stream.try_clone_to_owned()?).write_all(bytes)
}
