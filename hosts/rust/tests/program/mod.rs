//! The tool run as a program, in a folder of its own.
#![allow(dead_code)] // each test file uses its own part

use std::ffi::{OsStr, OsString};
use std::fs::{self, File};
use std::io::Write;
use std::os::unix::fs::MetadataExt;
use std::os::unix::process::CommandExt;
use std::path::{Path, PathBuf};
use std::process::{Child, Command, Output, Stdio};

const TOOL: &str = env!("CARGO_BIN_EXE_zolkirta");
const EXAMPLES: &str = concat!(env!("CARGO_MANIFEST_DIR"), "/../../examples");
pub const NOBODY: u32 = 65534;

/// The first line for the small pair.
pub const ACCEPTED: &str = "accepted: 3 states in 2 blocks";
pub const MISSING: &str = "No such file or directory (os error 2)";

/// The first line of a refusal, of an answer that tells this: the library's sentence.
pub fn refused(number: u32, file: u32, place: usize, state: u32, remainder: i64) -> String {
    zolkirta::sentence(number, file, place, state, remainder, &mut [0; zolkirta::SENTENCE]).unwrap().to_owned()
}

/// The same of one without a state.
pub fn refused_at(number: u32, file: u32, place: usize) -> String {
    refused(number, file, place, 0, 0)
}

/// What a run came to.
#[derive(Debug, PartialEq)]
pub struct Ran {
    pub status: i32,
    pub out: String,
    pub err: String,
}

impl Ran {
    /// A run ends with a status of the tool, by no signal and without a panic, which would have another one.
    fn of(output: Output) -> Ran {
        let text = |bytes| String::from_utf8(bytes).expect("UTF-8");
        let ran = Ran { status: output.status.code().expect("a status"), out: text(output.stdout), err: text(output.stderr) };
        assert!((0..=2).contains(&ran.status), "{ran:?}");
        ran
    }

    #[track_caller]
    pub fn is(&self, status: i32, out: &str, err: &str) {
        assert_eq!(*self, Ran { status, out: out.into(), err: err.into() });
    }

    #[track_caller]
    pub fn first_line_is(&self, status: i32, line: &str) {
        assert_eq!((self.status, self.out.lines().next()), (status, Some(line)), "{self:?}");
    }
}

/// A folder with the example files, for one test. It stays where the test fails.
pub struct Folder {
    pub path: PathBuf,
    /// Run as a user who is not root.
    as_nobody: bool,
}

impl Folder {
    pub fn new(test: &str) -> Folder {
        let path = Path::new(env!("CARGO_TARGET_TMPDIR")).join(format!("tool-{test}-{}", std::process::id()));
        let _ = fs::remove_dir_all(&path);
        fs::create_dir_all(&path).unwrap();
        for example in fs::read_dir(EXAMPLES).unwrap().map(|entry| entry.unwrap()) {
            fs::copy(example.path(), path.join(example.file_name())).unwrap();
        }
        Folder { path, as_nobody: false }
    }

    /// The same for a run without root's rights, where such a run is possible: root needs a folder that others can reach.
    pub fn without_root(test: &str) -> Option<Folder> {
        let mut folder = Folder::new(test);
        if fs::metadata("/proc/self").unwrap().uid() == 0 {
            std::os::unix::fs::chown(&folder.path, Some(NOBODY), Some(NOBODY)).unwrap();
            folder.as_nobody = true;
        }
        let reached = folder.command(["judge", "small.model", "small.certificate"]).output();
        let reached = reached.is_ok_and(|output| output.status.success());
        if !reached {
            println!("{} cannot be reached without root", folder.path.display());
        }
        reached.then_some(folder)
    }

    pub fn command<W: AsRef<OsStr>>(&self, words: impl IntoIterator<Item = W>) -> Command {
        let mut command = Command::new(TOOL);
        command.args(words).current_dir(&self.path).env_clear().stdin(Stdio::null());
        if self.as_nobody {
            command.uid(NOBODY).gid(NOBODY);
        }
        command
    }

    /// Runs the tool with these words, parted by single spaces.
    pub fn run(&self, words: &str) -> Ran {
        self.run_words(words.split(' ').filter(|word| !word.is_empty()))
    }

    pub fn run_words<W: AsRef<OsStr>>(&self, words: impl IntoIterator<Item = W>) -> Ran {
        Ran::of(self.command(words).output().unwrap())
    }

    /// Starts it with its output caught.
    pub fn start(&self, words: &str) -> Child {
        self.command(words.split(' ')).stdout(Stdio::piped()).stderr(Stdio::piped()).spawn().unwrap()
    }

    /// Runs it with these bytes on standard input, through a pipe.
    pub fn run_fed(&self, words: &str, bytes: &[u8]) -> Ran {
        let mut child = self.command(words.split(' ')).stdin(Stdio::piped()).stdout(Stdio::piped()).stderr(Stdio::piped()).spawn().unwrap();
        let _ = child.stdin.take().unwrap().write_all(bytes); // one that has seen enough may be gone
        finished(child)
    }

    /// Runs it with standard input from this file.
    pub fn run_from(&self, words: &str, file: File) -> Ran {
        Ran::of(self.command(words.split(' ')).stdin(file).output().unwrap())
    }

    /// Runs it with standard output to this file; what is caught is empty.
    pub fn run_into(&self, words: &str, out: File) -> Ran {
        Ran::of(self.command(words.split(' ')).stdout(out).output().unwrap())
    }

    /// Runs it below a limit of the shell's `ulimit`.
    pub fn run_limited(&self, limit: &str, words: &str) -> Ran {
        let script = format!("ulimit {limit} && exec \"$0\" {words}");
        Ran::of(Command::new("sh").args(["-c", &script, TOOL]).current_dir(&self.path).output().unwrap())
    }

    pub fn read(&self, name: impl AsRef<Path>) -> Vec<u8> {
        fs::read(self.path.join(name)).unwrap()
    }

    pub fn write(&self, name: impl AsRef<Path>, bytes: &[u8]) {
        fs::write(self.path.join(name), bytes).unwrap();
    }

    /// Writes an example with one byte of it changed to another.
    pub fn write_changed(&self, example: &str, at: usize, byte: u8, name: &str) {
        let mut bytes = self.read(example);
        assert_ne!(bytes[at], byte);
        bytes[at] = byte;
        self.write(name, &bytes);
    }

    /// The names of all files, in order.
    pub fn names(&self) -> Vec<OsString> {
        let mut names: Vec<_> = fs::read_dir(&self.path).unwrap().map(|entry| entry.unwrap().file_name()).collect();
        names.sort();
        names
    }
}

pub fn finished(child: Child) -> Ran {
    Ran::of(child.wait_with_output().unwrap())
}

impl Drop for Folder {
    fn drop(&mut self) {
        if !std::thread::panicking() {
            fs::remove_dir_all(&self.path).unwrap();
        }
    }
}
