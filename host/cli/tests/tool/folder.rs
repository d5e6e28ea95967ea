//! A folder for each test, and the tool run in it.

use std::collections::BTreeMap;
use std::fs;
use std::io::{ErrorKind, Write};
use std::os::unix::fs::PermissionsExt;
use std::path::PathBuf;
use std::process::{Child, Command, Output, Stdio};
use std::thread;

pub const TOOL: &str = env!("CARGO_BIN_EXE_bustardcase");

pub struct Folder(pub PathBuf);

/// What came of a run.
#[derive(Debug, PartialEq)]
pub struct Ran {
    pub status: i32,
    pub out: Vec<u8>,
    pub err: String,
}

impl Folder {
    /// An empty folder of that name. It lies outside the repository, where rt takes no links, and no sources but
    /// those of its crates.
    pub fn new(name: &str) -> Self {
        let name = format!("bustardcase-{}-{name}", std::process::id());
        let path = std::env::temp_dir().join(name);
        let _ = fs::remove_dir_all(&path);
        fs::create_dir_all(&path).expect("a folder for the test");
        Folder(path)
    }

    pub fn put(&self, name: &str, bytes: &[u8]) {
        fs::write(self.0.join(name), bytes).expect("a file for the test");
    }

    pub fn get(&self, name: &str) -> Vec<u8> {
        fs::read(self.0.join(name)).expect("a file that the tool wrote")
    }

    /// The names, modes and bytes of all files.
    pub fn files(&self) -> BTreeMap<String, (u32, Vec<u8>)> {
        let entries = fs::read_dir(&self.0).expect("the test's folder");
        let files = entries.map(|entry| entry.expect("an entry").path());
        files
            .filter(|path| path.is_file())
            .map(|path| {
                let name = path.file_name().expect("a name").to_string_lossy();
                let mode = fs::metadata(&path).expect("a mode").permissions().mode();
                (name.into_owned(), (mode, fs::read(&path).expect("bytes")))
            })
            .collect()
    }

    pub fn run(&self, words: &[&str]) -> Ran {
        self.run_with(words, b"")
    }

    /// With bytes on the standard input.
    pub fn run_with(&self, words: &[&str], input: &[u8]) -> Ran {
        let mut command = Command::new(TOOL);
        command.args(words).current_dir(&self.0);
        run(command, input)
    }
}

impl Drop for Folder {
    fn drop(&mut self) {
        let _ = fs::remove_dir_all(&self.0);
    }
}

pub fn run(mut command: Command, input: &[u8]) -> Ran {
    let pipes = command.stdin(Stdio::piped()).stdout(Stdio::piped());
    let mut child = started(pipes.stderr(Stdio::piped()));
    // One that reads nothing may be gone by now.
    let _ = child.stdin.take().expect("a pipe").write_all(input);
    Ran::of(child.wait_with_output().expect("it ends"))
}

/// Starts it. A program that a test has just written is busy while a child that another test is starting still
/// has it open for writing: such a child closes it at once.
fn started(command: &mut Command) -> Child {
    loop {
        match command.spawn() {
            Err(e) if e.kind() == ErrorKind::ExecutableFileBusy => thread::yield_now(),
            child => return child.expect("it starts"),
        }
    }
}

impl Ran {
    fn of(output: Output) -> Self {
        Ran {
            status: output.status.code().expect("it ends by itself"),
            out: output.stdout,
            err: String::from_utf8(output.stderr).expect("text"),
        }
    }

    /// The text printed, with no word on the standard error.
    pub fn text(self, status: i32) -> String {
        assert_eq!((self.status, self.err.as_str()), (status, ""));
        String::from_utf8(self.out).expect("text")
    }
}

pub fn assert_within_80_columns(text: &str) {
    for line in text.lines() {
        assert!(line.chars().count() <= 80, "over 80 columns: {line}");
        assert!(!line.contains('\t') && !line.ends_with(' '), "{line:?}");
    }
}
