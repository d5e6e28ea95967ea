//! Text to the standard output, and files written beside and renamed.

use crate::args::shown;
use crate::failure::Failure;
use std::ffi::OsStr;
use std::fs::{self, File, Permissions};
use std::io::{self, ErrorKind, Write};
use std::os::unix::fs::MetadataExt;
use std::path::{Path, PathBuf};

pub fn print(text: &str) -> Result<(), Failure> {
    print_bytes(text.as_bytes())
}

/// A reader that has gone away, as `head` does, has what it wanted.
fn print_bytes(bytes: &[u8]) -> Result<(), Failure> {
    let mut out = io::stdout().lock();
    match out.write_all(bytes).and_then(|()| out.flush()) {
        Err(e) if e.kind() != ErrorKind::BrokenPipe => Err(Failure::io("standard output", e)),
        _ => Ok(()),
    }
}

/// Lines to the standard error. Where there is none, nothing is lost that the file would have.
pub fn note(text: &str) {
    let _ = io::stderr().write_all(text.as_bytes());
}

/// Whether what is read under one name is the file that is written under the other.
pub fn is_one_file(input: &OsStr, output: &OsStr) -> bool {
    let input = file(input, "/dev/stdin");
    input.is_some() && input == file(output, "/dev/stdout")
}

/// Which file a name leads to. A pipe and a terminal, which may be both standard input and output, are none.
fn file(name: &OsStr, standard: &str) -> Option<(u64, u64)> {
    let name = if name == "-" { standard.as_ref() } else { name };
    let there = fs::metadata(name).ok()?;
    there.is_file().then(|| (there.dev(), there.ino()))
}

/// All of the bytes come to stand under the name, or it stays as it was.
pub fn write(name: &OsStr, bytes: &[u8]) -> Result<(), Failure> {
    match name == "-" {
        true => print_bytes(bytes),
        false => write_file(Path::new(name), bytes).map_err(|e| Failure::io(&shown(name), e)),
    }
}

fn write_file(path: &Path, bytes: &[u8]) -> io::Result<()> {
    // Opened for writing to learn whether it may be written; nothing is.
    match File::options().write(true).open(path) {
        Ok(mut file) => {
            let there = file.metadata()?;
            if !there.is_file() {
                // A device or a pipe can only be written to.
                return file.write_all(bytes);
            }
            // A link stays, and what it leads to is replaced.
            replace(&fs::canonicalize(path)?, bytes, Some(there.permissions()))
        }
        Err(e) if e.kind() == ErrorKind::NotFound => replace(path, bytes, None),
        Err(e) => Err(e),
    }
}

fn replace(path: &Path, bytes: &[u8], permissions: Option<Permissions>) -> io::Result<()> {
    let (beside, file) = create_beside(path)?;
    let done = fill(file, bytes, permissions).and_then(|()| fs::rename(&beside, path));
    if done.is_err() {
        // It is the first error that is told.
        let _ = fs::remove_file(&beside);
    }
    done
}

/// A new file in the folder of `path`.
fn create_beside(path: &Path) -> io::Result<(PathBuf, File)> {
    let process = std::process::id();
    let mut attempt = 0;
    loop {
        let beside = path.with_file_name(format!(".bustardcase-{process}-{attempt}.tmp"));
        match File::options().write(true).create_new(true).open(&beside) {
            Err(e) if e.kind() == ErrorKind::AlreadyExists && attempt < 100 => attempt += 1,
            opened => return opened.map(|file| (beside, file)),
        }
    }
}

fn fill(mut file: File, bytes: &[u8], permissions: Option<Permissions>) -> io::Result<()> {
    file.write_all(bytes)?;
    if let Some(permissions) = permissions {
        file.set_permissions(permissions)?;
    }
    file.sync_all()
}
