//! Links the static libraries of the repository, which need no other. Where one is missing, unfinished, or
//! older than a file that it is proved and made from, `rt` proves and makes them first, as `./bustardcase`
//! does.

use std::fs::{self, File};
use std::io;
use std::path::{Path, PathBuf};
use std::process::{Command, Stdio, exit};
use std::time::SystemTime;

/// The libraries, and the crate of each. The outline, and going back to a mini, are of their own (docs/DECISIONS.md).
const LIBRARIES: [(&str, &str); 3] = [
    ("exports", "exports_c"),
    ("exports_outline", "exports_outline"),
    ("exports_find", "exports_find"),
];

fn main() {
    let manifest = std::env::var("CARGO_MANIFEST_DIR").expect("CARGO_MANIFEST_DIR");
    let root = PathBuf::from(manifest).join("../..");
    let sources = bring_up_to_date(&root).unwrap_or_else(|message| {
        println!("cargo::error={message}");
        exit(1);
    });
    for watched in sources {
        println!("cargo::rerun-if-changed={}", watched.display());
    }
    println!("cargo::rerun-if-changed=build.rs");
    println!("cargo::rustc-link-search=native={}", made(&root).display());
    for (name, _) in LIBRARIES {
        println!("cargo::rerun-if-changed={}", library(&root, name).display());
        println!("cargo::rustc-link-lib=static={name}");
    }
}

fn made(root: &Path) -> PathBuf {
    root.join("target/staticlib")
}

fn library(root: &Path, name: &str) -> PathBuf {
    made(root).join(format!("lib{name}.a"))
}

/// Stands beside a library while it is written: one that was ended meanwhile is made again.
fn unfinished(root: &Path, name: &str) -> PathBuf {
    made(root).join(format!("{name}.unfinished"))
}

/// Makes what is not up to date, and returns what the libraries are made from.
fn bring_up_to_date(root: &Path) -> Result<Vec<PathBuf>, String> {
    let unread = |e| format!("crates/ cannot be read: {e}");
    let sources = sources(root).map_err(unread)?;
    let newest = newest(&sources).map_err(unread)?;
    for (name, krate) in LIBRARIES {
        let time = fs::metadata(library(root, name)).and_then(|m| m.modified());
        if !time.is_ok_and(|time| time >= newest) || unfinished(root, name).exists() {
            make(root, name, krate, newest)?;
        }
    }
    Ok(sources)
}

/// The list of the crates and the folders of their files. What `rt` keeps lies beside these, in `out`.
fn sources(root: &Path) -> io::Result<Vec<PathBuf>> {
    let mut sources = vec![root.join("crates.txt")];
    for entry in fs::read_dir(root.join("crates"))? {
        let folder = entry?.path();
        let parts = ["src", "specs", "proofs"].map(|part| folder.join(part));
        sources.extend(parts.into_iter().filter(|part| part.is_dir()));
    }
    Ok(sources)
}

/// When the newest of the files was changed that the libraries are proved and made from.
fn newest(sources: &[PathBuf]) -> io::Result<SystemTime> {
    let mut newest = SystemTime::UNIX_EPOCH;
    let mut paths = sources.to_vec();
    while let Some(path) = paths.pop() {
        if path.is_dir() {
            for entry in fs::read_dir(path)? {
                paths.push(entry?.path());
            }
        } else if path.extension().is_some_and(|e| e == "rt" || e == "antt")
            || path.ends_with("crates.txt")
        {
            newest = newest.max(fs::metadata(&path)?.modified()?);
        }
    }
    Ok(newest)
}

fn make(root: &Path, name: &str, krate: &str, newest: SystemTime) -> Result<(), String> {
    let cannot = |path: PathBuf, e| format!("{}: {e}", path.display());
    let made_by_rt = rt_lib(root, krate)?;
    let mark = unfinished(root, name);
    fs::create_dir_all(made(root)).map_err(|e| cannot(made(root), e))?;
    fs::write(&mark, "").map_err(|e| cannot(mark.clone(), e))?;
    // The time of the newest source says all there is to say. The present time would be later than
    // the start of this script, and cargo would run it a second time and link everything again.
    fs::copy(made_by_rt, library(root, name))
        .and_then(|_| File::options().append(true).open(library(root, name)))
        .and_then(|file| file.set_modified(newest))
        .map_err(|e| cannot(library(root, name), e))?;
    fs::remove_file(&mark).map_err(|e| cannot(mark, e))
}

/// Has `rt` prove a crate and those below it, one after another, and make its library. What it says goes to
/// the standard error: cargo reads this script's standard output.
fn rt_lib(root: &Path, krate: &str) -> Result<PathBuf, String> {
    let folder = root.join("crates").join(krate);
    let run = Command::new("rt")
        .arg("lib")
        .current_dir(&folder)
        .stdin(Stdio::null())
        .stdout(io::stderr())
        .status();
    let line = format!("'rt lib' in crates/{krate}");
    match run {
        Ok(status) if status.success() => Ok(folder.join(format!("out/lib{krate}.a"))),
        Ok(status) => Err(format!("{line} ended with {status}")),
        Err(e) if e.kind() == io::ErrorKind::NotFound => Err(
            "the library has to be made, and 'rt', the Rattle toolchain, is not found in PATH"
                .to_string(),
        ),
        Err(e) => Err(format!("{line} cannot be run: {e}")),
    }
}
