//! What the README shows of the tool is what the tool prints.

use crate::folder::{Folder, TOOL, run};
use std::fs;
use std::os::unix::fs::symlink;
use std::path::{Path, PathBuf};
use std::process::Command;

/// A command line, and the lines shown below it.
struct Shown {
    line: String,
    printed: Vec<String>,
}

fn root() -> PathBuf {
    Path::new(env!("CARGO_MANIFEST_DIR")).join("../..")
}

/// The README's command lines, which are indented and begin with '$', each with what is indented after it.
fn commands() -> Vec<Shown> {
    let text = fs::read_to_string(root().join("README.md")).expect("README.md");
    let mut shown: Vec<Shown> = Vec::new();
    let mut within = false;
    for line in text.lines() {
        match line.strip_prefix("    ") {
            Some(code) if code.starts_with("$ ") => {
                let line = code[2..].to_string();
                shown.push(Shown {
                    line,
                    printed: Vec::new(),
                });
                within = true;
            }
            Some(code) if within => shown
                .last_mut()
                .expect("a command")
                .printed
                .push(code.to_string()),
            // An empty line may be a part of what is printed.
            None if within && line.is_empty() => shown
                .last_mut()
                .expect("a command")
                .printed
                .push(String::new()),
            _ => within = false,
        }
    }
    for Shown { printed, .. } in &mut shown {
        while printed.last().is_some_and(String::is_empty) {
            printed.pop();
        }
    }
    shown
}

/// Whether the lines are those shown, where '..' stands for any number of lines.
fn agree(shown: &[String], printed: &[&str]) -> bool {
    match shown.split_first() {
        None => printed.is_empty(),
        Some((first, rest)) if first == ".." => {
            (0..=printed.len()).any(|n| agree(rest, &printed[n..]))
        }
        Some((first, rest)) => {
            printed.first().is_some_and(|line| line.trim_end() == first)
                && agree(rest, &printed[1..])
        }
    }
}

fn printed(folder: &Folder, line: &str) -> String {
    let mut command = Command::new("sh");
    let line = line.replace("./bustardcase", &format!("'{TOOL}'"));
    command
        .args(["-c", &format!("({line}) 2>&1")])
        .current_dir(&folder.0);
    let ran = run(command, b"");
    String::from_utf8(ran.out).expect("text")
}

#[test]
fn the_readme_shows_what_the_tool_prints() {
    let folder = Folder::new("readme");
    symlink(
        fs::canonicalize(root().join("examples")).expect("examples"),
        folder.0.join("examples"),
    )
    .expect("a link");
    let mut tried = 0;
    for Shown {
        line,
        printed: shown,
    } in commands()
    {
        if !line.contains("./bustardcase") {
            continue;
        }
        let text = printed(&folder, &line);
        let lines: Vec<&str> = text.lines().collect();
        assert!(
            agree(&shown, &lines),
            "README.md shows something else for '{line}', which prints\n{text}"
        );
        tried += 1;
    }
    assert_eq!(tried, 11, "commands of the README");
    let saved = folder.get("examples/finish.hif").len() - folder.get("shrunk.hif").len();
    assert_eq!(saved, 6, "bytes that shrinking saves");
    assert_eq!(&folder.get("finish.avif")[4..12], b"ftypavif");
    assert_eq!(folder.get("restored.hif"), folder.get("shrunk.hif"));
}
