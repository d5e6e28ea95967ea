//! `--help` and `--version`.

use crate::folder::{Folder, assert_within_80_columns};

const COMMANDS: [&str; 7] = [
    "show", "explain", "check", "shrink", "expand", "restore", "same",
];

#[test]
fn help_for_all() {
    let folder = Folder::new("help-all");
    let text = folder.run(&["--help"]).text(0);
    assert_within_80_columns(&text);
    for command in COMMANDS {
        assert!(text.contains(&format!("\n  {command} ")), "{command}");
    }
    for words in [&["-h"][..], &["help"]] {
        assert_eq!(folder.run(words).text(0), text);
    }
}

#[test]
fn help_for_each_command() {
    let folder = Folder::new("help-each");
    for command in COMMANDS {
        let text = folder.run(&[command, "--help"]).text(0);
        assert_within_80_columns(&text);
        assert!(text.starts_with(&format!("usage: bustardcase {command} ")));
        assert_eq!(folder.run(&["help", command]).text(0), text);
        assert_eq!(folder.run(&[command, "a", "-h"]).text(0), text);
    }
    let expand = folder.run(&["expand", "--help"]).text(0);
    let default = "major brand mif3, minor version 0 and one compatible\nbrand, mif3.";
    assert!(expand.contains(default));
}

#[test]
fn version() {
    let folder = Folder::new("help-version");
    let expected = concat!("bustardcase ", env!("CARGO_PKG_VERSION"), "\n");
    assert_eq!(folder.run(&["--version"]).text(0), expected);
}
