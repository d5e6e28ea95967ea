//! `shrink` and `expand`.

use crate::folder::{Folder, TOOL, run};
use crate::payloads::{FTYP, SMALLEST, TEN, TYPED, boxed, everything, file};
use std::fs;
use std::os::unix::fs::{FileTypeExt, PermissionsExt, symlink};
use std::process::Command;

#[test]
fn shrink_makes_eight_bytes_of_ten() {
    let folder = Folder::new("shrink-ten");
    folder.put("in", TEN);
    assert_eq!(folder.run(&["shrink", "in", "out"]).text(0), "");
    assert_eq!(folder.get("out"), SMALLEST);
    assert_eq!(folder.get("in"), TEN);
    assert_eq!(folder.files().len(), 2);
}

#[test]
fn shrink_keeps_the_other_bytes_of_a_file() {
    let folder = Folder::new("shrink-file");
    let around = |payload| {
        let mini = boxed(b"mini", payload);
        [
            boxed(b"free", b"a"),
            boxed(b"ftyp", FTYP),
            mini,
            boxed(b"skip", b"bc"),
            b"xyz".to_vec(),
        ]
        .concat()
    };
    folder.put("in", &around(TEN));
    folder.run(&["shrink", "in", "out"]).text(0);
    assert_eq!(folder.get("out"), around(SMALLEST));
}

#[test]
fn shrink_gives_a_box_up_to_the_end_a_size() {
    let folder = Folder::new("shrink-open");
    let open = [&boxed(b"ftyp", FTYP), &b"\0\0\0\0mini"[..], TEN].concat();
    folder.put("in", &open);
    folder.run(&["shrink", "in", "out"]).text(0);
    assert_eq!(folder.get("out"), file(FTYP, SMALLEST));
}

#[test]
fn what_was_shrunk_reads_the_same() {
    let folder = Folder::new("shrink-same");
    let payload = everything(60, b"tail");
    folder.put("in", &payload);
    folder.run(&["shrink", "in", "out"]).text(0);
    let short = folder.get("out");
    assert!(short.len() < payload.len() - 4);
    // All but the payload's length and the chunks' positions.
    let shown = |name: &str| -> Vec<String> {
        let text = folder.run(&["show", name]).text(0);
        let kept = text.lines().filter(|l| !l.starts_with("payload_length"));
        kept.map(|line| match line.split_once(" position ") {
            Some((name, place)) => {
                let (_, length) = place.split_once("length").expect("a length");
                format!("{name}{}", length.trim())
            }
            None => line.to_string(),
        })
        .collect()
    };
    assert_eq!(shown("in"), shown("out"));
    folder.run(&["shrink", "out", "again"]).text(0);
    assert_eq!(folder.get("again"), short);
}

#[test]
fn out_may_be_in() {
    let folder = Folder::new("shrink-in-place");
    folder.put("in", TEN);
    fs::set_permissions(folder.0.join("in"), PermissionsExt::from_mode(0o640)).unwrap();
    folder.run(&["shrink", "in", "in"]).text(0);
    let files = folder.files();
    assert_eq!(files.len(), 1);
    assert_eq!(files["in"], (0o100640, SMALLEST.to_vec()));
}

#[test]
fn a_link_stays_a_link() {
    let folder = Folder::new("shrink-link");
    folder.put("in", TEN);
    folder.put("real", b"before");
    symlink("real", folder.0.join("out")).unwrap();
    folder.run(&["shrink", "in", "out"]).text(0);
    assert!(folder.0.join("out").is_symlink());
    assert_eq!(folder.get("real"), SMALLEST);
}

#[test]
fn expand_writes_the_equivalent_file() {
    let folder = Folder::new("expand-typed");
    folder.put("in", TYPED);
    assert_eq!(folder.run(&["expand", "in", "out"]).text(0), "");
    let file = folder.get("out");
    assert_eq!(file.len(), 484);
    assert_eq!(file[483], 0xAA);
    assert_eq!(&file[..24], b"\0\0\0\x18ftypmif3\0\0\0\0mif3mif1");
}

/// A file's own type is the original one; each option takes the place of one part of it.
#[test]
fn the_original_file_type() {
    let folder = Folder::new("expand-type");
    let expanded = |options: &[&str], input: &[u8]| -> Vec<u8> {
        folder.put("in", input);
        let words = [&["expand", "in", "out"], options].concat();
        folder.run(&words).text(0);
        folder.get("out")
    };
    let as_file = |ftyp: &[u8]| expanded(&[], &file(ftyp, TYPED));
    let plain = expanded(&[], TYPED);
    assert_eq!(as_file(b"mif3\0\0\0\0mif3"), plain);
    // Under 'mif3' the minor version becomes the major brand.
    let own = as_file(b"mif3avifmif3heic");
    assert_eq!(&own[..28], b"\0\0\0\x1Cftypavif\0\0\0\0mif3heicmif1");
    let options = ["--minor", "0x61766966", "--brands", "mif3,heic"];
    assert_eq!(expanded(&options, TYPED), own);
    let options = ["--minor", "avif", "--brands", "mif3,heic"];
    assert_eq!(expanded(&options, TYPED), own);
    let options = ["--major=mif3", "--minor=1635150182", "--brands=mif3,heic"];
    assert_eq!(expanded(&options, &file(b"abcdefghijkl", TYPED)), own);
    assert_eq!(
        expanded(&["--minor", "0"], &file(b"mif3avifmif3heic", TYPED)),
        as_file(b"mif3\0\0\0\0mif3heic")
    );
    assert_eq!(
        expanded(&["--major", "heic"], &file(b"mif3avifmif3", TYPED)),
        as_file(b"heicavifmif3")
    );
    assert_eq!(
        expanded(&["--brands", ""], &file(b"heicavifmif3", TYPED)),
        as_file(b"heicavif")
    );
    // A 'mini' box alone has no file type of its own.
    assert_eq!(expanded(&[], &boxed(b"mini", TYPED)), plain);
}

#[test]
fn options_may_stand_anywhere() {
    let folder = Folder::new("expand-options");
    folder.put("-in", TYPED);
    let words = ["expand", "--minor", "7", "--", "-in", "out"];
    folder.run(&words).text(0);
    let first = folder.get("out");
    folder.run(&["expand", "./-in", "--minor=7", "out"]).text(0);
    assert_eq!(folder.get("out"), first);
}

/// A pipe, as a device, is written to and stays. The test makes its own: a tool that renamed would
/// otherwise replace a device of the machine.
#[test]
fn a_pipe_stays_a_pipe() {
    let folder = Folder::new("shrink-pipe");
    folder.put("in", TEN);
    let mut command = Command::new("sh");
    let line =
        format!("mkfifo pipe && {{ timeout 60 cat pipe >got & '{TOOL}' shrink in pipe; wait; }}");
    command.args(["-c", &line]).current_dir(&folder.0);
    assert_eq!(run(command, b"").text(0), "");
    assert_eq!(folder.get("got"), SMALLEST);
    let pipe = fs::metadata(folder.0.join("pipe")).expect("the pipe is still there");
    assert!(pipe.file_type().is_fifo());
}
