//! The standard input and output.

use crate::folder::{Folder, Ran, TOOL};
use crate::payloads::{FTYP, SMALLEST, TEN, TYPED, everything, file};
use std::io::Write;
use std::process::{Command, Stdio};

#[test]
fn a_dash_is_the_standard_input() {
    let folder = Folder::new("pipes-input");
    let payload = everything(60, b"");
    folder.put("in", &payload);
    for command in ["show", "explain"] {
        let piped = folder.run_with(&[command, "-"], &payload).text(0);
        assert_eq!(piped, folder.run(&[command, "in"]).text(0));
    }
    let piped = folder.run_with(&["check", "-"], SMALLEST).text(1);
    assert!(piped.starts_with("no: "));
    let refused = folder.run_with(&["check", "-"], b"");
    let line = "bustardcase: standard input: refusal 5: a header field, or a body among the HDR \
                boxes, needs bits past the end; at bit 0: in the part 'flags', bit 0 of byte 0 of the \
                payload, where the payload ends\n";
    assert_eq!((refused.status, refused.err.as_str()), (1, line));
}

#[test]
fn a_dash_is_the_standard_output() {
    let folder = Folder::new("pipes-output");
    let shrunk = folder.run_with(&["shrink", "-", "-"], &file(FTYP, TEN));
    let expected = Ran {
        status: 0,
        out: file(FTYP, SMALLEST),
        err: String::new(),
    };
    assert_eq!(shrunk, expected);
    let expanded = folder.run_with(&["expand", "-", "-"], TYPED);
    assert_eq!((expanded.status, expanded.out.len()), (0, 484));
    assert!(folder.files().is_empty());
}

/// As with `| head`: the reader is gone before a byte is written.
#[test]
fn a_reader_that_has_gone_away() {
    for words in [&["show", "-"][..], &["explain", "-"], &["shrink", "-", "-"]] {
        let mut command = Command::new(TOOL);
        command.args(words).stdin(Stdio::piped());
        let pipes = command.stdout(Stdio::piped()).stderr(Stdio::piped());
        let mut child = pipes.spawn().expect("it starts");
        drop(child.stdout.take());
        let mut input = child.stdin.take().expect("a pipe");
        input.write_all(SMALLEST).expect("it reads");
        drop(input);
        let output = child.wait_with_output().expect("it ends");
        assert_eq!(output.status.code(), Some(0), "{words:?}");
        assert_eq!(output.stderr, b"");
    }
}
