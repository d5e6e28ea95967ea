//! What goes wrong: one line on the standard error, the status, and OUT as it was.

use crate::folder::{Folder, TOOL, run};
use crate::json::Json;
use crate::payloads::{FTYP, SMALLEST, TEN, TYPED, boxed, file};
use std::fs;
use std::path::Path;
use std::process::Command;

/// Runs each case; the line comes after 'bustardcase: '. No file may change, and none may be added.
fn each(folder: &Folder, status: i32, cases: &[(&[&str], &str)]) {
    let before = folder.files();
    for (words, line) in cases {
        let ran = folder.run(words);
        assert_eq!(ran.err, format!("bustardcase: {line}\n"), "{words:?}");
        assert_eq!((ran.status, ran.out), (status, Vec::new()), "{words:?}");
        assert_eq!(folder.files(), before, "{words:?}");
    }
}

#[test]
fn usage() {
    let folder = Folder::new("errors-usage");
    folder.put("in", TYPED);
    folder.put("out", b"before");
    let cases: &[(&[&str], &str)] = &[
        (&[], "no command is given; see 'bustardcase --help'"),
        (
            &["sho"],
            "there is no command 'sho'; see 'bustardcase --help'",
        ),
        (
            &["--json"],
            "there is no command '--json'; see 'bustardcase --help'",
        ),
        (
            &["help", "x"],
            "there is no command 'x'; see 'bustardcase --help'",
        ),
        (
            &["show"],
            "show: FILE is missing; see 'bustardcase show --help'",
        ),
        (
            &["shrink", "in"],
            "shrink: OUT is missing; see 'bustardcase shrink --help'",
        ),
        (
            &["shrink"],
            "shrink: IN is missing; see 'bustardcase shrink --help'",
        ),
        (
            &["expand", "in", "out", "more"],
            "expand: 'more' is one file too many; see 'bustardcase expand --help'",
        ),
        (
            &["explain", "--json", "in"],
            "explain: there is no option '--json'; see 'bustardcase explain --help'",
        ),
        (
            &["show", "-x\n", "in"],
            "show: there is no option '-x\\n'; see 'bustardcase show --help'",
        ),
        (
            &["show", "--json=1", "in"],
            "show: '--json' takes no value; see 'bustardcase show --help'",
        ),
        (
            &["show", "--json", "--json", "in"],
            "show: '--json' is given twice; see 'bustardcase show --help'",
        ),
        (
            &["expand", "in", "out", "--major"],
            "expand: '--major' takes a value; see 'bustardcase expand --help'",
        ),
        (
            &["expand", "in", "out", "--major", "mif"],
            "expand: 'mif' is no brand of four characters; see 'bustardcase expand --help'",
        ),
        (
            &["expand", "in", "out", "--brands", "mif3,,mif1"],
            "expand: '' is no brand of four characters; see 'bustardcase expand --help'",
        ),
        (
            &["expand", "in", "out", "--minor", "4294967296"],
            "expand: '4294967296' is no number from 0 to 4294967295; see 'bustardcase expand --help'",
        ),
        (
            &["expand", "in", "out", "--minor=+1"],
            "expand: '+1' is no number from 0 to 4294967295; see 'bustardcase expand --help'",
        ),
        (
            &["expand", "in", "out", "--minor=0x+1"],
            "expand: '0x+1' is no number from 0 to 4294967295; see 'bustardcase expand --help'",
        ),
    ];
    each(&folder, 2, cases);
}

#[test]
fn files_that_cannot_be_read_or_written() {
    let folder = Folder::new("errors-files");
    folder.put("in", TYPED);
    folder.put("out", b"before");
    fs::create_dir(folder.0.join("folder")).expect("a folder");
    let missing = "missing: no such file or folder";
    let cases: &[(&[&str], &str)] = &[
        (&["show", "missing"], missing),
        (&["show", "--json", "missing"], missing),
        (&["explain", "missing"], missing),
        (&["check", "missing"], missing),
        (&["shrink", "missing", "out"], missing),
        (&["expand", "missing", "out"], missing),
        (
            &["show", "two\nlines"],
            "two\\nlines: no such file or folder",
        ),
        (&["show", ""], ": no such file or folder"),
        (&["show", "folder"], "folder: it is a folder"),
        (&["shrink", "folder", "out"], "folder: it is a folder"),
        (&["shrink", "in", "folder"], "folder: it is a folder"),
        (
            &["expand", "in", "none/out"],
            "none/out: no such file or folder",
        ),
        (&["shrink", "in", ""], ": no such file or folder"),
    ];
    each(&folder, 2, cases);
    let left = fs::read_dir(folder.0.join("folder")).expect("the folder");
    assert_eq!(left.count(), 0);
}

/// The shell opens the device, so that the tool knows no name that it could replace.
#[test]
fn a_full_device() {
    if !Path::new("/dev/full").exists() {
        return;
    }
    let folder = Folder::new("errors-full");
    folder.put("in", TYPED);
    for words in ["show in", "expand in -"] {
        let mut command = Command::new("sh");
        let line = format!("exec '{TOOL}' {words} >/dev/full");
        command.args(["-c", &line]).current_dir(&folder.0);
        let ran = run(command, b"");
        let line = "bustardcase: standard output: No space left on device (os error 28)\n";
        assert_eq!((ran.status, ran.err.as_str()), (2, line));
    }
}

/// The writing itself fails, after the file beside OUT was made.
#[test]
fn no_room_for_the_file() {
    let folder = Folder::new("errors-room");
    folder.put("in", TYPED);
    folder.put("out", b"before");
    let before = folder.files();
    let mut command = Command::new("sh");
    let line = format!("trap '' XFSZ; ulimit -f 0; exec '{TOOL}' expand in out");
    command.args(["-c", &line]).current_dir(&folder.0);
    let ran = run(command, b"");
    let line = "bustardcase: out: File too large (os error 27)\n";
    assert_eq!((ran.status, ran.err.as_str()), (2, line));
    assert_eq!(folder.files(), before);
}

/// A payload that is refused, and where.
struct Refused {
    payload: &'static [u8],
    number: u64,
    bit: u64,
    byte: u64,
    part: &'static str,
    /// The words before the byte, and those after it.
    words: [&'static str; 2],
    /// Of a chunk, how many bytes it has, and how many of these are missing.
    chunk: &'static [u64],
}

/// What the refusals 5 to 9 mean.
const MEANINGS: [&str; 5] = [
    "a header field, or a body among the HDR boxes, needs bits past the end",
    "the version is not 0",
    "the two-bit float depth code is 3",
    "the bits up to the byte boundary after the header aren't all zero",
    "a chunk, taken in stored order, ends past the payload",
];

impl Refused {
    const fn field(
        payload: &'static [u8],
        [number, bit, byte]: [u64; 3],
        part: &'static str,
        words: [&'static str; 2],
    ) -> Self {
        Refused {
            payload,
            number,
            bit,
            byte,
            part,
            words,
            chunk: &[],
        }
    }

    fn meaning(&self) -> &'static str {
        MEANINGS[self.number as usize - 5]
    }

    /// What is said of it; in a file the byte is counted from the file's start, too.
    fn message(&self, start: Option<u64>) -> String {
        let Refused {
            number, bit, byte, ..
        } = self;
        let [before, after] = self.words;
        let at = start.map(|start| format!(" (byte {} of the file)", start + byte));
        let meaning = self.meaning();
        let at = at.unwrap_or_default();
        format!(
            "refusal {number}: {meaning}; at bit {bit}: {before} byte {byte} of the payload{at}{after}"
        )
    }
}

const REFUSED: [Refused; 13] = [
    Refused::field(
        b"",
        [5, 0, 0],
        "flags",
        ["in the part 'flags', bit 0 of", ", where the payload ends"],
    ),
    Refused::field(
        b"\0\0\0\0\0",
        [5, 37, 4],
        "chunk sizes",
        [
            "in the part 'chunk sizes', bit 5 of",
            ", 3 bits before the payload ends",
        ],
    ),
    // The first codec type.
    Refused::field(
        b"\x20\0\0\0av0",
        [5, 32, 4],
        "explicit codec types",
        [
            "in the part 'explicit codec types', bit 0 of",
            ", 24 bits before the payload ends",
        ],
    ),
    // The body of 'clli'.
    Refused::field(
        b"\x01\0\0\0\x40\0\0",
        [5, 39, 4],
        "HDR boxes",
        [
            "in the part 'HDR boxes', bit 7 of",
            ", 17 bits before the payload ends",
        ],
    ),
    // What follows the flags byte of 'cclv'.
    Refused::field(
        b"\x01\0\0\0\x10\x08\0",
        [5, 47, 5],
        "HDR boxes",
        [
            "in the part 'HDR boxes', bit 7 of",
            ", 9 bits before the payload ends",
        ],
    ),
    Refused::field(
        b"\x01\0\0\0\xc0\0\0",
        [5, 56, 7],
        "tone map HDR boxes",
        [
            "in the part 'tone map HDR boxes', bit 0 of",
            ", where the payload ends",
        ],
    ),
    Refused::field(
        b"\x40",
        [6, 0, 0],
        "flags",
        [
            "in the part 'flags', bit 0 of",
            ", from where the bits are 01000000",
        ],
    ),
    // The code lies in two bytes.
    Refused::field(
        b"\x10\0\0\x01\x80",
        [7, 31, 3],
        "sample format",
        [
            "in the part 'sample format', bit 7 of",
            ", from where the bits are 1 10000000",
        ],
    ),
    Refused::field(
        b"\x01\0\0\0\xc0\x07",
        [7, 46, 5],
        "gain map",
        [
            "in the part 'gain map', bit 6 of",
            ", from where the bits are 11",
        ],
    ),
    Refused::field(
        b"\0\0\0\0\0\0\x01\xAA\xBB",
        [8, 52, 6],
        "trailing bits",
        [
            "in the part 'trailing bits', bit 4 of",
            ", from where the bits are 0001",
        ],
    ),
    Refused {
        payload: b"\0\0\0\0\0\0\0",
        number: 9,
        bit: 56,
        byte: 7,
        part: "main data",
        words: ["main data would begin at", " and has 1 byte, 1 is missing"],
        chunk: &[1, 1],
    },
    Refused {
        payload: b"\x04\0\0\0\0\0\x20\0\x30\xA1",
        number: 9,
        bit: 72,
        byte: 9,
        part: "alpha data",
        words: [
            "alpha data would begin at",
            " and has 3 bytes, 2 are missing",
        ],
        chunk: &[3, 2],
    },
    // A chunk before it is there: main configuration of two bytes.
    Refused {
        payload: b"\0\0\0\0\x10\x75\x50\xC1\xC2\xAA",
        number: 9,
        bit: 72,
        byte: 9,
        part: "main data",
        words: [
            "main data would begin at",
            " and has 1,878 bytes, 1,877 are missing",
        ],
        chunk: &[1_878, 1_877],
    },
];

#[test]
fn refused_payloads() {
    let folder = Folder::new("errors-refused");
    folder.put("out", b"before");
    for refused in REFUSED {
        all_refuse(&folder, refused.payload, &refused.message(None));
    }
}

#[test]
fn refused_payloads_of_files() {
    let folder = Folder::new("errors-refused-files");
    folder.put("out", b"before");
    for refused in REFUSED {
        let (whole, start) = in_file(&refused);
        all_refuse(&folder, &whole, &refused.message(Some(start)));
    }
}

/// A file that is cut inside its 'mini' box: the box is refused, and the payload is not read. A box of size 0
/// reaches to the end of the file, so that the payload is read, and the place is told.
#[test]
fn files_that_are_cut() {
    let folder = Folder::new("errors-cut-files");
    folder.put("out", b"before");
    let no_box = "no 'mini' box is found: refusal 3: a box's size is 2 to 7, its largesize below 16, or \
                  either beyond the bytes that remain";
    let head = |size: u32| [&boxed(b"ftyp", FTYP)[..], &size.to_be_bytes(), b"mini"].concat();
    let start = head(0).len() as u64;
    for refused in REFUSED {
        let size = 8 + refused.payload.len() as u32;
        let cut = [&head(size + 1)[..], refused.payload].concat();
        all_refuse(&folder, &cut, no_box);
        let open = [&head(0)[..], refused.payload].concat();
        all_refuse(&folder, &open, &refused.message(Some(start)));
    }
}

/// A file with the payload, and where in the file it begins.
fn in_file(refused: &Refused) -> (Vec<u8>, u64) {
    let whole = file(FTYP, refused.payload);
    let start = whole.len() - refused.payload.len();
    (whole, start as u64)
}

/// Every command refuses the input, by its name and from a pipe, with this message, and changes nothing.
fn all_refuse(folder: &Folder, bytes: &[u8], message: &str) {
    folder.put("in", bytes);
    let line = format!("in: {message}");
    let cases: &[(&[&str], &str)] = &[
        (&["show", "in"], &line),
        (&["check", "in"], &line),
        (&["shrink", "in", "out"], &line),
        (&["shrink", "in", "in"], &line),
        (&["expand", "in", "out"], &line),
        (&["expand", "in", "-"], &line),
    ];
    each(folder, 1, cases);
    // `explain` prints what was read, too.
    let ran = folder.run(&["explain", "in"]);
    assert_eq!(ran.err, format!("bustardcase: {line}\n"));
    assert_eq!(ran.status, 1);
    let commands: [&[&str]; 5] = [
        &["show", "-"],
        &["explain", "-"],
        &["check", "-"],
        &["shrink", "-", "out"],
        &["expand", "-", "out"],
    ];
    let before = folder.files();
    for words in commands {
        let piped = folder.run_with(words, bytes);
        let line = format!("bustardcase: standard input: {message}\n");
        assert_eq!((piped.status, piped.err), (1, line), "{words:?}");
        if words[0] == "explain" {
            assert_eq!(piped.out, ran.out);
        }
    }
    assert_eq!(folder.files(), before);
}

#[test]
fn payloads_that_cannot_be_expanded() {
    let folder = Folder::new("errors-expand");
    folder.put("plain", SMALLEST);
    folder.put("uuid", b"\x20\0\0\0uuidav1C\0\0\0\xAA");
    folder.put(
        "alpha",
        b"\x24\0\0\0\x30\xBB\x18\x18\xB0\xBB\x18\xA1\x80\0\0\0\0\xAA",
    );
    folder.put("typed", TYPED);
    folder.put("out", b"before");
    let brands = vec!["mif3"; 1025].join(",");
    let cases: &[(&[&str], &str)] = &[
        (
            &["expand", "alpha", "out"],
            "alpha: refusal 12: alpha is set and the alpha data is empty",
        ),
        (
            &["expand", "uuid", "out"],
            "uuid: refusal 13: an explicit codec type is 'uuid'",
        ),
        (
            &["expand", "plain", "out"],
            "plain: refusal 14: there are no explicit codec types",
        ),
        (
            &["expand", "typed", "out", "--brands", &brands],
            "typed: refusal 15: the brands aren't a multiple of 4 bytes, or are over 4,096 bytes",
        ),
    ];
    each(&folder, 1, cases);
}

/// A file that begins with 'ftyp' is never read as a bare payload.
#[test]
fn files_that_are_refused() {
    let folder = Folder::new("errors-boxes");
    let ftyp = boxed(b"ftyp", FTYP);
    folder.put("bare-ftyp", &ftyp);
    folder.put("other", &[ftyp.clone(), boxed(b"meta", TEN)].concat());
    let whole = file(FTYP, TEN);
    folder.put("cut", &whole[..whole.len() - 1]);
    folder.put("cut-size", &[&ftyp[..], b"\0\0\0\x01mini\0\0"].concat());
    folder.put("uuid", &[&ftyp[..], b"\0\0\0\x0Auuid\0\0"].concat());
    folder.put("short-ftyp", &file(b"mif3\0\0\0", TEN));
    folder.put("odd-ftyp", &file(b"mif3\0\0\0\0mif", TEN));
    folder.put("long-ftyp", &file(&b"mif3".repeat(2 + 1025), TEN));
    folder.put("out", b"before");
    let none = "no 'mini' box is found: refusal";
    let no_file_type = "the 'ftyp' box: refusal 28: the payload of an 'ftyp' box is no original file \
                        type: fewer than 8 bytes, or brands that aren't a multiple of 4 bytes or are \
                        over 4,096 bytes";
    let cases = [
        (
            "bare-ftyp",
            format!("{none} 1: fewer than 8 bytes are left for a box header"),
        ),
        (
            "other",
            format!("{none} 1: fewer than 8 bytes are left for a box header"),
        ),
        (
            "cut",
            format!(
                "{none} 3: a box's size is 2 to 7, its largesize below 16, or either beyond the \
                 bytes that remain"
            ),
        ),
        (
            "cut-size",
            format!("{none} 2: a box has size 1, and fewer than 16 bytes remain"),
        ),
        (
            "uuid",
            format!("{none} 4: a 'uuid' box ends before its 16-byte extended type does"),
        ),
        ("short-ftyp", no_file_type.to_string()),
        ("odd-ftyp", no_file_type.to_string()),
        ("long-ftyp", no_file_type.to_string()),
    ];
    for (name, line) in cases {
        let line = format!("{name}: {line}");
        let cases: &[(&[&str], &str)] = &[
            (&["show", name], &line),
            (&["explain", name], &line),
            (&["check", name], &line),
            (&["shrink", name, "out"], &line),
            (&["expand", name, "out"], &line),
        ];
        each(&folder, 1, cases);
    }
}

/// Under `--json` the refusal comes on the standard output too, with the place as numbers and a name.
#[test]
fn refusals_as_json() {
    let folder = Folder::new("errors-json");
    for refused in REFUSED {
        let (whole, start) = in_file(&refused);
        for (input, start) in [(refused.payload, None), (&whole[..], Some(start))] {
            folder.put("in", input);
            for command in ["show", "check"] {
                let ran = folder.run(&[command, "--json", "in"]);
                let line = format!("bustardcase: in: {}\n", refused.message(start));
                assert_eq!((ran.status, ran.err), (1, line));
                let json = Json::parse(&String::from_utf8(ran.out).expect("text"));
                told_as_json(&refused, start, &json);
            }
        }
    }
}

/// Names and values, in this order and no others.
fn told_as_json(refused: &Refused, start: Option<u64>, json: &Json) {
    let file_byte = start.map_or(Json::Null, |start| Json::Number(start + refused.byte));
    let mut expected = vec![
        ("number", Json::Number(refused.number)),
        ("meaning", Json::Text(refused.meaning().to_string())),
        ("bit", Json::Number(refused.bit)),
        ("byte", Json::Number(refused.byte)),
        ("file_byte", file_byte),
        ("part", Json::Text(refused.part.to_string())),
    ];
    for (name, number) in ["length", "missing"].into_iter().zip(refused.chunk) {
        expected.push((name, Json::Number(*number)));
    }
    assert_eq!(json.names(), ["refusal"]);
    let names: Vec<&str> = expected.iter().map(|(name, _)| *name).collect();
    assert_eq!(json.at("refusal").names(), names);
    for (name, value) in expected {
        assert_eq!(json.at(&format!("refusal.{name}")), &value, "{name}");
    }
}

/// A refusal that is not one of reading has no place.
#[test]
fn other_refusals_as_json() {
    let folder = Folder::new("errors-json-other");
    folder.put("in", &boxed(b"ftyp", FTYP));
    let ran = folder.run(&["show", "--json", "in"]);
    assert_eq!(ran.status, 1);
    let json = Json::parse(&String::from_utf8(ran.out).expect("text"));
    assert_eq!(json.at("refusal").names(), ["number", "meaning"]);
}
