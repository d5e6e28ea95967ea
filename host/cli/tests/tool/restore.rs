//! `restore`.

use crate::folder::{Folder, Ran, TOOL, run};
use crate::json::Json;
use crate::payloads::{SMALLEST, TYPED, boxed, everything, file, oriented};
use crate::same::{changed, full, list, payload};
use std::fs;
use std::os::unix::fs::symlink;
use std::process::Command;

/// What is said of 17, before what may help.
const NOT_AN_EXPANSION: &str = "refusal 17: no mini with explicit codec types expands to this file under this original \
                       file type";

type Options<'a> = [&'a str; 6];

/// The default file type.
const MIF3: &[u8] = b"mif3\0\0\0\0mif3";
const MIF3_GIVEN: Options = given("mif3", "0", "mif3");

/// The body of an 'ftyp' box, and the options that give it.
type FileType = (&'static [u8], Options<'static>);

/// Types that are among those tried.
const USUAL: [FileType; 8] = [
    (MIF3, MIF3_GIVEN),
    (b"mif3avifmif3avif", given("mif3", "avif", "mif3,avif")),
    (
        b"mif3heicmif3heicmif1",
        given("mif3", "heic", "mif3,heic,mif1"),
    ),
    (b"mif3avif", given("mif3", "avif", "''")),
    (b"mif3\0\0\0\0abcd", given("mif3", "0", "abcd")),
    (b"mif3heixmif3heix", given("mif3", "heix", "mif3,heix")),
    (b"mif3vvi3mif1tmap", given("mif3", "vvi3", "mif1,tmap")),
    (b"mif3\0\0\0\x07a,b\\", given("mif3", "7", "'a\\x2cb\\\\'")),
];

const UNUSUAL: [FileType; 4] = [
    (b"mif3mif3abcd", given("mif3", "mif3", "abcd")),
    (b"avif\0\0\0\x07avif", given("avif", "7", "avif")),
    (b"heix\0\0\0\0", given("heix", "0x0", "''")),
    (
        b"\0,\xFF\\\0\0\0\x07",
        given("'\\x00\\x2c\\xFF\\\\'", "7", "''"),
    ),
];

const fn given<'a>(major: &'a str, minor: &'a str, brands: &'a str) -> Options<'a> {
    ["--major", major, "--minor", minor, "--brands", brands]
}

/// Payloads from which an expanded file leaves nothing out: some plain ones, some with all there is.
fn pictures() -> Vec<Vec<u8>> {
    let mut pictures = vec![
        everything(60, b"tail"),
        payload(&full(0)),
        payload(&full(1)),
    ];
    let with_config = |n| changed(|p| (p.main_config, p.wide.data) = (n, true));
    pictures.extend([with_config(1), with_config(4_000)]);
    pictures.extend((1..=8).map(|orientation| oriented(orientation, with_config(9))));
    pictures
}

/// The file that a file of 'ftyp' and 'mini' expands to, under the name 'expanded'.
fn expanded(folder: &Folder, ftyp: &[u8], payload: &[u8]) -> Vec<u8> {
    folder.put("in", &file(ftyp, payload));
    folder.run(&["expand", "in", "expanded"]).text(0);
    folder.get("expanded")
}

/// As a shell reads them.
fn restore(folder: &Folder, options: &[&str]) -> Ran {
    let mut command = Command::new("sh");
    let line = format!("exec '{TOOL}' restore expanded out {}", options.join(" "));
    command.args(["-c", &line]).current_dir(&folder.0);
    run(command, b"")
}

fn cannot_be_told(name: &str) -> String {
    format!("bustardcase: {name}: the original file type cannot be told from the file\n")
}

/// What `restore` makes of an expanded file is what `shrink` makes of the original.
#[test]
fn the_original_again() {
    let folder = Folder::new("restore-original");
    for (ftyp, options) in USUAL.into_iter().chain(UNUSUAL) {
        for picture in pictures() {
            expanded(&folder, ftyp, &picture);
            assert_eq!(restore(&folder, &options).text(0), "");
            folder.run(&["shrink", "in", "shrunk"]).text(0);
            assert_eq!(folder.get("out"), folder.get("shrunk"));
        }
    }
}

/// Of the types the first that fits is taken; the original is among those told, if its minor version can be told, and
/// all of them expand to the file.
#[test]
fn types_that_are_not_given() {
    let folder = Folder::new("restore-usual");
    let usual = USUAL.map(|usual| (usual, true));
    let unusual = UNUSUAL.map(|unusual| (unusual, false));
    for ((ftyp, options), is_told) in usual.into_iter().chain(unusual) {
        for picture in [TYPED.to_vec(), everything(60, b""), payload(&full(1))] {
            let first = expanded(&folder, ftyp, &picture);
            let ran = restore(&folder, &[]);
            assert_eq!((ran.status, ran.out.len()), (0, 0));
            let lines = ran.err.strip_prefix(&cannot_be_told("expanded"));
            let mut lines = lines.expect("it cannot be told").lines();
            let taken = lines
                .next()
                .and_then(|line| line.strip_prefix("  taken     "));
            let others = lines.map(|line| line.strip_prefix("  fits too  "));
            let told: Option<Vec<&str>> = [taken].into_iter().chain(others).collect();
            let told = told.expect("options");
            let among = told.contains(&options.join(" ").as_str());
            assert!(among || !is_told, "{told:?}");
            let restored = folder.get("out");
            folder.run(&["expand", "out", "again"]).text(0);
            assert_eq!(folder.get("again"), first);
            for (i, other) in told.into_iter().enumerate() {
                assert_eq!(restore(&folder, &[other]).text(0), "");
                assert_eq!(folder.get("out") == restored, i == 0);
                folder.run(&["expand", "out", "again"]).text(0);
                assert_eq!(folder.get("again"), first);
            }
        }
    }
}

/// The list that has 'mif3' is taken first, and then the shorter one.
#[test]
fn the_types_that_fit() {
    let folder = Folder::new("restore-fit");
    expanded(&folder, b"mif3avif", TYPED);
    let expected = "  taken     --major mif3 --minor avif --brands mif3
  fits too  --major mif3 --minor avif --brands mif3,mif1
  fits too  --major mif3 --minor avif --brands ''
  fits too  --major avif --minor 0 --brands mif3,mif1
";
    let told = |options: &[&str]| {
        let ran = restore(&folder, options);
        assert_eq!((ran.status, ran.out.len()), (0, 0));
        let lines = ran.err.strip_prefix(&cannot_be_told("expanded"));
        lines.expect("it cannot be told").to_string()
    };
    assert_eq!(told(&[]), expected);
    assert_eq!(folder.get("out"), file(b"mif3avifmif3", &untyped()));
    // Each option takes the place of one part.
    let with_minor = expected.replace("--minor 0", "--minor avif");
    assert_eq!(told(&["--minor", "0x61766966"]), with_minor);
    let one = "  taken     --major mif3 --minor avif --brands mif1,mif3
  fits too  --major avif --minor 0 --brands mif1,mif3
";
    expanded(&folder, b"mif3avifmif1mif3", TYPED);
    assert_eq!(told(&["--brands", "mif1,mif3"]), one);
    expanded(&folder, b"avifavifmif3", TYPED);
    let other = "  taken     --major avif --minor 0 --brands mif3
  fits too  --major avif --minor 0 --brands mif3,mif1
";
    assert_eq!(told(&["--major", "avif"]), other);
    // A shell takes the brands for one word.
    expanded(&folder, b"mif3\0\0\0\0mif3qt  a'b;", TYPED);
    let brands = "'mif3,qt  ,a'\\''b;'";
    let quoted = format!("  taken     --major mif3 --minor 0 --brands {brands}\n");
    assert_eq!(told(&["--brands", brands]), quoted);
}

/// `TYPED` as its file has it: without a configuration, its type is not in the file.
fn untyped() -> Vec<u8> {
    b"\x20\0\0\0av01\0\0\0\0\0\0\0\xAA".to_vec()
}

/// What no expanded file carries is not there again. The two pictures expand to one file.
#[test]
fn what_the_file_does_not_carry() {
    let folder = Folder::new("restore-not-carried");
    let plain = changed(|p| p.main_config = 3);
    let told = changed(|p| (p.main_config, p.cicp) = (3, Some([1, 13, 2])));
    assert_eq!(told.len(), plain.len() + 3);
    for (picture, expected) in [(told, plain), (TYPED.to_vec(), untyped())] {
        expanded(&folder, MIF3, &picture);
        restore(&folder, &MIF3_GIVEN).text(0);
        assert_eq!(folder.get("out"), file(MIF3, &expected));
        let told = folder.run(&["same", "in", "out"]).text(0);
        assert!(told.starts_with("yes: both expand to one file\n"), "{told}");
    }
}

/// With one byte changed, there is no mini, or one that expands to exactly these bytes.
#[test]
fn bytes_changed() {
    let folder = Folder::new("restore-bytes");
    let whole = expanded(&folder, MIF3, &everything(60, b""));
    let mut none = 0;
    for i in (0..whole.len()).step_by(7) {
        let mut bytes = whole.clone();
        bytes[i] ^= 0x10;
        folder.put("expanded", &bytes);
        folder.put("out", b"before");
        let ran = restore(&folder, &MIF3_GIVEN);
        assert_eq!(ran.out, b"");
        match ran.status {
            0 => {
                folder.run(&["expand", "out", "again"]).text(0);
                assert_eq!(folder.get("again"), bytes, "byte {i}");
            }
            status => {
                assert_eq!((status, ran.err.lines().count()), (1, 1), "byte {i}");
                let start = format!("bustardcase: expanded: {NOT_AN_EXPANSION}; ");
                assert!(ran.err.starts_with(&start), "{}", ran.err);
                assert_eq!(folder.get("out"), b"before");
                none += 1;
            }
        }
    }
    // A chunk can be another one, and most of what is around them cannot.
    assert!(none > 70 && none < whole.len() / 7 - 40, "{none} times");
}

#[test]
fn files_that_no_mini_expands_to() {
    let folder = Folder::new("restore-none");
    let whole = expanded(&folder, b"mif3avifmif3avif", TYPED);
    let none = "it is no expansion under any original file type";
    let no_ftyp = "the file has no 'ftyp' box, which every expanded file has";
    let payload = "the file has no 'ftyp' box, which every expanded file has; it could be the payload of a 'mini' \
                   box";
    let cut = "the file's first box is cut";
    let mini = "the file has a 'mini' box itself";
    let jpeg = b"\xFF\xD8\xFF\xE0\0\x10JFIF\0\x01\x02\0\0\x01\0\x01\0\0\xFF\xD9";
    let other = [
        boxed(b"ftyp", b"avif\0\0\0\0avifmif1miaf"),
        boxed(b"meta", b"\0\0\0\0"),
    ]
    .concat();
    let avif = include_bytes!("../../../compare/data/alpha.avif");
    let heic = include_bytes!("../../../compare/data/plain.heic");
    let cases: [(&[u8], &str); 16] = [
        (b"", "the file is empty"),
        (b"\0", no_ftyp),
        (jpeg, no_ftyp),
        (b"\x89PNG\r\n\x1A\n\0\0\0\x0DIHDR", no_ftyp),
        (&whole[..7], no_ftyp),
        (&whole[..20], cut),
        (&boxed(b"meta", &[0; 40])[..47], cut),
        (&other, none),
        (avif, none),
        (heic, none),
        (&whole[..whole.len() - 1], none),
        (&[&whole[..], b"\0"].concat(), none),
        (&file(MIF3, TYPED), mini),
        (&boxed(b"mini", TYPED), mini),
        (TYPED, payload),
        (SMALLEST, payload),
    ];
    for (bytes, hint) in cases {
        folder.put("expanded", bytes);
        folder.put("out", b"before");
        let before = folder.files();
        let ran = folder.run(&["restore", "expanded", "out"]);
        let line = format!("bustardcase: expanded: {NOT_AN_EXPANSION}; {hint}\n");
        assert_eq!((ran.status, ran.err), (1, line));
        assert_eq!((ran.out, folder.files()), (Vec::new(), before));
        let ran = folder.run_with(&["restore", "-", "-"], bytes);
        let line = format!("bustardcase: standard input: {NOT_AN_EXPANSION}; {hint}\n");
        assert_eq!((ran.status, ran.err, ran.out), (1, line, Vec::new()));
    }
}

/// No file is left behind where there was none.
#[test]
fn a_type_that_does_not_fit() {
    let folder = Folder::new("restore-wrong");
    expanded(&folder, b"mif3avifmif3avif", TYPED);
    let before = folder.files();
    for options in [
        &["--major", "mif3", "--minor", "0"][..],
        &["--major", "mif3", "--minor", "heic"],
        &["--major", "avis"],
        &["--brands", "avif,mif3"],
        &given("mif3", "avif", "mif3"),
    ] {
        let ran = restore(&folder, options);
        let fits = "of the usual file types --major mif3 --minor avif --brands mif3,avif fits";
        let line = format!("bustardcase: expanded: {NOT_AN_EXPANSION}; {fits}\n");
        assert_eq!((ran.status, ran.err, ran.out), (1, line, Vec::new()));
        assert_eq!(folder.files(), before);
    }
    let whole = folder.get("expanded");
    folder.put("expanded", &whole[..whole.len() - 1]);
    let ran = restore(&folder, &["--major", "abce"]);
    let line = format!(
        "bustardcase: expanded: {NOT_AN_EXPANSION}; it is no expansion under any original file type\n"
    );
    assert_eq!((ran.status, ran.err), (1, line));
    let ran = restore(&folder, &["--brands", &vec!["mif3"; 1025].join(",")]);
    let line = "bustardcase: expanded: refusal 15: the brands aren't a multiple of 4 bytes, or are over 4,096 \
                bytes\n";
    assert_eq!((ran.status, ran.err.as_str()), (1, line));
    assert!(!folder.files().contains_key("out"));
}

/// With as many brands as there may be, and more in the file than there may be.
#[test]
fn many_brands() {
    let folder = Folder::new("restore-brands");
    let most = [&b"mif3\0\0\0\0mif3"[..], &b"abcd".repeat(1_023)].concat();
    let whole = expanded(&folder, &most, TYPED);
    let ran = restore(&folder, &[]);
    assert_eq!((ran.status, ran.err.lines().count()), (0, 3));
    assert_eq!(folder.get("out"), file(&most, &untyped()));
    let brands = [&b"mif3\0\0\0\0mif3"[..], &b"abcd".repeat(2_000)].concat();
    let rest = &whole[boxed(b"ftyp", &most).len()..];
    folder.put("expanded", &[&boxed(b"ftyp", &brands)[..], rest].concat());
    let ran = restore(&folder, &[]);
    assert_eq!(ran.status, 1);
    assert!(ran.err.contains("refusal 17: "), "{}", ran.err);
}

#[test]
fn a_dash_is_the_standard_input_or_output() {
    let folder = Folder::new("restore-pipes");
    let whole = expanded(&folder, MIF3, TYPED);
    let words = [&["restore", "-", "-"], &MIF3_GIVEN[..]].concat();
    let ran = folder.run_with(&words, &whole);
    let out = file(MIF3, &untyped());
    assert_eq!(
        ran,
        Ran {
            status: 0,
            out: out.clone(),
            err: String::new()
        }
    );
    let ran = folder.run_with(&["restore", "-", "-"], &whole);
    assert_eq!((ran.status, ran.out), (0, out));
    assert!(ran.err.starts_with(&cannot_be_told("standard input")));
}

#[test]
fn out_is_never_in() {
    let folder = Folder::new("restore-in-place");
    expanded(&folder, MIF3, TYPED);
    symlink("expanded", folder.0.join("link")).expect("a link");
    fs::hard_link(folder.0.join("expanded"), folder.0.join("twin")).expect("a second name");
    let before = folder.files();
    for out in ["expanded", "./expanded", "link", "twin"] {
        let ran = folder.run(&["restore", "expanded", out]);
        let line = "bustardcase: restore: OUT is IN; see 'bustardcase restore --help'\n";
        assert_eq!((ran.status, ran.err.as_str()), (2, line));
        assert_eq!(folder.files(), before);
    }
    for files in [
        "- expanded <expanded",
        "- - <expanded >>expanded",
        "expanded - >>expanded",
    ] {
        let mut command = Command::new("sh");
        let line = format!("exec '{TOOL}' restore {files}");
        command.args(["-c", &line]).current_dir(&folder.0);
        let ran = run(command, b"");
        let line = "bustardcase: restore: OUT is IN; see 'bustardcase restore --help'\n";
        assert_eq!((ran.status, ran.err.as_str()), (2, line));
        assert_eq!(folder.files(), before);
    }
}

#[test]
fn wrong_usage() {
    let folder = Folder::new("restore-usage");
    expanded(&folder, MIF3, TYPED);
    let both = "restore: OUT and what '--json' prints cannot both be the standard output; see 'bustardcase \
                restore --help'";
    let cases: [(&[&str], &str); 7] = [
        (
            &["expanded", "out", "--major", r"\xg0abc"],
            r"restore: '\xg0abc' is no brand of four characters; see 'bustardcase restore --help'",
        ),
        (
            &[],
            "restore: IN is missing; see 'bustardcase restore --help'",
        ),
        (
            &["in"],
            "restore: OUT is missing; see 'bustardcase restore --help'",
        ),
        (&["--json", "expanded", "-"], both),
        (
            &["expanded", "out", "--minor", "avi"],
            "restore: 'avi' is no number from 0 to 4294967295; see 'bustardcase restore --help'",
        ),
        (&["missing", "out"], "missing: no such file or folder"),
        (
            &["expanded", "none/out"],
            "none/out: no such file or folder",
        ),
    ];
    let before = folder.files();
    for (words, line) in cases {
        let ran = folder.run(&[&["restore"], words].concat());
        assert_eq!((ran.status, ran.err), (2, format!("bustardcase: {line}\n")));
        assert_eq!((ran.out, folder.files()), (Vec::new(), before.clone()));
    }
}

#[test]
fn json() {
    let folder = Folder::new("restore-json");
    expanded(&folder, b"mif3avifmif3", TYPED);
    let ran = restore(&folder, &["--json"]);
    assert_eq!(ran.status, 0);
    assert!(ran.err.starts_with(&cannot_be_told("expanded")));
    let told = Json::parse(&String::from_utf8(ran.out).expect("text"));
    assert_eq!(told.names(), ["file_type", "others"]);
    let word = |text: &str| Json::Text(text.to_string());
    assert_eq!(told.at("file_type.major_brand"), &word("mif3"));
    assert_eq!(
        told.at("file_type.minor_version"),
        &Json::Number(0x6176_6966)
    );
    assert_eq!(
        told.at("file_type.compatible_brands"),
        &Json::List(vec![word("mif3")])
    );
    assert_eq!(list(told.at("others")).len(), 3);
    // Where all is given, nothing else is tried.
    let only = restore(
        &folder,
        &[&["--json"], &given("mif3", "avif", "mif3")[..]].concat(),
    );
    let only = Json::parse(&only.text(0));
    assert_eq!(only.at("file_type"), told.at("file_type"));
    assert_eq!(only.at("others"), &Json::List(Vec::new()));
    let ran = restore(&folder, &["--json", "--major", "mif3", "--minor", "0"]);
    assert_eq!(ran.status, 1);
    let refused = Json::parse(&String::from_utf8(ran.out).expect("text"));
    assert_eq!(refused.names(), ["refusal"]);
    assert_eq!(
        refused.at("refusal").names(),
        ["number", "meaning", "fitting"]
    );
    assert_eq!(refused.at("refusal.number"), &Json::Number(17));
    let fitting = list(refused.at("refusal.fitting"));
    assert_eq!((fitting.len(), &fitting[0]), (4, told.at("file_type")));
}

/// The object is printed first.
#[test]
fn json_that_cannot_be_printed() {
    let folder = Folder::new("restore-json-full");
    expanded(&folder, MIF3, TYPED);
    folder.put("out", b"before");
    let before = folder.files();
    let ran = restore(&folder, &["--json", ">/dev/full"]);
    assert_eq!((ran.status, folder.files()), (2, before));
}

/// The same with bytes after the last chunk, and long forms.
#[test]
fn what_was_not_the_shortest() {
    let folder = Folder::new("restore-shortest");
    let wide = changed(|p| (p.wide.dimensions, p.wide.config, p.main_config) = (true, true, 2));
    let short = changed(|p| p.main_config = 2);
    let padded = [&wide[..], b"ignored"].concat();
    expanded(&folder, MIF3, &padded);
    restore(&folder, &MIF3_GIVEN).text(0);
    assert_eq!(folder.get("out"), file(MIF3, &short));
}
