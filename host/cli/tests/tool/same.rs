//! `same`.

use crate::folder::{Folder, TOOL, assert_within_80_columns, run};
use crate::json::Json;
use crate::payloads::{FTYP, SMALLEST, TYPED, boxed, everything, file};
use plan::{Alpha, Chroma, Depth, GainMap, Hdr, NO_BODIES, PLAIN_CHROMA, Plan};
use std::collections::BTreeSet;
use std::process::Command;

const YES: &str = "yes: both expand to one file\n";
const NO: &str = "no: they expand to different files\n";
const NOT_CARRIED: &str = "no expanded file carries these differences:\n";
const UNDER_ONE_TYPE: &str = "under one file type they expand to one file\n";

/// The default file type.
const MIF3: &[u8] = b"mif3\0\0\0\0mif3";

/// What follows the header is all one byte.
pub fn payload(plan: &Plan) -> Vec<u8> {
    let header = plan.header();
    [header.bytes, vec![0xC0; header.chunks]].concat()
}

/// `TYPED` with a change.
pub fn changed(change: impl FnOnce(&mut Plan)) -> Vec<u8> {
    let mut plan = Plan::smallest();
    plan.types = Some([*b"av01", *b"av1C"]);
    change(&mut plan);
    payload(&plan)
}

fn set_hdr(plan: &mut Plan) {
    plan.hdr = Some(Hdr {
        gain_map: None,
        bodies: NO_BODIES,
    });
}

fn set_gain_map(plan: &mut Plan) {
    plan.hdr = Some(Hdr {
        gain_map: full(0).hdr.expect("hdr").gain_map,
        bodies: NO_BODIES,
    });
}

/// What is printed of two inputs, with options.
fn printed(folder: &Folder, status: i32, [a, b]: [&[u8]; 2], options: &[&str]) -> String {
    folder.put("a", a);
    folder.put("b", b);
    let words = [&["same", "a", "b"], options].concat();
    folder.run(&words).text(status)
}

fn text(folder: &Folder, status: i32, pair: [&[u8]; 2], options: &[&str]) -> String {
    let text = printed(folder, status, pair, options);
    assert_within_80_columns(&text);
    text
}

fn json(folder: &Folder, status: i32, pair: [&[u8]; 2]) -> Json {
    let json = Json::parse(&printed(folder, status, pair, &["--json"]));
    assert_eq!(json.names(), ["same", "fields", "file_type"]);
    assert_eq!(json.at("same"), &Json::Flag(status == 0));
    json
}

pub fn list(json: &Json) -> &[Json] {
    match json {
        Json::List(values) => values,
        other => panic!("no list: {other:?}"),
    }
}

#[test]
fn one_record() {
    let folder = Folder::new("same-one-record");
    let plain = everything(60, b"");
    let tail = everything(60, b"tail");
    for pair in [[&plain, &plain], [&plain, &tail], [&tail, &plain]] {
        assert_eq!(text(&folder, 0, pair.map(|p| &p[..]), &[]), YES);
    }
    let wide = changed(|p| p.wide.dimensions = true);
    let short = changed(|_| ());
    assert_ne!(wide, short);
    assert_eq!(text(&folder, 0, [&wide, &short], &[]), YES);
}

#[test]
fn what_was_shrunk_expands_to_the_same_file() {
    let folder = Folder::new("same-shrunk");
    folder.put("in", &file(FTYP, &everything(60, b"tail")));
    folder.run(&["shrink", "in", "out"]).text(0);
    assert_eq!(folder.run(&["same", "in", "out"]).text(0), YES);
    assert_eq!(folder.run(&["same", "in", "in"]).text(0), YES);
}

#[test]
fn what_the_file_does_not_carry() {
    let folder = Folder::new("same-not-carried");
    let flag = changed(set_hdr);
    let told = text(&folder, 0, [&changed(|_| ()), &flag], &[]);
    assert_eq!(told, format!("{YES}{NOT_CARRIED}  hdr  no | yes\n"));
    let cicp = changed(|p| {
        set_hdr(p);
        p.cicp = Some([1, 13, 2]);
    });
    let told = text(&folder, 0, [&cicp, &changed(|_| ())], &[]);
    let lines = "  \
  explicit_cicp  primaries 1, transfer 13, matrix 2 | none
  hdr            yes | no
";
    assert_eq!(told, format!("{YES}{NOT_CARRIED}{lines}"));
}

/// Beside a field that the file carries.
#[test]
fn both_kinds_of_fields() {
    let folder = Folder::new("same-both");
    let wider = changed(|p| {
        set_hdr(p);
        p.width = 1919;
    });
    let told = text(&folder, 1, [&wider, &changed(|_| ())], &[]);
    let lines = ["  width  1920 | 1\n", "  hdr    yes | no\n"];
    assert_eq!(told, format!("{NO}{}{NOT_CARRIED}{}", lines[0], lines[1]));
}

/// A change, and what is printed of it.
type Case = (fn(&mut Plan), &'static str);

#[test]
fn each_kind_of_value() {
    let folder = Folder::new("same-kinds");
    let cases: [Case; 14] = [
        (
            |p| p.types = Some([*b"hvc1", *b"av1C"]),
            "  explicit_codec_types.item_type  av01 | hvc1\n",
        ),
        (|p| p.full_range = true, "  full_range  no | yes\n"),
        (|p| p.depth = Depth::More(1), "  format.bits  8 | 10\n"),
        (
            |p| p.depth = Depth::Float(0),
            "  format.kind  integer | float\n  format.bits  8 | 16\n",
        ),
        (|p| p.orientation = 5, "  orientation  1 | 6\n"),
        (|p| p.height = 32_767, "  height  1 | 32768\n"),
        (
            |p| p.cicp = Some([9, 16, 0]),
            "  explicit_cicp  none | primaries 9, transfer 16, matrix 0\n",
        ),
        (|p| p.icc = Some(0), "  icc  none | 1 byte\n"),
        (
            |p| p.main_config = 4,
            "  main_codec_config  0 bytes | 4 bytes\n",
        ),
        (
            |p| p.main_data = 99_999,
            "  main_data  1 byte | 100,000 bytes\n",
        ),
        (
            |p| {
                p.alpha = Some(Alpha {
                    premultiplied: false,
                    data: 2,
                    config: 0,
                })
            },
            "  alpha       no | yes\n  alpha_data  0 bytes | 2 bytes\n",
        ),
        (
            |p| {
                set_hdr(p);
                p.hdr.as_mut().expect("hdr").bodies[0] = Some(vec![1, 0, 255, 16]);
            },
            "  hdr             no | yes\n  hdr_boxes.clli  none | 01 00 ff 10\n",
        ),
        (
            set_gain_map,
            "  hdr       no | yes\n  gain_map  none | present\n",
        ),
        (
            |p| (p.exif, p.compressed) = (Some(1023), true),
            "  exif_xmp_compressed  no | yes\n  exif                 none | 1,024 bytes\n",
        ),
    ];
    for (change, lines) in cases {
        let told = text(&folder, 1, [&changed(|_| ()), &changed(change)], &[]);
        assert_eq!(told, format!("{NO}{lines}"));
    }
}

#[test]
fn the_first_byte_that_differs() {
    let folder = Folder::new("same-bytes");
    let plain = everything(60, b"");
    // Exif is followed by the ten bytes of XMP.
    for (from_end, line) in [
        (1, "  xmp  10 bytes each, the first difference at byte 9\n"),
        (10, "  xmp  10 bytes each, the first difference at byte 0\n"),
        (
            11,
            "  exif  80 bytes each, the first difference at byte 79\n",
        ),
    ] {
        let mut other = plain.clone();
        let at = other.len() - from_end;
        other[at] ^= 0x80;
        let told = text(&folder, 1, [&plain, &other], &[]);
        assert_eq!(told, format!("{NO}{line}"));
        let json = json(&folder, 1, [&other, &plain]);
        let fields = list(json.at("fields"));
        assert_eq!(fields.len(), 1);
        let first: u64 = line.trim().rsplit(' ').next().unwrap().parse().unwrap();
        assert_eq!(fields[0].at("first_difference"), &Json::Number(first));
    }
}

/// Bytes are compared where the lengths are equal.
#[test]
fn chunks_of_different_lengths() {
    let folder = Folder::new("same-lengths");
    let longer = changed(|p| p.main_data = 1);
    let told = text(&folder, 1, [TYPED, &longer], &[]);
    assert_eq!(told, format!("{NO}  main_data  1 byte | 2 bytes\n"));
    let json = json(&folder, 1, [TYPED, &longer]);
    let names = list(json.at("fields"))[0].names();
    assert_eq!(names, ["name", "a", "b", "carried"]);
}

/// All that there is, and nothing of it as in the other of 0 and 1.
pub fn full(n: u8) -> Plan {
    let more = u32::from(n);
    let mut bodies = [4, 24, 5, 8, 20, 4].map(|len| Some(vec![n; len]));
    bodies[2].as_mut().expect("'cclv'")[0] = 0x10;
    let chroma = Chroma {
        subsampling: 1 + more,
        ..PLAIN_CHROMA
    };
    let depth = [Depth::More(1), Depth::Float(0)][usize::from(n)];
    Plan {
        types: Some([[*b"av01", *b"av1C"], [*b"hvc1", *b"hvcC"]][usize::from(n)]),
        full_range: n == 1,
        depth,
        alpha: Some(Alpha {
            premultiplied: n == 1,
            data: 5 + more,
            config: 2 + more,
        }),
        cicp: Some([9 + n, 16, 9]),
        hdr: Some(Hdr {
            gain_map: Some(GainMap {
                dimensions: Some((8 + more, 16 + more)),
                matrix: n,
                full_range: n == 1,
                chroma,
                depth,
                tmap_icc: Some(10 + more),
                tmap_cicp: Some(([12, 13, n], true)),
                tmap_bodies: bodies.clone(),
                metadata: 12 + more,
                data: 14 + more,
                config: 5 + more,
            }),
            bodies,
        }),
        icc: Some(20 + more),
        exif: Some(30 + more),
        xmp: Some(40 + more),
        compressed: n == 1,
        chroma,
        orientation: more,
        width: 47 + more,
        height: 31 + more,
        main_config: 7 + more,
        main_data: 50 + more,
        ..Plan::smallest()
    }
}

/// Every field that the library tells is one of `show`, with the values that it prints.
#[test]
fn every_field() {
    let folder = Folder::new("same-every-field");
    let mut names = BTreeSet::new();
    let first = payload(&full(0));
    for other in [payload(&full(1)), changed(|_| ())] {
        let told = text(&folder, 1, [&first, &other], &[]);
        assert!(!told.contains("none | none"), "{told}");
        let json = json(&folder, 1, [&first, &other]);
        let shown = [&first, &other].map(|payload| {
            folder.put("in", payload);
            Json::parse(&folder.run(&["show", "--json", "in"]).text(0))
        });
        for field in list(json.at("fields")) {
            let Json::Text(name) = field.at("name") else {
                panic!("no name");
            };
            assert_eq!(field.at("a"), shown[0].at(name), "{name}");
            // Where there is no gain map, none of its fields is told.
            assert_eq!(field.at("b"), shown[1].at(name), "{name}");
            assert!(told.contains(&format!("\n  {name}")), "{name}");
            names.insert(name.clone());
        }
    }
    assert_eq!(names.len(), 44);
}

#[test]
fn json_of_a_pair() {
    let folder = Folder::new("same-json");
    let b = changed(|p| {
        set_hdr(p);
        (p.width, p.icc) = (47, Some(6));
    });
    let json = json(&folder, 1, [&changed(|_| ()), &b]);
    let fields = list(json.at("fields"));
    let number = Json::Number;
    let place = Json::Object(vec![
        ("position".to_string(), number(17)),
        ("length".to_string(), number(7)),
    ]);
    let expected = [
        ("width", number(1), number(48), true),
        ("icc", Json::Null, place, true),
        ("hdr", Json::Flag(false), Json::Flag(true), false),
    ];
    assert_eq!(fields.len(), expected.len());
    for (field, (name, a, b, carried)) in fields.iter().zip(expected) {
        assert_eq!(field.names(), ["name", "a", "b", "carried"]);
        assert_eq!(field.at("name"), &Json::Text(name.to_string()));
        assert_eq!((field.at("a"), field.at("b")), (&a, &b));
        assert_eq!(field.at("carried"), &Json::Flag(carried));
    }
    assert_eq!(json.at("file_type"), &Json::Null);
}

#[test]
fn json_of_one_file() {
    let folder = Folder::new("same-json-yes");
    let told = json(&folder, 0, [TYPED, TYPED]);
    assert_eq!(told.at("fields"), &Json::List(Vec::new()));
    let told = json(&folder, 0, [&changed(set_hdr), &changed(|_| ())]);
    let fields = list(told.at("fields"));
    assert_eq!(fields.len(), 1);
    assert_eq!(fields[0].at("carried"), &Json::Flag(false));
}

const TYPE_NAMES: [&str; 3] = ["a", "b", "only_difference"];

/// A file has its own type, a bare payload the default one.
#[test]
fn file_types() {
    let folder = Folder::new("same-types");
    assert_eq!(text(&folder, 0, [TYPED, &file(MIF3, TYPED)], &[]), YES);
    assert_eq!(text(&folder, 0, [TYPED, &boxed(b"mini", TYPED)], &[]), YES);
    let avif = file(b"mif3avifmif3avif", TYPED);
    let lines = "  \
  file_type.major_brand        mif3 | avif
  file_type.compatible_brands  mif3 mif1 | mif3 avif mif1
";
    let told = text(&folder, 1, [TYPED, &avif], &[]);
    assert_eq!(told, format!("{NO}{lines}{UNDER_ONE_TYPE}"));
    let both = json(&folder, 1, [TYPED, &avif]);
    let word = |word: &str| Json::Text(word.to_string());
    assert_eq!(both.at("file_type").names(), TYPE_NAMES);
    assert_eq!(both.at("file_type.only_difference"), &Json::Flag(true));
    assert_eq!(both.at("file_type.a.major_brand"), &word("mif3"));
    assert_eq!(both.at("file_type.b.minor_version"), &Json::Number(0));
    let brands = Json::List(vec![word("mif3"), word("avif"), word("mif1")]);
    assert_eq!(both.at("file_type.b.compatible_brands"), &brands);
    assert_eq!(both.at("fields"), &Json::List(Vec::new()));
    // Two types that come to one: 'mif3' and the minor version give way to the codec's brand.
    let codec = file(b"avif\0\0\0\x07mif3avif", TYPED);
    assert_eq!(text(&folder, 0, [&avif, &codec], &[]), YES);
    assert_eq!(
        json(&folder, 0, [&avif, &codec]).at("file_type"),
        &Json::Null
    );
}

/// A gain map adds a brand. Under one type that is no difference of the types.
#[test]
fn a_brand_of_a_gain_map() {
    let folder = Folder::new("same-tmap");
    let plain = file(b"avif\0\0\0\0mif1", &changed(set_hdr));
    let map = file(b"avif\0\0\0\0mif1", &changed(set_gain_map));
    let told = text(&folder, 1, [&plain, &map], &[]);
    assert_eq!(told, format!("{NO}  gain_map  none | present\n"));
}

/// Each beside the others, as they are and with options that give both one type: the latter tries what is said of
/// one type. The second type and the third come to one.
#[test]
fn the_only_difference_is_the_type() {
    let folder = Folder::new("same-one-type");
    let payloads = [
        TYPED.to_vec(),
        changed(|p| p.wide.dimensions = true),
        changed(set_hdr),
        changed(|p| p.cicp = Some([1, 13, 2])),
        changed(|p| p.width = 1),
        changed(set_gain_map),
        [TYPED, &[0xAA]].concat(),
    ];
    let types: [Option<&[u8]>; 4] = [
        None,
        Some(b"mif3avifmif3avif"),
        Some(b"avif\0\0\0\x07mif3avif"),
        Some(b"heic\0\0\0\x07tmap"),
    ];
    let typed = || payloads.iter().flat_map(|p| types.map(|t| (p, t)));
    let mut seen = BTreeSet::new();
    for (a, b) in typed().flat_map(|a| typed().map(move |b| (a, b))) {
        put_typed(&folder, "a", a);
        put_typed(&folder, "b", b);
        seen.insert(one_type_tried(&folder));
    }
    let all = [
        (false, true, true),
        (false, false, false),
        (true, true, false),
        (true, false, false),
    ];
    assert_eq!(seen, BTreeSet::from(all));
}

/// Whether the types are told as no difference; whether the files are equal under one type; whether the last line says
/// so.
fn one_type_tried(folder: &Folder) -> (bool, bool, bool) {
    let options = ["--major", "mif3", "--minor", "0", "--brands", "avif,mif3"];
    let one = folder.run(&[&["same", "a", "b"][..], &options].concat());
    let equal = Json::Flag(one.status == 0);
    let printed = |words: &[&str]| String::from_utf8(folder.run(words).out).expect("text");
    let json = Json::parse(&printed(&["same", "--json", "a", "b"]));
    let file_type = json.at("file_type");
    let null = *file_type == Json::Null;
    if null {
        assert_eq!(json.at("same"), &equal);
    } else {
        assert_eq!(file_type.names(), TYPE_NAMES);
        assert_eq!(json.at("same"), &Json::Flag(false));
        assert_eq!(file_type.at("only_difference"), &equal);
    }
    let told = printed(&["same", "a", "b"]);
    (null, one.status == 0, told.ends_with(UNDER_ONE_TYPE))
}

/// A bare payload, or under a type a file.
fn put_typed(folder: &Folder, name: &str, (payload, file_type): (&Vec<u8>, Option<&[u8]>)) {
    match file_type {
        None => folder.put(name, payload),
        Some(file_type) => folder.put(name, &file(file_type, payload)),
    }
}

/// The last line comes after the fields that the file does not carry, and only where no other is carried.
#[test]
fn types_and_fields() {
    let folder = Folder::new("same-types-fields");
    let flag = file(b"avif\0\0\0\0mif3mif1", &changed(set_hdr));
    let bare = changed(|_| ());
    let types = "  \
  file_type.major_brand  mif3 | avif
";
    let told = text(&folder, 1, [&bare, &flag], &[]);
    let hdr = "  hdr                    no | yes\n";
    assert_eq!(
        told,
        format!("{NO}{types}{NOT_CARRIED}{hdr}{UNDER_ONE_TYPE}")
    );
    let wider = changed(|p| p.width = 1919);
    let told = text(&folder, 1, [&wider, &flag], &[]);
    let width = "  width                  1920 | 1\n";
    assert_eq!(told, format!("{NO}{types}{width}{NOT_CARRIED}{hdr}"));
    let told = json(&folder, 1, [&wider, &flag]);
    assert_eq!(told.at("file_type.only_difference"), &Json::Flag(false));
    assert_eq!(list(told.at("fields")).len(), 2);
}

/// What is printed, and each name of the JSON.
#[test]
fn help_tells_what_is_printed() {
    let folder = Folder::new("same-help");
    let help = folder.run(&["same", "--help"]).text(0);
    assert!(help.contains(&format!("\n\n  {UNDER_ONE_TYPE}\n")));
    // A and B are the pictures, and no brands.
    assert!(!help.contains("A,B"));
    let other = file(b"avif\0\0\0\0", &everything(61, b""));
    let json = json(&folder, 1, [&everything(60, b""), &other]);
    for name in json.names() {
        assert!(help.contains(&format!("\n{name} ")), "{name}");
    }
    let fields = list(json.at("fields")).iter().flat_map(Json::names);
    let names: BTreeSet<&str> = fields.chain(json.at("file_type").names()).collect();
    assert!(names.contains("first_difference"));
    for name in names {
        assert!(help.contains(&format!("'{name}'")), "{name}");
    }
}

#[test]
fn options_are_for_both() {
    let folder = Folder::new("same-options");
    let avif = file(b"mif3avifmif3avif", TYPED);
    let other = file(b"heicxxxxabcd", TYPED);
    let all = ["--major", "mif3", "--minor=0x61766966", "--brands", "mif3"];
    assert_eq!(text(&folder, 0, [&avif, &other], &all), YES);
    assert_eq!(text(&folder, 0, [&avif, TYPED], &all), YES);
    // Each alone.
    let told = text(&folder, 1, [&avif, &other], &["--brands", ""]);
    let lines = "  \
  file_type.major_brand        avif | heic
  file_type.compatible_brands  mif3 mif1 | mif1
";
    assert_eq!(told, format!("{NO}{lines}{UNDER_ONE_TYPE}"));
    let told = text(&folder, 1, [&avif, &other], &["--major", "heic"]);
    let lines = "  file_type.compatible_brands  mif3 avif mif1 | abcd mif1\n";
    assert_eq!(told, format!("{NO}{lines}{UNDER_ONE_TYPE}"));
    let told = text(&folder, 1, [&avif, &other], &["--minor", "0"]);
    let lines = "  \
  file_type.major_brand        mif3 | heic
  file_type.compatible_brands  mif3 avif mif1 | abcd mif1
";
    assert_eq!(told, format!("{NO}{lines}{UNDER_ONE_TYPE}"));
}

/// As many brands as there may be; the expanded file has one more.
#[test]
fn many_brands() {
    let folder = Folder::new("same-brands");
    let brands = |last: &[u8; 4]| {
        [
            b"avif\0\0\0\0".to_vec(),
            b"abcd".repeat(1023),
            last.to_vec(),
        ]
        .concat()
    };
    let (a, b) = (file(&brands(b"abcd"), TYPED), file(&brands(b"efgh"), TYPED));
    assert_eq!(text(&folder, 0, [&a, &a], &[]), YES);
    let told = text(&folder, 1, [&a, &b], &[]);
    assert_eq!(told.matches("abcd").count(), 1024 + 1023);
    assert_eq!(told.matches("efgh").count(), 1);
    assert_eq!(told.matches("mif1").count(), 2);
    assert!(told.ends_with(UNDER_ONE_TYPE));
}

#[test]
fn a_dash_is_the_standard_input() {
    let folder = Folder::new("same-pipe");
    let flag = changed(set_hdr);
    folder.put("in", &changed(|_| ()));
    let told = folder.run_with(&["same", "-", "in"], &flag).text(0);
    assert_eq!(told, format!("{YES}{NOT_CARRIED}  hdr  yes | no\n"));
    let told = folder.run_with(&["same", "in", "-"], &flag).text(0);
    assert_eq!(told, format!("{YES}{NOT_CARRIED}  hdr  no | yes\n"));
    let ran = folder.run_with(&["same", "in", "-"], b"\0\0\0\0\0\0\0\0");
    let line = "bustardcase: standard input: refusal 14: there are no explicit codec types\n";
    assert_eq!((ran.status, ran.err.as_str(), ran.out.len()), (2, line, 0));
}

/// A picture that is refused, and what is said of it.
const REFUSED: [(&[u8], u64, &str); 5] = [
    (
        b"",
        5,
        "a header field, or a body among the HDR boxes, needs bits past the end; at bit 0: in the part \
         'flags', bit 0 of byte 0 of the payload, where the payload ends",
    ),
    (
        b"\0\0\0\0\0\0\0",
        9,
        "a chunk, taken in stored order, ends past the payload; at bit 56: main data would begin at byte 7 of \
         the payload and has 1 byte, 1 is missing",
    ),
    (
        b"\x24\0\0\0\x30\xBB\x18\x18\xB0\xBB\x18\xA1\x80\0\0\0\0\xAA",
        12,
        "alpha is set and the alpha data is empty",
    ),
    (
        b"\x20\0\0\0uuidav1C\0\0\0\xAA",
        13,
        "an explicit codec type is 'uuid'",
    ),
    (SMALLEST, 14, "there are no explicit codec types"),
];

/// No answer is neither yes nor no: the status is another. The first of the two that is refused is told.
#[test]
fn refused_pictures() {
    let folder = Folder::new("same-refused");
    folder.put("good", TYPED);
    for (bytes, number, meaning) in REFUSED {
        folder.put("bad", bytes);
        folder.put("worse", bytes);
        for (words, name, which) in [
            (["same", "bad", "good"], "bad", "a"),
            (["same", "good", "bad"], "bad", "b"),
            (["same", "worse", "bad"], "worse", "a"),
            (["same", "bad", "bad"], "bad", "a"),
        ] {
            let line = format!("bustardcase: {name}: refusal {number}: {meaning}\n");
            let ran = folder.run(&words);
            assert_eq!((ran.status, ran.err.as_str()), (2, line.as_str()));
            assert!(ran.out.is_empty());
            let ran = folder.run(&[&words[..], &["--json"]].concat());
            assert_eq!((ran.status, ran.err), (2, line));
            let json = Json::parse(&String::from_utf8(ran.out).expect("text"));
            assert_eq!(json.names(), ["refusal"]);
            assert_eq!(json.at("refusal.number"), &Json::Number(number));
            let place = json.at("refusal").names().contains(&"bit");
            assert_eq!(place, (5..=9).contains(&number));
            assert_eq!(json.at("refusal.file"), &Json::Text(which.to_string()));
        }
    }
}

#[test]
fn files_that_are_refused() {
    let folder = Folder::new("same-refused-files");
    folder.put("good", TYPED);
    folder.put("bare-ftyp", &boxed(b"ftyp", FTYP));
    folder.put("short-ftyp", &file(b"mif3\0\0\0", TYPED));
    for (name, words) in [
        ("bare-ftyp", "no 'mini' box is found: refusal 1: "),
        ("short-ftyp", "the 'ftyp' box: refusal 28: "),
        ("missing", "no such file or folder\n"),
    ] {
        for files in [[name, "good"], ["good", name]] {
            let ran = folder.run(&["same", files[0], files[1]]);
            let start = format!("bustardcase: {name}: {words}");
            assert!(ran.err.starts_with(&start), "{}", ran.err);
            assert_eq!((ran.status, ran.err.lines().count()), (2, 1));
            assert!(ran.out.is_empty());
        }
    }
    let brands = vec!["mif3"; 1025].join(",");
    let ran = folder.run(&["same", "good", "good", "--brands", &brands]);
    let start = "bustardcase: good: refusal 15: ";
    assert!(ran.err.starts_with(start), "{}", ran.err);
    assert_eq!((ran.status, ran.out.len()), (2, 0));
}

#[test]
fn wrong_usage() {
    let folder = Folder::new("same-usage");
    folder.put("in", TYPED);
    let cases: [(&[&str], &str); 10] = [
        (&[], "A is missing"),
        (&["in"], "B is missing"),
        (&["in", "in", "more"], "'more' is one file too many"),
        (&["-", "-"], "A and B cannot both be the standard input"),
        (
            &["--json", "-", "--", "-"],
            "A and B cannot both be the standard input",
        ),
        (&["in", "in", "--jsn"], "there is no option '--jsn'"),
        (&["in", "in", "--json=1"], "'--json' takes no value"),
        (
            &["in", "in", "--minor", "x"],
            "'x' is no number from 0 to 4294967295",
        ),
        (
            &["in", "in", "--major", "mif"],
            "'mif' is no brand of four characters",
        ),
        (
            &["in", "in", "--brands", "a", "--brands", "b"],
            "'--brands' is given twice",
        ),
    ];
    for (words, message) in cases {
        let ran = folder.run(&[&["same"], words].concat());
        let line = format!("bustardcase: same: {message}; see 'bustardcase same --help'\n");
        assert_eq!((ran.status, ran.err), (2, line));
        assert!(ran.out.is_empty());
    }
}

/// It asks, and writes nothing.
#[test]
fn no_file_is_changed() {
    let folder = Folder::new("same-files");
    folder.put("a", TYPED);
    folder.put("b", &changed(set_hdr));
    let before = folder.files();
    folder.run(&["same", "a", "b"]);
    folder.run(&["same", "--json", "a", "b"]);
    assert_eq!(folder.files(), before);
}

/// The answer as a script has it.
#[test]
fn a_script_that_drops_duplicates() {
    let folder = Folder::new("same-script");
    folder.put("a", &changed(|_| ()));
    folder.put("copy", &changed(set_hdr));
    folder.put("other", &changed(|p| p.width = 1));
    folder.put("broken", SMALLEST);
    let line = format!(
        "for f in copy other broken; do '{TOOL}' same a $f >/dev/null 2>&1; \
         case $? in 0) echo drop $f ;; 1) echo keep $f ;; *) echo look at $f ;; esac; done"
    );
    let mut command = Command::new("sh");
    command.args(["-c", &line]).current_dir(&folder.0);
    let told = run(command, b"").text(0);
    assert_eq!(told, "drop copy\nkeep other\nlook at broken\n");
}
