//! `show`.

use crate::folder::{Folder, assert_within_80_columns};
use crate::json::Json;
use crate::payloads::{FTYP, SMALLEST, everything, file, oriented, picture};

#[test]
fn the_smallest_payload() {
    let folder = Folder::new("show-smallest");
    folder.put("in", SMALLEST);
    let text = folder.run(&["show", "in"]).text(0);
    assert_eq!(text, include_str!("expected/show-smallest.txt"));
    assert_within_80_columns(&text);
}

#[test]
fn a_file_with_everything() {
    let folder = Folder::new("show-everything");
    folder.put("in", &file(FTYP, &everything(60, b"")));
    let text = folder.run(&["show", "in"]).text(0);
    assert_eq!(text, include_str!("expected/show-everything.txt"));
    assert_within_80_columns(&text);
}

#[test]
fn every_orientation_in_words() {
    let folder = Folder::new("show-orientations");
    let meanings = [
        "as stored",
        "mirrored left to right",
        "turned by a half",
        "mirrored top to bottom",
        "turned anticlockwise by a quarter, then mirrored top to bottom",
        "turned clockwise by a quarter",
        "turned anticlockwise by a quarter, then mirrored left to right",
        "turned anticlockwise by a quarter",
    ];
    for (orientation, meaning) in (1..).zip(meanings) {
        folder.put("in", &oriented(orientation, picture(48, 32, false, false)));
        let text = folder.run(&["show", "in"]).text(0);
        assert_within_80_columns(&text);
        let words: Vec<&str> = text.split_whitespace().collect();
        let sizes = match orientation {
            1..=4 => "width 48 height 32 shown_width 48 shown_height 32",
            _ => "width 48 height 32 shown_width 32 shown_height 48",
        };
        let expected = format!(" orientation {orientation} orientation_meaning {meaning} {sizes} ");
        assert!(words.join(" ").contains(&expected), "{text}");
        let json = Json::parse(&folder.run(&["show", "--json", "in"]).text(0));
        let told = Json::Text(meaning.to_string());
        assert_eq!(json.at("orientation_meaning"), &told);
    }
}

#[test]
fn many_brands_stay_within_80_columns() {
    let folder = Folder::new("show-brands");
    folder.put("in", &file(&b"mif3".repeat(1026), SMALLEST));
    let text = folder.run(&["show", "in"]).text(0);
    assert_within_80_columns(&text);
    assert_eq!(text.matches("mif3").count(), 1025);
}

#[test]
fn json_of_the_smallest_payload() {
    let folder = Folder::new("show-json-smallest");
    folder.put("in", SMALLEST);
    let text = folder.run(&["show", "--json", "in"]).text(0);
    assert_eq!(text, include_str!("expected/show-smallest.json"));
    let json = Json::parse(&text);
    for absent in [
        "file_type",
        "explicit_codec_types",
        "explicit_cicp",
        "icc",
        "hdr_boxes.cclv",
        "gain_map",
        "alpha_codec_config",
        "exif",
        "xmp",
    ] {
        assert_eq!(json.at(absent), &Json::Null, "{absent}");
    }
    assert_eq!(json.at("main_data.position"), &Json::Number(7));
    assert_eq!(json.at("alpha"), &Json::Flag(false));
}

#[test]
fn json_of_a_file_with_everything() {
    let folder = Folder::new("show-json-everything");
    let payload = everything(60, b"tail");
    folder.put("in", &file(FTYP, &payload));
    let json = Json::parse(&folder.run(&["show", "in", "--json"]).text(0));
    let number = |path: &str| match json.at(path) {
        Json::Number(number) => *number as usize,
        other => panic!("{path}: {other:?}"),
    };
    let text = |text: &str| Json::Text(text.to_string());
    assert_eq!(json.at("file_type.major_brand"), &text("mif3"));
    assert_eq!(number("file_type.minor_version"), 7);
    let brands = Json::List(vec![text("mif3"), text("a\u{1}\"\u{ff}")]);
    assert_eq!(json.at("file_type.compatible_brands"), &brands);
    assert_eq!(number("payload_position"), 32);
    assert_eq!(number("payload_length"), payload.len());
    assert_eq!(json.at("explicit_codec_types.item_type"), &text("av01"));
    assert_eq!(json.at("format.kind"), &text("float"));
    assert_eq!(number("format.bits"), 32);
    assert_eq!((number("width"), number("height")), (1920, 1080));
    assert_eq!(number("orientation"), 6);
    assert_eq!(
        (number("shown_width"), number("shown_height")),
        (1080, 1920)
    );
    assert_eq!(json.at("hdr_boxes.clli"), &text("10111213"));
    assert_eq!(number("gain_map.tmap_cicp.matrix"), 14);
    assert_eq!(json.at("exif_xmp_compressed"), &Json::Flag(true));
    // As they lie, each chunk begins where the one before ends; the last is followed by the tail.
    let stored = [
        ("main_codec_config", 1),
        ("alpha_codec_config", 2),
        ("gain_map.codec_config", 3),
        ("icc", 20),
        ("gain_map.tmap_icc", 30),
        ("gain_map.metadata", 40),
        ("alpha_data", 70),
        ("gain_map.data", 50),
        ("main_data", 60),
        ("exif", 80),
        ("xmp", 10),
    ];
    let mut at = number("main_codec_config.position");
    for (name, len) in stored {
        assert_eq!(number(&format!("{name}.position")), at, "{name}");
        assert_eq!(number(&format!("{name}.length")), len, "{name}");
        at += len;
    }
    assert_eq!(at + 4, payload.len());
}

#[test]
fn json_has_the_same_names_as_the_text() {
    let folder = Folder::new("show-names");
    folder.put("in", &everything(60, b""));
    let text = folder.run(&["show", "in"]).text(0);
    let json = Json::parse(&folder.run(&["show", "--json", "in"]).text(0));
    for line in text.lines().filter(|line| !line.starts_with(' ')) {
        let name = line.split(' ').next().expect("a name");
        json.at(name);
    }
    assert_eq!(json.names().len(), 27);
    assert_eq!(json.at("gain_map").names().len(), 12);
}
