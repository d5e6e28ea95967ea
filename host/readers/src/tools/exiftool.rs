//! exiftool: the tags by name, and, at its most talkative, the boxes with their contents.

use super::{Tool, cut, every_file, number, run};
use crate::case::Case;
use crate::expect;
use crate::facts::{Facts, fingerprint, fingerprint_at, list};
use crate::model::{Code, MAIN, Model};
use crate::pictures;

pub const TOOL: Tool = Tool {
    name: "exiftool",
    program: "exiftool",
    version: &["-ver"],
    known: &["12.57", "13.25"],
    takes: every_file,
    expected,
    reported,
};

fn expected(case: &Case) -> Facts {
    let model = &case.model;
    let mut facts = Facts::opened();
    expect::brands(model, &mut facts);
    expect::items(model, &mut facts);
    expect::content_types(model, &mut facts);
    expect::item_bytes(model, &mut facts);
    expect::references(model, &mut facts);
    expect::links(model, &mut facts);
    expect::property_bodies(model, &mut facts);
    facts.say("FileType", file_type(&model.major));
    let (width, height) = expect::item_size(model, MAIN);
    facts.say("ImageWidth", width.to_string());
    facts.say("ImageHeight", height.to_string());
    let data: usize = model.items.iter().map(|item| item.bytes.len()).sum();
    facts.say("MediaDataSize", data.to_string());
    property_tags(model, &mut facts);
    text_tags(case, &mut facts);
    facts
}

/// What a major brand makes of the file.
fn file_type(major: &Code) -> &'static str {
    match major {
        b"avif" => "AVIF",
        b"heic" => "HEIC",
        _ => "HEIF",
    }
}

fn property_tags(model: &Model, facts: &mut Facts) {
    for property in &model.properties {
        match &property.kind {
            b"ispe" => {
                let (width, height) = expect::size(property);
                facts.say("ImageSpatialExtent", format!("{width} {height}"));
            }
            b"irot" => facts.say("Rotation", (property.body[0] as u32 * 90).to_string()),
            b"auxC" => facts.say("AuxiliaryImageType", crate::model::ALPHA_URN),
            b"colr" => colour_tags(expect::cicp(property), facts),
            _ => {}
        }
    }
}

fn colour_tags(cicp: Option<([u8; 3], bool)>, facts: &mut Facts) {
    if let Some((numbers, _)) = cicp {
        let [primaries, transfer, matrix] = numbers.map(|n| n.to_string());
        facts.say("ColorPrimaries", primaries);
        facts.say("TransferCharacteristics", transfer);
        facts.say("MatrixCoefficients", matrix);
    }
}

/// What the Exif item, the XMP packet and the profiles hold.
fn text_tags(case: &Case, facts: &mut Facts) {
    let record = &case.record;
    if record.exif.is_some() {
        facts.say("Make", pictures::MAKE);
    }
    if record.xmp.is_some() {
        facts.say("Source", pictures::SOURCE);
    }
    let tmap = record.gain_map.and_then(|gain_map| gain_map.tmap_icc);
    for profile in [record.icc, tmap].into_iter().flatten() {
        facts.say(
            "ProfileDescription",
            pictures::icc_name(case.bytes(profile)),
        );
    }
}

fn reported(case: &Case) -> Result<Facts, String> {
    let mut facts = Facts::opened();
    // Groups, duplicates, names, numbers instead of words.
    let tags = run(TOOL.program, &["-G1", "-a", "-s", "-n", &case.path])?;
    for line in tags.text.lines() {
        tell_tag(line, &mut facts);
    }
    let talk = run(TOOL.program, &["-v5", &case.path])?;
    tell_structure(&talk.text, case, &mut facts)?;
    Ok(facts)
}

/// A line as '[QuickTime]     Rotation                        : 90'.
fn tell_tag(line: &str, facts: &mut Facts) {
    let tag = line.split_once(']').map_or(line, |(_, tag)| tag);
    let Some((name, value)) = cut(tag, ": ") else {
        return;
    };
    match name {
        "MajorBrand" => facts.say("major brand", value),
        "CompatibleBrands" => facts.say("brands", list(value.split(", "))),
        "Rotation" => facts.say(name, degrees(value)),
        "FileType"
        | "ImageWidth"
        | "ImageHeight"
        | "ImageSpatialExtent"
        | "AuxiliaryImageType"
        | "ColorPrimaries"
        | "TransferCharacteristics"
        | "MatrixCoefficients"
        | "MediaDataSize"
        | "Make"
        | "Source"
        | "ProfileDescription"
        | "Warning"
        | "Error" => facts.say(name, value),
        _ => {}
    }
}

/// Later versions give quarter turns.
fn degrees(value: &str) -> &str {
    match value {
        "1" => "90",
        "2" => "180",
        "3" => "270",
        _ => value,
    }
}

/// The lines of the structure lie under bars, one for each level.
fn tell_structure(text: &str, case: &Case, facts: &mut Facts) -> Result<(), String> {
    let mut kind = "";
    for line in text.lines() {
        let line = line.trim_start_matches([' ', '|']).trim();
        if let Some(rest) = line.strip_prefix("- Tag '") {
            kind = rest.split('\'').next().unwrap_or_default();
        } else if let Some(rest) = line.strip_prefix("Item ") {
            tell_item(rest, kind, case, facts)?;
        }
    }
    for (number, kind, body) in properties(text) {
        let value = format!("{kind} {}", fingerprint(&body));
        facts.say(format!("property {number}"), value.trim_end());
    }
    Ok(())
}

/// What is told of an item, the line without its first word, in the box of this kind.
fn tell_item(rest: &str, kind: &str, case: &Case, facts: &mut Facts) -> Result<(), String> {
    if let Some((id, to)) = cut(rest, " refers to: ") {
        facts.say(format!("{kind} from item {id}"), list(to.split(',')));
    } else if let Some((id, numbers)) = cut(rest, " properties: ") {
        facts.say(format!("properties of item {id}"), numbers);
    } else if let Some((id, entry)) = cut(rest, ": Type=") {
        let (kind, content) = cut(entry, " Name= ContentType=").unwrap_or((entry, ""));
        facts.say(format!("item {id}"), kind);
        let content = content.trim_end_matches("(PrimaryItem)");
        facts.say(format!("item {id} content type"), content.trim());
    } else if let Some((id, place)) = cut(rest, ": const_meth=0 base=0x0 offset=") {
        let (start, length) = cut(place, " len=").ok_or(format!("no length: {place}"))?;
        let bytes = fingerprint_at(&case.file, number(start)?, number(length)?);
        facts.say(format!("item {id} bytes"), bytes);
    }
    Ok(())
}

/// The properties' numbers, types and contents. They are numbered under two bars; deeper lines are
/// what is read out of them.
fn properties(text: &str) -> Vec<(usize, String, Vec<u8>)> {
    let mut all: Vec<(usize, String, Vec<u8>)> = Vec::new();
    let container = text
        .lines()
        .skip_while(|line| !line.contains("[ItemPropertyContainer directory]"));
    let mut open = false;
    for line in container {
        let Some(line) = line.strip_prefix("  | | ") else {
            continue;
        };
        if let Some(number) = cut(line, ")").and_then(|(n, _)| n.parse().ok()) {
            all.push((number, String::new(), Vec::new()));
            open = true;
        } else if let (true, Some(last)) = (open, all.last_mut()) {
            open = add_to_property(line, last);
        }
    }
    all
}

/// Takes the type or some bytes from a line; false where the property's own lines are over.
fn add_to_property(line: &str, property: &mut (usize, String, Vec<u8>)) -> bool {
    if !line.starts_with("    ") {
        return false;
    }
    let line = line.trim();
    if let Some(rest) = line.strip_prefix("- Tag '") {
        property.1 = rest.split('\'').next().unwrap_or_default().to_string();
    } else if let Some((_, digits)) = cut(line, ": ") {
        let digits = digits.split('[').next().unwrap_or_default();
        let bytes = digits
            .split_whitespace()
            .map(|d| u8::from_str_radix(d, 16).unwrap_or(0));
        property.2.extend(bytes);
    }
    true
}
