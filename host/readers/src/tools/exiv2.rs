//! exiv2: the boxes, the items' places, and what Exif and XMP hold.

use super::{Tool, cut, every_file, number, run};
use crate::case::Case;
use crate::expect::{self, code};
use crate::facts::{Facts, fingerprint_at};
use crate::pictures;

pub const TOOL: Tool = Tool {
    name: "exiv2",
    program: "exiv2",
    version: &["--version"],
    known: &["0.27.6", "0.28.5"],
    takes: every_file,
    expected,
    reported,
};

fn expected(case: &Case) -> Facts {
    let model = &case.model;
    let mut facts = Facts::opened();
    facts.say("major brand", code(&model.major));
    expect::items(model, &mut facts);
    expect::item_bytes(model, &mut facts);
    expect::property_boxes(model, &mut facts);
    for (i, property) in model.properties.iter().enumerate() {
        if property.kind == *b"ispe" {
            let (width, height) = expect::size(property);
            facts.say(size_name(i), format!("{width}, {height}"));
        }
    }
    if case.record.exif.is_some() {
        facts.say("Exif.Image.Make", pictures::MAKE);
    }
    if case.record.xmp.is_some() {
        facts.say("Xmp.dc.source", pictures::SOURCE);
    }
    facts
}

fn size_name(index: usize) -> String {
    format!("{} size", expect::property_name(index))
}

fn reported(case: &Case) -> Result<Facts, String> {
    let structure = run(TOOL.program, &["-pS", &case.path])?;
    if !structure.good {
        let words = structure
            .errors
            .lines()
            .last()
            .unwrap_or_default()
            .to_string();
        return Ok(Facts::refused(&words));
    }
    let mut facts = Facts::opened();
    tell_structure(&structure.text, case, &mut facts)?;
    // Key and value of each tag.
    let tags = run(TOOL.program, &["-PEXkv", &case.path])?;
    for line in tags.text.lines() {
        if let Some((name, value)) = cut(line, " ") {
            facts.say(name, value);
        }
    }
    Ok(facts)
}

/// Lines as 'Exiv2::BmffImage::boxHandler: ispe      360->20 pixelWidth_, pixelHeight_ = 48, 32' for
/// boxes and '1458 |       16 |   ID |    1 |   1627,    27' for places.
fn tell_structure(text: &str, case: &Case, facts: &mut Facts) -> Result<(), String> {
    let mut properties = None;
    for line in text.lines() {
        if let Some((_, entry)) = cut(line, "boxHandler: ") {
            let (kind, rest) = cut(entry, " ").unwrap_or((entry, ""));
            match (kind, properties) {
                ("ipma", _) => properties = None,
                (_, Some(index)) => {
                    tell_property(kind, rest, index, facts);
                    properties = Some(index + 1);
                }
                ("ipco", None) => properties = Some(0),
                _ => tell_box(kind, rest, facts),
            }
        } else if let [_, _, "ID", id, place] =
            line.split('|').map(str::trim).collect::<Vec<_>>()[..]
        {
            let (start, length) = cut(place, ",").ok_or(format!("no place: {place}"))?;
            let bytes = fingerprint_at(&case.file, number(start)?, number(length)?);
            facts.say(format!("item {id} bytes"), bytes);
        }
    }
    Ok(())
}

fn tell_box(kind: &str, rest: &str, facts: &mut Facts) {
    match (kind, cut(rest, "brand: "), cut(rest, "ID =")) {
        ("ftyp", Some((_, brand)), _) => facts.say("major brand", brand),
        ("infe", _, Some((_, entry))) => {
            let mut words = entry.split_whitespace();
            let id = words.next().unwrap_or_default();
            facts.say(format!("item {id}"), words.next().unwrap_or_default());
        }
        _ => {}
    }
}

fn tell_property(kind: &str, rest: &str, index: usize, facts: &mut Facts) {
    let length = cut(rest, "->").map_or("", |(_, l)| l);
    let length = length.split(' ').next().unwrap_or_default();
    facts.say(expect::property_name(index), format!("{kind} {length}"));
    if let Some((_, size)) = cut(rest, "pixelWidth_, pixelHeight_ = ") {
        facts.say(size_name(index), size);
    }
}
