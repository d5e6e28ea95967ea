//! libheif's heif-info: the picture as a user sees it.

use super::{Answer, LIBHEIF, Tool, cut, every_file, run};
use crate::case::Case;
use crate::expect::{self, item_byte, item_size};
use crate::facts::{Facts, list};
use crate::model::MAIN;
use crate::pictures::text_length;

pub const TOOL: Tool = Tool {
    name: "heif-info",
    program: "heif-info",
    version: &["--help"],
    known: LIBHEIF,
    takes: every_file,
    expected,
    reported,
};

fn expected(case: &Case) -> Facts {
    let mut facts = Facts::opened();
    expect::brands(&case.model, &mut facts);
    facts.say("image", format!("{} (id=1), primary", shown_size(case)));
    let profile = if case.record.icc.is_some() {
        "prof"
    } else {
        "nclx"
    };
    facts.say("color profile", profile);
    facts.say("alpha channel", alpha(case));
    facts.say("depth channel", "no");
    texts(case, &mut facts);
    light(case, &mut facts);
    newer(case, &mut facts);
    facts
}

/// Width and height after turning.
fn shown_size(case: &Case) -> String {
    let (width, height) = item_size(&case.model, MAIN);
    match case.record.orientation {
        1..=4 => format!("{width}x{height}"),
        _ => format!("{height}x{width}"),
    }
}

fn alpha(case: &Case) -> &'static str {
    match (case.record.alpha_data.len, case.record.alpha_premultiplied) {
        (0, _) => "no",
        (_, false) => "yes",
        (_, true) => "yes (premultiplied)",
    }
}

/// Exif and XMP, with their lengths before compression.
fn texts(case: &Case, facts: &mut Facts) {
    let record = &case.record;
    let chunks = [("Exif", record.exif), ("XMP", record.xmp)];
    for (name, chunk) in chunks {
        if let Some(chunk) = chunk {
            let length = text_length(chunk, record.exif_xmp_compressed);
            facts.say(name, format!("{length} bytes"));
        }
    }
    if chunks.iter().all(|(_, chunk)| chunk.is_none()) {
        facts.say("metadata", "none");
    }
}

/// What it tells from version 1.19 on.
fn newer(case: &Case, facts: &mut Facts) {
    let sampling = ["monochrome", "YCbCr, 4:2:0", "YCbCr, 4:2:2", "YCbCr, 4:4:4"];
    facts.may_say(
        "colorspace",
        sampling[case.record.chroma.subsampling as usize],
    );
    facts.may_say("bit depth", case.record.format.bits().to_string());
    if let Some(angle) = item_byte(&case.model, MAIN, b"irot") {
        facts.may_say("angle (ccw)", (angle as u32 * 90).to_string());
    }
    if let Some(axis) = item_byte(&case.model, MAIN, b"imir") {
        facts.may_say("mirror", if axis == 1 { "horizontal" } else { "vertical" });
    }
}

fn light(case: &Case, facts: &mut Facts) {
    let model = &case.model;
    if let [clli] = model.properties_of(MAIN, b"clli")[..] {
        let number = |at: usize| u16::from_be_bytes([clli.body[at], clli.body[at + 1]]);
        facts.say("max content light level", number(0).to_string());
        facts.say("max pic average light level", number(2).to_string());
    }
    if let [mdcv] = model.properties_of(MAIN, b"mdcv")[..] {
        // In steps of 0.00002.
        let place = |at: usize| {
            let number = u16::from_be_bytes([mdcv.body[at], mdcv.body[at + 1]]);
            let digits = format!("0.{:05}", number * 2);
            digits.trim_end_matches('0').to_string()
        };
        let pair = |at: usize| format!("({};{})", place(at), place(at + 2));
        let pairs = [pair(0), pair(4), pair(8)].join(", ");
        facts.say("display_primaries (x,y)", pairs);
        facts.say("white point (x,y)", pair(12));
    }
}

fn reported(case: &Case) -> Result<Facts, String> {
    let answer = run(TOOL.program, &[&case.path])?;
    if let Some(words) = refusal(&answer) {
        return Ok(Facts::refused(&words));
    }
    let mut facts = Facts::opened();
    let mut heading = "";
    for line in answer.text.lines() {
        if let Some(name) = line.strip_suffix(':') {
            heading = name;
        } else if line.trim() == "none" && heading == "metadata" {
            facts.say(heading, "none");
        } else if let Some((name, value)) = cut(line, ": ") {
            tell(name, value, &mut facts);
        }
    }
    Ok(facts)
}

fn refusal(answer: &Answer) -> Option<String> {
    let text = format!("{}\n{}", answer.text, answer.errors);
    let line = text.lines().find(|line| line.starts_with("Could not read"));
    line.map(str::to_string)
}

fn tell(name: &str, value: &str, facts: &mut Facts) {
    match name {
        "MIME type" => {}
        "main brand" => facts.say("major brand", value),
        "compatible brands" => facts.say("brands", list(value.split(", "))),
        // It rounds luminances to nothing, in a unit of its own.
        "max display mastering luminance" | "min display mastering luminance" => {}
        _ => facts.say(name, value),
    }
}
