//! libavif's avifdec --info, for AV1 pictures under the brand 'avif'.

use super::{Tool, cut, run};
use crate::case::Case;
use crate::expect;
use crate::facts::Facts;
use crate::model::{MAIN, Model, TMAP};
use crate::pictures::text_length;
use bustardcase::Chunk;

pub const TOOL: Tool = Tool {
    name: "avifdec --info",
    program: "avifdec",
    version: &["--version"],
    known: &["0.11.", "1.2."],
    takes: |case| case.model.major == *b"avif",
    expected,
    reported,
};

/// The heading of what is told of the tone-mapped picture.
const ALTERNATE: &str = "Alternate image";

fn expected(case: &Case) -> Facts {
    let model = &case.model;
    let record = &case.record;
    let mut facts = Facts::opened();
    let (width, height) = expect::item_size(model, MAIN);
    facts.say("Resolution", format!("{width}x{height}"));
    facts.say("Bit Depth", record.format.bits().to_string());
    facts.say("Format", format(record.chroma.subsampling));
    facts.say("Alpha", alpha(case));
    facts.say("Range", if record.full_range { "Full" } else { "Limited" });
    colour(model, &mut facts);
    facts.say("ICC Profile", present(record.icc.map(|icc| icc.len)));
    let length = |chunk: Chunk| text_length(chunk, record.exif_xmp_compressed);
    facts.say("XMP Metadata", present(record.xmp.map(length)));
    // It leaves out the four bytes before the TIFF header.
    let exif = record.exif.map(|exif| length(exif) - 4);
    facts.say("Exif Metadata", present(exif));
    transformations(model, &mut facts);
    newer(case, &mut facts);
    facts
}

fn format(subsampling: u8) -> &'static str {
    ["YUV400", "YUV420", "YUV422", "YUV444"][subsampling as usize]
}

fn alpha(case: &Case) -> &'static str {
    match (case.record.alpha_data.len, case.record.alpha_premultiplied) {
        (0, _) => "Absent",
        (_, false) => "Not premultiplied",
        (_, true) => "Premultiplied",
    }
}

fn colour(model: &Model, facts: &mut Facts) {
    let all = model.properties_of(MAIN, b"colr");
    let (numbers, _) = all
        .into_iter()
        .find_map(expect::cicp)
        .expect("it is always there");
    let [primaries, transfer, matrix] = numbers.map(|n| n.to_string());
    facts.say("Color Primaries", primaries);
    facts.say("Transfer Char.", transfer);
    facts.say("Matrix Coeffs.", matrix);
}

fn present(length: Option<usize>) -> String {
    length.map_or("Absent".to_string(), |length| {
        format!("Present ({length} bytes)")
    })
}

fn transformations(model: &Model, facts: &mut Facts) {
    let angle = expect::item_byte(model, MAIN, b"irot");
    let axis = expect::item_byte(model, MAIN, b"imir");
    facts.say(
        "Transformations",
        if (angle, axis) == (None, None) {
            "None"
        } else {
            ""
        },
    );
    if let Some(angle) = angle {
        facts.say("irot (Rotation)", angle.to_string());
    }
    match axis {
        Some(0) => facts.say("imir (Mirror)", "0 (top-to-bottom)"),
        Some(_) => facts.say("imir (Mirror)", "1 (left-to-right)"),
        None => {}
    }
}

/// What it tells from version 1.2 on: the gain map, and the tone-mapped picture's colours.
fn newer(case: &Case, facts: &mut Facts) {
    if let [clli] = case.model.properties_of(MAIN, b"clli")[..] {
        let number = |at: usize| u16::from_be_bytes([clli.body[at], clli.body[at + 1]]);
        facts.may_say("CLLI", format!("{}, {}", number(0), number(2)));
    }
    let Some(gain_map) = case.record.gain_map.filter(|g| g.data.len > 0) else {
        facts.may_say("Gain map", "Absent");
        return;
    };
    let range = if gain_map.full_range {
        "Full"
    } else {
        "Limited"
    };
    let parts = [
        format!("{}x{} pixels", gain_map.width, gain_map.height),
        format!("{} bit", gain_map.format.bits()),
        format(gain_map.chroma.subsampling).to_string(),
        format!("{range} Range"),
        format!("Matrix Coeffs. {}", gain_map.matrix_coefficients),
        // The metadata gives the main picture no headroom.
        "Base Image is SDR".to_string(),
    ];
    facts.may_say("Gain map", parts.join(", "));
    alternate(case, facts);
}

fn alternate(case: &Case, facts: &mut Facts) {
    let all = case.model.properties_of(TMAP, b"colr");
    let cicp = all.iter().find_map(|p| expect::cicp(p));
    let (numbers, _) = cicp.unwrap_or(([2, 2, 2], false));
    let [primaries, transfer, matrix] = numbers.map(|n| n.to_string());
    let profile = all.iter().find_map(|p| expect::profile(p));
    let profile = present(profile.map(<[u8]>::len));
    let names = [
        "Color Primaries",
        "Transfer Char.",
        "Matrix Coeffs.",
        "ICC Profile",
    ];
    for (name, value) in names.iter().zip([primaries, transfer, matrix, profile]) {
        facts.may_say(format!("{ALTERNATE} {name}"), value);
    }
}

fn reported(case: &Case) -> Result<Facts, String> {
    let answer = run(TOOL.program, &["--info", &case.path])?;
    if !answer.text.contains("Image decoded") {
        let words = format!("{} {}", answer.text, answer.errors);
        return Ok(Facts::refused(
            &words.split_whitespace().collect::<Vec<_>>().join(" "),
        ));
    }
    let mut facts = Facts::opened();
    let mut whose = "";
    for line in answer.text.lines() {
        let Some(line) = line.trim().strip_prefix("* ") else {
            continue;
        };
        let Some((name, value)) = cut(line, ":") else {
            continue;
        };
        match name {
            // The codec's, and what speaks of sequences.
            "Chroma Sam. Pos" | "Progressive" | "Frame" => {}
            ALTERNATE => whose = ALTERNATE,
            _ => {
                let name = format!("{whose} {name}");
                facts.say(name.trim(), value.trim_start_matches("Mode "));
            }
        }
    }
    Ok(facts)
}
