//! ffmpeg's ffprobe, for AV1 pictures that can be decoded: it tells a stream's width and height only
//! then. The picture's bytes are those of its only packet.

use super::{Tool, cut, number, run};
use crate::case::Case;
use crate::expect;
use crate::facts::{Facts, fingerprint, fingerprint_at};
use crate::model::MAIN;

pub const TOOL: Tool = Tool {
    name: "ffprobe",
    program: "ffprobe",
    version: &["-version"],
    known: &["5.1.", "7.1."],
    takes: |case| case.model.major == *b"avif" && case.sample.decodable,
    expected,
    reported,
};

fn expected(case: &Case) -> Facts {
    let model = &case.model;
    let mut facts = Facts::opened();
    let (width, height) = expect::item_size(model, MAIN);
    facts.say("width", width.to_string());
    facts.say("height", height.to_string());
    facts.say("codec_name", "av1");
    facts.say("pix_fmt", pixel_format(case));
    facts.say("major_brand", expect::code(&model.major));
    let brands: Vec<String> = model.brands.iter().map(expect::code).collect();
    facts.say("compatible_brands", brands.concat());
    facts.say("packet", fingerprint(case.bytes(case.record.main_data)));
    facts
}

fn pixel_format(case: &Case) -> String {
    let format = ["gray", "yuv420p", "yuv422p", "yuv444p"];
    let format = format[case.record.chroma.subsampling as usize];
    match case.record.format.bits() {
        8 => format.to_string(),
        bits => format!("{format}{bits}le"),
    }
}

fn reported(case: &Case) -> Result<Facts, String> {
    // Later versions show the hidden pictures as further streams.
    let first = ["-v", "error", "-select_streams", "v:0"];
    let show = ["-show_streams", "-show_packets", "-show_format"];
    let answer = run(TOOL.program, &[&first[..], &show, &[&case.path]].concat())?;
    if !answer.good {
        return Ok(Facts::refused(&answer.errors));
    }
    let mut facts = Facts::opened();
    let mut packet = [None; 2];
    for (name, value) in answer.text.lines().filter_map(|line| cut(line, "=")) {
        match name.strip_prefix("TAG:").unwrap_or(name) {
            "pos" => packet[0] = Some(number(value)?),
            // The format's size, which comes later, is the file's.
            "size" if packet[1].is_none() => packet[1] = Some(number(value)?),
            name @ ("width" | "height" | "codec_name" | "pix_fmt" | "major_brand"
            | "compatible_brands") => {
                facts.say(name, value);
            }
            _ => {}
        }
    }
    if let [Some(start), Some(length)] = packet {
        facts.say("packet", fingerprint_at(&case.file, start, length));
    }
    Ok(facts)
}
