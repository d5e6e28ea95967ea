//! libheif's heif-convert: which way up the picture is shown. The picture has four quarters, each
//! brighter than the one before; the record's orientation is Exif's, which says where they go.

use super::{LIBHEIF, Tool, run};
use crate::case::Case;
use crate::facts::{Facts, list};
use crate::pictures;
use std::fs;

pub const TOOL: Tool = Tool {
    name: "heif-convert",
    program: "heif-convert",
    version: &["--help"],
    known: LIBHEIF,
    takes: |case| case.bytes(case.record.main_data) == pictures::AV1_420.data,
    expected,
    reported,
};

/// Exif's orientations from 1: the stored quarters, numbered from the left and from the top, as they
/// are shown.
const SHOWN: [[usize; 4]; 8] = [
    [1, 2, 3, 4],
    [2, 1, 4, 3],
    [4, 3, 2, 1],
    [3, 4, 1, 2],
    [1, 3, 2, 4],
    [3, 1, 4, 2],
    [4, 2, 3, 1],
    [2, 4, 1, 3],
];

fn expected(case: &Case) -> Facts {
    let mut facts = Facts::opened();
    let (width, height) = (case.record.width, case.record.height);
    let orientation = case.record.orientation;
    let (width, height) = if orientation > 4 {
        (height, width)
    } else {
        (width, height)
    };
    facts.say("size", format!("W{width} H{height}"));
    facts.say("quarters", list(SHOWN[orientation as usize - 1]));
    facts
}

fn reported(case: &Case) -> Result<Facts, String> {
    let shown = format!("{}.y4m", case.path);
    let _ = fs::remove_file(&shown);
    let answer = run(TOOL.program, &[&case.path, &shown])?;
    if !answer.good {
        return Ok(Facts::refused(&answer.errors));
    }
    let bytes = fs::read(&shown).map_err(|error| format!("{shown}: {error}"))?;
    picture(&bytes).ok_or(format!("{shown} is no picture"))
}

/// A picture of YUV4MPEG2: a line with width and height, the line FRAME, then the luma.
fn picture(bytes: &[u8]) -> Option<Facts> {
    let first = bytes.iter().position(|b| *b == b'\n')?;
    let second = first + 1 + bytes[first + 1..].iter().position(|b| *b == b'\n')?;
    let header = std::str::from_utf8(&bytes[..first]).ok()?;
    let field = |mark: char| header.split(' ').find_map(|word| word.strip_prefix(mark));
    let width: usize = field('W')?.parse().ok()?;
    let height: usize = field('H')?.parse().ok()?;
    let luma = bytes.get(second + 1..second + 1 + width * height)?;
    let mut facts = Facts::opened();
    facts.say("size", format!("W{width} H{height}"));
    facts.say("quarters", list(quarters(luma, width, height)));
    Some(facts)
}

/// The quarters' ranks by brightness, taken at their middles.
fn quarters(luma: &[u8], width: usize, height: usize) -> [usize; 4] {
    let at = |x: usize, y: usize| luma[height * y / 4 * width + width * x / 4];
    let middles = [at(1, 1), at(3, 1), at(1, 3), at(3, 3)];
    middles.map(|value| 1 + middles.iter().filter(|other| **other < value).count())
}
