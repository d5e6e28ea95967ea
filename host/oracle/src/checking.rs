//! The desk check, which the supplied Rust does not have: document 01's sentence, of the picture as shown as
//! document 02 has it in point 2, over the Rust's record.

use crate::answer::Answer;
use crate::payloads::{payload_of, plain_gain_map};
use crate::plan::{Depth, Hdr, NO_BODIES, Plan};
use crate::reading::Reading;
use upstream::mini::MinimizedImage;

/// How many flags there are, and the length of the check's layout.
pub const FLAGS: usize = 6;
pub const CHECK_LEN: usize = FLAGS + 4 + 4;

/// Whether all conditions hold; then each: integers, no gain map, Exif, width, height.
pub type Flags = [bool; FLAGS];

/// The answer in the layout of the exported function.
pub fn answer(reading: &Reading) -> Answer {
    match reading {
        Reading::Refused(refused) => refused.answer(),
        Reading::Accepted(accepted) => Answer::Done(layout(&accepted.image)),
    }
}

fn layout(image: &MinimizedImage) -> Vec<u8> {
    let (width, height) = shown(image);
    let mut layout = flags(image, width, height).map(u8::from).to_vec();
    layout.extend(width.to_be_bytes());
    layout.extend(height.to_be_bytes());
    layout
}

/// Width and height of the picture as shown.
pub fn shown(image: &MinimizedImage) -> (u32, u32) {
    match image.orientation {
        5..=8 => (image.height, image.width),
        _ => (image.width, image.height),
    }
}

/// The answers for a picture of this width and height.
pub fn flags(image: &MinimizedImage, width: u32, height: u32) -> Flags {
    let integers = !image.format.is_float();
    let no_gain_map = image.gain_map.is_none();
    let exif = image.exif.is_some();
    let width = width <= 1_920;
    let height = height <= 1_080;
    let all = integers && no_gain_map && exif && width && height;
    [all, integers, no_gain_map, exif, width, height]
}

/// Every orientation with every combination of the conditions, with dimensions at and around both limits.
pub fn payloads() -> Vec<Vec<u8>> {
    let sides = [1, 1_079, 1_080, 1_081, 1_919, 1_920, 1_921, 32_768];
    let mut all = Vec::new();
    for orientation in 1..=8 {
        for width in sides {
            for height in sides {
                for bits in 0..8 {
                    all.push(payload_of(&plan(orientation, width, height, bits)));
                }
            }
        }
    }
    all
}

/// Bits for floats, a gain map and Exif.
fn plan(orientation: u32, width: u32, height: u32, bits: u32) -> Plan {
    // As they are stored, one less.
    let mut plan = Plan {
        orientation: orientation - 1,
        width: width - 1,
        height: height - 1,
        ..Plan::smallest()
    };
    if bits & 1 != 0 {
        plan.depth = Depth::Float(1);
    }
    if bits & 2 != 0 {
        plan.hdr = Some(Hdr {
            gain_map: Some(plain_gain_map()),
            bodies: NO_BODIES,
        });
    }
    if bits & 4 != 0 {
        plan.exif = Some(2);
    }
    plan
}
