//! `check`: the desk check.

use crate::failure::Failure;
use crate::input::Input;
use crate::text::{grouped, wrapped};
use crate::tree::{Group, Value};
use crate::{json, output};
use bustardcase::{Check, MinimizedImage, SampleFormat};
use std::ffi::OsStr;

pub fn run(file: &OsStr, as_json: bool) -> Result<bool, Failure> {
    let checked = checked(file);
    let (check, image) = if as_json {
        json::told(checked)?
    } else {
        checked?
    };
    output::print(&match as_json {
        true => json::text(&named(&check, &image)),
        false => told(&check, &image),
    })?;
    Ok(check.passes)
}

fn checked(file: &OsStr) -> Result<(Check, MinimizedImage), Failure> {
    let input = Input::open(file)?;
    let check = input.taken(bustardcase::check(input.payload()))?;
    let image = input.taken(bustardcase::read(input.payload()))?;
    Ok((check, image))
}

/// Verdicts, the size as shown, and what is stored.
fn named(check: &Check, image: &MinimizedImage) -> Group {
    vec![
        ("passes", Value::Flag(check.passes)),
        ("integer_samples", Value::Flag(check.integer_samples)),
        ("no_gain_map", Value::Flag(check.no_gain_map)),
        ("exif_present", Value::Flag(check.exif_present)),
        ("width_fits", Value::Flag(check.width_fits)),
        ("height_fits", Value::Flag(check.height_fits)),
        ("shown_width", Value::Number(check.shown_width.into())),
        ("shown_height", Value::Number(check.shown_height.into())),
        ("width", Value::Number(image.width.into())),
        ("height", Value::Number(image.height.into())),
        ("orientation", Value::Number(image.orientation.into())),
    ]
}

/// Yes or no, then each condition with what the record has.
fn told(check: &Check, image: &MinimizedImage) -> String {
    let mut out = String::from(if check.passes {
        "yes: the display takes the picture as it is\n"
    } else {
        "no: the display does not take the picture as it is\n"
    });
    for (holds, condition, found) in conditions(check, image) {
        let verdict = if holds { "holds" } else { "fails" };
        let start = format!("  {verdict}  {condition:<29}");
        out += &format!("{start}{}\n", wrapped(&found, start.len()));
    }
    out
}

/// Whether it holds, what it is, and what the record has, in parts that stay on one line.
type Condition = (bool, &'static str, Vec<String>);

fn conditions(check: &Check, image: &MinimizedImage) -> [Condition; 5] {
    [
        (
            check.integer_samples,
            "the samples are integers",
            vec![samples(image.format)],
        ),
        (
            check.no_gain_map,
            "there is no gain map",
            vec![presence(image.gain_map.is_some())],
        ),
        (
            check.exif_present,
            "Exif is present",
            vec![presence(image.exif.is_some())],
        ),
        (
            check.width_fits,
            "the width is at most 1,920",
            side(check.shown_width, check, image),
        ),
        (
            check.height_fits,
            "the height is at most 1,080",
            side(check.shown_height, check, image),
        ),
    ]
}

fn samples(format: SampleFormat) -> String {
    let kind = if format.is_float() {
        "floats"
    } else {
        "integers"
    };
    format!("{kind} of {} bits", format.bits())
}

fn presence(there: bool) -> String {
    let number = if there { "one" } else { "none" };
    format!("there is {number}")
}

/// A side as shown; where the size as shown isn't the stored one, that and why.
fn side(shown: u32, check: &Check, image: &MinimizedImage) -> Vec<String> {
    let number = |n: u32| grouped(n as usize);
    if (check.shown_width, check.shown_height) == (image.width, image.height) {
        return vec![number(shown)];
    }
    vec![
        format!("{} as shown;", number(shown)),
        format!(
            "stored {} by {},",
            number(image.width),
            number(image.height)
        ),
        format!("orientation {}", image.orientation),
    ]
}
