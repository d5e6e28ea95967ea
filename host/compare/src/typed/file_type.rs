//! `bustardcase::file_type` beside `FileType::parse`.

use super::{same, same_refusal};
use crate::report::Report;
use bustardcase::FileType;
use oracle::file_types::NoFileType;
use oracle::hex::hex;
use oracle::payloads::payload_of;
use oracle::{expanding, file_types};
use upstream::boxes::find_box;
use upstream::error::HeifError;
use upstream::ftyp as theirs;
use upstream::mini::MinimizedImage;

/// How often a file type, and each reason for a refusal, must come at least.
const LEAST: u64 = 100;

#[derive(Default)]
struct Outcomes {
    file_types: u64,
    /// Too short, uneven, too long.
    refused: [u64; 3],
}

pub fn compare(report: &mut Report) -> Result<(), String> {
    let mut seen = Outcomes::default();
    file_types::bodies(&mut |body| {
        one(&mut seen, body).map_err(|e| format!("body {}\n{e}", hex(body)))
    })?;
    let Outcomes {
        file_types,
        refused: [short, uneven, long],
    } = seen;
    report.cases += file_types + short + uneven + long;
    report.line(format_args!(
        "file types: {file_types}; too short {short}, uneven {uneven}, too long {long}"
    ));
    let default = written_by_default().map_err(|e| e.to_string())?;
    same("the default", &Some(told(&FileType::default())), &default)?;
    match file_types.min(short).min(uneven).min(long) >= LEAST {
        true => Ok(()),
        false => Err(format!("an outcome occurs fewer than {LEAST} times")),
    }
}

fn one(seen: &mut Outcomes, body: &[u8]) -> Result<(), String> {
    let ours = bustardcase::file_type(body);
    match file_types::file_type(body)? {
        Ok(expected) => {
            seen.file_types += 1;
            let ours = ours.map_err(|r| format!("a file type is expected: {r}"))?;
            same("the file type", &told(&ours), &expected)
        }
        Err(reason) => {
            seen.refused[match reason {
                NoFileType::Short => 0,
                NoFileType::Uneven => 1,
                NoFileType::Long => 2,
            }] += 1;
            same_refusal("the file type", ours, 28, 0)
        }
    }
}

/// The file type that the Rust gives a file of its own.
fn written_by_default() -> Result<Option<theirs::FileType>, HeifError> {
    let file = MinimizedImage::parse(&payload_of(&expanding::plain()))?.to_file()?;
    let found = find_box(&file, b"ftyp")?;
    found
        .map(|(_, body)| theirs::FileType::parse(*b"ftyp", body))
        .transpose()
}

fn told(file_type: &FileType) -> theirs::FileType {
    let brands = file_type.compatible_brands.iter();
    theirs::FileType::new(
        *b"ftyp",
        file_type.major_brand.0,
        file_type.minor_version,
        brands.map(|brand| brand.0).collect(),
    )
}
