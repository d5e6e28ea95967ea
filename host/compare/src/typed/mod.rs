//! The typed functions of the crate `bustardcase` beside the supplied Rust: every field of every answer.
//! What is expected comes from the Rust, or from document 01's words over the Rust's answer, never from
//! another answer of ours.

mod boxes;
mod diagnosis;
mod file_type;
mod outline;
mod payload;
mod record;
mod restored;

use crate::report::Report;
use bustardcase::Refusal;
use std::fmt::Debug;

pub fn compare(report: &mut Report) -> Result<(), String> {
    boxes::compare(report)?;
    file_type::compare(report)?;
    payload::compare(report)?;
    restored::compare(report)
}

fn same<T: PartialEq + Debug>(what: &str, ours: &T, expected: &T) -> Result<(), String> {
    match ours == expected {
        true => Ok(()),
        false => Err(format!(
            "{what} differs\n    ours {ours:?}\nexpected {expected:?}"
        )),
    }
}

/// The answer must be the refusal of that number, at that bit.
fn same_refusal<T: Debug>(
    what: &str,
    ours: Result<T, Refusal>,
    expected: u64,
    bit: u64,
) -> Result<(), String> {
    match ours {
        Ok(value) => Err(format!("{what}: refusal {expected} is expected: {value:?}")),
        Err(refusal) => {
            same(what, &refusal, &named(expected, bit)?)?;
            same(what, &(refusal.number() as u64), &expected)?;
            same(what, &refusal.bit().unwrap_or(0), &bit)
        }
    }
}

/// The refusals that the crate's functions give, by their numbers in docs/ABI.md.
fn named(number: u64, bit: u64) -> Result<Refusal, String> {
    match number {
        1 => Ok(Refusal::BoxHeaderCut),
        2 => Ok(Refusal::LargeSizeCut),
        3 => Ok(Refusal::BoxSize),
        4 => Ok(Refusal::ExtendedTypeCut),
        5 => Ok(Refusal::HeaderCut { bit }),
        6 => Ok(Refusal::Version { bit }),
        7 => Ok(Refusal::FloatDepth { bit }),
        8 => Ok(Refusal::TrailingBits { bit }),
        9 => Ok(Refusal::ChunkPastEnd { bit }),
        12 => Ok(Refusal::EmptyAlpha),
        13 => Ok(Refusal::UuidCodecType),
        14 => Ok(Refusal::NoCodecTypes),
        15 => Ok(Refusal::Brands),
        17 => Ok(Refusal::NotAnExpansion),
        28 => Ok(Refusal::NotAFileType),
        _ => Err(format!("no typed function gives refusal {number}")),
    }
}
