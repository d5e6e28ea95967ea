//! What `explain` prints of a payload that is refused: what was read of it, and the place where reading
//! broke off.

use crate::broken::Broken;
use crate::drawing::arrow;
use crate::explain::start_in_words;
use crate::rows::{
    PARTS_HEADING, chunk_row, chunks_heading, drawn_row, missing_row, part_row, stored_bits,
};
use crate::text::{count, paragraph};
use bustardcase::{Chunk, Diagnosis, PartKind, Place};

const MARK: &str = "refused here";

pub fn told(payload: &[u8], broken: &Broken) -> String {
    let diagnosis = broken.diagnosis();
    let mut out = paragraph(&format!(
        "The payload has {}. It is refused; this is what was read of it.",
        count(payload.len(), "byte")
    ));
    out += &start_in_words(broken.start());
    out += "\n";
    out += &header(payload, broken);
    if let Place::Chunk { .. } = diagnosis.place {
        out += "\n";
        out += &chunks(payload.len(), diagnosis);
    }
    let place = format!("Reading broke off at bit {}: {broken}.", broken.bit());
    out + "\n" + &paragraph(&place)
}

/// The parts of the header that were read, and the one in which reading was refused.
fn header(payload: &[u8], broken: &Broken) -> String {
    let mut out = String::from("THE HEADER, the high bit of a byte first\n\n");
    out += PARTS_HEADING;
    let diagnosis = broken.diagnosis();
    for part in diagnosis.parts_read() {
        out += &part_row(payload, *part);
    }
    if let Place::Part(kind) = diagnosis.place {
        let from = diagnosis.part(kind).start;
        out += &refused_part(payload, kind, from, broken);
    }
    out
}

/// The part in which reading was refused: the bits before the place and those from there on, of the bytes
/// nearby, and a mark under the place.
fn refused_part(payload: &[u8], kind: PartKind, from: usize, broken: &Broken) -> String {
    let (bit, end) = (broken.bit(), broken.bits_end());
    let start = from.max((bit / 8 * 8).saturating_sub(8));
    let before = stored_bits(payload, start, bit);
    let behind = stored_bits(payload, bit, end);
    let earlier = if start > from { ".. " } else { "" };
    // All the trailing bits are shown.
    let more = end < 8 * payload.len() && kind != PartKind::TrailingBits;
    let later = if more { " .." } else { "" };
    let row = format!("  {from:>5}  {:>5}  {kind:<20}  {earlier}{before}", "-");
    let indent = row.len();
    format!("{row}|{behind}{later}\n{:indent$}^ {MARK}\n", "")
}

/// The header and the chunks as they lie, with a mark under the one that ends past the payload. Those after it
/// begin past the payload.
fn chunks(total: usize, diagnosis: &Diagnosis) -> String {
    let header = Chunk {
        at: 0,
        len: diagnosis.part(PartKind::TrailingBits).end / 8,
    };
    let mut out = String::from("THE CHUNKS in the order in which they lie\n\n");
    out += &chunks_heading(total);
    out += &drawn_row(total, "", "(header)", header, '=');
    for chunk in diagnosis.as_stored.iter().flatten() {
        out += &match chunk.place {
            Some(place) if place.at > total => missing_row(*chunk, place),
            _ => chunk_row(total, *chunk),
        };
        if let Place::Chunk { kind, position, .. } = diagnosis.place
            && kind == chunk.kind
        {
            let arrow = arrow(total, position, MARK);
            out += &format!("{:50}{arrow}\n", "");
        }
    }
    out
}
