//! The rows of the tables that `explain` prints: parts of a header, and chunks drawn to scale.

use crate::drawing::{CELLS, bar, ruler};
use bustardcase::{Chunk, HeaderPart, PlacedChunk};

pub const PARTS_HEADING: &str = "   from   bits  part                  what is stored\n";

/// How many bits of a part are printed at most.
const MOST_BITS: usize = 32;

/// Where a part begins, how many bits it has, its name, and these bits.
pub fn part_row(payload: &[u8], part: HeaderPart) -> String {
    let from = match part.bits() {
        0 => "-".to_string(),
        _ => part.start.to_string(),
    };
    let most = part.start + MOST_BITS - part.start % 8;
    let stored = match part.end > most {
        true => stored_bits(payload, part.start, most) + " ..",
        false => stored_bits(payload, part.start, part.end),
    };
    let line = format!(
        "  {from:>5}  {:>5}  {:<20}  {stored}",
        part.bits(),
        part.kind
    );
    format!("{}\n", line.trim_end())
}

/// Bits of the payload, with a space where a new byte begins.
pub fn stored_bits(payload: &[u8], start: usize, end: usize) -> String {
    let mut out = String::new();
    for at in start..end {
        if at.is_multiple_of(8) && at > start {
            out.push(' ');
        }
        let byte = payload.get(at / 8).copied().unwrap_or(0);
        out.push(if byte >> (7 - at % 8) & 1 == 1 {
            '1'
        } else {
            '0'
        });
    }
    out
}

/// The heading over chunks of a payload of `total` bytes.
pub fn chunks_heading(total: usize) -> String {
    let ruler = ruler(total);
    format!(
        "   #  {:<22} {:>9} {:>10} |{ruler}|\n",
        "chunk", "position", "length"
    )
}

pub fn chunk_row(total: usize, chunk: PlacedChunk) -> String {
    let number = chunk.kind.number().to_string();
    match chunk.place {
        Some(place) => drawn_row(total, &number, chunk.kind.name(), place, '#'),
        None => format!(
            "  {number:>2}  {:<22} {:>9} {:>10} |{:CELLS$}|\n",
            chunk.kind, "-", "absent", ""
        ),
    }
}

/// A row for a chunk that begins past the payload's end.
pub fn missing_row(chunk: PlacedChunk, place: Chunk) -> String {
    let number = chunk.kind.number();
    format!(
        "  {number:>2}  {:<22} {:>9} {:>10} |{:>CELLS$}|\n",
        chunk.kind, place.at, place.len, "not there"
    )
}

/// A row for a part of the payload; the bar has a mark for each of its cells.
pub fn drawn_row(total: usize, number: &str, name: &str, place: Chunk, mark: char) -> String {
    // What lies past the payload's end has no cell.
    let there = place.len.min(total - place.at);
    let bar = bar(total, place.at, there, mark);
    format!(
        "  {number:>2}  {name:<22} {:>9} {:>10} |{bar}|\n",
        place.at, place.len
    )
}
