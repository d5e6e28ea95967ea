//! An outline beside what the supplied Rust's record and a plan of the same header tell.

use super::same;
use bustardcase::{Chunk, ChunkKind, HeaderPart, Outline, PartKind, PlacedChunk};
use oracle::outlining::{self, Placed};
use oracle::reading::Accepted;

/// The parts of the header and the chunks by number, in the order of docs/ABI.md.
pub const PARTS: [PartKind; 12] = [
    PartKind::Flags,
    PartKind::Dimensions,
    PartKind::ChromaCentring,
    PartKind::SampleFormat,
    PartKind::AlphaPremultiplied,
    PartKind::ExplicitCicp,
    PartKind::ExplicitCodecTypes,
    PartKind::GainMap,
    PartKind::HdrBoxes,
    PartKind::TmapHdrBoxes,
    PartKind::ChunkSizes,
    PartKind::TrailingBits,
];
pub const CHUNKS: [ChunkKind; 11] = [
    ChunkKind::Icc,
    ChunkKind::TmapIcc,
    ChunkKind::GainMapMetadata,
    ChunkKind::GainMapData,
    ChunkKind::GainMapConfig,
    ChunkKind::MainConfig,
    ChunkKind::MainData,
    ChunkKind::AlphaData,
    ChunkKind::AlphaConfig,
    ChunkKind::Exif,
    ChunkKind::Xmp,
];

pub fn compare(payload: &[u8], outline: &Outline, accepted: &Accepted) -> Result<(), String> {
    let expected = outlining::outline(payload, accepted)?;
    let header: [HeaderPart; 12] = std::array::from_fn(|i| HeaderPart {
        kind: PARTS[i],
        start: if i == 0 { 0 } else { expected.ends[i - 1] },
        end: expected.ends[i],
    });
    let told = Outline {
        header,
        by_size: expected.by_size.map(placed),
        as_stored: expected.as_stored.map(placed),
        ignored: expected.ignored,
    };
    same("the outline", outline, &told)?;
    for part in header {
        let ours = outline.part(part.kind);
        same("a part", &ours, &part)?;
        same("a part's bits", &ours.bits(), &(part.end - part.start))?;
    }
    for ((number, _), ours) in expected.by_size.iter().zip(outline.by_size) {
        same("a chunk's number", &ours.kind.number(), number)?;
    }
    same(
        "the header's length",
        &outline.header_len(),
        &accepted.header_len,
    )
}

fn placed((number, span): Placed) -> PlacedChunk {
    PlacedChunk {
        kind: CHUNKS[number as usize - 1],
        place: span.map(|(at, len)| Chunk { at, len }),
    }
}
