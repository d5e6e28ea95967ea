//! Where the parts of a payload lie.

use crate::answer::fixed;
use crate::layout::Fields;
use crate::{Chunk, Refusal, raw};
use std::fmt;

/// A part of the header, in the order in which the parts follow one another.
#[derive(Clone, Copy, Debug, PartialEq, Eq, Hash)]
pub enum PartKind {
    /// Version, flags, subsampling, orientation.
    Flags,
    /// Whether the dimensions are large; width, height.
    Dimensions,
    /// How the chroma samples are centred.
    ChromaCentring,
    /// The sample format.
    SampleFormat,
    /// Whether the picture is premultiplied by alpha.
    AlphaPremultiplied,
    /// Explicit code points.
    ExplicitCicp,
    /// Explicit codec types.
    ExplicitCodecTypes,
    /// Whether there is a gain map, and the gain map's fields.
    GainMap,
    /// The HDR boxes of the main picture.
    HdrBoxes,
    /// The HDR boxes of the tone-mapped picture.
    TmapHdrBoxes,
    /// The sizes of the chunks.
    ChunkSizes,
    /// The bits up to the byte boundary.
    TrailingBits,
}

impl PartKind {
    /// Every part, in order.
    pub const ALL: [PartKind; 12] = [
        PartKind::Flags,
        PartKind::Dimensions,
        PartKind::ChromaCentring,
        PartKind::SampleFormat,
        PartKind::AlphaPremultiplied,
        PartKind::ExplicitCicp,
        PartKind::ExplicitCodecTypes,
        PartKind::GainMap,
        PartKind::HdrBoxes,
        PartKind::TmapHdrBoxes,
        PartKind::ChunkSizes,
        PartKind::TrailingBits,
    ];

    /// The part's name, in words.
    pub fn name(self) -> &'static str {
        match self {
            PartKind::Flags => "flags",
            PartKind::Dimensions => "dimensions",
            PartKind::ChromaCentring => "chroma centring",
            PartKind::SampleFormat => "sample format",
            PartKind::AlphaPremultiplied => "alpha premultiplied",
            PartKind::ExplicitCicp => "explicit cicp",
            PartKind::ExplicitCodecTypes => "explicit codec types",
            PartKind::GainMap => "gain map",
            PartKind::HdrBoxes => "HDR boxes",
            PartKind::TmapHdrBoxes => "tone map HDR boxes",
            PartKind::ChunkSizes => "chunk sizes",
            PartKind::TrailingBits => "trailing bits",
        }
    }
}

impl fmt::Display for PartKind {
    fn fmt(&self, f: &mut fmt::Formatter) -> fmt::Result {
        f.pad(self.name())
    }
}

/// Where a part of the header lies, counted in bits from the payload's start, the high bit of a byte
/// first. A part that a payload does not store has no bits.
#[derive(Clone, Copy, Debug, PartialEq, Eq)]
pub struct HeaderPart {
    /// Which part.
    pub kind: PartKind,
    /// Its first bit.
    pub start: usize,
    /// The bit after its last.
    pub end: usize,
}

impl HeaderPart {
    /// How many bits it has.
    pub fn bits(&self) -> usize {
        self.end.saturating_sub(self.start)
    }
}

/// A kind of chunk. Kinds are numbered in the order in which their sizes are given.
#[derive(Clone, Copy, Debug, PartialEq, Eq, Hash)]
pub enum ChunkKind {
    /// 1: the main picture's ICC profile.
    Icc,
    /// 2: the ICC profile of the tone-mapped picture.
    TmapIcc,
    /// 3: the gain-map metadata.
    GainMapMetadata,
    /// 4: the gain map's data.
    GainMapData,
    /// 5: the gain map's codec configuration.
    GainMapConfig,
    /// 6: the main picture's codec configuration.
    MainConfig,
    /// 7: the main picture's data.
    MainData,
    /// 8: the data of alpha.
    AlphaData,
    /// 9: the codec configuration of alpha.
    AlphaConfig,
    /// 10: Exif.
    Exif,
    /// 11: XMP.
    Xmp,
}

impl ChunkKind {
    /// Every kind, in the order of the numbers.
    pub const ALL: [ChunkKind; 11] = [
        ChunkKind::Icc,
        ChunkKind::TmapIcc,
        ChunkKind::GainMapMetadata,
        ChunkKind::GainMapData,
        ChunkKind::GainMapConfig,
        ChunkKind::MainConfig,
        ChunkKind::MainData,
        ChunkKind::AlphaData,
        ChunkKind::AlphaConfig,
        ChunkKind::Exif,
        ChunkKind::Xmp,
    ];

    /// The number, 1 to 11.
    pub fn number(self) -> u8 {
        self as u8 + 1
    }

    /// The kind's name, in words.
    pub fn name(self) -> &'static str {
        match self {
            ChunkKind::Icc => "ICC",
            ChunkKind::TmapIcc => "tone map ICC",
            ChunkKind::GainMapMetadata => "gain-map metadata",
            ChunkKind::GainMapData => "gain-map data",
            ChunkKind::GainMapConfig => "gain-map configuration",
            ChunkKind::MainConfig => "main configuration",
            ChunkKind::MainData => "main data",
            ChunkKind::AlphaData => "alpha data",
            ChunkKind::AlphaConfig => "alpha configuration",
            ChunkKind::Exif => "Exif",
            ChunkKind::Xmp => "XMP",
        }
    }

    pub(crate) fn of_number(number: u8) -> Self {
        let kind = Self::ALL.into_iter().find(|kind| kind.number() == number);
        kind.expect("the library numbers the chunks from 1 to 11")
    }
}

impl fmt::Display for ChunkKind {
    fn fmt(&self, f: &mut fmt::Formatter) -> fmt::Result {
        f.pad(self.name())
    }
}

/// A chunk of the payload, where it is present.
#[derive(Clone, Copy, Debug, PartialEq, Eq)]
pub struct PlacedChunk {
    /// Which chunk.
    pub kind: ChunkKind,
    /// Its place. Main configuration and main data are always present, perhaps empty; so are alpha
    /// data where alpha is set, and a gain map's metadata and data where there is a gain map.
    pub place: Option<Chunk>,
}

/// Where the parts of a payload lie.
///
/// ```
/// use bustardcase::ChunkKind;
///
/// // Alpha: its size is given after that of the main data, yet its bytes come first.
/// let payload = [4, 0, 0, 0, 0, 0, 0, 0, 0x10, 0xBB, 0xAA];
/// let outline = bustardcase::outline(&payload)?;
/// let present = |order: [bustardcase::PlacedChunk; 11]| -> Vec<ChunkKind> {
///     let chunks = order.into_iter().filter(|c| c.place.is_some_and(|p| p.len > 0));
///     chunks.map(|c| c.kind).collect()
/// };
/// assert_eq!(present(outline.by_size), [ChunkKind::MainData, ChunkKind::AlphaData]);
/// assert_eq!(present(outline.as_stored), [ChunkKind::AlphaData, ChunkKind::MainData]);
/// assert_eq!(outline.ignored, 0);
/// # Ok::<(), bustardcase::Refusal>(())
/// ```
#[derive(Clone, Copy, Debug, PartialEq, Eq)]
pub struct Outline {
    /// The parts of the header, each beginning where the one before ends.
    pub header: [HeaderPart; 12],
    /// The chunks in the order in which their sizes are given.
    pub by_size: [PlacedChunk; 11],
    /// The chunks in the order in which they lie.
    pub as_stored: [PlacedChunk; 11],
    /// How many bytes after the last chunk are ignored.
    pub ignored: usize,
}

impl Outline {
    /// The part of the header of that kind.
    pub fn part(&self, kind: PartKind) -> HeaderPart {
        self.header[kind as usize]
    }

    /// How many bytes the header has.
    pub fn header_len(&self) -> usize {
        self.part(PartKind::TrailingBits).end / 8
    }
}

/// Where the parts of a payload lie. Refusals 5 to 9.
///
/// ```
/// use bustardcase::PartKind;
///
/// let outline = bustardcase::outline(&[0, 0, 0, 0, 0, 0, 0, 0xAA, 0xFF, 0xFF])?;
/// assert_eq!(outline.part(PartKind::Dimensions).start, 16);
/// assert_eq!(outline.header_len(), 7);
/// assert_eq!(outline.ignored, 2);
/// # Ok::<(), bustardcase::Refusal>(())
/// ```
pub fn outline(payload: &[u8]) -> Result<Outline, Refusal> {
    let layout: [u8; 500] = fixed(|out| raw::outline(payload, out))?;
    let mut fields = Fields::new(&layout);
    let outline = Outline {
        header: header(&mut fields),
        by_size: chunks(&mut fields),
        as_stored: chunks(&mut fields),
        ignored: fields.size(),
    };
    fields.finish();
    Ok(outline)
}

/// The parts of the header, by where each ends.
pub(crate) fn header(f: &mut Fields) -> [HeaderPart; 12] {
    let mut end = 0;
    PartKind::ALL.map(|kind| {
        let start = end;
        end = f.size();
        HeaderPart { kind, start, end }
    })
}

/// The eleven chunks, each with its number.
pub(crate) fn chunks(f: &mut Fields) -> [PlacedChunk; 11] {
    std::array::from_fn(|_| PlacedChunk {
        kind: ChunkKind::of_number(f.byte()),
        place: f.chunk(),
    })
}
