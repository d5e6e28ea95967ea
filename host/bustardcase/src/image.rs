//! The record that a payload reads to, or that a file is the expansion of.

use crate::answer::fixed;
use crate::layout::Fields;
use crate::{Chunk, FileType, FourCc, Refusal, raw};

/// How a picture's samples are coded.
#[derive(Clone, Copy, Debug, PartialEq, Eq)]
pub enum SampleFormat {
    /// Unsigned integers.
    Integer {
        /// Bits per channel, 8 to 16.
        bits: u8,
    },
    /// Floating-point numbers.
    Float {
        /// Bits per channel: 16, 32 or 64.
        bits: u8,
    },
}

impl SampleFormat {
    /// Bits per channel.
    pub fn bits(&self) -> u8 {
        match self {
            SampleFormat::Integer { bits } | SampleFormat::Float { bits } => *bits,
        }
    }

    /// Whether the samples are floating-point numbers.
    pub fn is_float(&self) -> bool {
        matches!(self, SampleFormat::Float { .. })
    }
}

/// The chroma layout of a picture.
#[derive(Clone, Copy, Debug, PartialEq, Eq)]
pub struct MiniChroma {
    /// 0 is 4:0:0, 1 is 4:2:0, 2 is 4:2:2, 3 is 4:4:4.
    pub subsampling: u8,
    /// Whether the chroma samples are centred horizontally; stored for subsampling 1 and 2.
    pub horizontally_centered: bool,
    /// Whether the chroma samples are centred vertically; stored for subsampling 1.
    pub vertically_centered: bool,
}

/// The explicit codec types.
#[derive(Clone, Copy, Debug, PartialEq, Eq)]
pub struct CodecTypes {
    /// The item type.
    pub item_type: FourCc,
    /// The type of the codec configuration.
    pub config_type: FourCc,
}

/// Coding-independent code points of the main picture.
#[derive(Clone, Copy, Debug, PartialEq, Eq)]
pub struct Cicp {
    /// Colour primaries.
    pub primaries: u8,
    /// Transfer characteristics.
    pub transfer: u8,
    /// Matrix coefficients.
    pub matrix: u8,
}

/// Coding-independent code points of the tone-mapped picture.
#[derive(Clone, Copy, Debug, PartialEq, Eq)]
pub struct TmapCicp {
    /// Colour primaries.
    pub primaries: u8,
    /// Transfer characteristics.
    pub transfer: u8,
    /// Matrix coefficients.
    pub matrix: u8,
    /// Whether the samples use the full range.
    pub full_range: bool,
}

/// The bodies of the HDR boxes of a picture, each where it is present.
#[derive(Clone, Copy, Debug, PartialEq, Eq)]
pub struct MiniHdrBoxes {
    /// Content light level.
    pub clli: Option<[u8; 4]>,
    /// Mastering display colour volume.
    pub mdcv: Option<[u8; 24]>,
    /// Content colour volume. The body's own length follows from its first byte; zeros fill the rest.
    pub cclv: Option<[u8; 37]>,
    /// Ambient viewing environment.
    pub amve: Option<[u8; 8]>,
    /// Reference viewing environment.
    pub reve: Option<[u8; 20]>,
    /// Nominal diffuse white.
    pub ndwt: Option<[u8; 4]>,
}

/// A gain map.
#[derive(Clone, Copy, Debug, PartialEq, Eq)]
pub struct MiniGainMap {
    /// The width.
    pub width: u32,
    /// The height.
    pub height: u32,
    /// The matrix coefficients.
    pub matrix_coefficients: u8,
    /// Whether the samples use the full range.
    pub full_range: bool,
    /// The chroma layout.
    pub chroma: MiniChroma,
    /// The sample format.
    pub format: SampleFormat,
    /// The code points of the tone-mapped picture, where they are explicit.
    pub tmap_cicp: Option<TmapCicp>,
    /// The ICC profile of the tone-mapped picture.
    pub tmap_icc: Option<Chunk>,
    /// The HDR boxes of the tone-mapped picture.
    pub tmap_hdr: MiniHdrBoxes,
    /// The gain-map metadata, perhaps empty.
    pub metadata: Chunk,
    /// The codec configuration, where the gain map has its own.
    pub codec_config: Option<Chunk>,
    /// The gain map's data, perhaps empty.
    pub data: Chunk,
}

/// The record that a payload reads to, or that was found in an expanded file. A [`Chunk`] is a place in that
/// payload or file.
///
/// ```
/// use bustardcase::SampleFormat;
///
/// let payload = b"\x20\0\0\0av01av1C\0\0\0\xAA";
/// let image = bustardcase::read(payload)?;
/// assert_eq!(image.format, SampleFormat::Integer { bits: 8 });
/// assert_eq!(image.explicit_codec_types.unwrap().item_type, b"av01".into());
/// assert_eq!(image.main_data.of(payload), [0xAA]);
/// assert_eq!(image.exif, None);
/// # Ok::<(), bustardcase::Refusal>(())
/// ```
#[derive(Clone, Copy, Debug, PartialEq, Eq)]
pub struct MinimizedImage {
    /// The codec types, where they are explicit.
    pub explicit_codec_types: Option<CodecTypes>,
    /// The sample format of the main picture and of alpha.
    pub format: SampleFormat,
    /// Whether the main picture's samples use the full range.
    pub full_range: bool,
    /// The main picture's chroma layout.
    pub chroma: MiniChroma,
    /// The orientation, 1 to 8, as in Exif.
    pub orientation: u8,
    /// The width as stored, 1 to 32,768; [`crate::Check`] has the size as shown.
    pub width: u32,
    /// The height as stored, 1 to 32,768.
    pub height: u32,
    /// The main picture's code points, where they are explicit.
    pub explicit_cicp: Option<Cicp>,
    /// The main picture's ICC profile.
    pub icc: Option<Chunk>,
    /// Whether the picture has alpha.
    pub alpha: bool,
    /// Whether the main picture is premultiplied by alpha.
    pub alpha_premultiplied: bool,
    /// Whether HDR boxes or a gain map may be there.
    pub hdr: bool,
    /// The HDR boxes of the main picture.
    pub hdr_boxes: MiniHdrBoxes,
    /// The gain map.
    pub gain_map: Option<MiniGainMap>,
    /// The main picture's codec configuration, perhaps empty.
    pub main_codec_config: Chunk,
    /// The main picture's data.
    pub main_data: Chunk,
    /// The codec configuration of alpha, where it has its own.
    pub alpha_codec_config: Option<Chunk>,
    /// The data of alpha, empty where there is none.
    pub alpha_data: Chunk,
    /// Whether Exif and XMP are compressed.
    pub exif_xmp_compressed: bool,
    /// Exif.
    pub exif: Option<Chunk>,
    /// XMP.
    pub xmp: Option<Chunk>,
}

/// The record of a `mini` payload: the bytes after the box header. Refusals 5 to 9.
///
/// ```
/// let image = bustardcase::read(&[0, 0, 0, 0, 0, 0, 0, 0xAA])?;
/// assert_eq!((image.width, image.height, image.orientation), (1, 1, 1));
/// # Ok::<(), bustardcase::Refusal>(())
/// ```
pub fn read(payload: &[u8]) -> Result<MinimizedImage, Refusal> {
    fixed(|out| raw::read(payload, out)).map(of_layout)
}

/// The record, with explicit codec types, that expands to exactly this file under the original file's type: of
/// several, one whose payload is as short as that of any. Its chunks are places in the file, an empty one at 0.
/// Refusals 15 and 17.
///
/// ```
/// use bustardcase::{FileType, Refusal, expand, find_mini};
///
/// let payload = b"\x20\0\0\0av01av1C\0\0\0\xAA";
/// let file = expand(payload, &FileType::default())?;
/// let image = find_mini(&file, &FileType::default())?;
/// assert_eq!((image.width, image.main_data.at), (1, 483));
/// assert_eq!(image.main_data.of(&file), [0xAA]);
///
/// let cut = &file[..483];
/// assert_eq!(find_mini(cut, &FileType::default()), Err(Refusal::NotAnExpansion));
/// # Ok::<(), Refusal>(())
/// ```
pub fn find_mini(file: &[u8], original: &FileType) -> Result<MinimizedImage, Refusal> {
    let (major, minor, brands) = original.parts();
    fixed(|out| raw::find_mini(file, major, minor, &brands, out)).map(of_layout)
}

fn of_layout(layout: [u8; 441]) -> MinimizedImage {
    let mut fields = Fields::new(&layout);
    let image = image(&mut fields);
    fields.finish();
    image
}

// The fields of a struct are given in the order of the layout: that is the order in which they are
// taken.

fn image(f: &mut Fields) -> MinimizedImage {
    MinimizedImage {
        explicit_codec_types: f.option(codec_types),
        format: format(f),
        full_range: f.flag(),
        chroma: chroma(f),
        orientation: f.byte(),
        width: f.u32(),
        height: f.u32(),
        explicit_cicp: f.option(cicp),
        icc: f.chunk(),
        alpha: f.flag(),
        alpha_premultiplied: f.flag(),
        hdr: f.flag(),
        hdr_boxes: hdr_boxes(f),
        gain_map: f.option(gain_map),
        main_codec_config: f.span(),
        main_data: f.span(),
        alpha_codec_config: f.chunk(),
        alpha_data: f.span(),
        exif_xmp_compressed: f.flag(),
        exif: f.chunk(),
        xmp: f.chunk(),
    }
}

fn codec_types(f: &mut Fields) -> CodecTypes {
    CodecTypes {
        item_type: f.code(),
        config_type: f.code(),
    }
}

fn format(f: &mut Fields) -> SampleFormat {
    let is_float = f.flag();
    let bits = f.byte();
    match is_float {
        false => SampleFormat::Integer { bits },
        true => SampleFormat::Float { bits },
    }
}

fn chroma(f: &mut Fields) -> MiniChroma {
    MiniChroma {
        subsampling: f.byte(),
        horizontally_centered: f.flag(),
        vertically_centered: f.flag(),
    }
}

fn cicp(f: &mut Fields) -> Cicp {
    Cicp {
        primaries: f.byte(),
        transfer: f.byte(),
        matrix: f.byte(),
    }
}

fn tmap_cicp(f: &mut Fields) -> TmapCicp {
    TmapCicp {
        primaries: f.byte(),
        transfer: f.byte(),
        matrix: f.byte(),
        full_range: f.flag(),
    }
}

/// Six flags, then six bodies.
fn hdr_boxes(f: &mut Fields) -> MiniHdrBoxes {
    let [clli, mdcv, cclv, amve, reve, ndwt] = f.bytes().map(|present: u8| present != 0);
    MiniHdrBoxes {
        clli: body(clli, f),
        mdcv: body(mdcv, f),
        cclv: body(cclv, f),
        amve: body(amve, f),
        reve: body(reve, f),
        ndwt: body(ndwt, f),
    }
}

fn body<const N: usize>(present: bool, f: &mut Fields) -> Option<[u8; N]> {
    let bytes = f.bytes();
    present.then_some(bytes)
}

fn gain_map(f: &mut Fields) -> MiniGainMap {
    MiniGainMap {
        width: f.u32(),
        height: f.u32(),
        matrix_coefficients: f.byte(),
        full_range: f.flag(),
        chroma: chroma(f),
        format: format(f),
        tmap_cicp: f.option(tmap_cicp),
        tmap_icc: f.chunk(),
        tmap_hdr: hdr_boxes(f),
        metadata: f.span(),
        codec_config: f.chunk(),
        data: f.span(),
    }
}

#[cfg(test)]
mod tests {
    use super::*;

    /// Each byte of the layout differs from its neighbours, and none is 0, so that all is present.
    #[test]
    fn every_field_is_taken_from_its_place() {
        let layout: [u8; 441] = std::array::from_fn(|i| (i % 255) as u8 + 1);
        let image = image(&mut Fields::new(&layout));
        let at = |i: usize| layout[i];
        let number = |i: usize| u64::from_be_bytes(layout[i..i + 8].try_into().unwrap()) as usize;
        let word = |i: usize| u32::from_be_bytes(layout[i..i + 4].try_into().unwrap());
        let place = |i: usize| Chunk {
            at: number(i),
            len: number(i + 8),
        };
        let gain_map = image.gain_map.expect("a gain map");
        assert_eq!(
            image.explicit_codec_types.unwrap().config_type.0,
            [6, 7, 8, 9]
        );
        assert_eq!(image.format, SampleFormat::Float { bits: at(10) });
        assert_eq!(image.chroma.subsampling, at(12));
        assert_eq!(image.orientation, at(15));
        assert_eq!((image.width, image.height), (word(16), word(20)));
        assert_eq!(image.explicit_cicp.unwrap().matrix, at(27));
        assert_eq!(image.icc, Some(place(29)));
        assert_eq!(image.hdr_boxes.clli.unwrap()[..], layout[54..58]);
        assert_eq!(image.hdr_boxes.cclv.unwrap()[..], layout[82..119]);
        assert_eq!(image.hdr_boxes.ndwt.unwrap()[..], layout[147..151]);
        assert_eq!((gain_map.width, gain_map.height), (word(152), word(156)));
        assert_eq!(gain_map.matrix_coefficients, at(160));
        assert_eq!(gain_map.format.bits(), at(166));
        assert_eq!(gain_map.tmap_cicp.unwrap().primaries, at(168));
        assert_eq!(gain_map.tmap_icc, Some(place(173)));
        assert_eq!(gain_map.tmap_hdr.mdcv.unwrap()[..], layout[199..223]);
        assert_eq!(gain_map.metadata, place(292));
        assert_eq!(gain_map.codec_config, Some(place(309)));
        assert_eq!(gain_map.data, place(325));
        assert_eq!(image.main_codec_config, place(341));
        assert_eq!(image.main_data, place(357));
        assert_eq!(image.alpha_codec_config, Some(place(374)));
        assert_eq!(image.alpha_data, place(390));
        assert_eq!(image.exif, Some(place(408)));
        assert_eq!(image.xmp, Some(place(425)));
    }
}
