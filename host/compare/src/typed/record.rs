//! A record beside the supplied Rust's: every field, the chunks as they are handed out, and where they
//! lie.

use super::same;
use bustardcase::{Chunk, FourCc, MiniGainMap, MiniHdrBoxes, MinimizedImage, SampleFormat};
use oracle::reading::Spans;
use upstream::mini as theirs;

/// `source` holds the chunks, at the places given in stored order.
pub fn compare(
    source: &[u8],
    image: &MinimizedImage,
    expected: &theirs::MinimizedImage,
    spans: &Spans,
) -> Result<(), String> {
    let their_image = told_theirs(expected);
    same("the record", &told(source, image), &their_image)?;
    same_format("the format", image.format, their_image.format)?;
    if let (Some(ours), Some(theirs)) = (&image.gain_map, &their_image.gain_map) {
        same_format("the gain map's format", ours.format, theirs.format)?;
    }
    let places = spans.map(|span| {
        let (at, len) = span?;
        Some(Chunk { at, len })
    });
    same("where the chunks lie", &as_stored(image), &places)?;
    for chunk in places.into_iter().flatten() {
        same_part(source, chunk)?;
    }
    Ok(())
}

/// The methods of a sample format.
fn same_format(what: &str, ours: SampleFormat, theirs: theirs::SampleFormat) -> Result<(), String> {
    let told = (ours.is_float(), ours.bits());
    same(what, &told, &(theirs.is_float(), theirs.bits()))
}

/// A chunk that passes the bytes lent hands out the empty part at their start, any other its own bytes:
/// document 01.
fn same_part(source: &[u8], chunk: Chunk) -> Result<(), String> {
    for end in [chunk.at + chunk.len, source.len() / 2] {
        let lent = &source[..end];
        let fits = chunk.at + chunk.len <= end;
        let expected = match fits {
            true => &source[chunk.at..chunk.at + chunk.len],
            false => &source[..0],
        };
        let part = chunk.of(lent);
        same("the chunk's bytes", &part, &expected)?;
        same("where they begin", &part.as_ptr(), &expected.as_ptr())?;
    }
    Ok(())
}

/// Our chunks in stored order.
fn as_stored(image: &MinimizedImage) -> [Option<Chunk>; 11] {
    let gain_map = image.gain_map.as_ref();
    [
        Some(image.main_codec_config),
        image.alpha_codec_config,
        gain_map.and_then(|g| g.codec_config),
        image.icc,
        gain_map.and_then(|g| g.tmap_icc),
        gain_map.map(|g| g.metadata),
        Some(image.alpha_data),
        gain_map.map(|g| g.data),
        Some(image.main_data),
        image.exif,
        image.xmp,
    ]
}

/// Our record in the supplied Rust's type: chunks as the bytes that are handed out.
fn told(source: &[u8], image: &MinimizedImage) -> theirs::MinimizedImage {
    let bytes = |chunk: Chunk| chunk.of(source).to_vec();
    let code = |code: FourCc| code.0;
    theirs::MinimizedImage {
        explicit_codec_types: image
            .explicit_codec_types
            .map(|t| (code(t.item_type), code(t.config_type))),
        format: format(image.format),
        full_range: image.full_range,
        chroma: chroma(image.chroma),
        orientation: image.orientation,
        width: image.width,
        height: image.height,
        explicit_cicp: image
            .explicit_cicp
            .map(|c| (c.primaries, c.transfer, c.matrix)),
        icc: image.icc.map(bytes),
        alpha: image.alpha,
        alpha_premultiplied: image.alpha_premultiplied,
        hdr: image.hdr,
        hdr_boxes: boxes(&image.hdr_boxes),
        gain_map: image.gain_map.as_ref().map(|g| gain_map(source, g)),
        main_codec_config: bytes(image.main_codec_config),
        main_data: bytes(image.main_data),
        alpha_codec_config: image.alpha_codec_config.map(bytes),
        alpha_data: bytes(image.alpha_data),
        exif_xmp_compressed: image.exif_xmp_compressed,
        exif: image.exif.map(bytes),
        xmp: image.xmp.map(bytes),
    }
}

/// Their record, with zeros after the bytes of a 'cclv' body, as ours has.
fn told_theirs(image: &theirs::MinimizedImage) -> theirs::MinimizedImage {
    let mut image = image.clone();
    let tmap = image.gain_map.as_mut().map(|g| &mut g.tmap_hdr);
    for hdr in [Some(&mut image.hdr_boxes), tmap].into_iter().flatten() {
        if let Some(cclv) = &mut hdr.cclv {
            cclv.resize(37, 0);
        }
    }
    image
}

fn format(format: bustardcase::SampleFormat) -> theirs::SampleFormat {
    match format {
        bustardcase::SampleFormat::Integer { bits } => theirs::SampleFormat::Integer { bits },
        bustardcase::SampleFormat::Float { bits } => theirs::SampleFormat::Float { bits },
    }
}

fn chroma(chroma: bustardcase::MiniChroma) -> theirs::MiniChroma {
    theirs::MiniChroma::new(
        chroma.subsampling,
        chroma.horizontally_centered,
        chroma.vertically_centered,
    )
}

fn boxes(hdr: &MiniHdrBoxes) -> theirs::MiniHdrBoxes {
    fn body<const N: usize>(body: Option<[u8; N]>) -> Option<Vec<u8>> {
        body.map(|bytes| bytes.to_vec())
    }
    theirs::MiniHdrBoxes::new(
        body(hdr.clli),
        body(hdr.mdcv),
        body(hdr.cclv),
        body(hdr.amve),
        body(hdr.reve),
        body(hdr.ndwt),
    )
}

fn gain_map(source: &[u8], gain_map: &MiniGainMap) -> theirs::MiniGainMap {
    let bytes = |chunk: Chunk| chunk.of(source).to_vec();
    theirs::MiniGainMap {
        width: gain_map.width,
        height: gain_map.height,
        matrix_coefficients: gain_map.matrix_coefficients,
        full_range: gain_map.full_range,
        chroma: chroma(gain_map.chroma),
        format: format(gain_map.format),
        tmap_cicp: gain_map
            .tmap_cicp
            .map(|c| (c.primaries, c.transfer, c.matrix, c.full_range)),
        tmap_icc: gain_map.tmap_icc.map(bytes),
        tmap_hdr: boxes(&gain_map.tmap_hdr),
        metadata: bytes(gain_map.metadata),
        codec_config: gain_map.codec_config.map(bytes),
        data: bytes(gain_map.data),
    }
}
