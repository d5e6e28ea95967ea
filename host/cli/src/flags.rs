//! The optional flags of a header.

use bustardcase::{MinimizedImage, PartKind};

/// A flag: whether it is set, the parts of the header that come with it, and what else does.
pub struct Flag {
    pub name: &'static str,
    pub set: bool,
    pub parts: &'static [PartKind],
    pub notes: &'static [&'static str],
}

const fn flag(
    name: &'static str,
    set: bool,
    parts: &'static [PartKind],
    notes: &'static [&'static str],
) -> Flag {
    Flag {
        name,
        set,
        parts,
        notes,
    }
}

const ITS_SIZE: &[&str] = &["its size, among the chunk sizes"];

/// The flags of the header's first part, in their order, and then those within the gain map.
pub fn flags(image: &MinimizedImage) -> [Flag; 12] {
    let gain_map = image.gain_map.as_ref();
    [
        flag(
            "explicit codec types",
            image.explicit_codec_types.is_some(),
            &[PartKind::ExplicitCodecTypes],
            &[],
        ),
        flag(
            "float",
            image.format.is_float(),
            &[PartKind::SampleFormat],
            &["in the form for floats, not for integers"],
        ),
        flag(
            "full range",
            image.full_range,
            &[],
            &["nothing: it says all by itself"],
        ),
        flag(
            "alpha",
            image.alpha,
            &[PartKind::AlphaPremultiplied],
            &["the sizes of its chunks, among the chunk sizes"],
        ),
        flag(
            "explicit cicp",
            image.explicit_cicp.is_some(),
            &[PartKind::ExplicitCicp],
            &[],
        ),
        flag(
            "hdr",
            image.hdr,
            &[PartKind::GainMap, PartKind::HdrBoxes],
            &[],
        ),
        flag("ICC", image.icc.is_some(), &[], ITS_SIZE),
        flag("Exif", image.exif.is_some(), &[], ITS_SIZE),
        flag("XMP", image.xmp.is_some(), &[], ITS_SIZE),
        flag(
            "gain map",
            gain_map.is_some(),
            &[PartKind::TmapHdrBoxes],
            &[
                "its fields, in the part 'gain map'",
                "the sizes of its chunks, among the chunk sizes",
            ],
        ),
        flag(
            "tone map ICC",
            gain_map.is_some_and(|g| g.tmap_icc.is_some()),
            &[],
            ITS_SIZE,
        ),
        flag(
            "tone map cicp",
            gain_map.is_some_and(|g| g.tmap_cicp.is_some()),
            &[],
            &["its numbers, in the part 'gain map'"],
        ),
    ]
}
