//! Where a tool deviates: each with its reason. An entry that no longer occurs is an error, as is a
//! deviation that no entry covers. docs/DIFFERENCES.md tells more of them.

use crate::case::Case;
use crate::expect::is_picture;
use crate::facts::{Difference, OPENED};
use crate::model::{Code, MAIN};

pub struct Finding {
    pub tool: &'static str,
    /// The known versions with which it was seen, as `Tool::known` has them. With others it may be gone.
    pub seen_with: &'static [&'static str],
    /// The files that show it: all of them must.
    pub files: fn(&Case) -> bool,
    pub is: fn(&Difference) -> bool,
    pub why: &'static str,
}

pub const ALL: [Finding; 18] = [
    Finding {
        tool: "heif-info",
        seen_with: &["1.15.", "1.19."],
        files: |case| codec(case) == *b"av01" && case.record.main_codec_config.len == 0,
        is: |d| d.reported.ends_with("No 'av1C' box"),
        why: "refuses an AV1 picture without configuration; the payload has none, and AVIF asks for one",
    },
    Finding {
        tool: "heif-info",
        seen_with: &["1.15."],
        files: |case| codec(case) == *b"jpeg",
        is: |d| d.fact == OPENED && d.reported.contains("'pitm' box references"),
        why: "does not know the item type 'jpeg', so that it finds no primary picture",
    },
    Finding {
        tool: "heif-info",
        seen_with: &["1.15.", "1.19."],
        files: |case| codec(case) == *b"unci",
        is: |d| d.fact == OPENED,
        why: "does not open an uncompressed picture without configuration",
    },
    Finding {
        tool: "heif-info",
        seen_with: &["1.15.", "1.19."],
        files: has_compressed_exif,
        is: |d| ["Exif", "dExf/"].contains(&d.fact.as_str()),
        why: "does not know the item type 'dExf' of compressed Exif",
    },
    Finding {
        tool: "heif-info",
        seen_with: &["1.15."],
        files: has_compressed_xmp,
        is: |d| d.fact == "XMP" && d.reported == "0 bytes",
        why: "takes 'deflate' for zlib's form (RFC 1950), not for the bare one (RFC 1951)",
    },
    Finding {
        tool: "heif-info",
        seen_with: &["1.19."],
        files: has_compressed_xmp,
        is: |d| d.fact == OPENED && d.reported.contains("Unsupported codec"),
        why: "refuses a file with compressed XMP",
    },
    Finding {
        tool: "heif-convert",
        seen_with: &["1.19."],
        files: has_compressed_xmp,
        is: |d| d.fact == OPENED && d.reported.contains("Unsupported codec"),
        why: "refuses a file with compressed XMP",
    },
    Finding {
        tool: "exiftool",
        seen_with: &["12.57", "13.25"],
        files: |_| true,
        is: |d| d.fact == "property 32" && d.reported.is_empty(),
        why: "does not list the last of the 32 property boxes, which is empty",
    },
    Finding {
        tool: "exiftool",
        seen_with: &["12.57", "13.25"],
        files: |case| ![*b"avif", *b"heic", *b"mif1"].contains(&case.model.major),
        is: |d| d.fact == "FileType" && d.reported == "MP4",
        why: "takes the major brands 'mif3' and 'jpeg', which it does not know, for MP4",
    },
    Finding {
        tool: "exiftool",
        seen_with: &["12.57", "13.25"],
        files: has_compressed_exif,
        is: |d| d.fact == "Make" && d.reported.is_empty(),
        why: "does not know the item type 'dExf' of compressed Exif",
    },
    Finding {
        tool: "exiftool",
        seen_with: &["12.57", "13.25"],
        files: has_compressed_xmp,
        is: |d| ["Source", "Warning"].contains(&d.fact.as_str()),
        why: "does not read compressed XMP, and warns",
    },
    Finding {
        tool: "exiv2",
        seen_with: &["0.27.6", "0.28.5"],
        files: |case| boxes_in_meta(case) > case.file.len() / 16,
        is: |d| d.fact == OPENED && d.reported.contains("corrupted image metadata"),
        why: "refuses more boxes than a sixteenth of the file's bytes; an unused property has eight",
    },
    Finding {
        tool: "exiv2",
        seen_with: &["0.27.6", "0.28.5"],
        files: |case| {
            case.record.exif_xmp_compressed && boxes_in_meta(case) <= case.file.len() / 16
        },
        is: |d| d.fact.ends_with("Make") || d.fact.ends_with("source"),
        why: "reads neither compressed Exif nor compressed XMP",
    },
    Finding {
        tool: "avifdec --info",
        seen_with: &["0.11.", "1.2."],
        files: has_compressed_exif,
        is: |d| d.fact == "Exif Metadata" && d.reported == "Absent",
        why: "does not know the item type 'dExf' of compressed Exif",
    },
    Finding {
        tool: "avifdec --info",
        seen_with: &["0.11.", "1.2."],
        files: has_compressed_xmp,
        is: |d| d.fact == "XMP Metadata",
        why: "hands out compressed XMP as it lies",
    },
    Finding {
        tool: "avifdec --info",
        seen_with: &["1.2."],
        files: |case| case.record.gain_map.is_some_and(|g| g.data.len == 0),
        is: |d| d.fact == OPENED && d.reported.contains("must have exactly 2 entries"),
        why: "asks for two inputs of a tone-mapped picture; without gain-map data the file names one",
    },
    Finding {
        tool: "mediainfo",
        seen_with: &["v23.04", "v25.04"],
        files: |case| pictures(case) > 1 || unused_before_used(case),
        is: |d| {
            ["Width", "Height", "Rotation"]
                .iter()
                .any(|name| d.fact.ends_with(name))
        },
        why: "does not count unused properties, and gives one picture the properties of several",
    },
    Finding {
        tool: "mediainfo",
        seen_with: &["v23.04", "v25.04"],
        files: has_compressed_exif,
        is: |d| d.fact.starts_with("image 6 ") || d.fact.starts_with("image 1 "),
        why: "takes an item of type 'dExf' for a picture",
    },
];

/// The type of the main picture, which is the first item.
fn codec(case: &Case) -> Code {
    case.model.items[0].kind
}

fn has_compressed_exif(case: &Case) -> bool {
    case.record.exif_xmp_compressed && case.record.exif.is_some()
}

fn has_compressed_xmp(case: &Case) -> bool {
    case.record.exif_xmp_compressed && case.record.xmp.is_some()
}

fn pictures(case: &Case) -> usize {
    case.model
        .items
        .iter()
        .filter(|item| is_picture(item))
        .count()
}

/// Whether size or turn of the main picture come after an unused property.
fn unused_before_used(case: &Case) -> bool {
    let properties = &case.model.properties;
    let place = |kind: &[u8; 4]| properties.iter().position(|p| p.kind == *kind);
    let unused = place(b"free").unwrap_or(properties.len());
    let turn = case.model.properties_of(MAIN, b"irot");
    place(b"ispe").is_some_and(|size| size > unused)
        || !turn.is_empty() && place(b"irot").is_some_and(|turn| turn > unused)
}

/// hdlr, pitm, iinf, iprp, ipco, ipma, iloc, one for each item and each property, iref, grpl.
fn boxes_in_meta(case: &Case) -> usize {
    let model = &case.model;
    let references = !model.references.is_empty() as usize;
    let group = model.group.is_some() as usize;
    7 + model.items.len() + model.properties.len() + references + group
}
