//! The supplied Rust's errors as the numbers of refusals. A message that is not known here is a
//! fault of the host.

use crate::file_types::NoFileType;
use upstream::error::HeifError;

/// The number of an error of `parse_box_header`.
pub fn of_box_header(error: &HeifError) -> Result<u64, String> {
    let HeifError::InvalidData(message) = error else {
        return Err(unknown(error));
    };
    let is_box = message.starts_with("box '");
    if message == "box header offset overflow" || message.starts_with("truncated box header at ") {
        Ok(1)
    } else if message.starts_with("truncated largesize for box '") {
        Ok(2)
    } else if is_box && message.contains(" out of range at offset ") {
        Ok(3)
    } else if message.starts_with("uuid box at ")
        && message.ends_with(" too short for its extended type")
    {
        Ok(4)
    } else {
        Err(unknown(error))
    }
}

/// The reason of an error of `FileType::parse`.
pub fn of_file_type(error: &HeifError) -> Result<NoFileType, String> {
    let HeifError::InvalidData(message) = error else {
        return Err(unknown(error));
    };
    if message.starts_with("truncated ftyp m") {
        Ok(NoFileType::Short)
    } else if message.ends_with(" trailing bytes (brands are 4-byte aligned)") {
        Ok(NoFileType::Uneven)
    } else {
        Err(unknown(error))
    }
}

/// A place where `MinimizedImage::parse` refuses: the refusal's number, what its message names, and what of the
/// payload that is.
#[derive(Clone, Copy, Debug, PartialEq, Eq)]
pub struct Place {
    pub number: u64,
    pub name: &'static str,
    pub what: What,
}

#[derive(Clone, Copy, Debug, PartialEq, Eq)]
pub enum What {
    /// A field of the header. It lies in one of these parts, by their numbers in docs/ABI.md: of chroma and of HDR
    /// bodies the message does not say whose they are.
    Part(&'static [u8]),
    /// A chunk, by its number in docs/ABI.md.
    Chunk(u8),
}

use What::{Chunk, Part};

const fn at(number: u64, what: What, name: &'static str) -> Place {
    Place { number, name, what }
}

/// Every place. A payload ends at a whole byte, so a field that never begins a byte and never reaches
/// into the next is never the first that is missing: the padding and these are not listed.
///
/// - explicit_codec_types_flag to hdr_flag, exif_flag to orientation_minus1: they lie within a byte;
/// - gainmap_dimension_same_as_main_item_flag: before it lie 8 n + 7 bits, then 0 to 2 for chroma,
///   1, 2 or 4 for the depth, 0 or 1 for alpha, whole bytes, and gainmap_flag.
pub const PLACES: &[Place] = &[
    at(5, Part(&[1]), "version"),
    at(5, Part(&[1]), "icc_flag"),
    at(5, Part(&[2]), "large_dimensions_flag"),
    at(5, Part(&[2]), "width_minus1"),
    at(5, Part(&[2]), "height_minus1"),
    at(5, Part(&[3, 8]), "chroma_is_horizontally_centered"),
    at(5, Part(&[3, 8]), "chroma_is_vertically_centered"),
    at(5, Part(&[4]), "main bit depth"),
    at(5, Part(&[5]), "alpha_is_premultiplied"),
    at(5, Part(&[6]), "colour_primaries"),
    at(5, Part(&[6]), "transfer_characteristics"),
    at(5, Part(&[6]), "matrix_coefficients"),
    at(5, Part(&[7]), "infe_type"),
    at(5, Part(&[7]), "codec_config_type"),
    at(5, Part(&[8]), "gainmap_flag"),
    at(5, Part(&[8]), "gainmap_width_minus1"),
    at(5, Part(&[8]), "gainmap_height_minus1"),
    at(5, Part(&[8]), "gainmap_matrix_coefficients"),
    at(5, Part(&[8]), "gainmap_full_range_flag"),
    at(5, Part(&[8]), "gainmap_chroma_subsampling"),
    at(5, Part(&[8]), "gainmap_float_flag"),
    at(5, Part(&[8]), "gain map bit depth"),
    at(5, Part(&[8]), "tmap_icc_flag"),
    at(5, Part(&[8]), "tmap_explicit_cicp_flag"),
    at(5, Part(&[8]), "tmap_colour_primaries"),
    at(5, Part(&[8]), "tmap_transfer_characteristics"),
    at(5, Part(&[8]), "tmap_matrix_coefficients"),
    at(5, Part(&[8]), "tmap_full_range_flag"),
    at(5, Part(&[9]), "main hdr flags"),
    at(5, Part(&[10]), "tmap hdr flags"),
    at(5, Part(&[11]), "large_metadata_flag"),
    at(5, Part(&[11]), "large_codec_config_flag"),
    at(5, Part(&[11]), "large_item_data_flag"),
    at(5, Part(&[11]), "icc_data_size_minus1"),
    at(5, Part(&[11]), "tmap_icc_data_size_minus1"),
    at(5, Part(&[11]), "gainmap_metadata_size"),
    at(5, Part(&[11]), "gainmap_item_data_size"),
    at(5, Part(&[11]), "gainmap_item_codec_config_size"),
    at(5, Part(&[11]), "main_item_codec_config_size"),
    at(5, Part(&[11]), "main_item_data_size_minus1"),
    at(5, Part(&[11]), "alpha_item_data_size"),
    at(5, Part(&[11]), "alpha_item_codec_config_size"),
    at(5, Part(&[11]), "exif_xmp_compressed_flag"),
    at(5, Part(&[11]), "exif_data_size_minus1"),
    at(5, Part(&[11]), "xmp_data_size_minus1"),
    at(5, Part(&[9, 10]), "clli"),
    at(5, Part(&[9, 10]), "mdcv"),
    at(5, Part(&[9, 10]), "cclv flags"),
    at(5, Part(&[9, 10]), "cclv"),
    at(5, Part(&[9, 10]), "amve"),
    at(5, Part(&[9, 10]), "reve"),
    at(5, Part(&[9, 10]), "ndwt"),
    at(6, Part(&[1]), "version"),
    at(7, Part(&[4]), "main bit depth"),
    at(7, Part(&[8]), "gain map bit depth"),
    at(8, Part(&[12]), "trailing_bits"),
    at(9, Chunk(6), "main_item_codec_config"),
    at(9, Chunk(9), "alpha_item_codec_config"),
    at(9, Chunk(5), "gainmap_item_codec_config"),
    at(9, Chunk(1), "icc_data"),
    at(9, Chunk(2), "tmap_icc_data"),
    at(9, Chunk(3), "gainmap_metadata"),
    at(9, Chunk(8), "alpha_item_data"),
    at(9, Chunk(4), "gainmap_item_data"),
    at(9, Chunk(7), "main_item_data"),
    at(9, Chunk(10), "exif_data"),
    at(9, Chunk(11), "xmp_data"),
];

/// The place of an error of `MinimizedImage::parse`, as an index into `PLACES`.
pub fn of_parse(error: &HeifError) -> Result<usize, String> {
    let name = match error {
        HeifError::Unsupported(m) if m.starts_with("MinimizedImageBox version ") => (6, "version"),
        HeifError::InvalidData(m) => named(m).ok_or_else(|| unknown(error))?,
        _ => return Err(unknown(error)),
    };
    PLACES
        .iter()
        .position(|p| (p.number, p.name) == name)
        .ok_or_else(|| unknown(error))
}

/// The bit that a message of `MinimizedImage::parse` names, if it does: that at which the field begins.
pub fn named_bit(error: &HeifError) -> Option<u64> {
    number_between(error, " (bit ", ")")
}

/// The length in bytes of the chunk or body that a message of `MinimizedImage::parse` names, if it does.
pub fn named_length(error: &HeifError) -> Option<u64> {
    number_between(error, " (", " bytes) runs past the box")
}

fn number_between(error: &HeifError, before: &str, after: &str) -> Option<u64> {
    let HeifError::InvalidData(message) = error else {
        return None;
    };
    let (_, rest) = message.split_once(before)?;
    rest.split_once(after)?.0.parse().ok()
}

/// The number and the name in a message of `MinimizedImage::parse`.
fn named(message: &str) -> Option<(u64, &str)> {
    let text = message.strip_prefix("mini: ")?;
    if text == "trailing_bits are not zero" {
        return Some((8, "trailing_bits"));
    }
    if let Some(rest) = text.strip_prefix("truncated at ") {
        return Some((5, rest.split_once(" (bit ")?.0));
    }
    if let Some((name, rest)) = text.split_once(" bit_depth_log2_minus4 ") {
        return (rest == "3 is reserved").then_some((7, name));
    }
    let (name, rest) = text.split_once(" (")?;
    rest.contains(" bytes) runs past the box")
        .then_some((if is_body(name) { 5 } else { 9 }, name))
}

/// Whether the name is that of a body among the HDR boxes, not of a chunk.
pub fn is_body(name: &str) -> bool {
    ["clli", "mdcv", "cclv flags", "cclv", "amve", "reve", "ndwt"].contains(&name)
}

fn unknown(error: &HeifError) -> String {
    format!("no number is known for the error '{error}'")
}
