//! The record and the file type as named values. The names are those of the crate's fields; `orientation_meaning`
//! is the tool's own.

use crate::tree::{Group, Value};
use Value::{Chunk, Code, Flag, Number};
use bustardcase::{
    Check, Cicp, CodecTypes, FileType, MiniChroma, MiniGainMap, MiniHdrBoxes, MinimizedImage,
    SampleFormat, TmapCicp,
};

pub fn of_file_type(file_type: &FileType) -> Value {
    let brands = file_type.compatible_brands.iter();
    Value::Group(vec![
        ("major_brand", Code(file_type.major_brand)),
        ("minor_version", Number(file_type.minor_version.into())),
        (
            "compatible_brands",
            Value::List(brands.map(|brand| Code(*brand)).collect()),
        ),
    ])
}

/// How the picture is shown, by orientation from 1: turned first, then mirrored.
const ORIENTATIONS: [&str; 8] = [
    "as stored",
    "mirrored left to right",
    "turned by a half",
    "mirrored top to bottom",
    "turned anticlockwise by a quarter, then mirrored top to bottom",
    "turned clockwise by a quarter",
    "turned anticlockwise by a quarter, then mirrored left to right",
    "turned anticlockwise by a quarter",
];

/// The fields of the record, with the orientation in words and the size as shown.
pub fn of_image(image: &MinimizedImage, check: &Check) -> Group {
    vec![
        (
            "explicit_codec_types",
            Value::maybe(image.explicit_codec_types, of_types),
        ),
        ("format", of_format(image.format)),
        ("full_range", Flag(image.full_range)),
        ("chroma", of_chroma(image.chroma)),
        ("orientation", Number(image.orientation.into())),
        ("orientation_meaning", meaning_of(image.orientation)),
        ("width", Number(image.width.into())),
        ("height", Number(image.height.into())),
        ("shown_width", Number(check.shown_width.into())),
        ("shown_height", Number(check.shown_height.into())),
        ("explicit_cicp", Value::maybe(image.explicit_cicp, of_cicp)),
        ("icc", Value::maybe(image.icc, Chunk)),
        ("alpha", Flag(image.alpha)),
        ("alpha_premultiplied", Flag(image.alpha_premultiplied)),
        ("hdr", Flag(image.hdr)),
        ("hdr_boxes", of_hdr_boxes(&image.hdr_boxes)),
        (
            "gain_map",
            Value::maybe(image.gain_map.as_ref(), of_gain_map),
        ),
        ("main_codec_config", Chunk(image.main_codec_config)),
        ("main_data", Chunk(image.main_data)),
        (
            "alpha_codec_config",
            Value::maybe(image.alpha_codec_config, Chunk),
        ),
        ("alpha_data", Chunk(image.alpha_data)),
        ("exif_xmp_compressed", Flag(image.exif_xmp_compressed)),
        ("exif", Value::maybe(image.exif, Chunk)),
        ("xmp", Value::maybe(image.xmp, Chunk)),
    ]
}

fn meaning_of(orientation: u8) -> Value {
    Value::Word(ORIENTATIONS[usize::from(orientation) - 1])
}

fn of_types(types: CodecTypes) -> Value {
    Value::Group(vec![
        ("item_type", Code(types.item_type)),
        ("config_type", Code(types.config_type)),
    ])
}

fn of_format(format: SampleFormat) -> Value {
    let kind = if format.is_float() {
        "float"
    } else {
        "integer"
    };
    Value::Group(vec![
        ("kind", Value::Word(kind)),
        ("bits", Number(format.bits().into())),
    ])
}

fn of_chroma(chroma: MiniChroma) -> Value {
    Value::Group(vec![
        ("subsampling", Number(chroma.subsampling.into())),
        ("horizontally_centered", Flag(chroma.horizontally_centered)),
        ("vertically_centered", Flag(chroma.vertically_centered)),
    ])
}

fn of_cicp(cicp: Cicp) -> Value {
    Value::Group(vec![
        ("primaries", Number(cicp.primaries.into())),
        ("transfer", Number(cicp.transfer.into())),
        ("matrix", Number(cicp.matrix.into())),
    ])
}

fn of_tmap_cicp(cicp: TmapCicp) -> Value {
    Value::Group(vec![
        ("primaries", Number(cicp.primaries.into())),
        ("transfer", Number(cicp.transfer.into())),
        ("matrix", Number(cicp.matrix.into())),
        ("full_range", Flag(cicp.full_range)),
    ])
}

fn of_hdr_boxes(boxes: &MiniHdrBoxes) -> Value {
    fn body<const N: usize>(body: Option<[u8; N]>) -> Value {
        Value::maybe(body, |bytes| Value::Bytes(bytes.to_vec()))
    }
    Value::Group(vec![
        ("clli", body(boxes.clli)),
        ("mdcv", body(boxes.mdcv)),
        ("cclv", body(boxes.cclv)),
        ("amve", body(boxes.amve)),
        ("reve", body(boxes.reve)),
        ("ndwt", body(boxes.ndwt)),
    ])
}

fn of_gain_map(gain_map: &MiniGainMap) -> Value {
    Value::Group(vec![
        ("width", Number(gain_map.width.into())),
        ("height", Number(gain_map.height.into())),
        (
            "matrix_coefficients",
            Number(gain_map.matrix_coefficients.into()),
        ),
        ("full_range", Flag(gain_map.full_range)),
        ("chroma", of_chroma(gain_map.chroma)),
        ("format", of_format(gain_map.format)),
        ("tmap_cicp", Value::maybe(gain_map.tmap_cicp, of_tmap_cicp)),
        ("tmap_icc", Value::maybe(gain_map.tmap_icc, Chunk)),
        ("tmap_hdr", of_hdr_boxes(&gain_map.tmap_hdr)),
        ("metadata", Chunk(gain_map.metadata)),
        ("codec_config", Value::maybe(gain_map.codec_config, Chunk)),
        ("data", Chunk(gain_map.data)),
    ])
}
