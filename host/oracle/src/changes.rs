//! Records changed in a few places, most often in what a clause of document 02, point 14, is about. Each is one that a
//! payload gives and that can be expanded.

use crate::payloads::cclv_len;
use crate::random::Random;
use crate::records::{plain_gain_map, random_bytes, random_record, random_type, settle};
use crate::same::inferred_triple;
use upstream::mini::{MiniChroma, MiniGainMap, MiniHdrBoxes, MinimizedImage, SampleFormat};

pub type Change = fn(&mut Random, &mut MinimizedImage);
type GainMapChange = fn(&mut Random, &mut MiniGainMap);

/// A chunk that may be absent.
pub type Chunk = Option<Vec<u8>>;

/// What the tone map's colours are where none are given.
pub const USUAL_COLOURS: (u8, u8, u8, bool) = (1, 13, 6, true);

/// A random record, half of the time one that stands where the clauses allow much.
pub fn base(r: &mut Random) -> MinimizedImage {
    let mut image = random_record(r);
    if r.flag() {
        if r.once_in(3) {
            image.main_codec_config.clear();
        }
        if r.flag() {
            of_gain_map(r, &mut image, |_, g| g.data.clear());
        }
        for change in ALLOWED {
            change(r, &mut image);
        }
        settle(&mut image);
    }
    image
}

/// The record changed in one to three places, so that it is another one.
pub fn changed(r: &mut Random, image: &MinimizedImage) -> MinimizedImage {
    loop {
        let mut other = image.clone();
        let is_near = r.once_in(3);
        for _ in 0..r.within(1, 3) {
            let change = match is_near {
                true if r.flag() => r.pick(&ELSEWHERE),
                true => r.pick(&NEAR),
                false => r.pick(&ALLOWED),
            };
            change(r, &mut other);
        }
        settle(&mut other);
        if other != *image {
            return other;
        }
    }
}

/// Changes that a clause allows, of records that stand where it does.
const ALLOWED: [Change; 7] = [
    |r, i| i.explicit_cicp = maybe(r, inferred_triple(i)),
    |_, i| i.hdr = !i.hdr,
    |r, i| i.alpha_codec_config = maybe(r, i.main_codec_config.clone()),
    |r, i| {
        let config = maybe(r, i.main_codec_config.clone());
        of_gain_map(r, i, |_, g| g.codec_config = config.clone());
    },
    |r, i| of_gain_map(r, i, |r, g| g.tmap_cicp = maybe(r, USUAL_COLOURS)),
    |r, i| of_gain_map(r, i, |r, g| r.pick(&OWN_FIELDS).1(r, g)),
    change_config_type,
];

fn maybe<T>(r: &mut Random, value: T) -> Option<T> {
    r.flag().then_some(value)
}

/// Changes that come near those.
const NEAR: [Change; 8] = [
    |r, i| i.explicit_cicp = Some(one_off(r, inferred_triple(i))),
    |r, i| i.alpha_codec_config = Some(near(r, &i.main_codec_config)),
    |r, i| {
        let config = near(r, &i.main_codec_config);
        of_gain_map(r, i, |_, g| g.codec_config = Some(config.clone()));
    },
    |r, i| {
        let wrong = r.below(4);
        of_gain_map(r, i, |r, g| g.tmap_cicp = Some(wrong_colours(r, wrong)));
    },
    |_, i| i.exif_xmp_compressed = !i.exif_xmp_compressed,
    change_main_config,
    |r, i| of_gain_map(r, i, |_, g| g.data.clear()),
    |_, i| i.alpha_data.clear(),
];

/// One of the three numbers is another.
pub fn one_off(r: &mut Random, triple: (u8, u8, u8)) -> (u8, u8, u8) {
    let mut numbers = <[u8; 3]>::from(triple);
    numbers[r.below(3) as usize] ^= r.within(1, 255) as u8;
    numbers.into()
}

/// The bytes with one more, one less or one bit flipped, and never none.
pub fn near(r: &mut Random, bytes: &[u8]) -> Vec<u8> {
    let mut bytes = bytes.to_vec();
    match r.below(3) {
        0 if bytes.len() > 1 => bytes.truncate(bytes.len() - 1),
        1 if !bytes.is_empty() => {
            let at = r.below(bytes.len() as u64) as usize;
            bytes[at] ^= 1 << r.below(8);
        }
        _ => bytes.push(r.word() as u8),
    }
    bytes
}

/// Empty, that of alpha or of the gain map, or near.
fn change_main_config(r: &mut Random, image: &mut MinimizedImage) {
    let own = match r.below(4) {
        0 => Some(Vec::new()),
        1 => image.alpha_codec_config.clone(),
        2 => image.gain_map.as_ref().and_then(|g| g.codec_config.clone()),
        _ => None,
    };
    image.main_codec_config = own.unwrap_or_else(|| near(r, &image.main_codec_config));
}

/// The usual colours with one of the four wrong.
pub fn wrong_colours(r: &mut Random, wrong: u64) -> (u8, u8, u8, bool) {
    let mut colours = USUAL_COLOURS;
    let flip = r.within(1, 255) as u8;
    match wrong {
        0 => colours.0 ^= flip,
        1 => colours.1 ^= flip,
        2 => colours.2 ^= flip,
        _ => colours.3 = false,
    }
    colours
}

/// Each field that describes the gain map's samples. A centring flag is stored under subsampling 1.
pub const OWN_FIELDS: [(&str, GainMapChange); 9] = [
    ("width", |r, g| change_side(r, &mut g.width)),
    ("height", |r, g| change_side(r, &mut g.height)),
    ("matrix", |r, g| {
        g.matrix_coefficients ^= r.within(1, 255) as u8
    }),
    ("range", |_, g| g.full_range = !g.full_range),
    ("subsampling", |r, g| change_subsampling(r, &mut g.chroma)),
    ("horizontal centring", |_, g| {
        g.chroma.horizontally_centered = !g.chroma.horizontally_centered
    }),
    ("vertical centring", |_, g| {
        g.chroma.vertically_centered = !g.chroma.vertically_centered
    }),
    ("depth", |r, g| change_depth(r, &mut g.format)),
    ("floats for integers of 16 bits", |_, g| {
        g.format = other_kind(g.format)
    }),
];

/// To the next number, or any other.
fn change_side(r: &mut Random, side: &mut u32) {
    let step = match r.flag() {
        true => 1,
        false => r.within(1, 32_767) as u32,
    };
    *side = (*side - 1 + step) % 32_768 + 1;
}

fn change_subsampling(r: &mut Random, chroma: &mut MiniChroma) {
    chroma.subsampling = (chroma.subsampling + r.within(1, 3) as u8) % 4;
}

fn change_depth(r: &mut Random, format: &mut SampleFormat) {
    let now = *format;
    while *format == now {
        *format = match r.flag() {
            true => SampleFormat::Integer {
                bits: r.within(8, 16) as u8,
            },
            false => SampleFormat::Float {
                bits: 16 << r.below(3),
            },
        };
    }
}

/// Of as many bits, which both kinds have at 16 only.
fn other_kind(format: SampleFormat) -> SampleFormat {
    match format.is_float() {
        true => SampleFormat::Integer { bits: 16 },
        false => SampleFormat::Float { bits: 16 },
    }
}

pub fn change_config_type(r: &mut Random, image: &mut MinimizedImage) {
    if let Some((_, config)) = &mut image.explicit_codec_types {
        *config = other_type(r, *config);
    }
}

pub fn change_item_type(r: &mut Random, image: &mut MinimizedImage) {
    if let Some((item, _)) = &mut image.explicit_codec_types {
        *item = other_type(r, *item);
    }
}

fn other_type(r: &mut Random, now: [u8; 4]) -> [u8; 4] {
    loop {
        let other = random_type(r);
        if other != now {
            return other;
        }
    }
}

/// Changes of all else, at times of a flag or chunk that decides whether a clause allows something.
const ELSEWHERE: [Change; 22] = [
    change_item_type,
    |_, i| i.full_range = !i.full_range,
    |r, i| change_subsampling(r, &mut i.chroma),
    |_, i| i.chroma.horizontally_centered = !i.chroma.horizontally_centered,
    |_, i| i.chroma.vertically_centered = !i.chroma.vertically_centered,
    |r, i| change_depth(r, &mut i.format),
    |r, i| i.orientation = r.within(1, 8) as u8,
    |r, i| change_side(r, &mut i.width),
    |r, i| change_side(r, &mut i.height),
    |r, i| change_chunk(r, &mut i.icc),
    |r, i| change_chunk(r, &mut i.exif),
    |r, i| change_chunk(r, &mut i.xmp),
    |r, i| i.main_data = near(r, &i.main_data),
    |r, i| change_data(r, &mut i.alpha_data),
    |_, i| i.alpha_premultiplied = !i.alpha_premultiplied,
    |r, i| change_body(r, &mut i.hdr_boxes),
    |_, i| i.gain_map = None,
    |_, i| i.gain_map = Some(plain_gain_map()),
    |r, i| of_gain_map(r, i, |r, g| change_data(r, &mut g.data)),
    |r, i| of_gain_map(r, i, |r, g| change_data(r, &mut g.metadata)),
    |r, i| of_gain_map(r, i, |r, g| change_chunk(r, &mut g.tmap_icc)),
    |r, i| of_gain_map(r, i, |r, g| change_body(r, &mut g.tmap_hdr)),
];

/// Changes the gain map, if there is one.
fn of_gain_map(
    r: &mut Random,
    image: &mut MinimizedImage,
    change: impl Fn(&mut Random, &mut MiniGainMap),
) {
    if let Some(g) = &mut image.gain_map {
        change(r, g);
    }
}

/// Absent, or other bytes.
pub fn change_chunk(r: &mut Random, chunk: &mut Chunk) {
    *chunk = match chunk {
        Some(_) if r.flag() => None,
        Some(bytes) => Some(near(r, bytes)),
        None => Some(near(r, &[])),
    };
}

/// Empty, or other bytes.
fn change_data(r: &mut Random, data: &mut Vec<u8>) {
    *data = match r.flag() {
        true => Vec::new(),
        false => near(r, data),
    };
}

/// A body comes, goes or changes in a byte.
pub fn change_body(r: &mut Random, hdr: &mut MiniHdrBoxes) {
    let flags = r.word() as u8;
    let (body, len) = match r.below(6) {
        0 => (&mut hdr.clli, 4),
        1 => (&mut hdr.mdcv, 24),
        2 => (&mut hdr.cclv, cclv_len(flags)),
        3 => (&mut hdr.amve, 8),
        4 => (&mut hdr.reve, 20),
        _ => (&mut hdr.ndwt, 4),
    };
    *body = match body {
        Some(_) if r.flag() => None,
        _ => {
            let mut bytes = random_bytes(r, len);
            // The first byte of a 'cclv' tells its length; it may be any byte of the others.
            bytes[0] = flags;
            Some(bytes)
        }
    };
}

#[cfg(test)]
mod tests {
    use super::*;
    use crate::records::rust_file;

    #[test]
    fn a_change_leaves_another_record_that_can_be_expanded() {
        let mut r = Random::new(12);
        let mut equal = 0;
        for _ in 0..4_000 {
            let image = base(&mut r);
            let other = changed(&mut r, &image);
            assert_ne!(image, other);
            equal += (rust_file(&image) == rust_file(&other)) as u64;
        }
        assert!((400..3_600).contains(&equal), "{equal} of 4,000 are equal");
    }
}
