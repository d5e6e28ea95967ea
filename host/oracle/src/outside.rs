//! Records that, for the most part, no payload gives, and that the supplied Rust expands all the same. Some of their
//! files are those of another record.

use crate::changes;
use crate::random::Random;
use crate::records::plain_gain_map;
use upstream::mini::{MiniGainMap, MinimizedImage, SampleFormat};

/// A record changed in one or two places.
pub fn outside(r: &mut Random) -> MinimizedImage {
    let mut image = changes::base(r);
    if r.once_in(3) {
        image.gain_map.get_or_insert_with(plain_gain_map);
    }
    for _ in 0..r.within(1, 2) {
        r.pick(&CHANGES)(r, &mut image);
    }
    image
}

/// Whether the file shows that no payload gives the record: a size or a format that no field holds, or an empty chunk
/// that is there.
pub fn is_shown(image: &MinimizedImage) -> bool {
    let gain_map = image.gain_map.as_ref();
    let item = gain_map.filter(|g| !g.data.is_empty());
    is_outside(image.width, image.height, image.format)
        || item.is_some_and(|g| is_outside(g.width, g.height, g.format))
        || [&image.icc, &image.exif, &image.xmp]
            .into_iter()
            .chain(gain_map.map(|g| &g.tmap_icc))
            .flatten()
            .any(Vec::is_empty)
        || image.main_data.is_empty()
}

fn is_outside(width: u32, height: u32, format: SampleFormat) -> bool {
    let is_side = |n| (1..=32_768).contains(&n);
    let is_format = match format {
        SampleFormat::Integer { bits } => (8..=16).contains(&bits),
        SampleFormat::Float { bits } => [16, 32, 64].contains(&bits),
        _ => false,
    };
    !(is_side(width) && is_side(height) && is_format)
}

const CHANGES: [changes::Change; 25] = [
    |r, i| i.width = side(r),
    |r, i| i.height = side(r),
    |r, i| of_gain_map(i, |g| g.width = side(r)),
    |r, i| of_gain_map(i, |g| g.height = side(r)),
    |r, i| i.format = format(r),
    |r, i| of_gain_map(i, |g| g.format = format(r)),
    |_, i| i.chroma.horizontally_centered = true,
    |_, i| i.chroma.vertically_centered = true,
    |_, i| of_gain_map(i, |g| g.chroma.horizontally_centered = true),
    |_, i| of_gain_map(i, |g| g.chroma.vertically_centered = true),
    |r, i| i.chroma.subsampling = r.pick(&[4, 255]),
    |r, i| of_gain_map(i, |g| g.chroma.subsampling = r.pick(&[4, 255])),
    |r, i| i.orientation = r.pick(&[9, 255]),
    |_, i| i.alpha = false,
    |_, i| i.alpha_premultiplied = true,
    |r, i| i.alpha_codec_config = Some(short(r)),
    |r, i| of_gain_map(i, |g| g.codec_config = Some(short(r))),
    |_, i| i.icc = Some(Vec::new()),
    |_, i| of_gain_map(i, |g| g.tmap_icc = Some(Vec::new())),
    |_, i| i.exif = Some(Vec::new()),
    |_, i| i.xmp = Some(Vec::new()),
    |_, i| i.hdr = !i.hdr,
    |_, i| i.exif_xmp_compressed = true,
    |_, i| i.main_data.clear(),
    body,
];

fn of_gain_map(image: &mut MinimizedImage, change: impl FnOnce(&mut MiniGainMap)) {
    if let Some(gain_map) = &mut image.gain_map {
        change(gain_map);
    }
}

fn side(r: &mut Random) -> u32 {
    r.pick(&[0, 32_769, 65_537, u32::MAX])
}

fn format(r: &mut Random) -> SampleFormat {
    match r.flag() {
        true => SampleFormat::Integer {
            bits: r.pick(&[0, 7, 17, 24, 32, 64, 128, 255]),
        },
        false => SampleFormat::Float {
            bits: r.pick(&[0, 8, 15, 17, 31, 33, 63, 128]),
        },
    }
}

/// Empty, or of few bytes.
fn short(r: &mut Random) -> Vec<u8> {
    vec![7; r.below(3) as usize]
}

/// A body of another length than it has.
fn body(r: &mut Random, image: &mut MinimizedImage) {
    let hdr = &mut image.hdr_boxes;
    let body = match r.below(6) {
        0 => &mut hdr.clli,
        1 => &mut hdr.mdcv,
        2 => &mut hdr.cclv,
        3 => &mut hdr.amve,
        4 => &mut hdr.reve,
        _ => &mut hdr.ndwt,
    };
    *body = Some(vec![0; r.pick(&[0, 1, 3, 5, 25])]);
}

#[cfg(test)]
mod tests {
    use super::*;
    use crate::answer::Answer;
    use crate::expanding::{self, OriginalType};
    use crate::restoring::{is_of_payload, restore};

    #[test]
    fn most_are_of_no_payload_and_some_files_are_of_another_record() {
        let original = OriginalType {
            major: expanding::MIF3,
            minor: 0,
            brands: b"mif3".to_vec(),
        };
        let mut r = Random::new(25);
        let (mut of_none, mut found) = (0, 0);
        for _ in 0..4_000 {
            let image = outside(&mut r);
            let is_outside = !is_of_payload(&image);
            of_none += is_outside as u32;
            if let Ok(Answer::Done(file)) = expanding::of_record(&image, &original) {
                found += (is_outside && restore(&file, &original).is_ok()) as u32;
            }
        }
        assert!(of_none > 3_000, "{of_none} of 4,000");
        assert!(found > 200, "{found} of 4,000");
    }
}
