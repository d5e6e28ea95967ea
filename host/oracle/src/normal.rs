//! The record that is found again from a record's file, by the words of document 02, point 3: what the file does not
//! carry gets the values named there, and of what it carries in several forms the shortest stands. One function for
//! each clause of point 14, in its order.
//!
//! It is about records that a payload gives and that can be expanded.

use crate::same::inferred_triple;
use upstream::mini::{MiniChroma, MiniHdrBoxes, MinimizedImage, SampleFormat};

pub fn normal(image: &MinimizedImage) -> MinimizedImage {
    let mut normal = image.clone();
    for clause in CLAUSES {
        clause(&mut normal);
    }
    normal
}

/// Whether a record is in that form already, clause by clause.
pub fn changed_by(image: &MinimizedImage) -> [bool; CLAUSES.len()] {
    CLAUSES.map(|clause| {
        let mut changed = image.clone();
        clause(&mut changed);
        changed != *image
    })
}

pub const NAMES: [&str; CLAUSES.len()] = [
    "colour triple",
    "hdr flag",
    "alpha configuration",
    "gain-map configuration",
    "tone map's colours",
    "gain map's own fields",
    "configuration type",
];

const CLAUSES: [fn(&mut MinimizedImage); 7] = [
    colour_triple,
    hdr_flag,
    alpha_configuration,
    gain_map_configuration,
    tone_map_colours,
    own_fields,
    configuration_type,
];

/// A triple takes three bytes, an inferred one none.
fn colour_triple(image: &mut MinimizedImage) {
    let inferred = inferred_triple(image);
    image.explicit_cicp.take_if(|triple| *triple == inferred);
}

/// The flag asks for seven more.
fn hdr_flag(image: &mut MinimizedImage) {
    image.hdr = image.gain_map.is_some() || image.hdr_boxes != MiniHdrBoxes::default();
}

fn alpha_configuration(image: &mut MinimizedImage) {
    take_main(&mut image.alpha_codec_config, &image.main_codec_config);
}

fn gain_map_configuration(image: &mut MinimizedImage) {
    if let Some(gain_map) = &mut image.gain_map {
        take_main(&mut gain_map.codec_config, &image.main_codec_config);
    }
}

/// The main configuration need not stand again.
fn take_main(own: &mut Option<Vec<u8>>, main: &[u8]) {
    own.take_if(|own| own == main);
}

fn tone_map_colours(image: &mut MinimizedImage) {
    if let Some(gain_map) = &mut image.gain_map
        && gain_map.tmap_icc.is_none()
    {
        gain_map
            .tmap_cicp
            .take_if(|colours| *colours == (1, 13, 6, true));
    }
}

fn own_fields(image: &mut MinimizedImage) {
    if let Some(gain_map) = &mut image.gain_map
        && gain_map.data.is_empty()
    {
        (gain_map.width, gain_map.height) = (image.width, image.height);
        gain_map.matrix_coefficients = 0;
        gain_map.full_range = false;
        gain_map.chroma = MiniChroma::new(0, false, false);
        gain_map.format = SampleFormat::Integer { bits: 8 };
    }
}

fn configuration_type(image: &mut MinimizedImage) {
    let gain_map = image.gain_map.as_ref();
    let own = [
        image.alpha_codec_config.as_deref(),
        gain_map.and_then(|gain_map| gain_map.codec_config.as_deref()),
    ];
    let is_written = !image.main_codec_config.is_empty() || own.iter().any(Option::is_some);
    if let Some((_, config)) = &mut image.explicit_codec_types
        && !is_written
    {
        *config = [0; 4];
    }
}

#[cfg(test)]
mod tests {
    use super::*;
    use crate::changes;
    use crate::payloads::payload_of;
    use crate::random::Random;
    use crate::records::rust_file;
    use crate::same::one_file;

    /// The clause named, and no other, puts a changed record back.
    fn put_back(clause: &str, image: &MinimizedImage, change: impl FnOnce(&mut MinimizedImage)) {
        let mut changed = image.clone();
        change(&mut changed);
        assert_ne!(changed, *image);
        let by = changed_by(&changed);
        let names = NAMES.iter().zip(by).filter(|(_, by)| *by);
        assert_eq!(names.map(|(name, _)| *name).collect::<Vec<_>>(), [clause]);
        assert_eq!(normal(&changed), *image, "{clause}");
    }

    fn kept(image: &MinimizedImage, change: impl FnOnce(&mut MinimizedImage)) {
        let mut changed = image.clone();
        change(&mut changed);
        assert_eq!(normal(&changed), changed);
    }

    /// With alpha, a gain map and no configuration; `data` are the gain map's.
    fn base(data: &[u8]) -> MinimizedImage {
        let plan = crate::expanding::plain();
        let mut image = MinimizedImage::parse(&payload_of(&plan)).expect("the plan is sound");
        (image.alpha, image.alpha_data) = (true, vec![1]);
        (image.width, image.height, image.hdr) = (5, 6, true);
        image.explicit_codec_types = Some((*b"av01", [0; 4]));
        let mut gain_map = crate::records::plain_gain_map();
        (gain_map.width, gain_map.height) = (5, 6);
        gain_map.data = data.to_vec();
        image.gain_map = Some(gain_map);
        image
    }

    fn of_gain_map(
        change: impl FnOnce(&mut upstream::mini::MiniGainMap),
    ) -> impl FnOnce(&mut MinimizedImage) {
        |image| change(image.gain_map.as_mut().expect("a gain map"))
    }

    #[test]
    fn triples_and_flags() {
        let mut image = base(&[]);
        put_back("colour triple", &image, |i| {
            i.explicit_cicp = Some((1, 13, 2))
        });
        kept(&image, |i| i.explicit_cicp = Some((1, 13, 6)));
        image.icc = Some(vec![0]);
        put_back("colour triple", &image, |i| {
            i.explicit_cicp = Some((2, 2, 2))
        });
        image.chroma.subsampling = 2;
        put_back("colour triple", &image, |i| {
            i.explicit_cicp = Some((2, 2, 6))
        });
        kept(&image, |i| i.explicit_cicp = Some((1, 13, 6)));
        image.gain_map = None;
        image.hdr = false;
        put_back("hdr flag", &image, |i| i.hdr = true);
        kept(&image, |i| {
            (i.hdr, i.hdr_boxes.amve) = (true, Some(vec![0; 8]))
        });
    }

    #[test]
    fn configurations() {
        let mut image = base(&[2]);
        let clause = "configuration type";
        put_back(clause, &image, |i| {
            i.explicit_codec_types = Some((*b"av01", *b"av1C"))
        });
        image.explicit_codec_types = Some((*b"av01", *b"av1C"));
        kept(&image, |i| i.alpha_codec_config = Some(vec![7]));
        kept(&image, of_gain_map(|g| g.codec_config = Some(vec![7])));
        image.main_codec_config = vec![7, 7];
        put_back("alpha configuration", &image, |i| {
            i.alpha_codec_config = Some(vec![7, 7])
        });
        kept(&image, |i| i.alpha_codec_config = Some(vec![7]));
        let clause = "gain-map configuration";
        put_back(
            clause,
            &image,
            of_gain_map(|g| g.codec_config = Some(vec![7, 7])),
        );
        kept(
            &image,
            of_gain_map(|g| g.codec_config = Some(vec![7, 7, 7])),
        );
    }

    #[test]
    fn colours_of_the_tone_map() {
        let mut image = base(&[2]);
        let usual = Some((1, 13, 6, true));
        put_back(
            "tone map's colours",
            &image,
            of_gain_map(|g| g.tmap_cicp = usual),
        );
        for other in [
            (0, 13, 6, true),
            (1, 0, 6, true),
            (1, 13, 0, true),
            (1, 13, 6, false),
        ] {
            kept(&image, of_gain_map(|g| g.tmap_cicp = Some(other)));
        }
        of_gain_map(|g| g.tmap_icc = Some(vec![0]))(&mut image);
        kept(&image, of_gain_map(|g| g.tmap_cicp = usual));
    }

    /// The request's table: the gain map's fields where it has no data.
    #[test]
    fn fields_of_a_gain_map_without_data() {
        let changes: [fn(&mut upstream::mini::MiniGainMap); 7] = [
            |g| g.width = 1,
            |g| g.height = 1,
            |g| g.matrix_coefficients = 1,
            |g| g.full_range = true,
            |g| g.chroma = MiniChroma::new(1, true, true),
            |g| g.format = SampleFormat::Integer { bits: 9 },
            |g| g.format = SampleFormat::Float { bits: 16 },
        ];
        for change in changes {
            put_back("gain map's own fields", &base(&[]), of_gain_map(change));
            kept(&base(&[1]), of_gain_map(change));
        }
    }

    /// The form has the file of the record, and no shorter payload of a changed record has it too.
    #[test]
    fn it_gives_the_file_and_is_not_longer() {
        let mut r = Random::new(21);
        let mut shorter = 0;
        for _ in 0..4_000 {
            let image = changes::base(&mut r);
            let normal = normal(&image);
            assert_eq!(rust_file(&normal), rust_file(&image));
            assert!(one_file(&normal, &image));
            let len = |image: &MinimizedImage| image.to_box().expect("a payload gives it").len();
            assert!(len(&normal) <= len(&image));
            shorter += (len(&normal) < len(&image)) as u32;
        }
        assert!(shorter > 400, "{shorter} of 4,000 are shorter");
    }
}
