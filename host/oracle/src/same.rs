//! When two records give one file, by the words of document 02, point 14: they are the same, but for what its clauses
//! let differ. One function for each clause, in the request's order; `rest` has all that no clause names.
//!
//! It is about records that a payload gives and that can be expanded: explicit codec types, neither of them 'uuid', and
//! no alpha without data. Positions are no part of the Rust's record.

use upstream::mini::{MiniChroma, MiniGainMap, MinimizedImage, SampleFormat};

/// Something that holds of two records, or does not.
type Test = fn(&MinimizedImage, &MinimizedImage) -> bool;

pub struct Clause {
    pub name: &'static str,
    /// Whether the records agree in what the clause is about, or differ as it allows.
    pub allows: Test,
    /// Whether they agree in it.
    pub same: Test,
}

const fn clause(name: &'static str, allows: Test, same: Test) -> Clause {
    Clause { name, allows, same }
}

/// A configuration is in two lines, since alpha and the gain map each have one.
pub const CLAUSES: [Clause; 8] = [
    clause("colour triple", colour_triple, |a, b| {
        a.explicit_cicp == b.explicit_cicp
    }),
    clause("hdr flag", hdr_flag, |a, b| a.hdr == b.hdr),
    clause("alpha configuration", alpha_configuration, |a, b| {
        a.alpha_codec_config == b.alpha_codec_config
    }),
    clause("gain-map configuration", gain_map_configuration, |a, b| {
        gain_map_config(a) == gain_map_config(b)
    }),
    clause("tone map's colours", tone_map_colours, |a, b| {
        both_gain_maps(a, b, |a, b| a.tmap_cicp == b.tmap_cicp)
    }),
    clause("gain map's own fields", own_fields, |a, b| {
        both_gain_maps(a, b, |a, b| own(a) == own(b))
    }),
    clause("compressed flag", compressed_flag, |a, b| {
        a.exif_xmp_compressed == b.exif_xmp_compressed
    }),
    clause("configuration type", configuration_type, |a, b| {
        config_type(a) == config_type(b)
    }),
];

/// Whether two records, expanded under one file type, give equal files.
pub fn one_file(a: &MinimizedImage, b: &MinimizedImage) -> bool {
    CLAUSES.iter().all(|clause| (clause.allows)(a, b)) && rest(a, b)
}

/// Explicit or inferred, the triples have one value.
fn colour_triple(a: &MinimizedImage, b: &MinimizedImage) -> bool {
    let triple = |i: &MinimizedImage| i.explicit_cicp.unwrap_or_else(|| inferred_triple(i));
    triple(a) == triple(b)
}

/// The triple of a record that gives none: by whether there is an ICC profile, and whether there is chroma.
pub fn inferred_triple(image: &MinimizedImage) -> (u8, u8, u8) {
    let (primaries, transfer) = match image.icc {
        Some(_) => (2, 2),
        None => (1, 13),
    };
    let matrix = match image.chroma.subsampling {
        0 => 2,
        _ => 6,
    };
    (primaries, transfer, matrix)
}

/// The flag is free where neither record has what it announces.
fn hdr_flag(a: &MinimizedImage, b: &MinimizedImage) -> bool {
    let free = |i: &MinimizedImage| i.gain_map.is_none() && i.hdr_boxes == Default::default();
    a.hdr == b.hdr || (free(a) && free(b))
}

fn alpha_configuration(a: &MinimizedImage, b: &MinimizedImage) -> bool {
    a.alpha_codec_config == b.alpha_codec_config
        || (is_main(a, &a.alpha_codec_config) && is_main(b, &b.alpha_codec_config))
}

fn gain_map_configuration(a: &MinimizedImage, b: &MinimizedImage) -> bool {
    let is_main = |i| is_main(i, gain_map_config(i));
    gain_map_config(a) == gain_map_config(b) || (is_main(a) && is_main(b))
}

fn gain_map_config(image: &MinimizedImage) -> &Option<Vec<u8>> {
    let gain_map = image.gain_map.as_ref();
    gain_map.map_or(&None, |g| &g.codec_config)
}

/// Whether a configuration is absent or the main one again, which has at least a byte.
fn is_main(image: &MinimizedImage, config: &Option<Vec<u8>>) -> bool {
    let main = &image.main_codec_config;
    !main.is_empty() && config.as_ref().is_none_or(|config| config == main)
}

/// Without an ICC profile of the tone map, its colours are free where they are absent or the usual ones.
fn tone_map_colours(a: &MinimizedImage, b: &MinimizedImage) -> bool {
    let usual =
        |g: &MiniGainMap| g.tmap_icc.is_none() && g.tmap_cicp.is_none_or(|c| c == (1, 13, 6, true));
    both_gain_maps(a, b, |a, b| {
        a.tmap_cicp == b.tmap_cicp || (usual(a) && usual(b))
    })
}

/// What describes the gain map's samples is free where it has none.
fn own_fields(a: &MinimizedImage, b: &MinimizedImage) -> bool {
    both_gain_maps(a, b, |a, b| {
        own(a) == own(b) || (a.data.is_empty() && b.data.is_empty())
    })
}

type Own = (u32, u32, u8, bool, MiniChroma, SampleFormat);

fn own(g: &MiniGainMap) -> Own {
    (
        g.width,
        g.height,
        g.matrix_coefficients,
        g.full_range,
        g.chroma,
        g.format,
    )
}

/// Exif's item type and XMP's content encoding both show the flag, and without either there is none: it is never free.
fn compressed_flag(a: &MinimizedImage, b: &MinimizedImage) -> bool {
    a.exif_xmp_compressed == b.exif_xmp_compressed
}

/// The type is free where neither file has a box of it.
fn configuration_type(a: &MinimizedImage, b: &MinimizedImage) -> bool {
    config_type(a) == config_type(b) || (!has_config_box(a) && !has_config_box(b))
}

fn config_type(image: &MinimizedImage) -> Option<[u8; 4]> {
    image.explicit_codec_types.map(|(_, config)| config)
}

/// Whether the main picture, or an item of alpha or of the gain map, has a configuration with a byte in it.
fn has_config_box(image: &MinimizedImage) -> bool {
    let main = &image.main_codec_config;
    let is_written = |config: &Option<Vec<u8>>| !config.as_ref().unwrap_or(main).is_empty();
    let alpha = !image.alpha_data.is_empty() && is_written(&image.alpha_codec_config);
    let gain_map = image.gain_map.as_ref();
    let gain_map = gain_map.is_some_and(|g| !g.data.is_empty() && is_written(&g.codec_config));
    !main.is_empty() || alpha || gain_map
}

/// Holds a test to both gain maps. Where a record has none there is nothing to test: `rest` has whether both are there.
fn both_gain_maps(
    a: &MinimizedImage,
    b: &MinimizedImage,
    test: impl Fn(&MiniGainMap, &MiniGainMap) -> bool,
) -> bool {
    match (&a.gain_map, &b.gain_map) {
        (Some(a), Some(b)) => test(a, b),
        _ => true,
    }
}

/// Whether the records are the same once all that a clause is about has one value in both.
pub fn rest(a: &MinimizedImage, b: &MinimizedImage) -> bool {
    without_clauses(a) == without_clauses(b)
}

fn without_clauses(image: &MinimizedImage) -> MinimizedImage {
    let mut rest = image.clone();
    rest.explicit_cicp = None;
    rest.hdr = false;
    rest.alpha_codec_config = None;
    rest.exif_xmp_compressed = false;
    rest.explicit_codec_types = rest.explicit_codec_types.map(|(item, _)| (item, [0; 4]));
    if let Some(g) = &mut rest.gain_map {
        g.codec_config = None;
        g.tmap_cicp = None;
        (g.width, g.height) = (0, 0);
        g.matrix_coefficients = 0;
        g.full_range = false;
        g.chroma = MiniChroma::new(0, false, false);
        g.format = SampleFormat::Integer { bits: 0 };
    }
    rest
}

#[cfg(test)]
mod tests {
    use super::*;
    use crate::expanding;
    use crate::payloads::{payload_of, with_every_chunk};
    use crate::plan::Plan;

    fn record(plan: Plan) -> MinimizedImage {
        let plan = Plan {
            types: expanding::plain().types,
            ..plan
        };
        MinimizedImage::parse(&payload_of(&plan)).expect("the plan is sound")
    }

    /// One byte of main data.
    fn plain() -> MinimizedImage {
        record(Plan::smallest())
    }

    /// With alpha, a gain map and every chunk.
    fn full() -> MinimizedImage {
        record(with_every_chunk())
    }

    fn gain_map(image: &mut MinimizedImage) -> &mut MiniGainMap {
        image.gain_map.as_mut().expect("the record has a gain map")
    }

    /// The clauses that do not allow what differs.
    fn refusing(a: &MinimizedImage, b: &MinimizedImage) -> Vec<&'static str> {
        let refusing = CLAUSES.iter().filter(|c| !(c.allows)(a, b));
        refusing.map(|c| c.name).collect()
    }

    fn changed(image: &MinimizedImage, change: impl FnOnce(&mut MinimizedImage)) -> MinimizedImage {
        let mut other = image.clone();
        change(&mut other);
        assert_ne!(*image, other);
        other
    }

    fn alike(image: &MinimizedImage, change: impl FnOnce(&mut MinimizedImage)) {
        let other = changed(image, change);
        assert!(one_file(image, &other) && one_file(&other, image));
    }

    /// This clause alone tells the two apart.
    fn apart(clause: &str, image: &MinimizedImage, change: impl FnOnce(&mut MinimizedImage)) {
        let other = changed(image, change);
        assert_eq!(refusing(image, &other), [clause]);
        assert_eq!(refusing(&other, image), [clause]);
        assert!(rest(image, &other));
    }

    #[test]
    fn a_triple_as_inferred() {
        for (mut image, inferred) in [(plain(), (1, 13, 2)), (full(), (2, 2, 2))] {
            for matrix in [2, 6] {
                if matrix == 6 {
                    image.chroma.subsampling = 3;
                }
                let (p, t, m) = (inferred.0, inferred.1, matrix);
                alike(&image, |i| i.explicit_cicp = Some((p, t, m)));
                for off in [
                    (p + 1, t, m),
                    (p, t + 1, m),
                    (p, t, m + 1),
                    (3 - p, 15 - t, m),
                ] {
                    apart("colour triple", &image, |i| i.explicit_cicp = Some(off));
                }
            }
        }
    }

    /// No payload gives the records that differ in nothing but the flag where it announces something.
    #[test]
    fn the_hdr_flag_that_announces_nothing() {
        let mut image = plain();
        alike(&image, |i| i.hdr = true);
        image.hdr_boxes.ndwt = Some(vec![0; 4]);
        apart("hdr flag", &image, |i| i.hdr = true);
        apart("hdr flag", &full(), |i| i.hdr = false);
    }

    /// No payload gives an empty configuration of alpha or of a gain map.
    #[test]
    fn a_configuration_as_the_main_one() {
        let mut image = full();
        image.main_codec_config = vec![1, 2];
        image.alpha_codec_config = None;
        gain_map(&mut image).codec_config = None;
        alike(&image, |i| i.alpha_codec_config = Some(vec![1, 2]));
        alike(&image, |i| gain_map(i).codec_config = Some(vec![1, 2]));
        for near in [vec![1, 3], vec![1], vec![1, 2, 3]] {
            let own = Some(near.clone());
            apart("alpha configuration", &image, |i| {
                i.alpha_codec_config = own
            });
            let own = Some(near);
            apart("gain-map configuration", &image, |i| {
                gain_map(i).codec_config = own
            });
        }
        image.main_codec_config.clear();
        for own in [vec![], vec![1]] {
            let alpha = Some(own.clone());
            apart("alpha configuration", &image, |i| {
                i.alpha_codec_config = alpha
            });
            let of_gain_map = Some(own);
            apart("gain-map configuration", &image, |i| {
                gain_map(i).codec_config = of_gain_map
            });
        }
    }

    #[test]
    fn the_usual_colours_of_the_tone_map() {
        let clause = "tone map's colours";
        let mut image = full();
        apart(clause, &image, |i| {
            gain_map(i).tmap_cicp = Some((1, 13, 6, true))
        });
        gain_map(&mut image).tmap_icc = None;
        alike(&image, |i| gain_map(i).tmap_cicp = Some((1, 13, 6, true)));
        for wrong in [
            (2, 13, 6, true),
            (1, 12, 6, true),
            (1, 13, 5, true),
            (1, 13, 6, false),
        ] {
            apart(clause, &image, |i| gain_map(i).tmap_cicp = Some(wrong));
        }
    }

    #[test]
    fn a_gain_map_without_data() {
        let fields: [fn(&mut MiniGainMap); 8] = [
            |g| g.width += 1,
            |g| g.height += 1,
            |g| g.matrix_coefficients += 1,
            |g| g.full_range = !g.full_range,
            |g| g.chroma.subsampling += 1,
            |g| g.chroma.horizontally_centered = !g.chroma.horizontally_centered,
            |g| g.chroma.vertically_centered = !g.chroma.vertically_centered,
            |g| g.format = SampleFormat::Float { bits: 16 },
        ];
        let mut image = full();
        gain_map(&mut image).chroma.subsampling = 1;
        gain_map(&mut image).format = SampleFormat::Integer { bits: 16 };
        let mut empty = image.clone();
        gain_map(&mut empty).data.clear();
        for change in fields {
            apart("gain map's own fields", &image, |i| change(gain_map(i)));
            alike(&empty, |i| change(gain_map(i)));
            // Data in one of the two.
            let other = changed(&empty, |i| change(gain_map(i)));
            assert!(!own_fields(&image, &other) && !own_fields(&other, &image));
        }
    }

    #[test]
    fn the_compressed_flag_shows() {
        for (exif, xmp) in [
            (Some(vec![1]), None),
            (None, Some(vec![1])),
            (Some(vec![1]), Some(vec![2])),
        ] {
            let mut image = plain();
            (image.exif, image.xmp) = (exif, xmp);
            apart("compressed flag", &image, |i| i.exif_xmp_compressed = true);
        }
    }

    #[test]
    fn the_type_of_no_configuration() {
        let other = |i: &mut MinimizedImage| i.explicit_codec_types = Some((*b"av01", *b"free"));
        let mut bare = full();
        bare.main_codec_config.clear();
        bare.alpha_codec_config = None;
        gain_map(&mut bare).codec_config = None;
        alike(&bare, other);
        alike(&plain(), other);
        let places: [fn(&mut MinimizedImage); 3] = [
            |i| i.main_codec_config = vec![0],
            |i| i.alpha_codec_config = Some(vec![0]),
            |i| gain_map(i).codec_config = Some(vec![0]),
        ];
        for put in places {
            let mut image = bare.clone();
            put(&mut image);
            apart("configuration type", &image, other);
        }
        let mut image = plain();
        image.main_codec_config = vec![0];
        apart("configuration type", &image, other);
        gain_map(&mut bare).data.clear();
        alike(&bare, other);
    }

    #[test]
    fn all_else_must_agree() {
        let changes: [fn(&mut MinimizedImage); 20] = [
            |i| i.explicit_codec_types = Some((*b"free", *b"av1C")),
            |i| i.format = SampleFormat::Integer { bits: 9 },
            |i| i.full_range = true,
            |i| i.chroma.horizontally_centered = true,
            |i| i.orientation = 2,
            |i| i.width += 1,
            |i| i.height += 1,
            |i| i.icc = Some(vec![0]),
            |i| i.alpha = false,
            |i| i.alpha_premultiplied = false,
            |i| i.hdr_boxes.clli = Some(vec![0; 4]),
            |i| i.gain_map = None,
            |i| gain_map(i).tmap_icc = Some(vec![0]),
            |i| gain_map(i).tmap_hdr.ndwt = Some(vec![0; 4]),
            |i| gain_map(i).metadata.push(0),
            |i| gain_map(i).data.push(0),
            |i| i.main_data.push(0),
            |i| i.alpha_data.push(0),
            |i| i.exif = None,
            |i| i.xmp = Some(vec![0]),
        ];
        for change in changes {
            let image = full();
            let other = changed(&image, change);
            assert!(!rest(&image, &other) && !one_file(&image, &other));
        }
        let mut empty = full();
        empty.main_codec_config.clear();
        assert!(!one_file(&full(), &empty));
    }
}
