//! Pairs of records that stand at a clause of document 02, point 14, or next to it. Each record is one that a payload
//! gives and that can be expanded.

use crate::changes::{
    Change, Chunk, OWN_FIELDS, USUAL_COLOURS, change_body, change_chunk, change_config_type,
    change_item_type, near, one_off, wrong_colours,
};
use crate::expanding;
use crate::payloads::payload_of;
use crate::random::Random;
use crate::records::{plain_gain_map, random_record, settle};
use crate::same::inferred_triple;
use upstream::mini::{MiniChroma, MiniGainMap, MiniHdrBoxes, MinimizedImage, SampleFormat};

type Edit = dyn Fn(&mut Random, &mut MinimizedImage);

/// Tells the compiler what a closure takes.
fn edit<E: Fn(&mut Random, &mut MinimizedImage) + Copy>(edit: E) -> E {
    edit
}

/// Two records made by hand, which stand at a clause or next to it.
pub struct Special {
    /// The clause that decides; `REST` where none does.
    pub clause: &'static str,
    pub name: String,
    pub one_file: bool,
    base: Box<Edit>,
    change: Box<Edit>,
}

pub const REST: &str = "all else";

impl Special {
    /// A random record put in the state that the case asks for, and itself changed.
    pub fn pair(&self, r: &mut Random) -> [MinimizedImage; 2] {
        let mut image = random_record(r);
        (self.base)(r, &mut image);
        settle(&mut image);
        let mut other = image.clone();
        (self.change)(r, &mut other);
        settle(&mut other);
        [image, other]
    }
}

/// Every special case.
pub fn specials() -> Vec<Special> {
    let mut all = Specials(Vec::new());
    all.triples();
    all.hdr_flags();
    all.configs("alpha configuration", alpha_config);
    all.configs("gain-map configuration", gain_map_config);
    all.colours(false);
    all.colours(true);
    all.own_fields();
    all.compressed_flags();
    all.config_types();
    all.0
}

struct Specials(Vec<Special>);

impl Specials {
    fn add(
        &mut self,
        clause: &'static str,
        name: impl Into<String>,
        one_file: bool,
        base: impl Fn(&mut Random, &mut MinimizedImage) + 'static,
        change: impl Fn(&mut Random, &mut MinimizedImage) + 'static,
    ) {
        self.0.push(Special {
            clause,
            name: name.into(),
            one_file,
            base: Box::new(base),
            change: Box::new(change),
        });
    }

    fn triples(&mut self) {
        let clause = "colour triple";
        let none = edit(|_, i| i.explicit_cicp = None);
        self.add(clause, "explicit as inferred", true, none, give_triple);
        self.add(clause, "a number off the inferred", false, none, |r, i| {
            i.explicit_cicp = Some(one_off(r, inferred_triple(i)))
        });
        self.add(clause, "both explicit", false, give_triple, |r, i| {
            i.explicit_cicp = Some(one_off(r, inferred_triple(i)))
        });
        self.add(
            clause,
            "as if there were no ICC profile",
            false,
            with_icc,
            |_, i| i.explicit_cicp = Some((1, 13, inferred_triple(i).2)),
        );
        self.add(
            clause,
            "as if there were an ICC profile",
            false,
            without_icc,
            |_, i| i.explicit_cicp = Some((2, 2, inferred_triple(i).2)),
        );
        self.add(clause, "the other matrix", false, none, |_, i| {
            let (primaries, transfer, matrix) = inferred_triple(i);
            i.explicit_cicp = Some((primaries, transfer, 8 - matrix))
        });
        self.add(
            REST,
            "triple kept, no ICC profile",
            false,
            with_icc,
            |r, i| {
                give_triple(r, i);
                i.icc = None;
            },
        );
        self.add(
            REST,
            "triple kept, no chroma",
            false,
            |r, i| {
                without_icc(r, i);
                i.chroma.subsampling = 3;
            },
            |r, i| {
                give_triple(r, i);
                i.chroma.subsampling = 0;
            },
        );
    }

    fn hdr_flags(&mut self) {
        let clause = "hdr flag";
        self.add(clause, "nothing announced", true, without_hdr, |_, i| {
            i.hdr = true
        });
        self.add(clause, "a body", false, without_hdr, |r, i| {
            change_body(r, &mut i.hdr_boxes)
        });
        self.add(clause, "a gain map", false, without_hdr, |_, i| {
            i.gain_map = Some(plain_gain_map())
        });
    }

    /// The configurations of alpha or of the gain map. `config` gives its item data.
    fn configs(&mut self, clause: &'static str, config: fn(&mut MinimizedImage) -> &mut Chunk) {
        let absent = edit(move |r, i| {
            i.main_codec_config = near(r, &i.main_codec_config);
            *config(i) = None;
        });
        let as_main = edit(move |_, i| {
            *config(i) = Some(i.main_codec_config.clone());
        });
        let near_main = edit(move |r, i| {
            *config(i) = Some(near(r, &i.main_codec_config));
        });
        let is_main = edit(move |r, i| {
            absent(r, i);
            as_main(r, i);
        });
        self.add(clause, "absent and as the main one", true, absent, as_main);
        self.add(
            clause,
            "absent and near the main one",
            false,
            absent,
            near_main,
        );
        self.add(
            clause,
            "as the main one and near it",
            false,
            is_main,
            near_main,
        );
        self.add(
            clause,
            "absent and any, the main one empty",
            false,
            move |_, i| {
                i.main_codec_config.clear();
                *config(i) = None;
            },
            near_main,
        );
        self.add(
            clause,
            "each the other's main one",
            false,
            move |r, i| {
                absent(r, i);
                near_main(r, i);
            },
            move |_, i| {
                let own = config(i).take();
                let main = own.unwrap_or_default();
                *config(i) = Some(std::mem::replace(&mut i.main_codec_config, main));
            },
        );
        self.add(
            clause,
            "the main one taken along",
            false,
            absent,
            move |_, i| {
                *config(i) = Some(std::mem::take(&mut i.main_codec_config));
            },
        );
        self.add(
            REST,
            "each as its own main one",
            false,
            is_main,
            move |r, i| {
                i.main_codec_config = near(r, &i.main_codec_config);
                as_main(r, i);
            },
        );
        self.add(REST, "absent, the main one near", false, absent, |r, i| {
            i.main_codec_config = near(r, &i.main_codec_config);
        });
    }

    /// The tone map's colours, with its ICC profile or without.
    fn colours(&mut self, has_icc: bool) {
        let clause = "tone map's colours";
        let absent = edit(move |r, i| {
            let g = gain_map(i);
            g.tmap_icc = has_icc.then(|| near(r, &[]));
            g.tmap_cicp = None;
        });
        let usual = edit(|_, i| {
            gain_map(i).tmap_cicp = Some(USUAL_COLOURS);
        });
        let both = edit(move |r, i| {
            absent(r, i);
            usual(r, i);
        });
        let name = |what: &str| format!("{what}, ICC profile: {has_icc}");
        self.add(clause, name("absent and usual"), !has_icc, absent, usual);
        for wrong in 0..4 {
            let change = edit(move |r, i| {
                gain_map(i).tmap_cicp = Some(wrong_colours(r, wrong));
            });
            let absent_and = name(&format!("absent and wrong at {wrong}"));
            self.add(clause, absent_and, false, absent, change);
            let usual_and = name(&format!("usual and wrong at {wrong}"));
            self.add(clause, usual_and, false, both, change);
        }
        self.add(REST, name("usual, other profile"), false, both, |r, i| {
            change_chunk(r, &mut gain_map(i).tmap_icc)
        });
    }

    fn own_fields(&mut self) {
        let clause = "gain map's own fields";
        let base = |r: &mut Random, i: &mut MinimizedImage, data: &[u8]| {
            let g = gain_map(i);
            g.data = data.to_vec();
            g.chroma = MiniChroma::new(1, r.flag(), r.flag());
            if r.flag() {
                g.format = SampleFormat::Integer { bits: 16 };
            }
        };
        let empty = edit(move |r, i| base(r, i, &[]));
        let full = edit(move |r, i| base(r, i, &[7]));
        for (field, change) in OWN_FIELDS {
            let change = edit(move |r, i| change(r, gain_map(i)));
            self.add(clause, format!("{field}, no data"), true, empty, change);
            self.add(clause, format!("{field}, data"), false, full, change);
            let emptied = edit(move |r, i| {
                change(r, i);
                gain_map(i).data.clear();
            });
            self.add(
                clause,
                format!("{field}, data emptied"),
                false,
                full,
                emptied,
            );
        }
        self.add(REST, "data emptied", false, full, |_, i| {
            gain_map(i).data.clear()
        });
    }

    fn compressed_flags(&mut self) {
        for (name, has_exif, has_xmp) in [
            ("Exif alone", true, false),
            ("XMP alone", false, true),
            ("Exif and XMP", true, true),
        ] {
            let base = edit(move |r, i| {
                i.exif = has_exif.then(|| near(r, &[]));
                i.xmp = has_xmp.then(|| near(r, &[]));
                i.exif_xmp_compressed = r.flag();
            });
            self.add("compressed flag", name, false, base, |_, i| {
                i.exif_xmp_compressed = !i.exif_xmp_compressed
            });
        }
    }

    fn config_types(&mut self) {
        let clause = "configuration type";
        let types: [(&str, bool, Change); 7] = [
            ("no item but the main one", true, |_, _| {}),
            ("alpha", true, |_, i| drop(alpha_config(i).take())),
            ("gain map", true, |_, i| drop(gain_map_config(i).take())),
            ("gain map without data", true, |_, i| {
                gain_map(i).data.clear()
            }),
            ("main configuration", false, |r, i| {
                i.main_codec_config = near(r, &[])
            }),
            ("alpha configuration", false, |r, i| {
                *alpha_config(i) = Some(near(r, &[]))
            }),
            ("gain-map configuration", false, |r, i| {
                *gain_map_config(i) = Some(near(r, &[]))
            }),
        ];
        for (name, is_free, add) in types {
            let base = edit(move |r, i| {
                i.main_codec_config.clear();
                i.alpha_data.clear();
                i.gain_map = None;
                add(r, i);
            });
            self.add(clause, name, is_free, base, change_config_type);
            self.add(
                REST,
                format!("{name}, item type"),
                false,
                base,
                change_item_type,
            );
            self.add(REST, format!("{name}, both types"), false, base, |r, i| {
                change_item_type(r, i);
                change_config_type(r, i);
            });
        }
    }
}

fn give_triple(_: &mut Random, image: &mut MinimizedImage) {
    image.explicit_cicp = Some(inferred_triple(image));
}

fn with_icc(r: &mut Random, image: &mut MinimizedImage) {
    image.icc = Some(near(r, &[]));
    image.explicit_cicp = None;
}

fn without_icc(_: &mut Random, image: &mut MinimizedImage) {
    image.icc = None;
    image.explicit_cicp = None;
}

fn without_hdr(_: &mut Random, image: &mut MinimizedImage) {
    image.hdr = false;
    image.hdr_boxes = MiniHdrBoxes::default();
    image.gain_map = None;
}

/// The gain map, a plain one where there was none.
fn gain_map(image: &mut MinimizedImage) -> &mut MiniGainMap {
    image.gain_map.get_or_insert_with(plain_gain_map)
}

/// The configuration of alpha, which gets data if it has none.
fn alpha_config(image: &mut MinimizedImage) -> &mut Chunk {
    if image.alpha_data.is_empty() {
        image.alpha_data.push(3);
    }
    &mut image.alpha_codec_config
}

/// That of the gain map, likewise.
fn gain_map_config(image: &mut MinimizedImage) -> &mut Chunk {
    let g = gain_map(image);
    if g.data.is_empty() {
        g.data.push(4);
    }
    &mut g.codec_config
}

/// What the combinations are made of: each alternative of each line, with those of every other line.
const PARTS: [&[fn(&mut MinimizedImage)]; 9] = [
    &[|_| {}, |i| i.explicit_cicp = Some(inferred_triple(i))],
    &[|_| {}, |i| i.hdr = true],
    &[|_| {}, |i| i.main_codec_config = vec![1]],
    &[
        |_| {},
        |i| *alpha_config(i) = None,
        |i| *alpha_config(i) = Some(vec![1]),
    ],
    &[
        |_| {},
        |i| i.gain_map = Some(plain_gain_map()),
        |i| *gain_map_config(i) = None,
        |i| *gain_map_config(i) = Some(vec![1]),
    ],
    &[
        |_| {},
        |i| {
            i.gain_map
                .iter_mut()
                .for_each(|g| g.tmap_cicp = Some(USUAL_COLOURS))
        },
    ],
    &[
        |_| {},
        |i| {
            i.gain_map
                .iter_mut()
                .for_each(|g| g.tmap_icc = Some(vec![5]))
        },
    ],
    &[|_| {}, |i| i.gain_map.iter_mut().for_each(|g| g.width = 2)],
    &[
        |_| {},
        |i| i.explicit_codec_types = Some((*b"av01", *b"free")),
    ],
];

/// Records of few bytes in which every clause can meet every other, each record once.
pub fn combinations() -> Vec<MinimizedImage> {
    let mut all = vec![plain_record()];
    for alternatives in PARTS {
        let with_each = |image: &MinimizedImage| {
            alternatives
                .iter()
                .map(|edit| edited(image, *edit))
                .collect()
        };
        let longer: Vec<Vec<MinimizedImage>> = all.iter().map(with_each).collect();
        all = longer.concat();
    }
    let mut once: Vec<MinimizedImage> = Vec::new();
    for mut image in all {
        settle(&mut image);
        if !once.contains(&image) {
            once.push(image);
        }
    }
    once
}

fn edited(image: &MinimizedImage, edit: fn(&mut MinimizedImage)) -> MinimizedImage {
    let mut image = image.clone();
    edit(&mut image);
    image
}

fn plain_record() -> MinimizedImage {
    let payload = payload_of(&expanding::plain());
    MinimizedImage::parse(&payload).expect("the plan is sound")
}

#[cfg(test)]
mod tests {
    use super::*;
    use crate::records::rust_file;
    use crate::same::{CLAUSES, one_file, rest};

    #[test]
    fn each_special_case_is_what_it_says() {
        let mut r = Random::new(11);
        for special in specials() {
            for _ in 0..40 {
                let [a, b] = special.pair(&mut r);
                let name = format!("{}: {}", special.clause, special.name);
                assert_ne!(a, b, "{name}");
                assert_eq!(rust_file(&a) == rust_file(&b), special.one_file, "{name}");
                assert_eq!(one_file(&a, &b), special.one_file, "{name}");
            }
        }
    }

    #[test]
    fn every_clause_has_special_cases() {
        let specials = specials();
        for clause in CLAUSES {
            let of_clause = specials.iter().filter(|s| s.clause == clause.name);
            let (free, refused): (Vec<_>, Vec<_>) = of_clause.partition(|s| s.one_file);
            assert_eq!(free.is_empty(), clause.name == "compressed flag");
            assert!(!refused.is_empty(), "{}", clause.name);
        }
        let named = |s: &Special| s.clause == REST || CLAUSES.iter().any(|c| c.name == s.clause);
        assert!(specials.iter().all(named));
    }

    #[test]
    fn each_combination_stands_once_and_each_clause_is_at_work() {
        let combinations = combinations();
        assert_eq!(combinations.len(), 624);
        for clause in CLAUSES {
            let decides = |a: &MinimizedImage, b: &MinimizedImage| {
                rest(a, b) && !(clause.same)(a, b) && (clause.allows)(a, b)
            };
            let found = combinations
                .iter()
                .any(|a| combinations.iter().any(|b| decides(a, b)));
            assert_eq!(found, clause.name != "compressed flag", "{}", clause.name);
        }
    }
}
