//! What an accepted payload, and a file that it is expanded to, can have, and how often that must occur.

use crate::report::Report;
use oracle::expanding::{MIF3, OriginalType};
use oracle::reading::hdr_bodies;
use upstream::mini::{MiniChroma, MiniGainMap, MiniHdrBoxes, MinimizedImage, SampleFormat};

/// How often each feature must occur at least; a chunk of the greatest size occurs in few payloads.
const LEAST: u64 = 100;
const LEAST_GREATEST: u64 = 2;

/// How often a chunk of the greatest size must occur in a file: once, since files of data of 2^28 bytes
/// take a second each.
const LEAST_GREATEST_FILE: u64 = 1;

/// What the Rust read, and for a file the type that it was expanded under.
struct Seen<'a> {
    image: &'a MinimizedImage,
    original: Option<&'a OriginalType>,
}

type Test = Box<dyn Fn(&Seen) -> bool>;

/// The length of a chunk, if it is there.
type Length = fn(&MinimizedImage) -> Option<usize>;

pub struct Feature {
    name: String,
    least: u64,
    test: Test,
    seen: u64,
}

pub struct Features(Vec<Feature>);

impl Features {
    /// None, where they are counted elsewhere.
    pub fn none() -> Self {
        Features(Vec::new())
    }

    /// Those of payloads that are read.
    pub fn of_readings() -> Self {
        let mut all = Features::none();
        all.record();
        all.add("no explicit codec types", |i| {
            i.explicit_codec_types.is_none()
        });
        all.add("alpha without data", |i| i.alpha && i.alpha_data.is_empty());
        all.limits(LEAST_GREATEST);
        all
    }

    /// Those of payloads that become files, and of the types of these. What expanding refuses is left out:
    /// inferred codec types (14) and alpha without data (12).
    pub fn of_files() -> Self {
        let mut all = Features::none();
        all.record();
        all.limits(LEAST_GREATEST_FILE);
        all.brands();
        all.major_brands();
        all
    }

    /// Counts a record; of a file the type too.
    pub fn count(&mut self, image: &MinimizedImage, original: Option<&OriginalType>) {
        let seen = Seen { image, original };
        for feature in &mut self.0 {
            feature.seen += (feature.test)(&seen) as u64;
        }
    }

    /// Tells how often the rarest occur, and refuses one that occurs too seldom.
    pub fn check(&self, report: &mut Report) -> Result<(), String> {
        let common = self.0.iter().filter(|f| f.least == LEAST);
        let rarest = common.clone().min_by_key(|f| f.seen).expect("features");
        report.line(format_args!(
            "{} features, each at least {LEAST} times (the rarest, {}, {}); {} of the greatest sizes",
            common.count(),
            rarest.name,
            rarest.seen,
            self.0.iter().filter(|f| f.least != LEAST).count()
        ));
        match self.0.iter().find(|f| f.seen < f.least) {
            None => Ok(()),
            Some(f) => Err(format!("the feature '{}' occurs {} times", f.name, f.seen)),
        }
    }

    fn add(&mut self, name: &str, test: impl Fn(&MinimizedImage) -> bool + 'static) {
        self.add_seen(name, move |seen| test(seen.image));
    }

    fn add_seen(&mut self, name: &str, test: impl Fn(&Seen) -> bool + 'static) {
        self.0.push(Feature {
            name: name.to_string(),
            least: LEAST,
            test: Box::new(test),
            seen: 0,
        });
    }

    fn add_of_gain_map(&mut self, name: &str, test: impl Fn(&MiniGainMap) -> bool + 'static) {
        let name = format!("gain map: {name}");
        self.add(&name, move |i| i.gain_map.as_ref().is_some_and(&test));
    }

    fn add_of_type(&mut self, name: &str, test: impl Fn(&OriginalType) -> bool + 'static) {
        self.add_seen(name, move |seen| seen.original.is_some_and(&test));
    }

    fn record(&mut self) {
        self.picture();
        self.siting();
        self.formats();
        self.hdr();
        self.gain_map();
        self.chunks();
    }

    /// The brand list: how long it is, and whether the brands that are added stand in it already.
    fn brands(&mut self) {
        for count in [0, 1, 2, 8, 1_023, 1_024] {
            self.add_of_type(&format!("{count} brands"), move |t| {
                t.brands.len() == 4 * count
            });
        }
        self.add_of_type("mif1 is listed", |t| t.lists(b"mif1"));
        self.add_of_type("mif1 is added", |t| !t.lists(b"mif1"));
        self.add_of_type("mif1 is listed first of 1,024 brands", |t| {
            t.brands.len() == 4_096 && t.brands.starts_with(b"mif1")
        });
        self.add_of_type("mif3 is listed last of 1,024 brands", |t| {
            t.brands.len() == 4_096 && t.brands.ends_with(b"mif3")
        });
        for (name, has_gain_map) in [("a gain map", true), ("no gain map", false)] {
            for (listed, words) in [(true, "listed"), (false, "not listed")] {
                self.add_seen(&format!("{name}, tmap is {words}"), move |seen| {
                    seen.image.gain_map.is_some() == has_gain_map
                        && seen.original.is_some_and(|t| t.lists(b"tmap") == listed)
                });
            }
        }
    }

    /// The major brand gives way to the minor version if it is 'mif3' and that is not 0.
    fn major_brands(&mut self) {
        self.add_of_type("major brand mif3, minor version 0", |t| {
            !t.is_renamed() && t.major == MIF3
        });
        self.add_of_type("another major brand, minor version 0", |t| {
            t.major != MIF3 && t.minor == 0
        });
        self.add_of_type("another major brand, a minor version", |t| {
            t.major != MIF3 && t.minor != 0
        });
        for (name, minor) in [("vvi3", *b"vvi3"), ("heic", *b"heic"), ("avif", *b"avif")] {
            self.add_of_type(&format!("renamed to {name}"), move |t| {
                t.is_renamed() && t.minor.to_be_bytes() == minor
            });
        }
        self.add_of_type("renamed to mif3", |t| t.is_renamed() && t.minor == MIF3);
        self.add_of_type("renamed, mif3 is listed", |t| {
            t.is_renamed() && t.lists(b"mif3")
        });
        self.add_of_type("renamed, mif3 is added", |t| {
            t.is_renamed() && !t.lists(b"mif3")
        });
        self.add_of_type("renamed, mif3 is added to 1,024 brands", |t| {
            t.is_renamed() && !t.lists(b"mif3") && t.brands.len() == 4_096
        });
        self.add_of_type("not renamed, mif3 is not listed", |t| {
            !t.is_renamed() && !t.lists(b"mif3")
        });
    }

    fn picture(&mut self) {
        self.add("explicit codec types", |i| i.explicit_codec_types.is_some());
        self.add("full range", |i| i.full_range);
        self.add("explicit cicp", |i| i.explicit_cicp.is_some());
        self.add("no explicit cicp", |i| i.explicit_cicp.is_none());
        for n in 0..4 {
            let name = format!("subsampling {n}");
            self.add(&name, move |i| i.chroma.subsampling == n);
            self.add_of_gain_map(&name, move |g| g.chroma.subsampling == n);
        }
        for n in 1..=8 {
            self.add(&format!("orientation {n}"), move |i| i.orientation == n);
            // The tone map has the size as shown.
            self.add(
                &format!("orientation {n}, gain map, unequal sides"),
                move |i| i.orientation == n && i.gain_map.is_some() && i.width != i.height,
            );
        }
        for n in [1, 127, 128, 129, 32_767, 32_768] {
            self.add(&format!("width {n}"), move |i| i.width == n);
            self.add(&format!("height {n}"), move |i| i.height == n);
            self.add_of_gain_map(&format!("width {n}"), move |g| g.width == n);
            self.add_of_gain_map(&format!("height {n}"), move |g| g.height == n);
        }
    }

    /// Every pair of centring flags that a subsampling stores: both for 4:2:0, the horizontal one for 4:2:2.
    fn siting(&mut self) {
        for (subsampling, horizontally, vertically) in [
            (1, false, false),
            (1, false, true),
            (1, true, false),
            (1, true, true),
            (2, false, false),
            (2, true, false),
        ] {
            let name = format!(
                "subsampling {subsampling}, centred horizontally: {horizontally}, vertically: {vertically}"
            );
            let is = move |c: MiniChroma| {
                c.subsampling == subsampling
                    && c.horizontally_centered == horizontally
                    && c.vertically_centered == vertically
            };
            self.add(&name, move |i| is(i.chroma));
            self.add_of_gain_map(&name, move |g| is(g.chroma));
        }
    }

    fn formats(&mut self) {
        for bits in 8..=16 {
            let name = format!("integers of {bits} bits");
            let is = move |f: SampleFormat| !f.is_float() && f.bits() == bits;
            self.add(&name, move |i| is(i.format));
            self.add_of_gain_map(&name, move |g| is(g.format));
        }
        for bits in [16, 32, 64] {
            let name = format!("floats of {bits} bits");
            let is = move |f: SampleFormat| f.is_float() && f.bits() == bits;
            self.add(&name, move |i| is(i.format));
            self.add_of_gain_map(&name, move |g| is(g.format));
        }
    }

    fn hdr(&mut self) {
        self.add("hdr with nothing in it", |i| {
            i.hdr && i.gain_map.is_none() && present(&i.hdr_boxes) == 0
        });
        self.add("every hdr body", |i| {
            i.gain_map
                .as_ref()
                .is_some_and(|g| present(&g.tmap_hdr) == 6)
                && present(&i.hdr_boxes) == 6
        });
        for (n, name) in ["clli", "mdcv", "cclv", "amve", "reve", "ndwt"]
            .into_iter()
            .enumerate()
        {
            let has = move |h: &MiniHdrBoxes| hdr_bodies(h)[n].is_some();
            let only = move |h: &MiniHdrBoxes| has(h) && present(h) == 1;
            self.add(name, move |i| has(&i.hdr_boxes));
            self.add(&format!("only {name}"), move |i| only(&i.hdr_boxes));
            self.add_of_gain_map(name, move |g| has(&g.tmap_hdr));
            self.add_of_gain_map(&format!("only {name}"), move |g| only(&g.tmap_hdr));
        }
        for flags in (0..=0x3c).step_by(4) {
            let name = format!("cclv with flags {flags:02x}");
            let is = move |h: &MiniHdrBoxes| h.cclv.as_ref().is_some_and(|c| c[0] & 0x3c == flags);
            self.add(&name, move |i| is(&i.hdr_boxes));
            self.add_of_gain_map(&name, move |g| is(&g.tmap_hdr));
        }
    }

    fn gain_map(&mut self) {
        self.add("no gain map", |i| i.gain_map.is_none());
        self.add("gain map of the picture's size", |i| {
            i.gain_map
                .as_ref()
                .is_some_and(|g| (g.width, g.height) == (i.width, i.height))
        });
        self.add("gain map of another size", |i| {
            i.gain_map
                .as_ref()
                .is_some_and(|g| (g.width, g.height) != (i.width, i.height))
        });
        self.add_of_gain_map("full range", |g| g.full_range);
        self.add_of_gain_map("cicp", |g| g.tmap_cicp.is_some());
        self.add_of_gain_map("cicp of full range", |g| g.tmap_cicp.is_some_and(|c| c.3));
        self.add_of_gain_map("no cicp", |g| g.tmap_cicp.is_none());
        self.add_of_gain_map("icc", |g| g.tmap_icc.is_some());
        self.add_of_gain_map("no icc", |g| g.tmap_icc.is_none());
        self.add_of_gain_map("empty metadata", |g| g.metadata.is_empty());
        self.add_of_gain_map("empty data", |g| g.data.is_empty());
        self.add_of_gain_map("configuration", |g| g.codec_config.is_some());
        self.add_of_gain_map("data and no configuration", |g| {
            g.codec_config.is_none() && !g.data.is_empty()
        });
    }

    fn chunks(&mut self) {
        self.add("no alpha", |i| !i.alpha);
        self.add("alpha", |i| i.alpha);
        self.add("premultiplied", |i| i.alpha_premultiplied);
        self.add("alpha configuration", |i| i.alpha_codec_config.is_some());
        self.add("alpha data and no configuration", |i| {
            i.alpha_codec_config.is_none() && !i.alpha_data.is_empty()
        });
        self.add("empty main configuration", |i| {
            i.main_codec_config.is_empty()
        });
        self.add("icc", |i| i.icc.is_some());
        self.add("exif only", |i| i.exif.is_some() && i.xmp.is_none());
        self.add("xmp only", |i| i.xmp.is_some() && i.exif.is_none());
        self.add("exif and xmp", |i| i.xmp.is_some() && i.exif.is_some());
        self.add("compressed", |i| i.exif_xmp_compressed);
        self.add("not compressed", |i| {
            !i.exif_xmp_compressed && (i.exif.is_some() || i.xmp.is_some())
        });
        self.add("every chunk", |i| {
            let of_gain_map = |g: &MiniGainMap| {
                g.codec_config.is_some() && g.tmap_icc.is_some() && !g.metadata.is_empty()
            };
            i.gain_map.as_ref().is_some_and(of_gain_map)
                && i.alpha_codec_config.is_some()
                && [&i.icc, &i.exif, &i.xmp].into_iter().all(|c| c.is_some())
                && !i.main_codec_config.is_empty()
        });
    }

    /// Lengths at the limits of the short and the long form, and one more than the short.
    fn limits(&mut self, least_greatest: u64) {
        let limits: [(&str, [usize; 3], Length); 11] = [
            ("icc", [1024, 1025, 1 << 20], |i| len(&i.icc)),
            ("exif", [1024, 1025, 1 << 20], |i| len(&i.exif)),
            ("xmp", [1024, 1025, 1 << 20], |i| len(&i.xmp)),
            ("tone-map icc", [1024, 1025, 1 << 20], |i| {
                len(&i.gain_map.as_ref()?.tmap_icc)
            }),
            ("gain-map metadata", [1023, 1024, (1 << 20) - 1], |i| {
                Some(i.gain_map.as_ref()?.metadata.len())
            }),
            ("main data", [32_768, 32_769, 1 << 28], |i| {
                Some(i.main_data.len())
            }),
            ("alpha data", [32_767, 32_768, (1 << 28) - 1], |i| {
                Some(i.alpha_data.len())
            }),
            ("gain-map data", [32_767, 32_768, (1 << 28) - 1], |i| {
                Some(i.gain_map.as_ref()?.data.len())
            }),
            ("main configuration", [7, 8, 4095], |i| {
                Some(i.main_codec_config.len())
            }),
            ("alpha configuration", [7, 8, 4095], |i| {
                len(&i.alpha_codec_config)
            }),
            ("gain-map configuration", [7, 8, 4095], |i| {
                len(&i.gain_map.as_ref()?.codec_config)
            }),
        ];
        for (name, [short, more, long], of) in limits {
            for n in [short, more, long] {
                self.add(&format!("{name} of {n} bytes"), move |i| of(i) == Some(n));
            }
            self.0.last_mut().expect("one was added").least = least_greatest;
        }
    }
}

fn present(hdr: &MiniHdrBoxes) -> usize {
    hdr_bodies(hdr).iter().flatten().count()
}

fn len(chunk: &Option<Vec<u8>>) -> Option<usize> {
    chunk.as_ref().map(Vec::len)
}
