//! The records, each one change away from a record that a payload gives.

use crate::fields;
use oracle::payloads::{payload_of, plain_gain_map};
use oracle::plan::{Alpha, Hdr, NO_BODIES, Plan};
use upstream::mini::{MiniGainMap, MinimizedImage, SampleFormat};

type Change = Box<dyn Fn(&mut MinimizedImage)>;

pub struct Kind {
    pub name: String,
    /// The record that is changed.
    base: MinimizedImage,
    change: Change,
}

impl Kind {
    /// The changed record. Its base must be one that is written and read again without a difference: the
    /// change alone accounts for what comes of it.
    pub fn image(&self) -> Result<MinimizedImage, String> {
        let written = self.base.to_box().map_err(|e| e.to_string())?;
        if let Some(difference) = fields::read_again(&self.base, &written)? {
            return Err(format!("the base of {}: {difference}", self.name));
        }
        let mut image = self.base.clone();
        (self.change)(&mut image);
        Ok(image)
    }
}

/// The smallest records: plain, with one byte of alpha data, with one of gain-map data.
struct Bases {
    smallest: MinimizedImage,
    alpha: MinimizedImage,
    gain_map: MinimizedImage,
}

impl Bases {
    fn new() -> Result<Self, String> {
        let alpha = Alpha {
            premultiplied: false,
            data: 1,
            config: 0,
        };
        let mut gain_map = plain_gain_map();
        gain_map.data = 1;
        let hdr = Hdr {
            gain_map: Some(gain_map),
            bodies: NO_BODIES,
        };
        Ok(Bases {
            smallest: image(&Plan::smallest())?,
            alpha: image(&Plan {
                alpha: Some(alpha),
                ..Plan::smallest()
            })?,
            gain_map: image(&Plan {
                hdr: Some(hdr),
                ..Plan::smallest()
            })?,
        })
    }
}

fn image(plan: &Plan) -> Result<MinimizedImage, String> {
    MinimizedImage::parse(&payload_of(plan)).map_err(|e| e.to_string())
}

fn kind(
    name: impl Into<String>,
    base: &MinimizedImage,
    change: impl Fn(&mut MinimizedImage) + 'static,
) -> Kind {
    Kind {
        name: name.into(),
        base: base.clone(),
        change: Box::new(change),
    }
}

/// A change of the gain map, which the base has.
fn of_gain_map(
    name: impl Into<String>,
    base: &MinimizedImage,
    change: impl Fn(&mut MiniGainMap) + 'static,
) -> Kind {
    kind(name, base, move |i| {
        change(i.gain_map.as_mut().expect("a gain map"))
    })
}

/// Those that the Rust writes.
pub fn taken() -> Result<Vec<Kind>, String> {
    let Bases {
        smallest,
        alpha,
        gain_map,
    } = &Bases::new()?;
    Ok(vec![
        kind(
            "a centring flag that the subsampling doesn't store: subsampling 0, horizontally centred",
            smallest,
            |i| i.chroma.horizontally_centered = true,
        ),
        of_gain_map(
            "the same in a gain map: subsampling 0, vertically centred",
            gain_map,
            |g| g.chroma.vertically_centered = true,
        ),
        kind("premultiplied without alpha", smallest, |i| {
            i.alpha_premultiplied = true
        }),
        kind("alpha bytes `BB` without alpha", smallest, |i| {
            i.alpha_data = vec![0xBB]
        }),
        kind("an empty alpha configuration held as present", alpha, |i| {
            i.alpha_codec_config = Some(Vec::new())
        }),
        kind(
            "an alpha configuration `CC` without alpha data",
            smallest,
            |i| i.alpha_codec_config = Some(vec![0xCC]),
        ),
        of_gain_map(
            "an empty gain-map configuration held as present",
            gain_map,
            |g| g.codec_config = Some(Vec::new()),
        ),
        of_gain_map(
            "a gain-map configuration `CC` without its data",
            gain_map,
            |g| {
                g.data = Vec::new();
                g.codec_config = Some(vec![0xCC]);
            },
        ),
        of_gain_map("an empty tone-map ICC held as present", gain_map, |g| {
            g.tmap_icc = Some(Vec::new())
        }),
        kind("a gain map without hdr", gain_map, |i| i.hdr = false),
        kind(
            "an HDR body without hdr: clli `01 02 03 04`",
            smallest,
            |i| i.hdr_boxes.clli = Some(vec![1, 2, 3, 4]),
        ),
        kind("compressed without Exif or XMP", smallest, |i| {
            i.exif_xmp_compressed = true
        }),
    ])
}

/// Those that the Rust refuses, as we do.
pub fn refused() -> Result<Vec<Kind>, String> {
    let bases = Bases::new()?;
    let mut kinds = empty_chunks(&bases);
    kinds.extend(numbers(&bases));
    kinds.extend(formats(&bases));
    kinds.extend(long_chunks(&bases));
    Ok(kinds)
}

fn empty_chunks(bases: &Bases) -> Vec<Kind> {
    let base = &bases.smallest;
    vec![
        kind("an empty ICC held as present", base, |i| {
            i.icc = Some(Vec::new())
        }),
        kind("an empty Exif held as present", base, |i| {
            i.exif = Some(Vec::new())
        }),
        kind("an empty XMP held as present", base, |i| {
            i.xmp = Some(Vec::new())
        }),
        kind("empty main data", base, |i| i.main_data = Vec::new()),
    ]
}

/// Dimensions, orientations and subsamplings outside their fields.
fn numbers(bases: &Bases) -> Vec<Kind> {
    let Bases {
        smallest, gain_map, ..
    } = bases;
    let mut kinds = Vec::new();
    for n in [0, 32_769, u32::MAX] {
        kinds.push(kind(format!("width {n}"), smallest, move |i| i.width = n));
        kinds.push(kind(format!("height {n}"), smallest, move |i| i.height = n));
        kinds.push(of_gain_map(
            format!("gain-map width {n}"),
            gain_map,
            move |g| g.width = n,
        ));
        kinds.push(of_gain_map(
            format!("gain-map height {n}"),
            gain_map,
            move |g| g.height = n,
        ));
    }
    for n in [0, 9, 255] {
        kinds.push(kind(format!("orientation {n}"), smallest, move |i| {
            i.orientation = n
        }));
    }
    for n in [4, 255] {
        kinds.push(kind(format!("subsampling {n}"), smallest, move |i| {
            i.chroma.subsampling = n
        }));
        kinds.push(of_gain_map(
            format!("gain-map subsampling {n}"),
            gain_map,
            move |g| g.chroma.subsampling = n,
        ));
    }
    kinds
}

/// Sample formats outside their fields.
fn formats(bases: &Bases) -> Vec<Kind> {
    let integers = [0, 7, 17, 255].map(|bits| SampleFormat::Integer { bits });
    let floats = [0, 8, 15, 17, 33, 63, 65, 128].map(|bits| SampleFormat::Float { bits });
    let mut kinds = Vec::new();
    for format in integers.into_iter().chain(floats) {
        let name = match format.is_float() {
            true => format!("floats of {} bits", format.bits()),
            false => format!("integers of {} bits", format.bits()),
        };
        kinds.push(kind(name.clone(), &bases.smallest, move |i| {
            i.format = format
        }));
        kinds.push(of_gain_map(
            format!("{name} in a gain map"),
            &bases.gain_map,
            move |g| g.format = format,
        ));
    }
    kinds
}

/// Each chunk with one byte more than its long field can say.
fn long_chunks(bases: &Bases) -> Vec<Kind> {
    let Bases {
        smallest,
        alpha,
        gain_map,
    } = bases;
    let chunk = |len: usize| vec![0; len];
    let long = |name: &str, len: usize| format!("{name} of {len} bytes");
    let metadata = (1 << 20) + 1;
    let config = 1 << 12;
    let data = 1 << 28;
    vec![
        kind(long("ICC", metadata), smallest, move |i| {
            i.icc = Some(chunk(metadata))
        }),
        kind(long("Exif", metadata), smallest, move |i| {
            i.exif = Some(chunk(metadata))
        }),
        kind(long("XMP", metadata), smallest, move |i| {
            i.xmp = Some(chunk(metadata))
        }),
        of_gain_map(long("tone-map ICC", metadata), gain_map, move |g| {
            g.tmap_icc = Some(chunk(metadata))
        }),
        of_gain_map(
            long("gain-map metadata", metadata - 1),
            gain_map,
            move |g| g.metadata = chunk(metadata - 1),
        ),
        kind(long("main configuration", config), smallest, move |i| {
            i.main_codec_config = chunk(config)
        }),
        kind(long("alpha configuration", config), alpha, move |i| {
            i.alpha_codec_config = Some(chunk(config))
        }),
        of_gain_map(long("gain-map configuration", config), gain_map, move |g| {
            g.codec_config = Some(chunk(config))
        }),
        kind(long("main data", data + 1), smallest, move |i| {
            i.main_data = chunk(data + 1)
        }),
        kind(long("alpha data", data), alpha, move |i| {
            i.alpha_data = chunk(data)
        }),
        of_gain_map(long("gain-map data", data), gain_map, move |g| {
            g.data = chunk(data)
        }),
    ]
}
