//! `differences` beside the expanded files, on pairs made for each field and each rule.

use bustardcase::{Chunk, FileType, MinimizedImage, differences, expand, read};
use plan::{Alpha, Bodies, Chroma, Depth, GainMap, Hdr, NO_BODIES, PLAIN_CHROMA, Plan};

const AV1: [[u8; 4]; 2] = [*b"av01", *b"av1C"];

struct Picture {
    payload: Vec<u8>,
    image: MinimizedImage,
    file: Vec<u8>,
}

impl Picture {
    fn read(payload: Vec<u8>) -> Self {
        Picture {
            image: read(&payload).expect("it is accepted"),
            file: expand(&payload, &FileType::default()).expect("it expands"),
            payload,
        }
    }

    /// All bytes of all chunks are alike: chunks of equal length are equal.
    fn of(plan: &Plan) -> Self {
        let header = plan.header();
        let mut payload = header.bytes;
        payload.resize(payload.len() + header.chunks, 0xC0);
        Picture::read(payload)
    }

    /// With another last byte in a chunk.
    fn changed(&self, chunk: Chunk) -> Self {
        let mut payload = self.payload.clone();
        payload[chunk.at + chunk.len - 1] ^= 1;
        Picture::read(payload)
    }
}

/// Each field that differs, and whether that is carried. The files are equal exactly when none is, and neither
/// picture comes first.
fn found(a: &Picture, b: &Picture) -> Vec<(&'static str, bool)> {
    let told = |a: &Picture, b: &Picture| -> Vec<_> {
        let found = differences(&a.image, &a.payload, &b.image, &b.payload);
        found.iter().map(|d| (d.field, d.carried)).collect()
    };
    let found = told(a, b);
    assert_eq!(found, told(b, a));
    let none = found.iter().all(|(_, carried)| !carried);
    assert_eq!(a.file == b.file, none, "{found:?}");
    found
}

fn carried(a: &Picture, b: &Picture, fields: &[&'static str]) {
    let expected: Vec<_> = fields.iter().map(|field| (*field, true)).collect();
    assert_eq!(found(a, b), expected);
}

fn free(a: &Picture, b: &Picture, field: &'static str) {
    assert_eq!(found(a, b), [(field, false)]);
}

/// The differences of all pairs, each picture with itself too, are right as `found` has it. How many pairs have
/// equal files though something differs, and how many have different ones.
fn all_pairs(plans: &[Plan]) -> [usize; 2] {
    let pictures: Vec<Picture> = plans.iter().map(Picture::of).collect();
    let mut counts = [0; 2];
    for (i, a) in pictures.iter().enumerate() {
        assert_eq!(found(a, a), []);
        for b in &pictures[i + 1..] {
            let found = found(a, b);
            if a.file != b.file {
                counts[1] += 1;
            } else if !found.is_empty() {
                counts[0] += 1;
            }
        }
    }
    counts
}

/// The plan with a change.
fn with(plan: &Plan, change: impl FnOnce(&mut Plan)) -> Plan {
    let mut plan = plan.clone();
    change(&mut plan);
    plan
}

fn bodies_of(plan: &mut Plan) -> &mut Bodies {
    &mut plan.hdr.as_mut().expect("hdr").bodies
}

fn with_gain_map(plan: &Plan, change: impl FnOnce(&mut GainMap)) -> Plan {
    with(plan, |p| change(p.gain_map_mut().expect("a gain map")))
}

/// The smallest picture that expands.
fn typed() -> Plan {
    with(&Plan::smallest(), |p| p.types = Some(AV1))
}

fn chroma(subsampling: u32) -> Chroma {
    Chroma {
        subsampling,
        ..PLAIN_CHROMA
    }
}

fn alpha(data: u32, config: u32) -> Option<Alpha> {
    Some(Alpha {
        premultiplied: false,
        data,
        config,
    })
}

/// With colours of its own.
fn gain_map(data: u32, config: u32) -> GainMap {
    GainMap {
        dimensions: Some((8, 9)),
        matrix: 6,
        full_range: false,
        chroma: chroma(1),
        depth: Depth::Eight,
        tmap_icc: None,
        tmap_cicp: Some(([9, 16, 9], true)),
        tmap_bodies: NO_BODIES,
        metadata: 4,
        data,
        config,
    }
}

fn hdr(gain_map: Option<GainMap>) -> Option<Hdr> {
    let bodies = NO_BODIES;
    Some(Hdr { gain_map, bodies })
}

/// All six, the 'cclv' body with one value.
fn bodies() -> Bodies {
    let mut bodies = [4, 24, 5, 8, 20, 4].map(|len| Some(vec![0xC0; len]));
    bodies[2].as_mut().expect("'cclv'")[0] = 0x10;
    bodies
}

/// Everything there is: no chunk is empty, and no field has what the file would give if it were absent.
fn everything() -> Plan {
    let mut gain_map = gain_map(6, 3);
    gain_map.tmap_icc = Some(11);
    gain_map.tmap_bodies = bodies();
    Plan {
        full_range: true,
        depth: Depth::More(1),
        alpha: Some(Alpha {
            premultiplied: true,
            data: 5,
            config: 2,
        }),
        cicp: Some([9, 16, 9]),
        hdr: Some(Hdr {
            gain_map: Some(gain_map),
            bodies: bodies(),
        }),
        icc: Some(7),
        exif: Some(8),
        xmp: Some(9),
        compressed: true,
        chroma: chroma(1),
        width: 47,
        height: 31,
        main_config: 4,
        main_data: 10,
        ..typed()
    }
}

type Change = fn(&mut Plan);

/// A change of each field alone, by the fields' names.
const CHANGES: [(&str, Change); 27] = [
    ("explicit_codec_types.item_type", |p| {
        p.types = Some([*b"hvc1", AV1[1]])
    }),
    ("explicit_codec_types.config_type", |p| {
        p.types = Some([AV1[0], *b"hvcC"])
    }),
    ("format", |p| p.depth = Depth::Eight),
    ("format", |p| p.depth = Depth::Float(0)),
    ("full_range", |p| p.full_range = false),
    ("chroma", |p| p.chroma.subsampling = 3),
    ("chroma", |p| p.chroma.horizontal = true),
    ("chroma", |p| p.chroma.vertical = true),
    ("width", |p| p.width = 48),
    ("height", |p| p.height = 47),
    ("explicit_cicp", |p| p.cicp = None),
    ("explicit_cicp", |p| p.cicp = Some([10, 16, 9])),
    ("explicit_cicp", |p| p.cicp = Some([9, 17, 9])),
    ("explicit_cicp", |p| p.cicp = Some([9, 16, 10])),
    ("icc", |p| p.icc = None),
    ("icc", |p| p.icc = Some(6)),
    ("alpha_premultiplied", |p| {
        p.alpha.as_mut().expect("alpha").premultiplied = false
    }),
    ("main_codec_config", |p| p.main_config = 5),
    ("main_codec_config", |p| p.main_config = 0),
    ("main_data", |p| p.main_data = 11),
    ("alpha_codec_config", |p| {
        p.alpha.as_mut().expect("alpha").config = 1
    }),
    ("alpha_data", |p| p.alpha.as_mut().expect("alpha").data = 4),
    ("exif_xmp_compressed", |p| p.compressed = false),
    ("exif", |p| p.exif = None),
    ("exif", |p| p.exif = Some(9)),
    ("xmp", |p| p.xmp = None),
    ("xmp", |p| p.xmp = Some(8)),
];

type GainMapChange = fn(&mut GainMap);

/// The fields of a gain map's own item.
const ITEM_CHANGES: [(&str, GainMapChange); 9] = [
    ("gain_map.width", |g| g.dimensions = Some((9, 9))),
    ("gain_map.height", |g| g.dimensions = Some((8, 8))),
    ("gain_map.matrix_coefficients", |g| g.matrix = 2),
    ("gain_map.full_range", |g| g.full_range = true),
    ("gain_map.chroma", |g| g.chroma.subsampling = 0),
    ("gain_map.chroma", |g| g.chroma.horizontal = true),
    ("gain_map.chroma", |g| g.chroma.vertical = true),
    ("gain_map.format", |g| g.depth = Depth::More(0)),
    ("gain_map.format", |g| g.depth = Depth::Float(2)),
];

/// The others.
const TMAP_CHANGES: [(&str, GainMapChange); 8] = [
    ("gain_map.tmap_cicp", |g| g.tmap_cicp = None),
    ("gain_map.tmap_cicp", |g| {
        g.tmap_cicp = Some(([9, 16, 9], false))
    }),
    ("gain_map.tmap_cicp", |g| {
        g.tmap_cicp = Some(([1, 13, 6], true))
    }),
    ("gain_map.tmap_icc", |g| g.tmap_icc = None),
    ("gain_map.tmap_icc", |g| g.tmap_icc = Some(12)),
    ("gain_map.metadata", |g| g.metadata = 0),
    ("gain_map.codec_config", |g| g.config = 0),
    ("gain_map.data", |g| g.data = 7),
];

#[test]
fn each_field_alone_is_carried() {
    let plan = everything();
    let picture = Picture::of(&plan);
    for (field, change) in CHANGES {
        carried(&picture, &Picture::of(&with(&plan, change)), &[field]);
    }
    for (field, change) in ITEM_CHANGES.iter().chain(&TMAP_CHANGES) {
        let other = Picture::of(&with_gain_map(&plan, change));
        carried(&picture, &other, &[field]);
    }
    for orientation in 1..8 {
        let other = Picture::of(&with(&plan, |p| p.orientation = orientation));
        carried(&picture, &other, &["orientation"]);
    }
}

/// The names of each body, of the main picture and of the tone-mapped one.
const BODIES: [[&str; 2]; 6] = [
    ["hdr_boxes.clli", "gain_map.tmap_hdr.clli"],
    ["hdr_boxes.mdcv", "gain_map.tmap_hdr.mdcv"],
    ["hdr_boxes.cclv", "gain_map.tmap_hdr.cclv"],
    ["hdr_boxes.amve", "gain_map.tmap_hdr.amve"],
    ["hdr_boxes.reve", "gain_map.tmap_hdr.reve"],
    ["hdr_boxes.ndwt", "gain_map.tmap_hdr.ndwt"],
];

#[test]
fn each_hdr_body_is_carried() {
    let plan = everything();
    let picture = Picture::of(&plan);
    for (i, [main, tmap]) in BODIES.into_iter().enumerate() {
        for absent in [false, true] {
            let change = |bodies: &mut Bodies| match (absent, &mut bodies[i]) {
                (false, Some(body)) => *body.last_mut().expect("a byte") ^= 1,
                (_, body) => *body = None,
            };
            let of_main = with(&plan, |p| change(bodies_of(p)));
            carried(&picture, &Picture::of(&of_main), &[main]);
            let of_tmap = with_gain_map(&plan, |g| change(&mut g.tmap_bodies));
            carried(&picture, &Picture::of(&of_tmap), &[tmap]);
        }
    }
}

#[test]
fn each_chunk_is_compared_by_its_bytes() {
    let picture = Picture::of(&everything());
    let image = picture.image;
    let gain_map = image.gain_map.expect("a gain map");
    let chunks = [
        ("icc", image.icc),
        ("gain_map.tmap_icc", gain_map.tmap_icc),
        ("gain_map.metadata", Some(gain_map.metadata)),
        ("gain_map.codec_config", gain_map.codec_config),
        ("gain_map.data", Some(gain_map.data)),
        ("main_codec_config", Some(image.main_codec_config)),
        ("main_data", Some(image.main_data)),
        ("alpha_codec_config", image.alpha_codec_config),
        ("alpha_data", Some(image.alpha_data)),
        ("exif", image.exif),
        ("xmp", image.xmp),
    ];
    for (field, chunk) in chunks {
        let chunk = chunk.expect("it is there");
        carried(&picture, &picture.changed(chunk), &[field]);
    }
}

/// Long forms, and bytes after the last chunk, are no part of a record.
#[test]
fn other_forms_of_one_record() {
    let plan = everything();
    let picture = Picture::of(&plan);
    let wide = Picture::of(&with(&plan, |p| {
        p.wide.dimensions = true;
        p.wide.metadata = true;
        p.wide.config = true;
        p.wide.data = true;
    }));
    assert_ne!(picture.payload, wide.payload);
    assert_eq!(found(&picture, &wide), []);
    let longer = Picture::read([&picture.payload[..], b"tail"].concat());
    assert_eq!(found(&picture, &longer), []);
}

#[test]
fn alpha_and_the_gain_map_are_there_or_not() {
    let plan = everything();
    let picture = Picture::of(&plan);
    let opaque = Picture::of(&with(&plan, |p| p.alpha = None));
    let fields = [
        "alpha",
        "alpha_premultiplied",
        "alpha_codec_config",
        "alpha_data",
    ];
    carried(&picture, &opaque, &fields);
    // The fields of a gain map that one picture lacks are not told.
    let without = Picture::of(&with(&plan, |p| {
        p.hdr.as_mut().expect("hdr").gain_map = None
    }));
    carried(&picture, &without, &["gain_map"]);
}

#[test]
fn colours_are_explicit_or_inferred() {
    for icc in [None, Some(7)] {
        for subsampling in 0..4 {
            let plan = with(&typed(), |p| {
                (p.icc, p.chroma) = (icc, chroma(subsampling));
            });
            let inferred = Picture::of(&plan);
            let (primaries, transfer) = if icc.is_some() { (2, 2) } else { (1, 13) };
            let matrix = if subsampling == 0 { 2 } else { 6 };
            let explicit = |colours: [u8; 3]| Picture::of(&with(&plan, |p| p.cicp = Some(colours)));
            let equal = explicit([primaries, transfer, matrix]);
            free(&inferred, &equal, "explicit_cicp");
            for other in [
                [primaries + 1, transfer, matrix],
                [primaries, transfer + 1, matrix],
                [primaries, transfer, 8 - matrix],
            ] {
                carried(&inferred, &explicit(other), &["explicit_cicp"]);
                carried(&equal, &explicit(other), &["explicit_cicp"]);
            }
        }
    }
    // What is inferred differs, and the explicit colours are equal to one of the two.
    let grey = Picture::of(&typed());
    let with_icc = Picture::of(&with(&typed(), |p| p.icc = Some(7)));
    carried(&grey, &with_icc, &["icc"]);
    let explicit = with(&typed(), |p| {
        (p.icc, p.cicp) = (Some(7), Some([1, 13, 2]));
    });
    let fields = [("explicit_cicp", false), ("icc", true)];
    assert_eq!(found(&grey, &Picture::of(&explicit)), fields);
    carried(&with_icc, &Picture::of(&explicit), &["explicit_cicp"]);
}

#[test]
fn the_hdr_flag_alone() {
    let plain = Picture::of(&typed());
    let flag = with(&typed(), |p| p.hdr = hdr(None));
    free(&plain, &Picture::of(&flag), "hdr");
    for (i, [field, _]) in BODIES.into_iter().enumerate() {
        let body = with(&flag, |p| bodies_of(p)[i] = bodies()[i].clone());
        carried(&plain, &Picture::of(&body), &["hdr", field]);
        carried(&Picture::of(&flag), &Picture::of(&body), &[field]);
    }
    let map = with(&typed(), |p| p.hdr = hdr(Some(gain_map(0, 0))));
    carried(&plain, &Picture::of(&map), &["hdr", "gain_map"]);
}

/// Absent, equal to the main one, or another; 0 is absent, or for the main one empty.
#[test]
fn configurations_of_alpha_and_of_the_gain_map() {
    for main in [0, 2, 3] {
        let plan = with(&typed(), |p| {
            p.main_config = main;
            p.alpha = alpha(5, 0);
            p.hdr = hdr(Some(gain_map(6, 0)));
        });
        let of_alpha = |own| Picture::of(&with(&plan, |p| p.alpha = alpha(5, own)));
        let of_map = |own| Picture::of(&with_gain_map(&plan, |g| g.config = own));
        for a in [0, 2, 3, 4] {
            for b in [0, 2, 3, 4] {
                let is_free = main > 0 && [a, b].iter().all(|own| [0, main].contains(own));
                let expected = |field| match a == b {
                    true => Vec::new(),
                    false => vec![(field, !is_free)],
                };
                let found_of_alpha = found(&of_alpha(a), &of_alpha(b));
                assert_eq!(found_of_alpha, expected("alpha_codec_config"));
                let found_of_map = found(&of_map(a), &of_map(b));
                assert_eq!(found_of_map, expected("gain_map.codec_config"));
            }
        }
        // As long as the main one, and not equal.
        let absent = of_alpha(0);
        let own = of_alpha(2);
        let other = own.changed(own.image.alpha_codec_config.expect("it has one"));
        carried(&absent, &other, &["alpha_codec_config"]);
        carried(&own, &other, &["alpha_codec_config"]);
    }
}

/// Each takes its own record's main configuration, and these differ.
#[test]
fn configurations_beside_two_main_ones() {
    let of = |main, own| {
        Picture::of(&with(&typed(), |p| {
            p.main_config = main;
            p.alpha = alpha(5, own);
        }))
    };
    let fields = [("main_codec_config", true), ("alpha_codec_config", false)];
    assert_eq!(found(&of(2, 0), &of(3, 3)), fields);
    carried(&of(2, 0), &of(3, 0), &["main_codec_config"]);
    carried(
        &of(0, 0),
        &of(3, 3),
        &["main_codec_config", "alpha_codec_config"],
    );
}

#[test]
fn colours_of_a_tone_map() {
    let default = Some(([1, 13, 6], true));
    let others = [
        ([2, 13, 6], true),
        ([1, 12, 6], true),
        ([1, 13, 5], true),
        ([1, 13, 6], false),
    ];
    for data in [0, 6] {
        for icc in [None, Some(3)] {
            let of = |colours| {
                let mut gain_map = gain_map(data, 0);
                (gain_map.tmap_icc, gain_map.tmap_cicp) = (icc, colours);
                Picture::of(&with(&typed(), |p| p.hdr = hdr(Some(gain_map))))
            };
            match icc {
                None => free(&of(None), &of(default), "gain_map.tmap_cicp"),
                Some(_) => carried(&of(None), &of(default), &["gain_map.tmap_cicp"]),
            }
            for other in others {
                carried(&of(None), &of(Some(other)), &["gain_map.tmap_cicp"]);
                carried(&of(default), &of(Some(other)), &["gain_map.tmap_cicp"]);
            }
        }
    }
}

#[test]
fn a_gain_map_without_data() {
    let of = |data| with(&typed(), |p| p.hdr = hdr(Some(gain_map(data, 0))));
    let (empty, full) = (Picture::of(&of(0)), Picture::of(&of(6)));
    for (field, change) in ITEM_CHANGES {
        let other = Picture::of(&with_gain_map(&of(0), change));
        free(&empty, &other, field);
        carried(
            &full,
            &Picture::of(&with_gain_map(&of(6), change)),
            &[field],
        );
        carried(&full, &other, &[field, "gain_map.data"]);
    }
    // The size is the main picture's, and this differs.
    let taken = with_gain_map(&of(0), |g| g.dimensions = None);
    let wider = Picture::of(&with(&taken, |p| p.width = 5));
    let fields = [("width", true), ("gain_map.width", false)];
    assert_eq!(found(&Picture::of(&taken), &wider), fields);
}

#[test]
fn the_configuration_type() {
    let mut counts = [0; 2];
    let alphas = [None, alpha(5, 0), alpha(5, 2)];
    for main in [0, 2] {
        for alpha in alphas {
            for map in [None, Some((0, 0)), Some((6, 0)), Some((6, 3))] {
                let plan = with(&typed(), |p| {
                    p.main_config = main;
                    p.alpha = alpha;
                    p.hdr = hdr(map.map(|(data, config)| gain_map(data, config)));
                });
                let picture = Picture::of(&plan);
                let other = |types| Picture::of(&with(&plan, |p| p.types = Some(types)));
                let of_alpha = alpha.is_some_and(|alpha| alpha.config > 0);
                let of_map = map.is_some_and(|(_, config)| config > 0);
                let field = "explicit_codec_types.config_type";
                let is_carried = main > 0 || of_alpha || of_map;
                match is_carried {
                    true => carried(&picture, &other([AV1[0], *b"hvcC"]), &[field]),
                    false => free(&picture, &other([AV1[0], *b"hvcC"]), field),
                }
                counts[is_carried as usize] += 1;
                // The item type never is free.
                let field = "explicit_codec_types.item_type";
                carried(&picture, &other([*b"hvc1", AV1[1]]), &[field]);
            }
        }
    }
    assert_eq!(counts, [6, 18]);
}

/// The file always has the flag, whichever of the two it stands beside.
#[test]
fn the_compressed_flag() {
    for (exif, xmp) in [(Some(3), None), (None, Some(3)), (Some(3), Some(3))] {
        let of = |compressed| {
            Picture::of(&with(&typed(), |p| {
                (p.exif, p.xmp, p.compressed) = (exif, xmp, compressed);
            }))
        };
        carried(&of(false), &of(true), &["exif_xmp_compressed"]);
    }
}

/// Configurations of all three kinds, and their type.
#[test]
fn all_pairs_of_configurations() {
    let mut plans = Vec::new();
    let alphas = [None, alpha(5, 0), alpha(5, 2), alpha(5, 3)];
    let maps = [None, Some((0, 0)), Some((6, 0)), Some((6, 2)), Some((6, 3))];
    for main in [0, 2, 3] {
        for alpha in alphas {
            for map in maps {
                for config_type in [*b"av1C", *b"hvcC"] {
                    plans.push(with(&typed(), |p| {
                        p.types = Some([*b"av01", config_type]);
                        p.main_config = main;
                        p.alpha = alpha;
                        p.hdr = hdr(map.map(|(data, config)| gain_map(data, config)));
                    }));
                }
            }
        }
    }
    let [equal, different] = all_pairs(&plans);
    assert!(equal > 40 && different > 5000, "{equal} {different}");
}

/// Colours, ICC, chroma, hdr with and without bodies, and the colours of a tone map.
#[test]
fn all_pairs_of_colours() {
    let mut plans = Vec::new();
    let tmaps = [None, Some(([1, 13, 6], true)), Some(([1, 13, 6], false))];
    for cicp in [
        None,
        Some([1, 13, 2]),
        Some([1, 13, 6]),
        Some([2, 2, 2]),
        Some([2, 2, 6]),
    ] {
        for (icc, subsampling) in [(None, 0), (None, 1), (Some(0), 0), (Some(0), 3)] {
            let base = with(&typed(), |p| {
                (p.cicp, p.icc, p.chroma) = (cicp, icc, chroma(subsampling));
            });
            plans.push(base.clone());
            plans.push(with(&base, |p| p.hdr = hdr(None)));
            plans.push(with(&base, |p| {
                p.hdr = hdr(None);
                *bodies_of(p) = bodies();
            }));
            for tmap_cicp in tmaps {
                for (data, tmap_icc) in [(0, None), (0, Some(0)), (2, None)] {
                    let mut map = gain_map(data, 0);
                    (map.tmap_cicp, map.tmap_icc) = (tmap_cicp, tmap_icc);
                    plans.push(with(&base, |p| p.hdr = hdr(Some(map))));
                }
            }
        }
    }
    let [equal, different] = all_pairs(&plans);
    assert!(equal > 100 && different > 20_000, "{equal} {different}");
}

/// A pair of changes at a time, in a picture that has everything and in one whose gain map has no data.
#[test]
fn all_pairs_of_two_changes() {
    let empty = with_gain_map(&everything(), |g| (g.data, g.config) = (0, 0));
    let mut plans = Vec::new();
    for plan in [everything(), empty] {
        let first = CHANGES.iter().map(|(_, change)| with(&plan, change));
        let changes = ITEM_CHANGES.iter().chain(&TMAP_CHANGES);
        for changed in first.chain([plan.clone()]) {
            plans.push(changed.clone());
            plans.extend(
                changes
                    .clone()
                    .map(|(_, change)| with_gain_map(&changed, change)),
            );
        }
    }
    let [equal, different] = all_pairs(&plans);
    assert!(equal > 1000 && different > 100_000, "{equal} {different}");
}
