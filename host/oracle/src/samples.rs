//! A short list of payloads, to be recorded: those of document 01, one feature at a time, and two that are cut
//! everywhere, one with every chunk and one with fields of several bytes.

use crate::payloads::{cclv_len, payload_of, plain_gain_map, with_every_chunk};
use crate::plan::{Alpha, Chroma, Depth, GainMap, Hdr, NO_BODIES, Plan};

/// The payloads of document 01.
const PAPER: [&[u8]; 10] = [
    &[],
    &[0x40],
    &[0x10, 0, 0, 1, 0x80],
    &[0, 0, 0, 0, 0, 0, 0, 0xaa],
    &[0, 0, 0, 0, 0, 0, 0],
    &[0, 0, 0, 0, 0, 0, 1, 0xaa],
    &[0, 0, 0, 0, 0, 0, 0x10, 0xaa],
    &[0, 0, 0, 0, 0, 0, 0, 0xaa, 0xff, 0xff],
    &[0, 0, 0x80, 0, 0, 0, 0, 0, 0, 0xaa],
    b"\x20\0\0\0av01av1C\0\0\0\xaa",
];

type Edit = fn(&mut Plan);

/// One feature each, set in the smallest payload.
const EDITS: [Edit; 49] = [
    |p| p.version = 1,
    |p| p.version = 3,
    |p| p.types = Some([*b"hvc1", *b"hvcC"]),
    |p| p.full_range = true,
    |p| p.depth = Depth::More(0),
    |p| p.depth = Depth::More(7),
    |p| p.depth = Depth::Float(0),
    |p| p.depth = Depth::Float(1),
    |p| p.depth = Depth::Float(2),
    |p| p.depth = Depth::Float(3),
    |p| p.cicp = Some([9, 16, 255]),
    |p| p.chroma = chroma(1, false, false),
    |p| p.chroma = chroma(1, true, false),
    |p| p.chroma = chroma(1, false, true),
    |p| p.chroma = chroma(2, false, false),
    |p| p.chroma = chroma(2, true, false),
    |p| p.chroma = chroma(3, false, false),
    |p| p.orientation = 1,
    |p| p.orientation = 4,
    |p| p.orientation = 7,
    |p| p.width = 127,
    |p| p.width = 128,
    |p| p.height = 127,
    |p| p.height = 128,
    |p| (p.width, p.height) = (32_767, 32_766),
    |p| p.alpha = alpha(false, 0, 0),
    |p| p.alpha = alpha(true, 0, 0),
    |p| p.alpha = alpha(false, 3, 0),
    |p| p.alpha = alpha(true, 2, 3),
    |p| p.icc = Some(0),
    |p| p.icc = Some(4),
    |p| p.exif = Some(0),
    |p| p.exif = Some(3),
    |p| p.xmp = Some(2),
    |p| (p.xmp, p.compressed) = (Some(0), true),
    |p| (p.exif, p.xmp) = (Some(1), Some(2)),
    |p| (p.exif, p.icc, p.compressed) = (Some(1), Some(2), true),
    |p| p.main_config = 1,
    |p| p.main_config = 7,
    |p| p.main_config = 8,
    |p| p.main_data = 9,
    |p| p.wide.dimensions = true,
    |p| p.wide.config = true,
    |p| p.wide.data = true,
    |p| (p.icc, p.wide.metadata) = (Some(1), true),
    |p| (p.alpha, p.wide.data) = (alpha(false, 1, 0), true),
    |p| p.padding = 1,
    |p| p.padding = 8,
    |p| p.hdr = Some(hdr(None)),
];

/// One feature each, set in the smallest gain map.
const GAIN_MAP_EDITS: [fn(&mut GainMap); 20] = [
    |_| {},
    |g| g.dimensions = Some((0, 0)),
    |g| g.dimensions = Some((127, 5)),
    |g| g.dimensions = Some((5, 128)),
    |g| g.matrix = 0xa5,
    |g| g.full_range = true,
    |g| g.chroma = chroma(1, true, false),
    |g| g.chroma = chroma(1, false, true),
    |g| g.chroma = chroma(2, true, false),
    |g| g.chroma = chroma(3, false, false),
    |g| g.depth = Depth::More(3),
    |g| g.depth = Depth::Float(2),
    |g| g.depth = Depth::Float(3),
    |g| g.tmap_icc = Some(2),
    |g| g.tmap_cicp = Some(([1, 13, 6], false)),
    |g| g.tmap_cicp = Some(([9, 16, 0], true)),
    |g| g.metadata = 3,
    |g| g.data = 2,
    |g| (g.data, g.config) = (2, 3),
    |g| (g.data, g.config) = (1, 9),
];

fn chroma(subsampling: u32, horizontal: bool, vertical: bool) -> Chroma {
    Chroma {
        subsampling,
        horizontal,
        vertical,
    }
}

fn alpha(premultiplied: bool, data: u32, config: u32) -> Option<Alpha> {
    Some(Alpha {
        premultiplied,
        data,
        config,
    })
}

fn hdr(gain_map: Option<GainMap>) -> Hdr {
    Hdr {
        gain_map,
        bodies: NO_BODIES,
    }
}

/// Every payload of the list, in order.
pub fn payloads() -> Vec<Vec<u8>> {
    let mut all: Vec<Vec<u8>> = PAPER.iter().map(|p| p.to_vec()).collect();
    for edit in EDITS {
        let mut plan = Plan::smallest();
        edit(&mut plan);
        all.push(payload_of(&plan));
    }
    for edit in GAIN_MAP_EDITS {
        let mut gain_map = plain_gain_map();
        edit(&mut gain_map);
        all.push(payload_of(&with_hdr(hdr(Some(gain_map)))));
    }
    bodies(&mut all);
    for plan in [with_every_chunk(), with_long_fields()] {
        let whole = payload_of(&plan);
        all.extend((0..=whole.len()).map(|len| whole[..len].to_vec()));
    }
    all
}

/// Both codec types, and for the picture and the tone map 'clli' and a 'cclv' whose flags byte brings four bytes.
fn with_long_fields() -> Plan {
    let mut main = hdr(None);
    main.bodies[0] = Some(body(0, 0));
    main.bodies[2] = Some(body(2, 0x08));
    let mut gain_map = plain_gain_map();
    gain_map.tmap_bodies = main.bodies.clone();
    main.gain_map = Some(gain_map);
    Plan {
        types: Some([*b"av01", *b"av1C"]),
        ..with_hdr(main)
    }
}

fn with_hdr(hdr: Hdr) -> Plan {
    Plan {
        hdr: Some(hdr),
        ..Plan::smallest()
    }
}

/// Each HDR body alone, 'cclv' in its lengths, all six, and the same for the tone map.
fn bodies(all: &mut Vec<Vec<u8>>) {
    for (place, flags) in [(0, 0), (1, 0), (3, 0), (4, 0), (5, 0)] {
        one_body(all, place, flags);
    }
    for flags in [0, 0xc3, 0x04, 0x08, 0x10, 0x20, 0x3c] {
        one_body(all, 2, flags);
    }
    let six = [0, 1, 2, 3, 4, 5].map(|place| Some(body(place, 0x3c)));
    let mut main = hdr(None);
    main.bodies = six.clone();
    let mut gain_map = plain_gain_map();
    gain_map.tmap_bodies = six;
    for hdr in [main, hdr(Some(gain_map))] {
        let payload = payload_of(&with_hdr(hdr));
        all.push(payload[..payload.len() - 9].to_vec());
        all.push(payload);
    }
}

/// The body for the picture, and for the tone map of a gain map.
fn one_body(all: &mut Vec<Vec<u8>>, place: usize, flags: u8) {
    let mut main = hdr(None);
    main.bodies[place] = Some(body(place, flags));
    let mut gain_map = plain_gain_map();
    gain_map.tmap_bodies[place] = Some(body(place, flags));
    for hdr in [main, hdr(Some(gain_map))] {
        all.push(payload_of(&with_hdr(hdr)));
    }
}

fn body(place: usize, flags: u8) -> Vec<u8> {
    let len = [4, 24, cclv_len(flags), 8, 20, 4][place];
    let mut body: Vec<u8> = (0..len).map(|i| (place * 50 + i + 1) as u8).collect();
    if place == 2 {
        body[0] = flags;
    }
    body
}
