//! Payloads on which readings are compared.

use crate::box_cases::zeros;
use crate::plan::{
    Alpha, Bodies, CONFIG, Chroma, DATA, DIMENSION, Depth, GainMap, Hdr, Limit, METADATA,
    NO_BODIES, PLAIN_CHROMA, Plan, Wide,
};
use crate::random::Random;

const SEED: u64 = 0x6275_7374_6172_6432;

/// A payload, and what its maker knows of it.
#[derive(Clone, Copy, Default)]
pub struct Case<'a> {
    pub payload: &'a [u8],
    /// The header's length, for a payload that must be accepted.
    pub sound: Option<usize>,
    /// Which long forms are taken without need: dimensions, metadata, configuration, data.
    pub wide: [bool; 4],
}

/// Takes a case; an error ends the run.
pub type Visit<'a> = dyn FnMut(Case) -> Result<(), String> + 'a;

fn plain(payload: &[u8]) -> Case<'_> {
    Case {
        payload,
        ..Case::default()
    }
}

/// Every payload of 0, 1 and 2 bytes.
pub fn shortest(visit: &mut Visit) -> Result<(), String> {
    visit(plain(&[]))?;
    for first in 0..=255 {
        visit(plain(&[first]))?;
        for second in 0..=255 {
            visit(plain(&[first, second]))?;
        }
    }
    Ok(())
}

/// The first 24 bits with the given value, over a tail of 64 zero bytes.
pub fn first_bits(value: u32, visit: &mut Visit) -> Result<(), String> {
    let mut payload = [0; 3 + 64];
    payload[..3].copy_from_slice(&value.to_be_bytes()[1..]);
    visit(plain(&payload))
}

/// `count` payloads of 24 bits spread evenly, with version 0, over a random tail of 0 to 80 bytes,
/// mostly zeros in half of them.
pub fn random_tails(count: u32, visit: &mut Visit) -> Result<(), String> {
    let mut r = Random::new(SEED ^ 1);
    for i in 0..count {
        let value = (i as u64 * (1 << 24) / count as u64) as u32;
        let mut payload = vec![0; 3 + r.below(81) as usize];
        r.fill(&mut payload);
        if r.flag() {
            payload
                .iter_mut()
                .for_each(|b| *b = if r.once_in(8) { *b } else { 0 });
        }
        payload[..3].copy_from_slice(&value.to_be_bytes()[1..]);
        payload[0] &= 0x3f;
        visit(plain(&payload))?;
    }
    Ok(())
}

/// `count` random headers with their chunks, each also truncated, with bytes after it, and with one
/// bit flipped.
pub fn structured(count: u64, visit: &mut Visit) -> Result<(), String> {
    let mut r = Random::new(SEED);
    for _ in 0..count {
        let plan = random_plan(&mut r);
        variants(&mut r, &plan, visit)?;
    }
    Ok(())
}

fn variants(r: &mut Random, plan: &Plan, visit: &mut Visit) -> Result<(), String> {
    let header = plan.header();
    let header_len = header.bytes.len();
    let is_sound = plan.is_sound() && !header.dirty;
    let mut payload = header.bytes;
    let len = header_len + header.chunks;
    payload.resize(len + r.pick(&[1, 2, 8, 70]), 0);
    r.fill(&mut payload[header_len..]);
    let case = |payload| Case {
        payload,
        sound: is_sound.then_some(header_len),
        wide: plan.wide_without_need(),
    };
    visit(case(&payload[..len]))?;
    visit(case(&payload))?;
    visit(plain(&payload[..cut(r, header_len, len)]))?;
    let kept = r.pick(&[len, len, payload.len()]);
    flip(r, header_len, &mut payload[..kept]);
    visit(plain(&payload[..kept]))
}

/// Where to cut a payload: in its header, in its chunks, or one byte before an end.
fn cut(r: &mut Random, header_len: usize, len: usize) -> usize {
    match r.below(8) {
        0..=3 => r.below(header_len as u64) as usize,
        4..=5 => r.within(header_len as u64, len as u64 - 1) as usize,
        6 => len - 1,
        _ => header_len - 1,
    }
}

/// Flips a bit, mostly of the header.
fn flip(r: &mut Random, header_len: usize, payload: &mut [u8]) {
    let among = if r.once_in(8) {
        payload.len()
    } else {
        header_len
    };
    let at = r.below(among as u64 * 8) as usize;
    payload[at / 8] ^= 1 << (at % 8);
}

pub fn random_plan(r: &mut Random) -> Plan {
    Plan {
        version: if r.once_in(64) {
            r.within(1, 3) as u32
        } else {
            0
        },
        types: maybe(r, |r| {
            [r.word() as u32, r.word() as u32].map(u32::to_be_bytes)
        }),
        full_range: r.flag(),
        depth: random_depth(r),
        alpha: maybe(r, random_alpha),
        cicp: maybe(r, three),
        hdr: maybe(r, random_hdr),
        icc: maybe(r, |r| random_size(r, METADATA)),
        exif: maybe(r, |r| random_size(r, METADATA)),
        xmp: maybe(r, |r| random_size(r, METADATA)),
        compressed: r.flag(),
        chroma: random_chroma(r),
        orientation: r.below(8) as u32,
        width: random_dimension(r),
        height: random_dimension(r),
        main_config: random_size(r, CONFIG),
        main_data: random_size(r, DATA),
        wide: Wide {
            dimensions: r.once_in(4),
            metadata: r.once_in(4),
            config: r.once_in(4),
            data: r.once_in(4),
        },
        padding: if r.once_in(32) { r.word() as u32 } else { 0 },
    }
}

fn maybe<T>(r: &mut Random, make: impl FnOnce(&mut Random) -> T) -> Option<T> {
    r.flag().then(|| make(r))
}

fn three(r: &mut Random) -> [u8; 3] {
    let mut bytes = [0; 3];
    r.fill(&mut bytes);
    bytes
}

fn random_depth(r: &mut Random) -> Depth {
    match r.below(3) {
        0 => Depth::Eight,
        1 => Depth::More(r.below(8) as u32),
        _ if r.once_in(16) => Depth::Float(3),
        _ => Depth::Float(r.below(3) as u32),
    }
}

fn random_chroma(r: &mut Random) -> Chroma {
    Chroma {
        subsampling: r.below(4) as u32,
        horizontal: r.flag(),
        vertical: r.flag(),
    }
}

fn random_alpha(r: &mut Random) -> Alpha {
    Alpha {
        premultiplied: r.flag(),
        data: random_size(r, DATA),
        config: random_size(r, CONFIG),
    }
}

fn random_hdr(r: &mut Random) -> Hdr {
    Hdr {
        gain_map: maybe(r, random_gain_map),
        bodies: random_bodies(r),
    }
}

fn random_gain_map(r: &mut Random) -> GainMap {
    GainMap {
        dimensions: maybe(r, |r| (random_dimension(r), random_dimension(r))),
        matrix: r.word() as u8,
        full_range: r.flag(),
        chroma: random_chroma(r),
        depth: random_depth(r),
        tmap_icc: maybe(r, |r| random_size(r, METADATA)),
        tmap_cicp: maybe(r, |r| (three(r), r.flag())),
        tmap_bodies: random_bodies(r),
        metadata: random_size(r, METADATA),
        data: random_size(r, DATA),
        config: random_size(r, CONFIG),
    }
}

/// No body, one, or any.
fn random_bodies(r: &mut Random) -> Bodies {
    let present = match r.below(8) {
        0 => 0,
        1 => 1 << r.below(6),
        2 => 63,
        _ => r.below(64),
    };
    let flags = r.word() as u8;
    let mut bodies = [4, 24, cclv_len(flags), 8, 20, 4].map(|len| Some(random_bytes(r, len)));
    if let Some(cclv) = &mut bodies[2] {
        cclv[0] = flags;
    }
    for (i, body) in bodies.iter_mut().enumerate() {
        if present >> i & 1 == 0 {
            *body = None;
        }
    }
    bodies
}

/// The length of a 'cclv' body by its first byte.
pub fn cclv_len(flags: u8) -> usize {
    let values = (flags & 0x1c).count_ones() as usize;
    1 + 4 * values + if flags & 0x20 != 0 { 24 } else { 0 }
}

fn random_bytes(r: &mut Random, len: usize) -> Vec<u8> {
    let mut bytes = vec![0; len];
    r.fill(&mut bytes);
    bytes
}

fn random_dimension(r: &mut Random) -> u32 {
    let short = DIMENSION.short();
    let long = DIMENSION.long();
    match r.below(8) {
        0 => 0,
        1 => short - r.below(2) as u32,
        2 => short + 1 + r.below(2) as u32,
        3 => long - r.below(2) as u32,
        4 => r.below(long as u64 + 1) as u32,
        _ => r.below(short as u64 + 1) as u32,
    }
}

/// Mostly small; at times at the limit of the short form, seldom for data.
fn random_size(r: &mut Random, limit: Limit) -> u32 {
    let at_limit = if limit.short() > 2_000 { 300 } else { 60 };
    if r.once_in(at_limit) {
        return limit.short() - 1 + r.below(4) as u32;
    }
    match r.below(8) {
        0..=2 => 0,
        3..=6 => r.below(8) as u32,
        _ => r.below(41) as u32,
    }
}

/// A number of the header that has a short and a long form.
struct Sized {
    limit: Limit,
    set: fn(&mut Plan, u32),
}

/// Every such number. The ones of the gain map and of alpha need these to be there.
const SIZED: [Sized; 15] = [
    sized(DIMENSION, |p, n| p.width = n),
    sized(DIMENSION, |p, n| p.height = n),
    sized(DIMENSION, |p, n| gain_map(p).dimensions = Some((n, 0))),
    sized(DIMENSION, |p, n| gain_map(p).dimensions = Some((0, n))),
    sized(METADATA, |p, n| p.icc = Some(n)),
    sized(METADATA, |p, n| gain_map(p).tmap_icc = Some(n)),
    sized(METADATA, |p, n| gain_map(p).metadata = n),
    sized(METADATA, |p, n| p.exif = Some(n)),
    sized(METADATA, |p, n| p.xmp = Some(n)),
    sized(CONFIG, |p, n| p.main_config = n),
    sized(CONFIG, |p, n| alpha(p).config = n),
    sized(CONFIG, |p, n| gain_map(p).config = n),
    sized(DATA, |p, n| p.main_data = n),
    sized(DATA, |p, n| alpha(p).data = n),
    sized(DATA, |p, n| gain_map(p).data = n),
];

const fn sized(limit: Limit, set: fn(&mut Plan, u32)) -> Sized {
    Sized { limit, set }
}

fn alpha(plan: &mut Plan) -> &mut Alpha {
    plan.alpha.as_mut().expect("the plan has alpha")
}

fn gain_map(plan: &mut Plan) -> &mut GainMap {
    plan.gain_map_mut().expect("the plan has a gain map")
}

/// Each number that has two forms at and around the limits of both, in a plan with every chunk:
/// exact, one byte short, and one longer. The longest payloads are made only where there is room
/// for them: then the answer is true.
pub fn limits(visit: &mut Visit) -> Result<bool, String> {
    let Some(mut room) = zeros((1 << 28) + (1 << 16)) else {
        return Ok(false);
    };
    for number in SIZED {
        let (short, long) = (number.limit.short(), number.limit.long());
        for n in [short - 1, short, short + 1, long - 1, long] {
            let mut plan = with_every_chunk();
            (number.set)(&mut plan, n);
            at_limit(&plan, &mut room, visit)?;
        }
    }
    Ok(true)
}

/// With every chunk, each number that has two forms once as great as can be.
pub fn greatest_plans() -> Vec<Plan> {
    let plan = |number: Sized| {
        let mut plan = with_every_chunk();
        (number.set)(&mut plan, number.limit.long());
        plan
    };
    SIZED.map(plan).to_vec()
}

/// Puts one number that has two forms near the limit of the short one. For that the plan gets alpha and
/// a gain map, both with data.
pub fn put_near_limit(r: &mut Random, plan: &mut Plan) {
    let alpha = plan.alpha.get_or_insert(Alpha {
        premultiplied: false,
        data: 1,
        config: 0,
    });
    alpha.data = alpha.data.max(1);
    let hdr = plan.hdr.get_or_insert(Hdr {
        gain_map: None,
        bodies: NO_BODIES,
    });
    let gain_map = hdr.gain_map.get_or_insert(plain_gain_map());
    gain_map.data = gain_map.data.max(1);
    let number = &SIZED[r.below(SIZED.len() as u64) as usize];
    (number.set)(plan, number.limit.short() - 1 + r.below(4) as u32);
}

fn at_limit(plan: &Plan, room: &mut [u8], visit: &mut Visit) -> Result<(), String> {
    let header = plan.header();
    let header_len = header.bytes.len();
    let len = header_len + header.chunks;
    room[..header_len].copy_from_slice(&header.bytes);
    for payload in [&room[..len], &room[..len + 1]] {
        visit(Case {
            payload,
            sound: Some(header_len),
            wide: plan.wide_without_need(),
        })?;
    }
    visit(plain(&room[..len - 1]))?;
    room[..header_len].fill(0);
    Ok(())
}

/// Alpha, a gain map and every chunk, each of one or two bytes.
pub fn with_every_chunk() -> Plan {
    let gain_map = GainMap {
        tmap_icc: Some(1),
        metadata: 2,
        data: 1,
        config: 2,
        ..plain_gain_map()
    };
    Plan {
        alpha: Some(Alpha {
            premultiplied: true,
            data: 2,
            config: 1,
        }),
        hdr: Some(Hdr {
            gain_map: Some(gain_map),
            bodies: NO_BODIES,
        }),
        icc: Some(0),
        exif: Some(1),
        xmp: Some(0),
        main_config: 1,
        main_data: 1,
        ..Plan::smallest()
    }
}

/// A gain map of the main picture's size with nothing in it.
pub fn plain_gain_map() -> GainMap {
    GainMap {
        dimensions: None,
        matrix: 0,
        full_range: false,
        chroma: PLAIN_CHROMA,
        depth: Depth::Eight,
        tmap_icc: None,
        tmap_cicp: None,
        tmap_bodies: NO_BODIES,
        metadata: 0,
        data: 0,
        config: 0,
    }
}

/// A header with every HDR body, a gain map and every option, over small chunks; `main_data` bytes
/// of main data.
pub fn heavy(main_data: u32) -> Plan {
    let mut plan = with_every_chunk();
    let bodies = [4, 24, 37, 8, 20, 4].map(|len| Some(vec![0x3c; len]));
    plan.types = Some([*b"av01", *b"av1C"]);
    plan.cicp = Some([9, 16, 9]);
    plan.depth = Depth::More(1);
    plan.chroma.subsampling = 1;
    plan.width = 1919;
    plan.height = 1079;
    plan.main_data = main_data - 1;
    gain_map(&mut plan).tmap_cicp = Some(([12, 16, 9], true));
    gain_map(&mut plan).dimensions = Some((959, 539));
    gain_map(&mut plan).tmap_bodies = bodies.clone();
    if let Some(hdr) = &mut plan.hdr {
        hdr.bodies = bodies;
    }
    plan
}

/// The plan's payload, with bytes in its chunks that differ from place to place.
pub fn payload_of(plan: &Plan) -> Vec<u8> {
    let header = plan.header();
    let mut payload = header.bytes;
    payload.extend((0..header.chunks).map(|i| (0xaa + i * 3) as u8));
    payload
}
