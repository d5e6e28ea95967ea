//! Buffers and starts on which box headers are compared.

use crate::random::Random;

/// Takes a buffer and a start; an error ends the run.
pub type Visit<'a> = dyn FnMut(&[u8], usize) -> Result<(), String> + 'a;

const SEED: u64 = 0x6275_7374_6172_6431;
const LONGEST: usize = 48;
const LAST_START: usize = 50;

/// A header to be put into a buffer. The largesize is put only where the size is 1.
#[derive(Clone, Copy)]
pub struct Fields {
    pub size: u32,
    pub box_type: [u8; 4],
    pub largesize: u64,
}

/// Puts the header's bytes at `start`, as many as the buffer holds.
pub fn put(buf: &mut [u8], start: usize, fields: Fields) {
    let mut bytes = fields.size.to_be_bytes().to_vec();
    bytes.extend(fields.box_type);
    if fields.size == 1 {
        bytes.extend(fields.largesize.to_be_bytes());
    }
    let room = buf.get_mut(start..).unwrap_or_default();
    for (to, from) in room.iter_mut().zip(bytes) {
        *to = from;
    }
}

/// Bytes that differ from place to place.
pub fn filler(len: usize) -> Vec<u8> {
    (0..len).map(|i| (i * 37 + 11) as u8).collect()
}

/// All size fields 0 to 40, with largesizes around every limit, for 'uuid' and another type, in
/// buffers of 0 to 48 bytes, at every start from 0 to 50.
pub fn grid(visit: &mut Visit) -> Result<(), String> {
    for box_type in [*b"uuid", *b"free"] {
        for size in 0..=40 {
            for largesize in largesizes_for(size) {
                let fields = Fields {
                    size,
                    box_type,
                    largesize,
                };
                every_place(fields, LAST_START, visit)?;
            }
        }
    }
    Ok(())
}

/// Size fields far above the buffer.
pub fn large_sizes(visit: &mut Visit) -> Result<(), String> {
    let mut sizes: Vec<u32> = (41..=60).chain(u32::MAX - 60..=u32::MAX).collect();
    for shift in [8, 16, 24, 31] {
        for low in [0, 1, 7, 8, 16, 24, 32, 40] {
            sizes.push((1 << shift) + low);
        }
    }
    for box_type in [*b"uuid", *b"free"] {
        for &size in &sizes {
            let fields = Fields {
                size,
                box_type,
                largesize: 0,
            };
            every_place(fields, LAST_START, visit)?;
        }
    }
    Ok(())
}

/// Types that differ from 'uuid' in one bit.
pub fn near_types(visit: &mut Visit) -> Result<(), String> {
    for bit in 0..32 {
        let box_type = (u32::from_be_bytes(*b"uuid") ^ (1 << bit)).to_be_bytes();
        for size in [0, 1, 8, 16, 23, 24, 25, 31, 32, 33] {
            let fields = Fields {
                size,
                box_type,
                largesize: 31,
            };
            every_place(fields, 8, visit)?;
        }
    }
    Ok(())
}

/// Starts near the largest usize and near other powers of two.
pub fn far_starts(visit: &mut Visit) -> Result<(), String> {
    let edges = [
        usize::MAX - 60,
        (1 << 63) - 30,
        (1 << 32) - 30,
        (1 << 31) - 30,
    ];
    for len in 0..=LONGEST {
        let mut buf = filler(len);
        for size in [0, 1, 8, 24] {
            let fields = Fields {
                size,
                box_type: *b"uuid",
                largesize: 16,
            };
            put(&mut buf, 0, fields);
            for edge in edges {
                for start in edge..=edge + 60 {
                    visit(&buf, start)?;
                }
            }
        }
    }
    Ok(())
}

/// Buffers so long that each byte of a size counts. The longest is made only where there is room
/// for it: then the answer is true.
pub fn long_buffers(visit: &mut Visit) -> Result<bool, String> {
    for len in [300, 70_000, (1 << 24) + 100] {
        long_buffer(&mut vec![0; len], visit)?;
    }
    match zeros((1 << 32) + 100) {
        Some(mut buf) => long_buffer(&mut buf, visit).map(|()| true),
        None => Ok(false),
    }
}

fn long_buffer(buf: &mut [u8], visit: &mut Visit) -> Result<(), String> {
    for start in [0, 1, 50, buf.len() - 40, buf.len() - 8] {
        let left = (buf.len() - start) as u64;
        for total in left - 3..=left + 3 {
            for box_type in [*b"uuid", *b"free"] {
                let long = Fields {
                    size: 1,
                    box_type,
                    largesize: total,
                };
                put(buf, start, long);
                visit(buf, start)?;
                for size in [total as u32, u32::MAX] {
                    put(buf, start, Fields { size, ..long });
                    visit(buf, start)?;
                }
            }
        }
        buf[start..].iter_mut().take(16).for_each(|b| *b = 0);
    }
    Ok(())
}

/// Zero bytes whose pages are taken only when used, if the system gives that many.
pub fn zeros(len: usize) -> Option<Vec<u8>> {
    let layout = std::alloc::Layout::array::<u8>(len).ok()?;
    // SAFETY: the layout is not empty where `len` is not, and the vector takes over exactly the
    // bytes that the allocator gave for it.
    unsafe {
        let start = std::alloc::alloc_zeroed(layout);
        (len > 0 && !start.is_null()).then(|| Vec::from_raw_parts(start, len, len))
    }
}

/// `count` random buffers and starts, most with a header whose size lies near a limit.
pub fn random(count: u64, visit: &mut Visit) -> Result<(), String> {
    let mut r = Random::new(SEED);
    for _ in 0..count {
        let (buf, start) = random_case(&mut r);
        visit(&buf, start)?;
    }
    Ok(())
}

fn random_case(r: &mut Random) -> (Vec<u8>, usize) {
    let len = r.pick(&[12, 48, 48, 200]);
    let mut buf = vec![0; r.below(len + 1) as usize];
    r.fill(&mut buf);
    let start = random_start(r, buf.len());
    if !r.once_in(16) {
        let fields = random_fields(r, buf.len().saturating_sub(start) as u64);
        put(&mut buf, start, fields);
        // A start inside the header, or a little after it.
        if r.once_in(8) {
            return (buf, start.wrapping_add(r.below(24) as usize));
        }
    }
    (buf, start)
}

fn random_start(r: &mut Random, len: usize) -> usize {
    match r.below(16) {
        0..=4 => 0,
        5..=11 => r.below(len as u64 + 1) as usize,
        12 => len.saturating_sub(r.below(40) as usize),
        13 => len + r.below(20) as usize,
        14 => usize::MAX - r.below(40) as usize,
        _ => r.word() as usize,
    }
}

fn random_fields(r: &mut Random, left: u64) -> Fields {
    let other = (r.word() as u32).to_be_bytes();
    Fields {
        size: match r.below(8) {
            0 => 0,
            1..=3 => 1,
            _ => random_size(r, left) as u32,
        },
        box_type: r.pick(&[*b"uuid", *b"free", other]),
        largesize: random_size(r, left),
    }
}

fn random_size(r: &mut Random, left: u64) -> u64 {
    match r.below(10) {
        0..=3 => (left + r.below(3)).saturating_sub(1),
        4 => r.pick(&[7, 8, 9, 15, 16, 17, 23, 24, 25, 31, 32, 33]),
        5..=6 => r.below(left + 1),
        7 => r.below(41),
        8 => left + (r.word() << 32 >> r.below(32)),
        _ => r.word(),
    }
}

fn every_place(fields: Fields, last_start: usize, visit: &mut Visit) -> Result<(), String> {
    for len in 0..=LONGEST {
        for start in 0..=last_start {
            let mut buf = filler(len);
            put(&mut buf, start, fields);
            visit(&buf, start)?;
        }
    }
    Ok(())
}

/// The largesizes to try beside a size field: only one where none is stored.
fn largesizes_for(size: u32) -> Vec<u64> {
    if size == 1 { largesizes() } else { vec![0] }
}

/// 0 to 40, around 2^32, 2^63 and 2^64, and small numbers with one high byte set.
fn largesizes() -> Vec<u64> {
    let mut all: Vec<u64> = (0..=40).collect();
    all.extend((1 << 32) - 8..=(1 << 32) + 48);
    all.extend((1 << 63) - 8..=(1 << 63) + 48);
    all.extend(u64::MAX - 64..=u64::MAX);
    for byte in 1..8 {
        for low in [0, 8, 15, 16, 17, 24, 31, 32, 33, 40] {
            all.push((1 << (8 * byte)) + low);
        }
    }
    all
}

/// A short list that meets every outcome and every limit, to be recorded.
pub fn sample(visit: &mut Visit) -> Result<(), String> {
    for box_type in [*b"uuid", *b"free"] {
        for size in [0, 2, 7, 8, 9, 16, 23, 24, 25, 39, 40, 41, 256, u32::MAX] {
            sample_case(40, 0, size, box_type, 0, visit)?;
        }
        for largesize in sample_largesizes() {
            sample_case(40, 0, 1, box_type, largesize, visit)?;
        }
        for len in [0, 1, 7, 8, 15, 16, 23, 24, 31, 32] {
            sample_case(len, 0, 0, box_type, 0, visit)?;
            sample_case(len, 0, 1, box_type, len as u64, visit)?;
        }
        for size in [0, 7, 8, 23, 24, 35, 36] {
            sample_case(40, 5, size, box_type, 0, visit)?;
        }
    }
    sample_starts(visit)
}

fn sample_largesizes() -> Vec<u64> {
    let mut all = vec![0, 1, 15, 16, 17, 31, 32, 33, 39, 40, 41];
    all.extend([(1 << 32) + 16, (1 << 32) + 40, (1 << 63) + 32, u64::MAX]);
    all
}

fn sample_case(
    len: usize,
    start: usize,
    size: u32,
    box_type: [u8; 4],
    largesize: u64,
    visit: &mut Visit,
) -> Result<(), String> {
    let mut buf = filler(len);
    let fields = Fields {
        size,
        box_type,
        largesize,
    };
    put(&mut buf, start, fields);
    visit(&buf, start)
}

/// One buffer of two boxes, one after the other, from many starts.
fn sample_starts(visit: &mut Visit) -> Result<(), String> {
    let mut buf = filler(44);
    let outer = Fields {
        size: 12,
        box_type: *b"skip",
        largesize: 0,
    };
    let inner = Fields {
        size: 32,
        box_type: *b"uuid",
        largesize: 0,
    };
    put(&mut buf, 0, outer);
    put(&mut buf, 12, inner);
    let near = [0, 1, 4, 11, 12, 13, 35, 36, 37, 43, 44, 45];
    let far = [
        (1 << 32) + 12,
        1 << 63,
        usize::MAX - 8,
        usize::MAX - 7,
        usize::MAX,
    ];
    for start in near.into_iter().chain(far) {
        visit(&buf, start)?;
    }
    Ok(())
}
