//! Payloads and files.

/// 1 by 1, one byte of main data.
pub const SMALLEST: &[u8] = b"\0\0\0\0\0\0\0\xAA";

/// The same with large dimensions, without need.
pub const TEN: &[u8] = b"\0\0\x80\0\0\0\0\0\0\xAA";

/// With explicit codec types.
pub const TYPED: &[u8] = b"\x20\0\0\0av01av1C\0\0\0\xAA";

/// With alpha: its size is given after that of the main data `AA`, and its byte `BB` comes first.
pub const ALPHA: &[u8] = b"\x04\0\0\0\0\0\0\0\x10\xBB\xAA";

/// The body of an 'ftyp' box: minor version 7, two brands, one of which cannot be printed as it is.
pub const FTYP: &[u8] = b"mif3\0\0\0\x07mif3a\x01\"\xFF";

pub fn boxed(box_type: &[u8; 4], body: &[u8]) -> Vec<u8> {
    let size = (8 + body.len()) as u32;
    [&size.to_be_bytes()[..], box_type, body].concat()
}

/// A file of 'ftyp' and 'mini'.
pub fn file(ftyp: &[u8], payload: &[u8]) -> Vec<u8> {
    [boxed(b"ftyp", ftyp), boxed(b"mini", payload)].concat()
}

/// Bits, put one after another.
#[derive(Default)]
pub struct Bits(Vec<bool>);

impl Bits {
    pub fn put(mut self, count: u32, value: u32) -> Self {
        self.0.extend((0..count).rev().map(|i| value >> i & 1 == 1));
        self
    }

    pub fn bytes(self, bytes: &[u8]) -> Self {
        bytes.iter().fold(self, |bits, b| bits.put(8, *b as u32))
    }

    /// Filled up with zeros to whole bytes.
    pub fn done(mut self) -> Vec<u8> {
        self.0.resize(self.0.len().next_multiple_of(8), false);
        let byte = |bits: &[bool]| bits.iter().fold(0, |byte, bit| byte << 1 | *bit as u8);
        self.0.chunks(8).map(byte).collect()
    }
}

/// A picture of main data only, or of Exif too, with large dimensions.
pub fn picture(width: u32, height: u32, float: bool, exif: bool) -> Vec<u8> {
    let mut bits = Bits::default()
        .put(2, 0)
        .put(1, 0)
        .put(1, float as u32)
        .put(5, 0)
        .put(1, exif as u32)
        .put(6, 0)
        .put(1, 1)
        .put(15, width - 1)
        .put(15, height - 1)
        .put(if float { 2 } else { 1 }, 0);
    if exif {
        bits = bits.put(1, 0);
    }
    bits = bits.put(2, 0).put(3, 0).put(15, 0);
    if exif {
        bits = bits.put(1, 0).put(10, 2);
    }
    let mut payload = bits.done();
    payload.extend(if exif { &b"\xAAEXI"[..] } else { b"\xAA" });
    payload
}

/// The payload under another orientation than 1: the low bits of its second byte.
pub fn oriented(orientation: u8, mut payload: Vec<u8>) -> Vec<u8> {
    payload[1] |= orientation - 1;
    payload
}

/// A payload with every flag, every HDR body, a gain map and every chunk, each of another length. The
/// long forms are taken without need, and `tail` follows the last chunk.
pub fn everything(main_data: u32, tail: &[u8]) -> Vec<u8> {
    let mut bits = Bits::default()
        // Version; nine flags; subsampling; orientation.
        .put(2, 0)
        .put(9, 0x1FF)
        .put(2, 1)
        .put(3, 5)
        // Large dimensions; centring; floats of 32 bits; premultiplied.
        .put(1, 1)
        .put(15, 1919)
        .put(15, 1079)
        .put(2, 0b10)
        .put(2, 1)
        .put(1, 1)
        .bytes(&[9, 16, 0])
        .bytes(b"av01av1C")
        // A gain map with its own dimensions.
        .put(2, 0b10)
        .put(15, 959)
        .put(15, 539)
        .bytes(&[6])
        .put(1, 1)
        .put(2, 2)
        .put(1, 1)
        .put(1, 0)
        .put(4, 0b1010)
        .put(2, 0b11)
        .bytes(&[12, 13, 14])
        .put(1, 1);
    for first in [0x10, 0x80] {
        bits = bodies(bits, first);
    }
    let mut payload = bits
        .put(3, 0b111)
        // ICC, tone map ICC, gain-map metadata, data, configuration.
        .put(20, 19)
        .put(20, 29)
        .put(20, 40)
        .put(28, 50)
        .put(12, 3)
        // Main configuration and data; alpha data and configuration.
        .put(12, 1)
        .put(28, main_data - 1)
        .put(28, 70)
        .put(12, 2)
        // Compressed; Exif, XMP.
        .put(1, 1)
        .put(20, 79)
        .put(20, 9)
        .done();
    let chunks = 20 + 30 + 40 + 50 + 3 + 1 + main_data + 70 + 2 + 80 + 10;
    payload.extend((0..chunks).map(|i| i as u8));
    payload.extend(tail);
    payload
}

/// All six HDR bodies; 'cclv' with two of its values.
fn bodies(bits: Bits, first: u8) -> Bits {
    let filled = |len: u8, add: u8| (0..len).map(|i| first + add + i).collect::<Vec<u8>>();
    let mut cclv = filled(9, 2);
    cclv[0] = 0x18;
    bits.put(6, 63)
        .bytes(&filled(4, 0))
        .bytes(&filled(24, 1))
        .bytes(&cclv)
        .bytes(&filled(8, 3))
        .bytes(&filled(20, 4))
        .bytes(&filled(4, 5))
}
