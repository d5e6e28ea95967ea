//! Where reading a payload breaks off, by the words of document 02, point 5. The supplied Rust names the bit in
//! some of its texts only, so the header's fields are listed here once more and read one bit at a time, with
//! nothing taken from the Rust or from ours:
//!
//! - under 5 to 7 it is the bit at which the field begins that was being read. A codec type is one field, and so
//!   is an HDR body, but for a 'cclv' body: its flags byte is one, what follows it another;
//! - under 8 the first trailing bit;
//! - under 9 the first byte, times 8, of the first chunk in stored order that ends past the payload.
//!
//! The chunks' places come from the sizes, one after another in stored order, and whether a chunk is there from
//! the flags, as document 01 has it: a configuration of alpha or of a gain map where its size is not 0.

/// Where reading a payload broke off.
#[derive(Clone, Copy, Debug, PartialEq, Eq)]
pub struct Break {
    /// The refusal's number, 5 to 9.
    pub number: u64,
    /// The bit that it carries.
    pub bit: u64,
    pub place: Place,
}

#[derive(Clone, Copy, Debug, PartialEq, Eq)]
pub enum Place {
    /// 5 to 8: in a part of the header, 1 to 12.
    Part(u8),
    /// 9: in a chunk, by its number (1 to 11, in the order in which sizes are given), its length, and how
    /// many bytes of it are missing.
    Chunk {
        number: u8,
        length: u64,
        missing: u64,
    },
}

#[derive(Clone, Debug, PartialEq, Eq)]
pub struct Walked {
    /// Where the parts of the header end, in bits; from the one on in which reading was refused, the bit
    /// of the refusal.
    pub ends: [u64; 12],
    /// The chunks as they lie, whether or not the payload has their bytes; none where reading was refused in the
    /// header.
    pub chunks: Option<[Placed; 11]>,
    /// None for a payload that is accepted.
    pub broken: Option<Break>,
}

/// A chunk's number, and its position and length in bytes where it is present.
pub type Placed = (u8, Option<(u64, u64)>);

/// The length of a diagnosis's layout.
pub const DIAGNOSIS_LEN: usize = 321;

/// How many bytes each chunk has there.
const ENTRY_LEN: usize = 18;

/// Reads a payload bit by bit.
pub fn walk(payload: &[u8]) -> Walked {
    let mut b = Bits { payload, at: 0 };
    let mut h = Header::default();
    let mut ends = [0; 12];
    for (i, read) in PARTS.iter().enumerate() {
        if let Err(Refused { number, bit }) = read(&mut b, &mut h) {
            ends[i..].fill(bit);
            let place = Place::Part(i as u8 + 1);
            return Walked {
                ends,
                chunks: None,
                broken: Some(Break { number, bit, place }),
            };
        }
        ends[i] = b.at;
    }
    let chunks = placed(h.sizes.stored(), b.at / 8);
    Walked {
        ends,
        chunks: Some(chunks),
        broken: first_missing(&chunks, payload.len() as u64),
    }
}

/// The chunks with their positions. The first of all begins at byte `at`.
fn placed(chunks: [(u8, Option<u64>); 11], mut at: u64) -> [Placed; 11] {
    chunks.map(|(number, length)| {
        let position = at;
        at += length.unwrap_or(0);
        (number, length.map(|length| (position, length)))
    })
}

/// The first chunk that ends past the payload.
fn first_missing(chunks: &[Placed], payload_len: u64) -> Option<Break> {
    for &(number, place) in chunks {
        let Some((position, length)) = place else {
            continue;
        };
        let end = position + length;
        if end > payload_len {
            let missing = end - payload_len;
            return Some(Break {
                number: 9,
                bit: position * 8,
                place: Place::Chunk {
                    number,
                    length,
                    missing,
                },
            });
        }
    }
    None
}

/// A refusal in the header: its number, and where the field begins that is refused.
struct Refused {
    number: u64,
    bit: u64,
}

fn refused<T>(number: u64, bit: u64) -> Result<T, Refused> {
    Err(Refused { number, bit })
}

struct Bits<'a> {
    payload: &'a [u8],
    /// The next bit.
    at: u64,
}

impl Bits<'_> {
    /// Reads a field of `n` bits. Of one that is longer than 64 bits the value is of no use.
    fn field(&mut self, n: u64) -> Result<u64, Refused> {
        let first = self.at;
        let mut value = 0;
        for _ in 0..n {
            let Some(byte) = self.payload.get((self.at / 8) as usize) else {
                return refused(5, first);
            };
            let bit = byte >> (7 - self.at % 8) & 1;
            value = value << 1 | bit as u64;
            self.at += 1;
        }
        Ok(value)
    }

    fn flag(&mut self) -> Result<bool, Refused> {
        Ok(self.field(1)? == 1)
    }

    /// Reads `n` bytes as one field.
    fn body(&mut self, n: u64) -> Result<(), Refused> {
        self.field(n * 8)?;
        Ok(())
    }
}

/// What later fields depend on.
#[derive(Default)]
struct Header {
    types: bool,
    float: bool,
    alpha: bool,
    cicp: bool,
    hdr: bool,
    icc: bool,
    exif: bool,
    xmp: bool,
    subsampling: u64,
    /// How many bits a width or height has.
    dimension: u64,
    gain_map: bool,
    tmap_icc: bool,
    sizes: Sizes,
}

/// The lengths of the chunks in bytes, where they are present.
#[derive(Default)]
struct Sizes {
    icc: Option<u64>,
    tmap_icc: Option<u64>,
    gain_map_metadata: Option<u64>,
    gain_map_data: Option<u64>,
    gain_map_config: Option<u64>,
    main_config: Option<u64>,
    main_data: Option<u64>,
    alpha_data: Option<u64>,
    alpha_config: Option<u64>,
    exif: Option<u64>,
    xmp: Option<u64>,
}

impl Sizes {
    /// The chunks as they lie, each with its number.
    fn stored(&self) -> [(u8, Option<u64>); 11] {
        [
            (6, self.main_config),
            (9, self.alpha_config),
            (5, self.gain_map_config),
            (1, self.icc),
            (2, self.tmap_icc),
            (3, self.gain_map_metadata),
            (8, self.alpha_data),
            (4, self.gain_map_data),
            (7, self.main_data),
            (10, self.exif),
            (11, self.xmp),
        ]
    }
}

/// Reads a part of the header.
type Part = fn(&mut Bits, &mut Header) -> Result<(), Refused>;

const PARTS: [Part; 12] = [
    flags, dimensions, chroma, format, alpha, cicp, types, gain_map, main_hdr, tmap_hdr, sizes,
    trailing,
];

fn flags(b: &mut Bits, h: &mut Header) -> Result<(), Refused> {
    let first = b.at;
    let version = b.field(2)?;
    if version != 0 {
        return refused(6, first);
    }
    h.types = b.flag()?;
    h.float = b.flag()?;
    b.flag()?; // full range
    h.alpha = b.flag()?;
    h.cicp = b.flag()?;
    h.hdr = b.flag()?;
    h.icc = b.flag()?;
    h.exif = b.flag()?;
    h.xmp = b.flag()?;
    h.subsampling = b.field(2)?;
    b.field(3)?; // orientation
    Ok(())
}

fn dimensions(b: &mut Bits, h: &mut Header) -> Result<(), Refused> {
    let large = b.flag()?;
    h.dimension = if large { 15 } else { 7 };
    b.field(h.dimension)?; // width
    b.field(h.dimension)?; // height
    Ok(())
}

fn chroma(b: &mut Bits, h: &mut Header) -> Result<(), Refused> {
    centring(b, h.subsampling)
}

fn format(b: &mut Bits, h: &mut Header) -> Result<(), Refused> {
    depth(b, h.float)
}

fn alpha(b: &mut Bits, h: &mut Header) -> Result<(), Refused> {
    if h.alpha {
        b.flag()?; // premultiplied
    }
    Ok(())
}

fn cicp(b: &mut Bits, h: &mut Header) -> Result<(), Refused> {
    if h.cicp {
        b.field(8)?; // primaries
        b.field(8)?; // transfer
        b.field(8)?; // matrix
    }
    Ok(())
}

fn types(b: &mut Bits, h: &mut Header) -> Result<(), Refused> {
    if h.types {
        b.field(32)?; // the item's
        b.field(32)?; // the configuration's
    }
    Ok(())
}

fn gain_map(b: &mut Bits, h: &mut Header) -> Result<(), Refused> {
    if !h.hdr {
        return Ok(());
    }
    h.gain_map = b.flag()?;
    if !h.gain_map {
        return Ok(());
    }
    let same_dimensions = b.flag()?;
    if !same_dimensions {
        b.field(h.dimension)?; // width
        b.field(h.dimension)?; // height
    }
    b.field(8)?; // matrix
    b.flag()?; // full range
    let subsampling = b.field(2)?;
    centring(b, subsampling)?;
    let float = b.flag()?;
    depth(b, float)?;
    h.tmap_icc = b.flag()?;
    let tmap_cicp = b.flag()?;
    if tmap_cicp {
        b.field(8)?; // primaries
        b.field(8)?; // transfer
        b.field(8)?; // matrix
        b.flag()?; // full range
    }
    Ok(())
}

fn main_hdr(b: &mut Bits, h: &mut Header) -> Result<(), Refused> {
    if h.hdr {
        bodies(b)?;
    }
    Ok(())
}

fn tmap_hdr(b: &mut Bits, h: &mut Header) -> Result<(), Refused> {
    if h.gain_map {
        bodies(b)?;
    }
    Ok(())
}

fn sizes(b: &mut Bits, h: &mut Header) -> Result<(), Refused> {
    let any_metadata = h.icc || h.exif || h.xmp || h.gain_map;
    let large_metadata = any_metadata && b.flag()?;
    let large_config = b.flag()?;
    let large_data = b.flag()?;
    let metadata = if large_metadata { 20 } else { 10 };
    let config = if large_config { 12 } else { 3 };
    let data = if large_data { 28 } else { 15 };
    let s = &mut h.sizes;
    if h.icc {
        s.icc = Some(b.field(metadata)? + 1);
    }
    if h.tmap_icc {
        s.tmap_icc = Some(b.field(metadata)? + 1);
    }
    if h.gain_map {
        s.gain_map_metadata = Some(b.field(metadata)?);
        s.gain_map_data = Some(b.field(data)?);
    }
    if s.gain_map_data > Some(0) {
        s.gain_map_config = unless_empty(b.field(config)?);
    }
    s.main_config = Some(b.field(config)?);
    s.main_data = Some(b.field(data)? + 1);
    if h.alpha {
        s.alpha_data = Some(b.field(data)?);
    }
    if s.alpha_data > Some(0) {
        s.alpha_config = unless_empty(b.field(config)?);
    }
    if h.exif || h.xmp {
        b.flag()?; // compressed
    }
    if h.exif {
        s.exif = Some(b.field(metadata)? + 1);
    }
    if h.xmp {
        s.xmp = Some(b.field(metadata)? + 1);
    }
    Ok(())
}

fn unless_empty(length: u64) -> Option<u64> {
    (length > 0).then_some(length)
}

fn trailing(b: &mut Bits, _: &mut Header) -> Result<(), Refused> {
    let first = b.at;
    let left = (8 - first % 8) % 8;
    if b.field(left)? != 0 {
        return refused(8, first);
    }
    Ok(())
}

fn centring(b: &mut Bits, subsampling: u64) -> Result<(), Refused> {
    if subsampling == 1 || subsampling == 2 {
        b.flag()?; // horizontally
    }
    if subsampling == 1 {
        b.flag()?; // vertically
    }
    Ok(())
}

fn depth(b: &mut Bits, float: bool) -> Result<(), Refused> {
    if float {
        let first = b.at;
        let code = b.field(2)?;
        if code == 3 {
            return refused(7, first);
        }
    } else {
        let more_than_8 = b.flag()?;
        if more_than_8 {
            b.field(3)?;
        }
    }
    Ok(())
}

/// The six flags, then the bodies.
fn bodies(b: &mut Bits) -> Result<(), Refused> {
    let clli = b.flag()?;
    let mdcv = b.flag()?;
    let cclv = b.flag()?;
    let amve = b.flag()?;
    let reve = b.flag()?;
    let ndwt = b.flag()?;
    if clli {
        b.body(4)?;
    }
    if mdcv {
        b.body(24)?;
    }
    if cclv {
        let flags = b.field(8)?;
        let primaries = if flags & 0x20 != 0 { 24 } else { 0 };
        let values = [0x10, 0x08, 0x04].map(|flag| if flags & flag != 0 { 4 } else { 0 });
        b.body(primaries + values.iter().sum::<u64>())?;
    }
    if amve {
        b.body(8)?;
    }
    if reve {
        b.body(20)?;
    }
    if ndwt {
        b.body(4)?;
    }
    Ok(())
}

impl Walked {
    /// Where the last chunk that is present ends, whether or not the payload has its bytes.
    pub fn chunks_end(&self) -> Option<u64> {
        let places = self.chunks.iter().flatten().filter_map(|(_, place)| *place);
        places.map(|(position, length)| position + length).max()
    }

    /// The diagnosis in the layout of the exported function.
    pub fn layout(&self) -> Vec<u8> {
        let mut out = Vec::with_capacity(DIAGNOSIS_LEN);
        let (number, bit) = self.broken.map_or((0, 0), |b| (b.number, b.bit));
        let (part, (chunk, length, missing)) = match self.broken.map(|b| b.place) {
            None => (0, (0, 0, 0)),
            Some(Place::Part(part)) => (part, (0, 0, 0)),
            Some(Place::Chunk {
                number,
                length,
                missing,
            }) => (0, (number, length, missing)),
        };
        out.push(number as u8);
        out.extend(bit.to_be_bytes());
        out.push(part);
        for end in self.ends {
            out.extend(end.to_be_bytes());
        }
        out.push(chunk);
        out.extend(length.to_be_bytes());
        out.extend(missing.to_be_bytes());
        match self.chunks {
            Some(chunks) => chunks.iter().for_each(|chunk| put_entry(&mut out, chunk)),
            None => out.resize(out.len() + 11 * ENTRY_LEN, 0),
        }
        assert_eq!(out.len(), DIAGNOSIS_LEN);
        out
    }
}

/// The number, whether it is present, position and length.
fn put_entry(out: &mut Vec<u8>, &(number, place): &Placed) {
    let (position, length) = place.unwrap_or((0, 0));
    out.push(number);
    out.push(place.is_some() as u8);
    out.extend(position.to_be_bytes());
    out.extend(length.to_be_bytes());
}

#[cfg(test)]
mod tests {
    use super::*;
    use crate::hex::hex;
    use crate::outlining::{Outline, outline};
    use crate::payloads::{heavy, payload_of, structured, with_every_chunk};
    use crate::reading::{Reading, read};
    use crate::refusal::{PLACES, is_body, named_bit};
    use upstream::mini::MinimizedImage;

    /// The number, the bit and the part of the header.
    fn in_header(payload: &[u8]) -> (u64, u64, u8) {
        match walk(payload).broken {
            Some(Break {
                number,
                bit,
                place: Place::Part(part),
            }) => (number, bit, part),
            other => panic!("{}: {other:?}", hex(payload)),
        }
    }

    /// The bit, and the chunk's number, length and missing bytes.
    fn in_chunk(payload: &[u8]) -> (u64, u8, u64, u64) {
        match walk(payload).broken {
            Some(Break {
                number: 9,
                bit,
                place:
                    Place::Chunk {
                        number,
                        length,
                        missing,
                    },
            }) => (bit, number, length, missing),
            other => panic!("{}: {other:?}", hex(payload)),
        }
    }

    #[test]
    fn a_field_of_the_header_is_missing_or_refused() {
        assert_eq!(in_header(&[]), (5, 0, 1));
        assert_eq!(in_header(&[0x40]), (6, 0, 1));
        // The ICC flag is the first in its byte.
        assert_eq!(in_header(&[0]), (5, 8, 1));
        // The large-dimensions flag; a height of 7 bits; a width of 15.
        assert_eq!(in_header(&[0, 0]), (5, 16, 2));
        assert_eq!(in_header(&[0, 0, 0]), (5, 24, 2));
        assert_eq!(in_header(&[0, 0, 0x80]), (5, 17, 2));
        // Subsampling 1: vertical centring.
        assert_eq!(in_header(&[0, 0x08, 0, 0]), (5, 32, 3));
        // A float depth code, cut between its bits and with both; the three bits of an integer depth.
        assert_eq!(in_header(&[0x10, 0, 0, 0x01]), (5, 31, 4));
        assert_eq!(in_header(&[0x10, 0, 0, 0x01, 0x80]), (7, 31, 4));
        assert_eq!(in_header(&[0, 0, 0, 0x01]), (5, 32, 4));
        assert_eq!(in_header(&[0x04, 0, 0, 0]), (5, 32, 5));
        // The third number of the colours.
        assert_eq!(in_header(&[0x02, 0, 0, 0, 1, 13]), (5, 48, 6));
        // The length of the main data.
        assert_eq!(in_header(&[0; 5]), (5, 37, 11));
        // The last four bits of the header.
        assert_eq!(in_header(&[0, 0, 0, 0, 0, 0, 0x01, 0xaa]), (8, 52, 12));
    }

    #[test]
    fn a_codec_type_is_one_field() {
        let payload = b"\x20\0\0\0av01av1C\0\0\0\xaa";
        for len in 4..8 {
            assert_eq!(in_header(&payload[..len]), (5, 32, 7));
        }
        for len in 8..12 {
            assert_eq!(in_header(&payload[..len]), (5, 64, 7));
        }
        assert_eq!(walk(payload).broken, None);
    }

    #[test]
    fn an_hdr_body_is_one_field_but_for_cclv() {
        // 'clli' lies in bits 39 to 70, then come the two flags before the sizes.
        let clli = [0x01, 0, 0, 0, 0x40, 0, 0, 0, 0];
        for len in 5..9 {
            assert_eq!(in_header(&clli[..len]), (5, 39, 9));
        }
        assert_eq!(in_header(&clli), (5, 72, 11));
        // The flags byte of 'cclv' lies in bits 39 to 46, its remainder of 4 bytes in 47 to 78.
        let cclv = [0x01, 0, 0, 0, 0x10, 0x08, 0, 0, 0, 0];
        assert_eq!(in_header(&cclv[..5]), (5, 39, 9));
        for len in 6..10 {
            assert_eq!(in_header(&cclv[..len]), (5, 47, 9));
        }
        // No remainder: the next to be missing is the second flag before the sizes.
        assert_eq!(in_header(&[0x01, 0, 0, 0, 0x10, 0]), (5, 48, 11));
    }

    #[test]
    fn a_gain_map_has_fields_and_bodies_too() {
        // Its flag; its width; its matrix, as its size is the main picture's.
        assert_eq!(in_header(&[0x01, 0, 0, 0]), (5, 32, 8));
        assert_eq!(in_header(&[0x01, 0, 0, 0, 0x80]), (5, 34, 8));
        assert_eq!(in_header(&[0x01, 0, 0, 0, 0xc0]), (5, 34, 8));
        assert_eq!(in_header(&[0x01, 0, 0, 0, 0xc0, 0x07]), (7, 46, 8));
        // The second of the tone map's six flags.
        let walked = walk(&[0x01, 0, 0, 0, 0xc0, 0, 0]);
        let place = Place::Part(10);
        let broken = Break {
            number: 5,
            bit: 56,
            place,
        };
        assert_eq!(walked.broken, Some(broken));
        let ends = [16, 31, 31, 32, 32, 32, 32, 49, 55, 56, 56, 56];
        assert_eq!(walked.ends, ends);
    }

    #[test]
    fn a_chunk_ends_past_the_payload() {
        assert_eq!(in_chunk(&[0; 7]), (56, 7, 1, 1));
        assert_eq!(in_chunk(&[0, 0, 0, 0, 0, 0, 0x10, 0xaa]), (56, 7, 2, 1));
        // A main configuration of two bytes, then the main data.
        let payload = [0, 0, 0, 0, 0x10, 0, 0, 0xc1, 0xc2];
        assert_eq!(in_chunk(&payload[..7]), (56, 6, 2, 2));
        assert_eq!(in_chunk(&payload[..8]), (56, 6, 2, 1));
        assert_eq!(in_chunk(&payload), (72, 7, 1, 1));
        // Three bytes of alpha data, which lies before the main data.
        let payload = [0x04, 0, 0, 0, 0, 0, 0x20, 0, 0x30, 0xa1, 0xa2];
        assert_eq!(in_chunk(&payload), (72, 8, 3, 1));
    }

    #[test]
    fn the_ends_of_the_parts_stop_at_the_refusal() {
        let ends = [16, 31, 31, 32, 32, 32, 32, 32, 32, 32, 52, 56];
        for payload in [&[0, 0, 0, 0, 0, 0, 0, 0xaa][..], &[0; 10]] {
            let walked = walk(payload);
            assert_eq!((walked.ends, walked.broken), (ends, None));
        }
        assert_eq!(walk(&[0; 7]).ends, ends);
        let [.., last] = walk(&[0, 0, 0, 0, 0, 0, 0x01, 0xaa]).ends;
        assert_eq!(last, 52);
        let mut ends = [31; 12];
        ends[0] = 16;
        assert_eq!(walk(&[0x10, 0, 0, 0x01]).ends, ends);
        assert_eq!(walk(&[0x10, 0, 0, 0x01, 0x80]).ends, ends);
        assert_eq!(walk(&[]).ends, [0; 12]);
    }

    /// The chunks that are present, by their numbers, with position and length.
    fn present(payload: &[u8]) -> Vec<(u8, u64, u64)> {
        let chunks = walk(payload).chunks.expect("the header is accepted");
        let numbers = chunks.map(|(number, _)| number);
        assert_eq!(numbers, [6, 9, 5, 1, 2, 3, 8, 4, 7, 10, 11]);
        let present = |(number, place): Placed| place.map(|(at, len)| (number, at, len));
        chunks.into_iter().filter_map(present).collect()
    }

    #[test]
    fn the_chunks_are_placed_though_they_are_cut() {
        assert_eq!(walk(&[0; 6]).chunks, None);
        assert_eq!(walk(&[0, 0, 0, 0, 0, 0, 0x01, 0xaa]).chunks, None);
        // Main configuration and main data.
        for payload in [&[0; 7][..], &[0, 0, 0, 0, 0, 0, 0, 0xaa], &[0; 20]] {
            assert_eq!(present(payload), [(6, 7, 0), (7, 7, 1)]);
        }
        // Alpha without data, and so without a configuration.
        let alpha = present(&[0x04, 0, 0, 0, 0, 0, 0, 0, 0]);
        assert_eq!(alpha, [(6, 9, 0), (8, 9, 0), (7, 9, 1)]);
        // Alpha with three bytes of data, and a configuration of size 0.
        let alpha = present(&[0x04, 0, 0, 0, 0, 0, 0x20, 0, 0x30]);
        assert_eq!(alpha, [(6, 9, 0), (8, 9, 3), (7, 12, 5)]);
        // A gain map with neither metadata nor data.
        let gain_map = present(&[0x01, 0, 0, 0, 0xc0, 0, 0, 0, 0, 0, 0, 0, 0, 0]);
        assert_eq!(gain_map, [(6, 14, 0), (3, 14, 0), (4, 14, 0), (7, 14, 1)]);
    }

    /// How many payloads were compared.
    #[derive(Debug, Default)]
    struct Compared {
        accepted: u32,
        /// By the numbers 5 to 9.
        refused: [u32; 5],
        /// In how many the Rust's text has a bit.
        bits: u32,
    }

    impl Compared {
        /// Compares with all that the supplied Rust tells. What a refusal's text has, `read` compares.
        fn compare(&mut self, payload: &[u8]) {
            match read(payload) {
                Ok(Reading::Accepted(_)) => {
                    let outline = outlined(payload);
                    let walked = walk(payload);
                    let ends = outline.ends.map(|end| end as u64);
                    assert_eq!(walked.ends, ends, "{}", hex(payload));
                    assert_eq!(walked.chunks, Some(chunks(&outline)), "{}", hex(payload));
                    self.accepted += 1;
                }
                Ok(Reading::Refused(refused)) => {
                    self.refused[refused.number() as usize - 5] += 1;
                    let error = MinimizedImage::parse(payload).expect_err("it is refused");
                    let named = named_bit(&error).is_some();
                    // docs/DIFFERENCES.md, 11.
                    let place = PLACES[refused.place];
                    let expected = place.number == 5 && !is_body(place.name);
                    assert_eq!(named, expected, "{error}");
                    self.bits += named as u32;
                }
                Err(message) => panic!("{}: {message}", hex(payload)),
            }
        }
    }

    fn outlined(payload: &[u8]) -> Outline {
        match read(payload) {
            Ok(Reading::Accepted(accepted)) => outline(payload, &accepted).expect("an outline"),
            _ => panic!("{} is refused", hex(payload)),
        }
    }

    fn chunks(outline: &Outline) -> [Placed; 11] {
        outline.as_stored.map(|(number, span)| {
            let place = span.map(|(at, len)| (at as u64, len as u64));
            (number, place)
        })
    }

    #[test]
    fn what_the_supplied_rust_tells_is_the_same() {
        let mut compared = Compared::default();
        for plan in [heavy(5), with_every_chunk()] {
            let mut payload = payload_of(&plan);
            for len in 0..=payload.len() {
                compared.compare(&payload[..len]);
            }
            for at in 0..payload.len() * 8 {
                payload[at / 8] ^= 0x80 >> (at % 8);
                compared.compare(&payload);
                payload[at / 8] ^= 0x80 >> (at % 8);
            }
        }
        let visited = structured(20_000, &mut |case| {
            compared.compare(case.payload);
            Ok(())
        });
        assert_eq!(visited, Ok(()));
        // The comparison is worth something only where every kind occurs often.
        let often = compared.accepted > 10_000
            && compared.refused.iter().all(|&count| count > 1_000)
            && compared.bits > 5_000;
        assert!(often, "{compared:?}");
    }

    /// A cut breaks off in the part, or in the chunk, that ends past it in the outline of the whole.
    #[test]
    fn every_cut_breaks_off_where_the_outline_says() {
        for plan in [heavy(5), with_every_chunk()] {
            let payload = payload_of(&plan);
            let outline = outlined(&payload);
            let ends = outline.ends.map(|end| end as u64);
            for len in 0..payload.len() {
                let walked = walk(&payload[..len]);
                let broken = walked.broken.expect("a break");
                let bits = len as u64 * 8;
                let Some(part) = ends.iter().position(|&end| end > bits) else {
                    assert_eq!(walked.ends, ends);
                    assert_eq!(walked.chunks, Some(chunks(&outline)));
                    assert_eq!(broken, first_cut(&outline, len));
                    continue;
                };
                assert_eq!(walked.chunks, None);
                assert_eq!(broken.number, 5);
                assert_eq!(broken.place, Place::Part(part as u8 + 1));
                let begins = if part == 0 { 0 } else { ends[part - 1] };
                assert!((begins..=bits).contains(&broken.bit));
                assert_eq!(walked.ends[..part], ends[..part]);
                assert!(walked.ends[part..].iter().all(|&end| end == broken.bit));
            }
        }
    }

    /// A cut among the bodies carries the first bit of the field that it falls into.
    #[test]
    fn every_cut_among_the_bodies_breaks_off_at_its_field() {
        // The six flags, 'clli', 'mdcv', the flags byte of 'cclv', its remainder, 'amve', 'reve', 'ndwt'.
        const FIELDS: [u64; 13] = [1, 1, 1, 1, 1, 1, 32, 192, 8, 288, 64, 160, 32];
        let payload = payload_of(&heavy(5));
        let ends = outlined(&payload).ends.map(|end| end as u64);
        for (part, begins) in [(9, ends[7]), (10, ends[8])] {
            let mut at = begins;
            for n in FIELDS {
                for len in at.div_ceil(8)..(at + n).div_ceil(8) {
                    assert_eq!(in_header(&payload[..len as usize]), (5, at, part));
                }
                at += n;
            }
            assert_eq!(at, ends[part as usize - 1]);
        }
    }

    /// The break at the first chunk that ends past `len` bytes.
    fn first_cut(outline: &Outline, len: usize) -> Break {
        let mut chunks = outline.as_stored.into_iter();
        let cut = chunks.find_map(|(number, span)| {
            let (position, length) = span?;
            let missing = (position + length).checked_sub(len)?;
            let place = Place::Chunk {
                number,
                length: length as u64,
                missing: missing as u64,
            };
            (missing > 0).then_some(Break {
                number: 9,
                bit: position as u64 * 8,
                place,
            })
        });
        cut.expect("a chunk is cut")
    }
}
