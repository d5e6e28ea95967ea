//! Refusals.

use std::error::Error;
use std::fmt;

/// Why something could not be done: one of the numbers of docs/ABI.md, under exactly its condition. The
/// refusals of reading, 5 to 9, come with the bit of the payload at which it broke off, counted from 0, the
/// high bit of a byte first; [`diagnose`](crate::diagnose) says what stands there.
///
/// ```
/// use bustardcase::Refusal;
///
/// // The payload ends behind the width: the height would have begun at bit 24.
/// let refusal = bustardcase::read(&[0, 0, 0]).unwrap_err();
/// assert_eq!(refusal, Refusal::HeaderCut { bit: 24 });
/// assert_eq!(refusal.number(), 5);
/// assert_eq!(refusal.bit(), Some(24));
///
/// let refusal = bustardcase::read(&[0x40]).unwrap_err();
/// assert_eq!(refusal.to_string(), "refusal 6: the version is not 0; at bit 0");
/// ```
#[derive(Clone, Copy, Debug, PartialEq, Eq, Hash)]
#[non_exhaustive]
pub enum Refusal {
    /// 1: there are fewer than 8 bytes for a box header.
    BoxHeaderCut,
    /// 2: a box has size 1, and fewer than 16 bytes remain.
    LargeSizeCut,
    /// 3: a box's size is 2 to 7, or its largesize below 16, or either beyond the bytes that remain.
    BoxSize,
    /// 4: a 'uuid' box ends before its 16-byte extended type does.
    ExtendedTypeCut,
    /// 5: a header field, or a body among the HDR boxes, needs bits past the end.
    HeaderCut {
        /// Where the field begins.
        bit: u64,
    },
    /// 6: the version is not 0.
    Version {
        /// Where the version begins: 0.
        bit: u64,
    },
    /// 7: the two-bit float depth code is 3.
    FloatDepth {
        /// Where the code begins.
        bit: u64,
    },
    /// 8: the bits up to the byte boundary after the header aren't all zero.
    TrailingBits {
        /// The first of them.
        bit: u64,
    },
    /// 9: a chunk, taken in stored order, ends past the payload.
    ChunkPastEnd {
        /// Where the chunk would begin: its first byte times 8.
        bit: u64,
    },
    /// 10: a present chunk's position plus length exceeds the lent source. No function of this crate
    /// gives it: each writes only what it has just read.
    ChunkPastSource,
    /// 11: no payload reads to this record. No function of this crate gives it, as for 10.
    NotWritable,
    /// 12: alpha is set and the alpha data is empty.
    EmptyAlpha,
    /// 13: an explicit codec type is 'uuid'.
    UuidCodecType,
    /// 14: there are no explicit codec types.
    NoCodecTypes,
    /// 15: the brands of the original file type aren't a multiple of 4 bytes, or are over 4,096 bytes.
    Brands,
    /// 16: the output is shorter than the result. Only the functions of [`raw`](crate::raw) give it.
    ShortOutput,
    /// 17: no record with explicit codec types expands to the file under the original file type.
    NotAnExpansion,
    /// 28: the payload of an 'ftyp' box is no original file type. It has fewer than 8 bytes, or its
    /// brands aren't a multiple of 4 bytes or are over 4,096 bytes.
    NotAFileType,
    /// Any other number: the library linked is newer than this crate.
    Unknown(u32),
}

pub const SHORT_OUTPUT: Refusal = Refusal::ShortOutput;

/// Every refusal at bit 0, with its number and its condition.
const KNOWN: [(u32, Refusal, &str); 18] = [
    (
        1,
        Refusal::BoxHeaderCut,
        "fewer than 8 bytes are left for a box header",
    ),
    (
        2,
        Refusal::LargeSizeCut,
        "a box has size 1, and fewer than 16 bytes remain",
    ),
    (
        3,
        Refusal::BoxSize,
        "a box's size is 2 to 7, its largesize below 16, or either beyond the bytes that remain",
    ),
    (
        4,
        Refusal::ExtendedTypeCut,
        "a 'uuid' box ends before its 16-byte extended type does",
    ),
    (
        5,
        Refusal::HeaderCut { bit: 0 },
        "a header field, or a body among the HDR boxes, needs bits past the end",
    ),
    (6, Refusal::Version { bit: 0 }, "the version is not 0"),
    (
        7,
        Refusal::FloatDepth { bit: 0 },
        "the two-bit float depth code is 3",
    ),
    (
        8,
        Refusal::TrailingBits { bit: 0 },
        "the bits up to the byte boundary after the header aren't all zero",
    ),
    (
        9,
        Refusal::ChunkPastEnd { bit: 0 },
        "a chunk, taken in stored order, ends past the payload",
    ),
    (
        10,
        Refusal::ChunkPastSource,
        "a present chunk's position plus length exceeds the lent source",
    ),
    (11, Refusal::NotWritable, "no payload reads to this record"),
    (
        12,
        Refusal::EmptyAlpha,
        "alpha is set and the alpha data is empty",
    ),
    (
        13,
        Refusal::UuidCodecType,
        "an explicit codec type is 'uuid'",
    ),
    (
        14,
        Refusal::NoCodecTypes,
        "there are no explicit codec types",
    ),
    (
        15,
        Refusal::Brands,
        "the brands aren't a multiple of 4 bytes, or are over 4,096 bytes",
    ),
    (
        16,
        Refusal::ShortOutput,
        "the output is shorter than the result",
    ),
    (
        17,
        Refusal::NotAnExpansion,
        "no mini with explicit codec types expands to this file under this original file type",
    ),
    (
        28,
        Refusal::NotAFileType,
        "the payload of an 'ftyp' box is no original file type: fewer than 8 bytes, or brands that \
         aren't a multiple of 4 bytes or are over 4,096 bytes",
    ),
];

impl Refusal {
    /// The refusal of a number, with the bit that comes with it where it is one of reading's; 0 is none.
    pub fn new(number: u32, bit: u64) -> Option<Refusal> {
        let known = KNOWN.iter().find(|(n, _, _)| *n == number);
        match (number, known) {
            (0, _) => None,
            (_, Some((_, refusal, _))) => Some(refusal.at(bit)),
            (_, None) => Some(Refusal::Unknown(number)),
        }
    }

    /// The number, from 1 on.
    pub fn number(self) -> u32 {
        match self {
            Refusal::Unknown(number) => number,
            known => known.entry().map_or(0, |(number, _)| number),
        }
    }

    /// The condition, in words.
    pub fn meaning(self) -> &'static str {
        let entry = self.entry();
        entry.map_or("a refusal that this crate does not know", |(_, words)| {
            words
        })
    }

    /// The bit of the payload at which reading broke off, of a refusal of reading.
    pub fn bit(mut self) -> Option<u64> {
        self.bit_mut().copied()
    }

    /// The same refusal at another bit, of a refusal of reading.
    fn at(mut self, bit: u64) -> Refusal {
        if let Some(place) = self.bit_mut() {
            *place = bit;
        }
        self
    }

    fn bit_mut(&mut self) -> Option<&mut u64> {
        match self {
            Refusal::HeaderCut { bit }
            | Refusal::Version { bit }
            | Refusal::FloatDepth { bit }
            | Refusal::TrailingBits { bit }
            | Refusal::ChunkPastEnd { bit } => Some(bit),
            _ => None,
        }
    }

    /// The number and the condition of a known refusal.
    fn entry(self) -> Option<(u32, &'static str)> {
        let entry = KNOWN.iter().find(|(_, known, _)| *known == self.at(0));
        entry.map(|(number, _, words)| (*number, *words))
    }
}

impl fmt::Display for Refusal {
    fn fmt(&self, f: &mut fmt::Formatter) -> fmt::Result {
        write!(f, "refusal {}: {}", self.number(), self.meaning())?;
        match self.bit() {
            Some(bit) => write!(f, "; at bit {bit}"),
            None => Ok(()),
        }
    }
}

impl Error for Refusal {}

#[cfg(test)]
mod tests {
    use super::*;

    #[test]
    fn numbers_and_refusals_agree() {
        assert_eq!(Refusal::new(0, 0), None);
        for number in (1..=17).chain([28]) {
            let refusal = Refusal::new(number, 504).expect("not 0");
            assert_eq!(refusal.number(), number);
            assert!(!matches!(refusal, Refusal::Unknown(_)));
        }
        for number in [18, 27, 29, 65_535] {
            let refusal = Refusal::new(number, 0).expect("not 0");
            assert_eq!(refusal, Refusal::Unknown(number));
            assert_eq!(refusal.number(), number);
        }
        assert_eq!(Refusal::NotAFileType.number(), 28);
        assert_eq!(Refusal::ChunkPastEnd { bit: 1 << 33 }.number(), 9);
    }

    #[test]
    fn the_refusals_of_reading_have_a_bit() {
        for number in (1..=18).chain([28]) {
            let refusal = Refusal::new(number, 1 << 33).expect("not 0");
            let bit = (5..=9).contains(&number).then_some(1 << 33);
            assert_eq!(refusal.bit(), bit, "refusal {number}");
            assert_eq!(
                refusal.to_string().ends_with("; at bit 8589934592"),
                bit.is_some()
            );
        }
    }
}
