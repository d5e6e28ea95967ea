//! Where reading a payload broke off.

use crate::answer::fixed;
use crate::layout::Fields;
use crate::outline::{chunks, header};
use crate::{ChunkKind, HeaderPart, PartKind, PlacedChunk, Refusal, raw};

/// Where reading a payload broke off, and what stands there.
#[derive(Clone, Copy, Debug, PartialEq, Eq)]
pub struct Diagnosis {
    /// The refusal, with its bit.
    pub refusal: Refusal,
    /// What was being read.
    pub place: Place,
    /// The parts of the header. Under refusals 5 to 8 only those before the one in which reading was refused
    /// were read; it and the later ones end at the bit.
    pub header: [HeaderPart; 12],
    /// The chunks in the order in which they lie, as the header gives them, under refusal 9. Those before the
    /// refused one are in the payload whole; any behind it would begin past the payload's end.
    pub as_stored: Option<[PlacedChunk; 11]>,
}

/// What was being read where reading broke off.
#[derive(Clone, Copy, Debug, PartialEq, Eq)]
pub enum Place {
    /// A part of the header, under refusals 5 to 8.
    Part(PartKind),
    /// A chunk that ends past the payload, under refusal 9.
    Chunk {
        /// Which chunk.
        kind: ChunkKind,
        /// Where it begins, in bytes from the payload's start.
        position: usize,
        /// How many bytes it has.
        length: usize,
        /// How many of these are missing.
        missing: usize,
    },
}

impl Diagnosis {
    /// The part of the header of that kind.
    pub fn part(&self, kind: PartKind) -> HeaderPart {
        self.header[kind as usize]
    }

    /// The parts of the header that were read, whole.
    pub fn parts_read(&self) -> &[HeaderPart] {
        match self.place {
            Place::Part(kind) => &self.header[..kind as usize],
            Place::Chunk { .. } => &self.header,
        }
    }

    /// The chunks that are in the payload whole, and the absent ones among them: those before the one that ends
    /// past it. None under refusals 5 to 8.
    pub fn chunks_read(&self) -> &[PlacedChunk] {
        match (&self.as_stored, self.place) {
            (Some(chunks), Place::Chunk { kind, .. }) => {
                let refused = chunks.iter().position(|chunk| chunk.kind == kind);
                &chunks[..refused.unwrap_or(0)]
            }
            _ => &[],
        }
    }
}

/// Where reading a payload broke off; nothing for a payload that is accepted.
///
/// ```
/// use bustardcase::{Chunk, ChunkKind, PartKind, Place, diagnose};
///
/// // One byte of main data, of which none is there.
/// let payload = [0, 0, 0, 0, 0, 0, 0];
/// let diagnosis = diagnose(&payload).expect("refused");
/// assert_eq!((diagnosis.refusal.number(), diagnosis.refusal.bit()), (9, Some(56)));
/// let place = Place::Chunk { kind: ChunkKind::MainData, position: 7, length: 1, missing: 1 };
/// assert_eq!(diagnosis.place, place);
/// // What comes before it is there: here an empty main configuration.
/// let read = diagnosis.chunks_read().iter().filter_map(|chunk| chunk.place);
/// assert_eq!(read.collect::<Vec<_>>(), [Chunk { at: 7, len: 0 }]);
///
/// // A header that ends among the sizes of the chunks.
/// let diagnosis = diagnose(&payload[..5]).expect("refused");
/// assert_eq!(diagnosis.place, Place::Part(PartKind::ChunkSizes));
/// assert_eq!(diagnosis.parts_read().len(), 10);
/// assert_eq!(diagnosis.as_stored, None);
///
/// assert_eq!(diagnose(&[0, 0, 0, 0, 0, 0, 0, 0xAA]), None);
/// ```
pub fn diagnose(payload: &[u8]) -> Option<Diagnosis> {
    let layout: [u8; 321] = fixed(|out| raw::diagnose(payload, out)).expect("only 16 refuses");
    let mut fields = Fields::new(&layout);
    let number = fields.byte();
    let bit = fields.u64();
    let part = fields.byte();
    let header = header(&mut fields);
    let chunk = fields.byte();
    let length = fields.size();
    let missing = fields.size();
    // Zeros where reading was refused in the header: no numbers of chunks.
    let as_stored = match part {
        0 => Some(chunks(&mut fields)),
        _ => {
            fields.bytes::<198>();
            None
        }
    };
    fields.finish();
    let refusal = Refusal::new(number.into(), bit)?;
    let place = match chunk {
        0 => Place::Part(PartKind::ALL[part as usize - 1]),
        number => Place::Chunk {
            kind: ChunkKind::of_number(number),
            position: (bit / 8) as usize,
            length,
            missing,
        },
    };
    Some(Diagnosis {
        refusal,
        place,
        header,
        as_stored,
    })
}
