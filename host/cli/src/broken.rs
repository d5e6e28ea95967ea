//! Where reading broke off, in words.

use crate::rows::stored_bits;
use crate::text::{count, grouped};
use crate::tree::{Group, Value};
use bustardcase::{Diagnosis, PartKind, Place, Refusal, diagnose};
use std::fmt;

/// Where the reading of a payload broke off.
pub struct Broken {
    diagnosis: Diagnosis,
    bit: usize,
    /// How many bits the payload has from there on.
    bits_left: usize,
    /// Where the bits end that are shown from the place on.
    bits_end: usize,
    /// These bits.
    bits: String,
    /// Where the payload begins in its file.
    start: Option<usize>,
}

impl Broken {
    /// Nothing for a payload that is accepted.
    pub fn of(payload: &[u8], start: Option<usize>) -> Option<Self> {
        let diagnosis = diagnose(payload)?;
        let bit = diagnosis.refusal.bit()? as usize;
        let total = 8 * payload.len();
        let bits_end = total.min(nearby_end(diagnosis.place, bit));
        Some(Broken {
            diagnosis,
            bit,
            bits_left: total - bit,
            bits_end,
            bits: stored_bits(payload, bit, bits_end),
            start,
        })
    }

    pub fn diagnosis(&self) -> &Diagnosis {
        &self.diagnosis
    }

    pub fn bit(&self) -> usize {
        self.bit
    }

    pub fn bits_end(&self) -> usize {
        self.bits_end
    }

    pub fn start(&self) -> Option<usize> {
        self.start
    }

    /// The byte of the payload that holds the bit.
    fn byte(&self) -> usize {
        self.bit / 8
    }

    /// The same byte, counted from the start of the file.
    fn file_byte(&self) -> Option<usize> {
        self.start.map(|start| start + self.byte())
    }

    /// What was being read.
    fn part(&self) -> &'static str {
        match self.diagnosis.place {
            Place::Part(kind) => kind.name(),
            Place::Chunk { kind, .. } => kind.name(),
        }
    }

    /// `byte 63 of the payload`, and where that is in the file.
    fn byte_in_words(&self) -> String {
        let byte = self.byte();
        match self.file_byte() {
            Some(at) => format!("byte {byte} of the payload (byte {at} of the file)"),
            None => format!("byte {byte} of the payload"),
        }
    }

    /// What is wrong at a place in the header: the end is near, or the bits are refused.
    fn there(&self) -> String {
        match (self.diagnosis.refusal, self.bits_left) {
            (Refusal::HeaderCut { .. }, 0) => "where the payload ends".to_string(),
            (Refusal::HeaderCut { .. }, left) => {
                format!("{} before the payload ends", count(left, "bit"))
            }
            _ => format!("from where the bits are {}", self.bits),
        }
    }

    /// For programs.
    pub fn named(&self) -> Group {
        let mut names = vec![
            ("bit", Value::size(self.bit)),
            ("byte", Value::size(self.byte())),
            ("file_byte", Value::maybe(self.file_byte(), Value::size)),
            ("part", Value::Word(self.part())),
        ];
        if let Place::Chunk {
            length, missing, ..
        } = self.diagnosis.place
        {
            names.push(("length", Value::size(length)));
            names.push(("missing", Value::size(missing)));
        }
        names
    }
}

/// The end of the next byte; of trailing bits, that of their own.
fn nearby_end(place: Place, bit: usize) -> usize {
    let bytes = match place {
        Place::Part(PartKind::TrailingBits) => 1,
        _ => 2,
    };
    (bit / 8 + bytes) * 8
}

impl fmt::Display for Broken {
    fn fmt(&self, f: &mut fmt::Formatter) -> fmt::Result {
        let (part, byte) = (self.part(), self.byte_in_words());
        match self.diagnosis.place {
            Place::Part(_) => {
                let bit = self.bit % 8;
                write!(
                    f,
                    "in the part '{part}', bit {bit} of {byte}, {}",
                    self.there()
                )
            }
            Place::Chunk {
                length, missing, ..
            } => {
                let length = count(length, "byte");
                let verb = if missing == 1 { "is" } else { "are" };
                let missing = grouped(missing);
                write!(
                    f,
                    "{part} would begin at {byte} and has {length}, {missing} {verb} missing"
                )
            }
        }
    }
}
