//! The answer of an exported function.

/// Refusal 16: the output is shorter than the result.
pub const SHORT_OUTPUT: u64 = 16;

/// The bytes that a success writes, or the refusal's number and its bit.
#[derive(Clone, Debug, PartialEq, Eq)]
pub enum Answer {
    Done(Vec<u8>),
    Refused { number: u64, bit: u64 },
}

impl Answer {
    /// A refusal that is not one of reading: its bit is 0.
    pub fn refused(number: u64) -> Self {
        Answer::Refused { number, bit: 0 }
    }

    /// The number that comes back for an output of `out_len` bytes: the refusal's times 2^48, plus the
    /// length written or, under 16, needed, or the refusal's bit.
    pub fn word(&self, out_len: usize) -> u64 {
        match self {
            Answer::Refused { number, bit } => (number << 48) + bit,
            Answer::Done(bytes) if out_len < bytes.len() => {
                (SHORT_OUTPUT << 48) + bytes.len() as u64
            }
            Answer::Done(bytes) => bytes.len() as u64,
        }
    }

    /// The bytes that change in an output of `out_len` bytes.
    pub fn written(&self, out_len: usize) -> &[u8] {
        match self {
            Answer::Done(bytes) if bytes.len() <= out_len => bytes,
            _ => &[],
        }
    }

    /// The refusal's number, 0 for a success.
    pub fn number(&self) -> u64 {
        match self {
            Answer::Done(_) => 0,
            Answer::Refused { number, .. } => *number,
        }
    }

    /// The refusal's bit, 0 for a success.
    pub fn bit(&self) -> u64 {
        match self {
            Answer::Done(_) => 0,
            Answer::Refused { bit, .. } => *bit,
        }
    }
}
