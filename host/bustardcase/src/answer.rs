//! From the number that an exported function returns to a result.

use crate::refusal::{self, Refusal};

/// The bits below the refusal's number.
const VALUE_BITS: u32 = 48;

/// The refusal, if there is one, and the value beside it: a length, or the refusal's bit.
fn split(word: u64) -> (Option<Refusal>, usize) {
    let value = word & ((1 << VALUE_BITS) - 1);
    let number = (word >> VALUE_BITS) as u32;
    (Refusal::new(number, value), value as usize)
}

/// The answer of a function that writes `N` bytes.
pub fn fixed<const N: usize>(call: impl FnOnce(&mut [u8]) -> u64) -> Result<[u8; N], Refusal> {
    let mut out = [0; N];
    match split(call(&mut out)) {
        (None, _) => Ok(out),
        (Some(refusal), _) => Err(refusal),
    }
}

/// The answer of a function whose result has a length of its own. Called with no output, it tells the
/// length that it needs; then it is called again.
pub fn sized(call: impl Fn(&mut [u8]) -> u64) -> Result<Vec<u8>, Refusal> {
    let needed = match split(call(&mut [])) {
        (None | Some(refusal::SHORT_OUTPUT), length) => length,
        (Some(refusal), _) => return Err(refusal),
    };
    let mut out = vec![0; needed];
    match split(call(&mut out)) {
        (None, _) => Ok(out),
        (Some(refusal), _) => Err(refusal),
    }
}

#[cfg(test)]
mod tests {
    use super::*;

    #[test]
    fn the_number_stands_above_48_bits() {
        assert_eq!(split(0), (None, 0));
        assert_eq!(split((1 << 48) - 1), (None, (1 << 48) - 1));
        let bit = (1 << 33) + 8;
        let past = Some(Refusal::ChunkPastEnd { bit });
        assert_eq!(split((9 << 48) + bit), (past, bit as usize));
        let needed = (16 << 48) + (1 << 32) + 5;
        let short = Some(Refusal::ShortOutput);
        assert_eq!(split(needed), (short, (1 << 32) + 5));
        assert_eq!(split(28 << 48), (Some(Refusal::NotAFileType), 0));
    }
}
