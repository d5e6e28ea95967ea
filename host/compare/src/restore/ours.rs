//! The functions that are compared.

use bustardcase::raw;
use oracle::expanding::OriginalType;

/// The record's layout.
pub fn find_mini(file: &[u8], original: &OriginalType, out: &mut [u8]) -> u64 {
    raw::find_mini(file, original.major, original.minor, &original.brands, out)
}

/// The box.
pub fn restore(file: &[u8], original: &OriginalType, out: &mut [u8]) -> u64 {
    raw::restore(file, original.major, original.minor, &original.brands, out)
}
