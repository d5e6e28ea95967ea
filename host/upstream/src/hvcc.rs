//! Stands in for `hvcc.rs`, which is not supplied. Only an inferred VVC type leads here, and that is
//! outside what is compared: every function refuses.

use crate::error::{HeifError, Result};

/// Refuses.
pub fn split_length_prefixed(_item: &[u8], _length_size: u8) -> Result<Vec<&[u8]>> {
    Err(HeifError::unsupported("hvcc is not supplied"))
}

/// Refuses.
pub fn join_length_prefixed(_nals: &[&[u8]], _length_size: u8) -> Result<Vec<u8>> {
    Err(HeifError::unsupported("hvcc is not supplied"))
}
