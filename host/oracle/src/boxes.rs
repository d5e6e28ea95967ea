//! Box headers.

use crate::answer::Answer;
use crate::refusal;
use upstream::boxes::{BoxHeader, parse_box_header};

/// The length of a header's layout.
pub const HEADER_LEN: usize = 45;

/// What the supplied Rust answers for the box at `start`.
pub fn box_header(buf: &[u8], start: usize) -> Result<Answer, String> {
    match parse_box_header(buf, start) {
        Ok(header) => Ok(Answer::Done(layout(&header))),
        Err(error) => Ok(Answer::refused(refusal::of_box_header(&error)?)),
    }
}

pub fn layout(header: &BoxHeader) -> Vec<u8> {
    let mut out = Vec::with_capacity(HEADER_LEN);
    out.extend(header.box_type);
    out.push(header.user_type.is_some() as u8);
    out.extend(header.user_type.unwrap_or([0; 16]));
    for number in [header.start, header.payload_start, header.payload_len] {
        out.extend((number as u64).to_be_bytes());
    }
    assert_eq!(out.len(), HEADER_LEN);
    out
}
