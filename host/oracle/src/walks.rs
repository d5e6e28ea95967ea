//! Boxes that follow one another, and the first of a type among them.

use crate::answer::Answer;
use crate::box_cases::{Fields, put};
use crate::boxes::layout;
use crate::random::Random;
use crate::refusal;
use upstream::boxes::find_box;

const TYPES: [[u8; 4]; 5] = [*b"ftyp", *b"mini", *b"free", *b"uuid", *b"mdat"];

/// What the supplied Rust finds. Where it finds nothing it has come to the end of the buffer, where there
/// is no header: 1.
pub fn answer(buf: &[u8], box_type: u32) -> Result<Answer, String> {
    match find_box(buf, &box_type.to_be_bytes()) {
        Ok(Some((header, _))) => Ok(Answer::Done(layout(&header))),
        Ok(None) => Ok(Answer::refused(1)),
        Err(error) => Ok(Answer::refused(refusal::of_box_header(&error)?)),
    }
}

/// Takes a buffer and a type; an error ends the run.
pub type Visit<'a> = dyn FnMut(&[u8], u32) -> Result<(), String> + 'a;

/// `count` buffers of up to six boxes, with each of five types and one that differs in a bit.
pub fn random(count: u64, visit: &mut Visit) -> Result<(), String> {
    let mut r = Random::new(0x6275_7374_6172_6435);
    for _ in 0..count {
        let buf = boxes(&mut r);
        for box_type in TYPES.map(u32::from_be_bytes) {
            visit(&buf, box_type)?;
        }
        let near = u32::from_be_bytes(r.pick(&TYPES)) ^ 1 << r.below(32);
        visit(&buf, near)?;
    }
    Ok(())
}

fn boxes(r: &mut Random) -> Vec<u8> {
    let mut buf = Vec::new();
    for _ in 0..r.below(7) {
        put_box(r, &mut buf);
    }
    // A few bytes after the last box, or some cut off it.
    match r.below(6) {
        0 => buf.extend(vec![0; r.within(1, 9) as usize]),
        1 => buf.truncate((r.below(buf.len() as u64 + 1)) as usize),
        _ => {}
    }
    buf
}

/// A box with a payload of up to 40 bytes, its size now and then in the long form, up to the end, or
/// wrong.
fn put_box(r: &mut Random, buf: &mut Vec<u8>) {
    let start = buf.len();
    let is_long = r.once_in(4);
    let box_type = r.pick(&TYPES);
    let extended = if box_type == *b"uuid" { 16 } else { 0 };
    let header = if is_long { 16 } else { 8 } + extended;
    let len = header + r.below(41);
    buf.resize(start + len as usize, 0);
    r.fill(&mut buf[start..]);
    let total = if r.once_in(24) { r.below(64) } else { len };
    let fields = Fields {
        size: match (is_long, r.once_in(48)) {
            (_, true) => 0,
            (true, _) => 1,
            (false, _) => total as u32,
        },
        box_type,
        largesize: total,
    };
    put(buf, start, fields);
}
