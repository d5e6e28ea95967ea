//! Files near one that a record expands to: bytes changed, cut and added, and boxes changed with the sizes and offsets
//! that depend on them.

use crate::random::Random;
use std::ops::Range;

/// Takes a file; an error ends the run.
pub type Visit<'a> = dyn FnMut(&[u8]) -> Result<(), String> + 'a;

/// Each byte of a range with each of the 255 other values.
pub fn every_value(file: &[u8], range: Range<usize>, visit: &mut Visit) -> Result<(), String> {
    let mut damaged = file.to_vec();
    for at in range {
        for flip in 1..=255 {
            damaged[at] = file[at] ^ flip;
            visit(&damaged)?;
        }
        damaged[at] = file[at];
    }
    Ok(())
}

/// Each byte with each bit flipped, and each cut.
pub fn every_byte(file: &[u8], visit: &mut Visit) -> Result<(), String> {
    let mut damaged = file.to_vec();
    for at in 0..file.len() {
        for bit in 0..8 {
            damaged[at] ^= 1 << bit;
            visit(&damaged)?;
            damaged[at] = file[at];
        }
        visit(&file[..at])?;
    }
    Ok(())
}

/// Bytes after the file's last.
pub fn lengthened(r: &mut Random, file: &[u8], visit: &mut Visit) -> Result<(), String> {
    let more: [&[u8]; 4] = [&[0], &[r.word() as u8], b"\0\0\0\x08free", &file[..8]];
    for more in more {
        visit(&[file, more].concat())?;
    }
    visit(&[file, file].concat())
}

/// One to three bytes changed at random, mostly before the chunks.
pub fn few_bytes(r: &mut Random, file: &[u8]) -> Vec<u8> {
    let mut damaged = file.to_vec();
    let head = head_len(file) as u64;
    for _ in 0..r.pick(&[1, 1, 1, 2, 3]) {
        let among = if r.once_in(8) {
            file.len() as u64
        } else {
            head
        };
        let at = r.below(among) as usize;
        damaged[at] = match r.below(4) {
            0 => damaged[at] ^ 1 << r.below(8),
            1 => damaged[at].wrapping_add(1),
            2 => damaged[at].wrapping_sub(1),
            _ => r.word() as u8,
        };
    }
    damaged
}

/// The front of one file and the back of another.
pub fn crossed(r: &mut Random, file: &[u8], other: &[u8]) -> Vec<u8> {
    let at = r.below(file.len().min(other.len()) as u64) as usize;
    [&file[..at], &other[at..]].concat()
}

/// The length of all before the content of 'mdat'.
fn head_len(file: &[u8]) -> usize {
    let mdat = Boxes::of(file).places.last().cloned();
    mdat.map_or(file.len(), |mdat| (mdat.start + 8).min(file.len()))
}

/// A box put in, taken out, moved, or changed by a byte. The sizes of the boxes around it and the offsets in 'iloc'
/// follow.
pub fn rebuilt(r: &mut Random, file: &[u8]) -> Vec<u8> {
    let boxes = Boxes::of(file);
    let place = |r: &mut Random| {
        let i = r.below(boxes.places.len() as u64) as usize;
        boxes.places[i].clone()
    };
    let (at, other) = (place(r), place(r));
    let start = at.start;
    let within = |r: &mut Random| r.within(start as u64 + 8, at.end as u64) as usize;
    match r.below(7) {
        0 => boxes.spliced(at, &[]),
        1 => boxes.spliced(at.clone(), &[&file[at.clone()], &file[other]].concat()),
        2 => boxes.spliced(at, &file[other]),
        3 => boxes.spliced(at, b"\0\0\0\x08free"),
        4 => {
            let (at, byte) = (within(r), r.word() as u8);
            boxes.spliced(at..at, &[r.pick(&[0, 1, byte])])
        }
        5 => {
            let from = within(r);
            boxes.spliced(from..(from + 1).min(at.end), &[])
        }
        // Two that follow one another.
        _ => match boxes.places.iter().find(|next| next.start == at.end) {
            Some(next) => {
                let swapped = [&file[next.clone()], &file[at.clone()]].concat();
                boxes.spliced(at.start..next.end, &swapped)
            }
            None => boxes.spliced(at, &[]),
        },
    }
}

/// Where the boxes of a file lie, those that hold others before these.
struct Boxes<'a> {
    file: &'a [u8],
    places: Vec<Range<usize>>,
}

/// The boxes that hold others, and how many bytes stand before these.
const HOLDERS: [(&[u8; 4], usize); 6] = [
    (b"meta", 4),
    (b"iinf", 6),
    (b"iref", 4),
    (b"iprp", 0),
    (b"ipco", 0),
    (b"grpl", 0),
];

impl<'a> Boxes<'a> {
    /// Of an equivalent file: their sizes are believed.
    fn of(file: &'a [u8]) -> Self {
        let mut boxes = Boxes {
            file,
            places: Vec::new(),
        };
        boxes.add(0..file.len());
        boxes
    }

    fn add(&mut self, range: Range<usize>) {
        let mut at = range.start;
        while at < range.end {
            let end = at + number(self.file, at) as usize;
            self.places.push(at..end);
            let box_type = &self.file[at + 4..at + 8];
            if let Some((_, before)) = HOLDERS.iter().find(|(name, _)| *name == box_type) {
                self.add(at + 8 + before..end);
            }
            at = end;
        }
    }

    fn spliced(&self, range: Range<usize>, bytes: &[u8]) -> Vec<u8> {
        let longer = (bytes.len() as u32).wrapping_sub(range.len() as u32);
        let mut file = self.file.to_vec();
        for place in &self.places {
            let holds = place.start < range.start && range.end <= place.end;
            if holds {
                add(&mut file, place.start, longer);
            }
        }
        let mdat = self.places.last().expect("a file has boxes");
        if range.start < mdat.start {
            self.shift_locations(&mut file, longer);
        }
        file.splice(range, bytes.iter().copied());
        file
    }

    fn shift_locations(&self, file: &mut [u8], longer: u32) {
        let is_iloc = |place: &&Range<usize>| self.file[place.start + 4..].starts_with(b"iloc");
        let Some(iloc) = self.places.iter().find(is_iloc) else {
            return;
        };
        let first_offset = iloc.start + 8 + 4 + 4 + 8;
        for at in (first_offset..iloc.end - 7).step_by(16) {
            add(file, at, longer);
        }
    }
}

fn number(file: &[u8], at: usize) -> u32 {
    let bytes = file[at..at + 4].try_into().expect("four bytes");
    u32::from_be_bytes(bytes)
}

fn add(file: &mut [u8], at: usize, longer: u32) {
    let sum = number(file, at).wrapping_add(longer);
    file[at..at + 4].copy_from_slice(&sum.to_be_bytes());
}

#[cfg(test)]
mod tests {
    use super::*;
    use crate::payloads::{payload_of, with_every_chunk};
    use crate::plan::Plan;
    use crate::records::rust_file;
    use upstream::mini::MinimizedImage;

    fn file() -> Vec<u8> {
        let plan = Plan {
            types: Some([*b"av01", *b"av1C"]),
            ..with_every_chunk()
        };
        rust_file(&MinimizedImage::parse(&payload_of(&plan)).expect("a sound plan"))
    }

    #[test]
    fn every_box_is_found() {
        let file = file();
        let boxes = Boxes::of(&file);
        let named = |name: &[u8; 4]| {
            let places = boxes.places.iter();
            places
                .filter(|p| file[p.start + 4..].starts_with(name))
                .count()
        };
        assert_eq!((named(b"ftyp"), named(b"mdat"), named(b"infe")), (1, 1, 6));
        assert_eq!((named(b"cdsc"), named(b"altr"), named(b"ispe")), (2, 1, 3));
        let of_slots = boxes.places.iter().filter(|p| {
            let holder = |q: &&Range<usize>| q.start < p.start && p.end <= q.end;
            let holders: Vec<_> = boxes.places.iter().filter(holder).collect();
            holders.len() == 3
        });
        assert_eq!(of_slots.count(), 32);
        // Two bytes of alpha, three of the tone map, one of the gain map, two of main data, two of Exif, one of XMP.
        assert_eq!(head_len(&file), file.len() - 11);
    }

    #[test]
    fn a_splice_keeps_the_sizes_and_the_offsets() {
        let file = file();
        let boxes = Boxes::of(&file);
        let slot = boxes
            .places
            .iter()
            .find(|p| file[p.start + 4..].starts_with(b"free"));
        let slot = slot.expect("an unused slot").clone();
        let longer = boxes.spliced(slot, b"\0\0\0\x08free\0\0\0\x0bfreeabc");
        assert_eq!(longer.len(), file.len() + 11);
        let again = Boxes::of(&longer);
        assert_eq!(again.places.len(), boxes.places.len() + 1);
        assert_eq!(again.places.last().map(|p| p.end), Some(longer.len()));
        // Taken out again, it is the file.
        let put = again
            .places
            .iter()
            .find(|p| longer[p.start + 4..].starts_with(b"freeabc"));
        assert_eq!(again.spliced(put.expect("it is there").clone(), &[]), file);
    }

    #[test]
    fn another_file_comes_of_it() {
        let file = file();
        let mut r = Random::new(23);
        let other = (0..2_000)
            .filter(|_| rebuilt(&mut r, &file) != file)
            .count();
        assert!(other > 1_500, "{other} of 2,000 differ");
        let other = (0..2_000)
            .filter(|_| few_bytes(&mut r, &file) != file)
            .count();
        assert!(other > 1_500, "{other} of 2,000 differ");
        let mut count = 0;
        let mut visit = |damaged: &[u8]| {
            count += 1;
            assert_ne!(damaged, file);
            Ok(())
        };
        every_value(&file, 3..5, &mut visit).expect("all are visited");
        every_byte(&file, &mut visit).expect("all are visited");
        lengthened(&mut r, &file, &mut visit).expect("all are visited");
        assert_eq!(count, 2 * 255 + 9 * file.len() + 5);
    }
}
