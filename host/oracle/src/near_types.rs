//! Original file types beside one that a file was expanded under.

use crate::expanding::{MIF3, OriginalType};
use crate::file_part::FilePart;
use crate::random::Random;

/// The type that a file itself states, if it begins with an 'ftyp' box. Expanded under it, the same record
/// gives the same file, unless the brands are too many.
pub fn stated(file: &[u8]) -> Option<OriginalType> {
    let mut ftyp = FilePart::whole(file).boxed(b"ftyp")?;
    Some(OriginalType {
        major: ftyp.u32()?,
        minor: ftyp.u32()?,
        brands: ftyp.bytes().to_vec(),
    })
}

/// Changed in one thing.
pub fn near(r: &mut Random, original: &OriginalType) -> OriginalType {
    let mut near = original.clone();
    let count = near.brands.len() / 4;
    let known = [*b"mif1", *b"mif3", *b"tmap", *b"heic"];
    match r.below(8) {
        0 => near.major ^= 1 << r.below(32),
        1 => near.major = r.pick(&[MIF3, u32::from_be_bytes(*b"heic")]),
        2 => near.minor ^= 1 << r.below(32),
        3 => near.minor = r.pick(&[0, 1, u32::from_be_bytes(*b"vvi3"), near.major]),
        4 => near.brands.extend(r.pick(&known)),
        5 => {
            let at = 4 * r.below(count as u64 + 1) as usize;
            near.brands.splice(at..at, r.pick(&known));
        }
        6 if count > 0 => {
            let at = 4 * r.below(count as u64) as usize;
            near.brands.drain(at..at + 4);
        }
        7 if count > 0 => {
            let at = r.below(near.brands.len() as u64) as usize;
            near.brands[at] ^= 1 << r.below(8);
        }
        // No whole brand.
        _ => near.brands.push(0),
    }
    near
}

#[cfg(test)]
mod tests {
    use super::*;

    #[test]
    fn the_stated_type_and_its_neighbours() {
        let file = b"\0\0\0\x18ftypheic\0\0\0\x05mif3mif1\0\0\0\x08meta";
        let original = stated(file).expect("it begins with a file type");
        assert!(stated(&file[1..]).is_none() && stated(&file[..20]).is_none());
        assert_eq!(original.major, u32::from_be_bytes(*b"heic"));
        assert_eq!(
            (original.minor, &original.brands[..]),
            (5, &b"mif3mif1"[..])
        );
        let mut r = Random::new(24);
        let differs = |near: &OriginalType| {
            (near.major, near.minor, &near.brands)
                != (original.major, original.minor, &original.brands)
        };
        let count = (0..1_000).filter(|_| differs(&near(&mut r, &original)));
        assert!(count.count() > 900);
    }
}
