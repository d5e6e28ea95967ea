//! File types read from the payload of an 'ftyp' box.

use crate::answer::Answer;
use crate::random::Random;
use crate::refusal;
use upstream::ftyp::FileType;

/// The length of a file type's layout.
pub const FILE_TYPE_LEN: usize = 24;

/// The most bytes of brands. The Rust takes any number, which docs/DIFFERENCES.md says.
const MOST_BRANDS: usize = 4_096;

/// The refusal of a body that is no original file type.
const REFUSAL: u64 = 28;

/// Why a body is no original file type.
#[derive(Clone, Copy, Debug, PartialEq, Eq)]
pub enum NoFileType {
    /// Fewer than 8 bytes.
    Short,
    /// Brands that are no multiple of 4 bytes.
    Uneven,
    /// More brands than we take.
    Long,
}

/// What the supplied Rust reads, if it has no more brands than we take.
pub fn file_type(body: &[u8]) -> Result<Result<FileType, NoFileType>, String> {
    let file_type = match FileType::parse(*b"ftyp", body) {
        Err(error) => return Ok(Err(refusal::of_file_type(&error)?)),
        Ok(file_type) => file_type,
    };
    match file_type.compatible_brands.len() * 4 > MOST_BRANDS {
        true => Ok(Err(NoFileType::Long)),
        false => Ok(Ok(file_type)),
    }
}

/// The answer in the layout of the exported function.
pub fn answer(body: &[u8], read: &Result<FileType, NoFileType>) -> Result<Answer, String> {
    let Ok(file_type) = read else {
        return Ok(Answer::refused(REFUSAL));
    };
    let brands = file_type.compatible_brands.concat();
    if body.get(8..) != Some(&brands[..]) {
        return Err("the Rust's brands are not what follows the first eight bytes".to_string());
    }
    let mut layout = file_type.major_brand.to_vec();
    layout.extend(file_type.minor_version.to_be_bytes());
    layout.extend(8_u64.to_be_bytes());
    layout.extend((brands.len() as u64).to_be_bytes());
    Ok(Answer::Done(layout))
}

/// Bodies of every length up to 64 and around the longest, and of random lengths.
pub fn bodies(visit: &mut dyn FnMut(&[u8]) -> Result<(), String>) -> Result<(), String> {
    let mut r = Random::new(0x6275_7374_6172_6434);
    let mut room = vec![0; 1 << 20];
    r.fill(&mut room);
    let around = MOST_BRANDS - 16..=MOST_BRANDS + 32;
    for len in (0..=64)
        .chain(around)
        .chain([5_000, 65_544, 65_545, 1 << 20])
    {
        for _ in 0..16 {
            let start = r.below((room.len() - len) as u64 + 1) as usize;
            visit(&room[start..start + len])?;
        }
    }
    for _ in 0..100_000 {
        let len = r.below(200) as usize;
        let start = r.below((room.len() - len) as u64) as usize;
        visit(&room[start..start + len])?;
    }
    Ok(())
}
