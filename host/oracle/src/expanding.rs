//! Expanding a payload: what the supplied Rust answers, and the file types and records to try.

use crate::answer::Answer;
use crate::payloads;
use crate::plan::Plan;
use crate::random::Random;
use crate::reading::Reading;
use crate::records::random_bytes;
use upstream::error::HeifError;
use upstream::ftyp::FileType;
use upstream::mini::MinimizedImage;

/// An original file type: major brand, minor version and the bytes of the brand list.
#[derive(Clone, Debug)]
pub struct OriginalType {
    pub major: u32,
    pub minor: u32,
    pub brands: Vec<u8>,
}

const fn code(name: &[u8; 4]) -> u32 {
    u32::from_be_bytes(*name)
}

pub const MIF3: u32 = code(b"mif3");

impl OriginalType {
    /// Whether the brand list is whole and not too long: else 15.
    pub fn is_allowed(&self) -> bool {
        self.brands.len().is_multiple_of(4) && self.brands.len() <= 4_096
    }

    /// Whether the brand is one of the list.
    pub fn lists(&self, brand: &[u8; 4]) -> bool {
        self.brands.chunks(4).any(|b| b == brand)
    }

    /// Whether the minor version becomes the major brand.
    pub fn is_renamed(&self) -> bool {
        self.major == MIF3 && self.minor != 0
    }
}

/// What expanding answers: the reader's refusal, or what it answers for the record.
pub fn answer(reading: &Reading, original: &OriginalType) -> Result<Answer, String> {
    match reading {
        Reading::Refused(refused) => Ok(refused.answer()),
        Reading::Accepted(accepted) => of_record(&accepted.image, original),
    }
}

/// 12 to 15 as document 01 orders them, or the file. Inferred codec types are outside the domain: they
/// are refused (14), whatever the Rust does.
pub fn of_record(image: &MinimizedImage, original: &OriginalType) -> Result<Answer, String> {
    let whole = original.brands.len() / 4 * 4;
    let brands = original.brands[..whole]
        .chunks(4)
        .map(|b| [b[0], b[1], b[2], b[3]])
        .collect();
    let file_type = FileType::new(
        *b"ftyp",
        original.major.to_be_bytes(),
        original.minor,
        brands,
    );
    let inferred = image.explicit_codec_types.is_none();
    match image.equivalent_file(&file_type) {
        Err(error) => {
            let number = number(&error);
            match number {
                Some(number) => Ok(Answer::refused(number)),
                None if inferred => Ok(Answer::refused(14)),
                None => Err(format!("unknown error of equivalent_file: {error:?}")),
            }
        }
        Ok(_) if inferred => Ok(Answer::refused(14)),
        Ok(_) if !original.is_allowed() => Ok(Answer::refused(15)),
        Ok(file) => Ok(Answer::Done(file)),
    }
}

/// The number of an error of `equivalent_file`.
fn number(error: &HeifError) -> Option<u64> {
    match error {
        HeifError::Unsupported(m) if m.starts_with("mini: alpha coded natively") => Some(12),
        HeifError::InvalidData(m) if m.starts_with("mini: explicit codec types shall not be") => {
            Some(13)
        }
        HeifError::Unsupported(m) if m.starts_with("mini without explicit codec types") => Some(14),
        _ => None,
    }
}

/// Lists of 0, 1, 2, 1,023 and 1,024 brands, with and without those that are added; bad lists; minor
/// versions that name a codec and that do not; major brands.
pub fn listed_types() -> Vec<OriginalType> {
    let mut lists = vec![
        Vec::new(),
        b"mif3".to_vec(),
        b"mif1".to_vec(),
        b"tmap".to_vec(),
        b"heic".to_vec(),
        b"mif3mif1".to_vec(),
        b"avifmif3".to_vec(),
        b"tmapmif1".to_vec(),
        b"mif".to_vec(),
        b"mif3m".to_vec(),
    ];
    for count in [1023, 1024, 1025] {
        let plain: Vec<u8> = (0..count as u32)
            .flat_map(|i| (i << 8).to_be_bytes())
            .collect();
        lists.push(plain.clone());
        for (brand, place) in [(b"mif1", 0), (b"mif3", count - 1), (b"tmap", count / 2)] {
            let mut list = plain.clone();
            list[place * 4..place * 4 + 4].copy_from_slice(brand);
            lists.push(list);
        }
    }
    lists.push(vec![b'm'; 4095]);
    let mut types = Vec::new();
    for brands in &lists {
        for major in [MIF3, code(b"heic"), code(b"vvi3"), 0] {
            for minor in [0, code(b"vvi3"), code(b"heic"), code(b"avif"), MIF3, 1] {
                types.push(OriginalType {
                    major,
                    minor,
                    brands: brands.clone(),
                });
            }
        }
    }
    types
}

/// The listed file types that are not refused.
pub fn allowed_types() -> Vec<OriginalType> {
    let mut types = listed_types();
    types.retain(OriginalType::is_allowed);
    types
}

/// Of any number of brands that is allowed, mostly few: at times one of those listed.
pub fn random_allowed_type(r: &mut Random, listed: &[OriginalType]) -> OriginalType {
    if r.once_in(8) {
        let i = r.below(listed.len() as u64);
        return listed[i as usize].clone();
    }
    loop {
        let mut original = random_type(r);
        if r.once_in(32) {
            let count = r.below(1_024 - 8) as usize;
            original.brands.extend(random_bytes(r, 4 * count));
        }
        if original.is_allowed() {
            return original;
        }
    }
}

/// A file type of up to eight brands, mostly known ones.
pub fn random_type(r: &mut Random) -> OriginalType {
    let known = [
        MIF3,
        code(b"mif1"),
        code(b"tmap"),
        code(b"heic"),
        code(b"vvi3"),
    ];
    let brand = |r: &mut Random| match r.once_in(4) {
        true => r.word() as u32,
        false => r.pick(&known),
    };
    let count = r.below(9);
    let mut brands: Vec<u8> = (0..count).flat_map(|_| brand(r).to_be_bytes()).collect();
    if r.once_in(16) {
        brands.extend(vec![0; r.within(1, 3) as usize]);
    }
    OriginalType {
        major: if r.flag() { MIF3 } else { brand(r) },
        minor: if r.flag() { 0 } else { brand(r) },
        brands,
    }
}

/// One byte of main data, with explicit types: the P line's payload.
pub fn plain() -> Plan {
    Plan {
        types: Some([*b"av01", *b"av1C"]),
        ..Plan::smallest()
    }
}

/// A random plan with explicit types, now and then 'uuid', and alpha now and then native. Now and then
/// a number is near the limit of its short form.
pub fn random_plan(r: &mut Random) -> Plan {
    let mut plan = payloads::random_plan(r);
    plan.version = 0;
    plan.padding = 0;
    let mut types = [r.word() as u32, r.word() as u32].map(u32::to_be_bytes);
    if r.once_in(32) {
        types[r.below(2) as usize] = *b"uuid";
    }
    plan.types = Some(types);
    if r.once_in(8) {
        payloads::put_near_limit(r, &mut plan);
    }
    if let Some(alpha) = &mut plan.alpha
        && alpha.data == 0
        && !r.once_in(8)
    {
        alpha.data = 1;
    }
    plan
}

/// Plans with every chunk and explicit types, each with one chunk of the greatest size.
pub fn greatest_plans() -> Vec<Plan> {
    let mut plans = payloads::greatest_plans();
    for plan in &mut plans {
        plan.types = plain().types;
    }
    plans
}
