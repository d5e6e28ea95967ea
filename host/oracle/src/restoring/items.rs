//! What the boxes of the items tell.

use crate::file_part::FilePart;

// The item numbers.
pub const MAIN: u16 = 1;
pub const ALPHA: u16 = 2;
pub const TONE_MAP: u16 = 3;
pub const GAIN_MAP: u16 = 4;
pub const EXIF_ITEM: u16 = 6;
pub const XMP_ITEM: u16 = 7;

/// What 'iinf' tells.
#[derive(Default)]
pub struct Items {
    pub main_type: [u8; 4],
    pub has_alpha: bool,
    pub has_tone_map: bool,
    pub has_gain_map: bool,
    /// Whether Exif and XMP are compressed, each if it is there.
    pub exif: Option<bool>,
    pub xmp: Option<bool>,
}

impl Items {
    pub fn read(iinf: FilePart) -> Option<Self> {
        let mut entries = iinf.after_version(0, 0)?;
        let mut items = Items::default();
        for _ in 0..entries.u16()? {
            items.add(entries.boxed(b"infe")?)?;
        }
        entries.finish()?;
        Some(items)
    }

    fn add(&mut self, mut infe: FilePart) -> Option<()> {
        infe.part(4)?;
        let number = infe.u16()?;
        infe.literal(&[0, 0])?;
        let item_type = infe.array()?;
        match number {
            MAIN => self.main_type = item_type,
            ALPHA => self.has_alpha = true,
            TONE_MAP => self.has_tone_map = true,
            GAIN_MAP => self.has_gain_map = true,
            EXIF_ITEM => self.exif = Some(item_type == *b"dExf"),
            XMP_ITEM => self.xmp = Some(infe.bytes().ends_with(b"\0deflate\0")),
            _ => return None,
        }
        Some(())
    }
}

/// Whether 'iref' has a reference of this type.
pub fn has_reference(iref: FilePart, reference_type: &[u8; 4]) -> Option<bool> {
    let mut references = iref.after_version(0, 0)?;
    let mut has = false;
    while !references.is_empty() {
        has |= references.any_box()?.of_type(reference_type).is_some();
    }
    Some(has)
}

/// Where 'iloc' says that the items' bytes lie, by their numbers.
pub struct Locations([Option<(usize, usize)>; 8]);

impl Locations {
    pub fn read(iloc: FilePart) -> Option<Self> {
        let mut entries = iloc.after_version(1, 0)?;
        entries.literal(&[0x44, 0])?;
        let mut locations = [None; 8];
        for _ in 0..entries.u16()? {
            let number = entries.u16()?;
            entries.literal(&[0, 0, 0, 0, 0, 1])?;
            let span = (entries.u32()? as usize, entries.u32()? as usize);
            *locations.get_mut(usize::from(number))? = Some(span);
        }
        entries.finish()?;
        Some(Locations(locations))
    }

    pub fn of(&self, item: u16) -> Option<(usize, usize)> {
        self.0[usize::from(item)]
    }
}
