//! What the boxes of the properties tell.

use crate::file_part::{FileBox, FilePart};
use upstream::mini::{MiniChroma, MiniHdrBoxes, SampleFormat};

/// Primaries, transfer, matrix, and whether the samples use the full range.
pub type Colours = (u8, u8, u8, bool);

/// The 32 boxes of 'ipco', numbered from 1.
pub struct Slots<'a>(Vec<FileBox<'a>>);

const SLOTS: usize = 32;

/// The slots of a picture's HDR boxes, from the first on.
pub const HDR_SLOTS: usize = 11;
pub const TMAP_HDR_SLOTS: usize = 24;

impl<'a> Slots<'a> {
    pub fn read(mut ipco: FilePart<'a>) -> Option<Self> {
        let mut slots = Vec::with_capacity(SLOTS);
        while !ipco.is_empty() {
            slots.push(ipco.any_box()?);
        }
        (slots.len() == SLOTS).then_some(Slots(slots))
    }

    /// A configuration, whose type may be any, 'free' too. It is there if it has a byte.
    pub fn config(&self, number: usize) -> Option<FileBox<'a>> {
        let slot = self.0[number - 1];
        (!slot.body.is_empty()).then_some(slot)
    }

    /// The body of a box of this type.
    fn used(&self, number: usize, box_type: &[u8; 4]) -> Option<FilePart<'a>> {
        self.0[number - 1].of_type(box_type)
    }

    /// Likewise, or nothing where there is an empty 'free'. None: there is something else.
    fn optional(&self, number: usize, box_type: &[u8; 4]) -> Option<Option<FilePart<'a>>> {
        let slot = self.0[number - 1];
        match slot.of_type(b"free") {
            Some(body) => body.is_empty().then_some(None),
            None => slot.of_type(box_type).map(Some),
        }
    }

    pub fn size(&self, number: usize) -> Option<(u32, u32)> {
        let mut ispe = self.used(number, b"ispe")?.after_version(0, 0)?;
        let size = (ispe.u32()?, ispe.u32()?);
        ispe.finish()?;
        Some(size)
    }

    /// The samples' format and chroma, from 'pixi'. One channel is 4:0:0.
    pub fn samples(&self, number: usize) -> Option<(SampleFormat, MiniChroma)> {
        let mut pixi = self.used(number, b"pixi")?.after_version(0, 1)?;
        let channels = pixi.byte()?;
        let depths = pixi.part(channels.into())?;
        let bits = *depths.bytes().first()?;
        let first: [u8; 2] = pixi.array()?;
        let format = match first[0] >> 2 & 3 {
            0 => SampleFormat::Integer { bits },
            1 => SampleFormat::Float { bits },
            _ => return None,
        };
        let chroma = match channels {
            1 => MiniChroma::new(0, false, false),
            3 => {
                let [_, layout] = pixi.array()?;
                chroma(layout >> 4, layout & 15)?
            }
            _ => return None,
        };
        Some((format, chroma))
    }

    /// The colours of an 'nclx', and whether the samples use the full range.
    pub fn colours(&self, number: usize) -> Option<Colours> {
        let nclx = self.used(number, b"colr")?;
        read_colours(nclx)
    }

    pub fn optional_colours(&self, number: usize) -> Option<Option<Colours>> {
        match self.optional(number, b"colr")? {
            Some(nclx) => read_colours(nclx).map(Some),
            None => Some(None),
        }
    }

    /// The place of an ICC profile.
    pub fn profile(&self, number: usize) -> Option<Option<(usize, usize)>> {
        let Some(mut prof) = self.optional(number, b"colr")? else {
            return Some(None);
        };
        prof.literal(b"prof")?;
        Some(Some(prof.span()))
    }

    /// The orientation, by document 01's table of rotation and mirror.
    pub fn orientation(&self) -> Option<u8> {
        let value = |body: Option<FilePart>| match body {
            Some(mut body) => {
                let value = body.byte()?;
                body.finish().map(|()| Some(value))
            }
            None => Some(None),
        };
        let rotation = value(self.optional(9, b"irot")?)?;
        let mirror = value(self.optional(10, b"imir")?)?;
        match (rotation, mirror) {
            (None, None) => Some(1),
            (None, Some(1)) => Some(2),
            (Some(2), None) => Some(3),
            (None, Some(0)) => Some(4),
            (Some(1), Some(0)) => Some(5),
            (Some(3), None) => Some(6),
            (Some(1), Some(1)) => Some(7),
            (Some(1), None) => Some(8),
            _ => None,
        }
    }

    /// The HDR bodies of a picture. Those of 'reve' and 'ndwt' follow a version and flags.
    pub fn hdr(&self, first: usize) -> Option<MiniHdrBoxes> {
        let plain = |number: usize, box_type| {
            let body = self.optional(number, box_type)?;
            Some(body.map(|body| body.bytes().to_vec()))
        };
        let full = |number: usize, box_type| match self.optional(number, box_type)? {
            Some(body) => Some(Some(body.after_version(0, 0)?.bytes().to_vec())),
            None => Some(None),
        };
        Some(MiniHdrBoxes::new(
            plain(first, b"clli")?,
            plain(first + 1, b"mdcv")?,
            plain(first + 2, b"cclv")?,
            plain(first + 3, b"amve")?,
            full(first + 4, b"reve")?,
            full(first + 5, b"ndwt")?,
        ))
    }
}

/// Subsampling and centring by the type and the location that 'pixi' gives the second channel.
fn chroma(subsampling_type: u8, location: u8) -> Option<MiniChroma> {
    let subsampling = match subsampling_type {
        0 => 3,
        1 => 2,
        2 => 1,
        _ => return None,
    };
    let (horizontally, vertically) = match location {
        0 => (false, true),
        1 => (true, true),
        2 => (false, false),
        3 => (true, false),
        _ => return None,
    };
    Some(MiniChroma::new(subsampling, horizontally, vertically))
}

/// The numbers take two bytes each, and one in a record.
fn read_colours(mut nclx: FilePart) -> Option<Colours> {
    nclx.literal(b"nclx")?;
    let mut number = || u8::try_from(nclx.u16()?).ok();
    let (primaries, transfer, matrix) = (number()?, number()?, number()?);
    let full_range = match nclx.byte()? {
        0x80 => true,
        0 => false,
        _ => return None,
    };
    nclx.finish()?;
    Some((primaries, transfer, matrix, full_range))
}
