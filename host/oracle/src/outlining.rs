//! Outlines: where the header's parts end comes from a plan that makes the same header, where the chunks
//! lie from the supplied Rust's record.

use crate::answer::Answer;
use crate::plan::{Alpha, Bodies, Chroma, Depth, GainMap, Hdr, PARTS, Plan, Wide};
use crate::reading::{self, Accepted, Reading, hdr_bodies, put_chunk};
use upstream::mini::{MiniChroma, MiniGainMap, MiniHdrBoxes, MinimizedImage, SampleFormat};

/// The length of an outline's layout.
pub const OUTLINE_LEN: usize = 500;

/// The numbers of the chunks in the order in which they lie; they are numbered in that of their sizes.
const STORED: [u8; 11] = [6, 9, 5, 1, 2, 3, 8, 4, 7, 10, 11];

const ALPHA_DATA: u8 = 8;

/// A chunk's number, and its position and length where it is present.
pub type Placed = (u8, Option<(usize, usize)>);

pub struct Outline {
    /// Where the header's parts end, in bits.
    pub ends: [usize; PARTS],
    pub by_size: [Placed; 11],
    pub as_stored: [Placed; 11],
    /// How many bytes after the last chunk are ignored.
    pub ignored: usize,
}

pub fn answer(payload: &[u8]) -> Result<Answer, String> {
    match reading::read(payload)? {
        Reading::Refused(refused) => Ok(refused.answer()),
        Reading::Accepted(accepted) => Ok(Answer::Done(outline(payload, &accepted)?.layout())),
    }
}

pub fn outline(payload: &[u8], accepted: &Accepted) -> Result<Outline, String> {
    let spans = accepted.spans(payload)?;
    let last = spans.iter().flatten().last().ok_or("there is no chunk")?;
    let ignored = payload.len() - (last.0 + last.1);
    let mut as_stored: [Placed; 11] = std::array::from_fn(|i| (STORED[i], spans[i]));
    if !accepted.image.alpha {
        let mut chunks = as_stored.iter_mut();
        let alpha = chunks.find(|(number, _)| *number == ALPHA_DATA);
        alpha.ok_or("there is no alpha data")?.1 = None;
    }
    let mut by_size = as_stored;
    by_size.sort_by_key(|(number, _)| *number);
    Ok(Outline {
        ends: ends(payload, accepted)?,
        by_size,
        as_stored,
        ignored,
    })
}

impl Outline {
    fn layout(&self) -> Vec<u8> {
        let mut out = Vec::with_capacity(OUTLINE_LEN);
        for end in self.ends {
            out.extend((end as u64).to_be_bytes());
        }
        for (number, span) in self.by_size.into_iter().chain(self.as_stored) {
            out.push(number);
            put_chunk(&mut out, span);
        }
        out.extend((self.ignored as u64).to_be_bytes());
        assert_eq!(out.len(), OUTLINE_LEN);
        out
    }
}

/// Where the header's parts end: those of the plan whose header is the payload's.
fn ends(payload: &[u8], accepted: &Accepted) -> Result<[usize; PARTS], String> {
    let header = &payload[..accepted.header_len];
    let mut plan = plan(&accepted.image);
    for forms in 0..32 {
        // What the record does not tell: which long forms are taken, and whether a gain map's dimensions that
        // are the main picture's are stored all the same.
        plan.wide = Wide {
            dimensions: forms & 1 != 0,
            metadata: forms & 2 != 0,
            config: forms & 4 != 0,
            data: forms & 8 != 0,
        };
        let own = (plan.width, plan.height);
        if let Some(gain_map) = plan.gain_map_mut()
            && gain_map.dimensions.is_none_or(|d| d == own)
        {
            gain_map.dimensions = (forms & 16 != 0).then_some(own);
        }
        let made = plan.header();
        if made.bytes == header {
            return Ok(made.ends);
        }
    }
    Err("no plan makes this header".to_string())
}

/// The plan of a record, in the short forms but for a gain map's dimensions.
pub fn plan(image: &MinimizedImage) -> Plan {
    let one_less = |chunk: &Option<Vec<u8>>| chunk.as_ref().map(|c| c.len() as u32 - 1);
    Plan {
        types: image
            .explicit_codec_types
            .map(|(item, config)| [item, config]),
        full_range: image.full_range,
        depth: depth(image.format),
        alpha: image.alpha.then(|| Alpha {
            premultiplied: image.alpha_premultiplied,
            data: image.alpha_data.len() as u32,
            config: len(&image.alpha_codec_config),
        }),
        cicp: image.explicit_cicp.map(|(p, t, m)| [p, t, m]),
        hdr: image.hdr.then(|| Hdr {
            gain_map: image.gain_map.as_ref().map(gain_map),
            bodies: bodies(&image.hdr_boxes),
        }),
        icc: one_less(&image.icc),
        exif: one_less(&image.exif),
        xmp: one_less(&image.xmp),
        compressed: image.exif_xmp_compressed,
        chroma: chroma(image.chroma),
        orientation: image.orientation as u32 - 1,
        width: image.width - 1,
        height: image.height - 1,
        main_config: image.main_codec_config.len() as u32,
        main_data: image.main_data.len() as u32 - 1,
        ..Plan::smallest()
    }
}

fn gain_map(gain_map: &MiniGainMap) -> GainMap {
    GainMap {
        dimensions: Some((gain_map.width - 1, gain_map.height - 1)),
        matrix: gain_map.matrix_coefficients,
        full_range: gain_map.full_range,
        chroma: chroma(gain_map.chroma),
        depth: depth(gain_map.format),
        tmap_icc: gain_map.tmap_icc.as_ref().map(|c| c.len() as u32 - 1),
        tmap_cicp: gain_map
            .tmap_cicp
            .map(|(p, t, m, full_range)| ([p, t, m], full_range)),
        tmap_bodies: bodies(&gain_map.tmap_hdr),
        metadata: gain_map.metadata.len() as u32,
        data: gain_map.data.len() as u32,
        config: len(&gain_map.codec_config),
    }
}

fn len(chunk: &Option<Vec<u8>>) -> u32 {
    chunk.as_ref().map_or(0, |c| c.len() as u32)
}

fn chroma(chroma: MiniChroma) -> Chroma {
    Chroma {
        subsampling: chroma.subsampling as u32,
        horizontal: chroma.horizontally_centered,
        vertical: chroma.vertically_centered,
    }
}

fn depth(format: SampleFormat) -> Depth {
    match (format.is_float(), format.bits()) {
        (true, bits) => Depth::Float(bits.ilog2() - 4),
        (false, 8) => Depth::Eight,
        (false, bits) => Depth::More(bits as u32 - 9),
    }
}

fn bodies(hdr: &MiniHdrBoxes) -> Bodies {
    hdr_bodies(hdr).map(|body| body.map(<[u8]>::to_vec))
}
