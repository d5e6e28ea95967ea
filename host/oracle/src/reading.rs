//! Reading a payload, and the layout of the record that it reads to.

use crate::answer::Answer;
use crate::breaking::{self, Break};
use crate::refusal::{self, PLACES, Place, What};
use std::fmt::Display;
use upstream::error::HeifError;
use upstream::mini::{MiniChroma, MiniGainMap, MiniHdrBoxes, MinimizedImage, SampleFormat};

/// The length of a record's layout.
pub const RECORD_LEN: usize = 441;

/// No header is shorter or longer than these.
const LEAST_HEADER: usize = 7;
const MOST_HEADER: usize = 252;

/// The lengths of the HDR bodies in the layout; that of 'cclv' is the most it can have.
const BODIES: [usize; 6] = [4, 24, 37, 8, 20, 4];

/// What `MinimizedImage::parse` makes of a payload.
pub enum Reading {
    Accepted(Box<Accepted>),
    Refused(Refused),
}

/// A refusal: what the Rust's message names, and the bit, which comes from a reading bit by bit.
#[derive(Clone, Copy)]
pub struct Refused {
    /// An index into `PLACES`.
    pub place: usize,
    pub bit: u64,
}

impl Refused {
    pub fn number(&self) -> u64 {
        PLACES[self.place].number
    }

    /// The answer of every exported function that reads the payload.
    pub fn answer(&self) -> Answer {
        Answer::Refused {
            number: self.number(),
            bit: self.bit,
        }
    }
}

pub struct Accepted {
    pub image: MinimizedImage,
    /// The header's length in bytes.
    pub header_len: usize,
}

/// What the supplied Rust answers for a payload.
pub fn read(payload: &[u8]) -> Result<Reading, String> {
    let broken = breaking::walk(payload).broken;
    match MinimizedImage::parse(payload) {
        Ok(image) => {
            if broken.is_some() {
                return Err(disagreement("accepted", broken));
            }
            let header_len = header_len(payload, &image)?;
            let accepted = Accepted { image, header_len };
            Ok(Reading::Accepted(Box::new(accepted)))
        }
        Err(error) => {
            let place = refusal::of_parse(&error)?;
            match broken.filter(|broken| says_so(&error, PLACES[place], broken)) {
                Some(Break { bit, .. }) => Ok(Reading::Refused(Refused { place, bit })),
                None => Err(disagreement(error, broken)),
            }
        }
    }
}

/// Whether a message has nothing that the reading bit by bit does not say: the number; the part of the header or
/// the chunk, and the chunk's length; the bit, if it names one.
fn says_so(error: &HeifError, place: Place, broken: &Break) -> bool {
    let what = match (place.what, broken.place) {
        (What::Part(parts), breaking::Place::Part(part)) => parts.contains(&part),
        (What::Chunk(chunk), breaking::Place::Chunk { number, length, .. }) => {
            chunk == number && refusal::named_length(error) == Some(length)
        }
        _ => false,
    };
    let named = refusal::named_bit(error);
    place.number == broken.number && what && named.is_none_or(|bit| bit == broken.bit)
}

fn disagreement(rust: impl Display, broken: Option<Break>) -> String {
    format!("the Rust: {rust}; the reading bit by bit: {broken:?}")
}

impl Reading {
    /// The answer in the layout of the exported function.
    pub fn answer(&self, payload: &[u8]) -> Result<Answer, String> {
        match self {
            Reading::Accepted(accepted) => Ok(Answer::Done(accepted.layout(payload)?)),
            Reading::Refused(refused) => Ok(refused.answer()),
        }
    }
}

/// The header's length. The Rust's record has no positions, so this is found by what the Rust says
/// of shorter payloads: it is the fewest bytes with which no field is missing (refusal 5).
fn header_len(payload: &[u8], image: &MinimizedImage) -> Result<usize, String> {
    let chunks: usize = stored(image).iter().flatten().map(|c| c.len()).sum();
    let mut most = (payload.len() - chunks).min(MOST_HEADER);
    if lacks_field(payload, most - 1)? {
        return Ok(most);
    }
    let mut least = LEAST_HEADER;
    while least < most {
        let middle = least + (most - least) / 2;
        if lacks_field(payload, middle)? {
            least = middle + 1;
        } else {
            most = middle;
        }
    }
    Ok(most)
}

/// Whether a field or an HDR body is missing in the first `len` bytes of an accepted payload.
fn lacks_field(payload: &[u8], len: usize) -> Result<bool, String> {
    let Err(error) = MinimizedImage::parse(&payload[..len]) else {
        return Ok(false);
    };
    match PLACES[refusal::of_parse(&error)?].number {
        5 => Ok(true),
        9 => Ok(false),
        number => Err(format!(
            "an accepted payload's first {len} bytes are refused with {number}"
        )),
    }
}

// The places of the chunks in stored order.
pub const MAIN_CONFIG: usize = 0;
pub const ALPHA_CONFIG: usize = 1;
pub const GAIN_MAP_CONFIG: usize = 2;
pub const ICC: usize = 3;
pub const TMAP_ICC: usize = 4;
pub const GAIN_MAP_METADATA: usize = 5;
pub const ALPHA_DATA: usize = 6;
pub const GAIN_MAP_DATA: usize = 7;
pub const MAIN_DATA: usize = 8;
pub const EXIF: usize = 9;
pub const XMP: usize = 10;

/// The chunks in stored order. Of an absent gain map there is none.
pub fn stored(image: &MinimizedImage) -> [Option<&[u8]>; 11] {
    let gain_map = image.gain_map.as_ref();
    [
        Some(&image.main_codec_config[..]),
        image.alpha_codec_config.as_deref(),
        gain_map.and_then(|g| g.codec_config.as_deref()),
        image.icc.as_deref(),
        gain_map.and_then(|g| g.tmap_icc.as_deref()),
        gain_map.map(|g| &g.metadata[..]),
        Some(&image.alpha_data[..]),
        gain_map.map(|g| &g.data[..]),
        Some(&image.main_data[..]),
        image.exif.as_deref(),
        image.xmp.as_deref(),
    ]
}

/// The position and the length of each chunk that is present.
pub type Spans = [Option<(usize, usize)>; 11];

impl Accepted {
    /// The record's layout. Every chunk must stand in the payload where its turn comes.
    fn layout(&self, payload: &[u8]) -> Result<Vec<u8>, String> {
        Ok(layout(&self.image, &self.spans(payload)?))
    }

    /// Where the chunks lie, in stored order.
    pub fn spans(&self, payload: &[u8]) -> Result<Spans, String> {
        let mut at = self.header_len;
        let mut spans = [None; 11];
        for (span, chunk) in spans.iter_mut().zip(stored(&self.image)) {
            let Some(chunk) = chunk else { continue };
            if payload.get(at..at + chunk.len()) != Some(chunk) {
                return Err(format!("the Rust's chunk does not stand at {at}"));
            }
            *span = Some((at, chunk.len()));
            at += chunk.len();
        }
        Ok(spans)
    }
}

/// The record's layout.
pub fn layout(image: &MinimizedImage, spans: &Spans) -> Vec<u8> {
    let mut out = Vec::with_capacity(RECORD_LEN);
    put_types(&mut out, image);
    put_format(&mut out, image.format);
    out.push(image.full_range as u8);
    put_chroma(&mut out, image.chroma);
    out.push(image.orientation);
    out.extend(image.width.to_be_bytes());
    out.extend(image.height.to_be_bytes());
    let (primaries, transfer, matrix) = image.explicit_cicp.unwrap_or_default();
    out.push(image.explicit_cicp.is_some() as u8);
    out.extend([primaries, transfer, matrix]);
    put_chunk(&mut out, spans[ICC]);
    out.push(image.alpha as u8);
    out.push(image.alpha_premultiplied as u8);
    out.push(image.hdr as u8);
    put_hdr(&mut out, &image.hdr_boxes);
    out.push(image.gain_map.is_some() as u8);
    match &image.gain_map {
        Some(gain_map) => put_gain_map(&mut out, gain_map, spans),
        None => out.resize(out.len() + 189, 0),
    }
    put_span(&mut out, spans[MAIN_CONFIG]);
    put_span(&mut out, spans[MAIN_DATA]);
    put_chunk(&mut out, spans[ALPHA_CONFIG]);
    put_span(&mut out, spans[ALPHA_DATA]);
    out.push(image.exif_xmp_compressed as u8);
    put_chunk(&mut out, spans[EXIF]);
    put_chunk(&mut out, spans[XMP]);
    assert_eq!(out.len(), RECORD_LEN);
    out
}

fn put_types(out: &mut Vec<u8>, image: &MinimizedImage) {
    let (infe, config) = image.explicit_codec_types.unwrap_or_default();
    out.push(image.explicit_codec_types.is_some() as u8);
    out.extend(infe);
    out.extend(config);
}

fn put_format(out: &mut Vec<u8>, format: SampleFormat) {
    out.push(format.is_float() as u8);
    out.push(format.bits());
}

fn put_chroma(out: &mut Vec<u8>, chroma: MiniChroma) {
    out.push(chroma.subsampling);
    out.push(chroma.horizontally_centered as u8);
    out.push(chroma.vertically_centered as u8);
}

fn put_gain_map(out: &mut Vec<u8>, gain_map: &MiniGainMap, spans: &Spans) {
    out.extend(gain_map.width.to_be_bytes());
    out.extend(gain_map.height.to_be_bytes());
    out.push(gain_map.matrix_coefficients);
    out.push(gain_map.full_range as u8);
    put_chroma(out, gain_map.chroma);
    put_format(out, gain_map.format);
    let (primaries, transfer, matrix, full_range) = gain_map.tmap_cicp.unwrap_or_default();
    out.push(gain_map.tmap_cicp.is_some() as u8);
    out.extend([primaries, transfer, matrix, full_range as u8]);
    put_chunk(out, spans[TMAP_ICC]);
    put_hdr(out, &gain_map.tmap_hdr);
    put_span(out, spans[GAIN_MAP_METADATA]);
    put_chunk(out, spans[GAIN_MAP_CONFIG]);
    put_span(out, spans[GAIN_MAP_DATA]);
}

/// The six flags, then the six bodies, with zeros where there is none and after a shorter one.
fn put_hdr(out: &mut Vec<u8>, hdr: &MiniHdrBoxes) {
    let bodies = hdr_bodies(hdr);
    out.extend(bodies.map(|b| b.is_some() as u8));
    for (body, len) in bodies.into_iter().zip(BODIES) {
        let end = out.len() + len;
        out.extend(body.unwrap_or_default());
        assert!(out.len() <= end, "an HDR body is longer than {len} bytes");
        out.resize(end, 0);
    }
}

pub fn hdr_bodies(hdr: &MiniHdrBoxes) -> [Option<&[u8]>; 6] {
    let all = [
        &hdr.clli, &hdr.mdcv, &hdr.cclv, &hdr.amve, &hdr.reve, &hdr.ndwt,
    ];
    all.map(|b| b.as_deref())
}

/// Present or not, position, length.
pub fn put_chunk(out: &mut Vec<u8>, span: Option<(usize, usize)>) {
    out.push(span.is_some() as u8);
    put_span(out, span);
}

/// Position, length; zeros where absent.
fn put_span(out: &mut Vec<u8>, span: Option<(usize, usize)>) {
    let (position, length) = span.unwrap_or_default();
    out.extend((position as u64).to_be_bytes());
    out.extend((length as u64).to_be_bytes());
}
