//! Payloads by the record that they read to, so that a record can be changed field by field.

use crate::outlining;
use crate::payloads;
use crate::plan::Wide;
use crate::random::Random;
use crate::reading::stored;
use upstream::mini::{MiniChroma, MiniGainMap, MiniHdrBoxes, MinimizedImage, SampleFormat};

/// What of a payload its record does not tell. It moves the chunks.
#[derive(Clone, Copy, Default)]
pub struct Form {
    pub wide: Wide,
    /// Whether a gain map's dimensions are stored where they are the main picture's.
    pub dimensions: bool,
    /// How many bytes follow the last chunk.
    pub tail: usize,
}

pub fn random_form(r: &mut Random) -> Form {
    Form {
        wide: Wide {
            dimensions: r.once_in(4),
            metadata: r.once_in(4),
            config: r.once_in(4),
            data: r.once_in(4),
        },
        dimensions: r.flag(),
        tail: r.pick(&[0, 0, 1, 9]),
    }
}

/// A payload of this form that reads to the record, if one does.
pub fn payload(image: &MinimizedImage, form: Form) -> Vec<u8> {
    let mut plan = outlining::plan(image);
    plan.wide = form.wide;
    let main = (plan.width, plan.height);
    if let Some(gain_map) = plan.gain_map_mut()
        && !form.dimensions
    {
        gain_map.dimensions.take_if(|own| *own == main);
    }
    let mut payload = plan.header().bytes;
    for chunk in stored(image).into_iter().flatten() {
        payload.extend(chunk);
    }
    payload.resize(payload.len() + form.tail, 0xff);
    payload
}

/// Of one pixel, with nothing in it.
pub fn plain_gain_map() -> MiniGainMap {
    MiniGainMap::new(
        1,
        1,
        0,
        false,
        MiniChroma::new(0, false, false),
        SampleFormat::Integer { bits: 8 },
        None,
        None,
        MiniHdrBoxes::default(),
        Vec::new(),
        None,
        Vec::new(),
    )
}

/// A record with explicit codec types that some payload gives and that can be expanded.
pub fn random_record(r: &mut Random) -> MinimizedImage {
    loop {
        let mut plan = payloads::random_plan(r);
        plan.version = 0;
        plan.padding = 0;
        plan.types = Some([random_type(r), random_type(r)]);
        if plan.is_sound() {
            let header = plan.header();
            let mut payload = header.bytes;
            payload.extend(random_bytes(r, header.chunks));
            let mut image = MinimizedImage::parse(&payload).expect("the plan is sound");
            settle(&mut image);
            return image;
        }
    }
}

/// Types of boxes and items that a file has elsewhere, of none, and of codecs.
const TYPES: [[u8; 4]; 12] = [
    *b"free", *b"colr", *b"pixi", *b"mime", [0; 4], *b"ispe", *b"auxC", *b"infe", *b"av01",
    *b"av1C", *b"tmap", *b"Exif",
];

/// Never 'uuid', which ends in an even byte.
pub fn random_type(r: &mut Random) -> [u8; 4] {
    match r.once_in(8) {
        true => (r.word() as u32 | 1).to_be_bytes(),
        false => r.pick(&TYPES),
    }
}

pub fn random_bytes(r: &mut Random, len: usize) -> Vec<u8> {
    let mut bytes = vec![0; len];
    r.fill(&mut bytes);
    bytes
}

/// Makes a changed record one that a payload gives and that can be expanded: what cannot stand goes, and what is
/// asked for comes.
pub fn settle(image: &mut MinimizedImage) {
    image.hdr |= image.gain_map.is_some() || image.hdr_boxes != MiniHdrBoxes::default();
    image.alpha = !image.alpha_data.is_empty();
    image.alpha_premultiplied &= image.alpha;
    settle_config(&mut image.alpha_codec_config, &image.alpha_data);
    settle_chroma(&mut image.chroma);
    if let Some(g) = &mut image.gain_map {
        settle_config(&mut g.codec_config, &g.data);
        settle_chroma(&mut g.chroma);
    }
    image.exif_xmp_compressed &= image.exif.is_some() || image.xmp.is_some();
}

/// A configuration has a byte, and stands beside data.
fn settle_config(config: &mut Option<Vec<u8>>, data: &[u8]) {
    config.take_if(|config| config.is_empty() || data.is_empty());
}

/// The subsampling tells which centring flags are stored.
fn settle_chroma(chroma: &mut MiniChroma) {
    chroma.horizontally_centered &= matches!(chroma.subsampling, 1 | 2);
    chroma.vertically_centered &= chroma.subsampling == 1;
}

/// The Rust's file of the record, which must be one that a payload gives.
#[cfg(test)]
pub fn rust_file(image: &MinimizedImage) -> Vec<u8> {
    let payload = payload(image, Form::default());
    assert_eq!(MinimizedImage::parse(&payload).ok().as_ref(), Some(image));
    let original = crate::expanding::OriginalType {
        major: crate::expanding::MIF3,
        minor: 0,
        brands: b"mif3tmap".to_vec(),
    };
    match crate::expanding::of_record(image, &original) {
        Ok(crate::answer::Answer::Done(file)) => file,
        other => panic!("{other:?}"),
    }
}

#[cfg(test)]
mod tests {
    use super::*;
    use crate::reading::{Reading, read};

    #[test]
    fn every_form_reads_to_the_record() {
        let mut r = Random::new(1);
        for _ in 0..2_000 {
            let image = random_record(&mut r);
            let form = random_form(&mut r);
            let Ok(Reading::Accepted(accepted)) = read(&payload(&image, form)) else {
                panic!("{image:?} has no payload");
            };
            assert_eq!(accepted.image, image);
        }
    }

    #[test]
    fn a_form_makes_another_payload() {
        let every_chunk = payloads::payload_of(&payloads::with_every_chunk());
        let image = MinimizedImage::parse(&every_chunk).expect("a sound plan");
        let narrow = payload(&image, Form::default());
        let mut wide = [Wide::default(); 4];
        wide[0].dimensions = true;
        wide[1].metadata = true;
        wide[2].config = true;
        wide[3].data = true;
        let mut forms = wide
            .map(|wide| Form {
                wide,
                ..Form::default()
            })
            .to_vec();
        forms.push(Form {
            dimensions: true,
            ..Form::default()
        });
        forms.push(Form {
            tail: 3,
            ..Form::default()
        });
        for form in forms {
            let other = payload(&image, form);
            assert!(other.len() > narrow.len());
            assert_eq!(MinimizedImage::parse(&other).ok().as_ref(), Some(&image));
        }
    }

    #[test]
    fn what_no_payload_gives_is_settled() {
        let mut r = Random::new(3);
        let mut image = random_record(&mut r);
        image.hdr = false;
        image.hdr_boxes.clli = Some(vec![0; 4]);
        image.alpha_data.clear();
        image.alpha_codec_config = Some(vec![1]);
        image.alpha = true;
        (image.exif, image.xmp, image.exif_xmp_compressed) = (None, None, true);
        image.chroma = MiniChroma::new(3, true, true);
        settle(&mut image);
        assert!(image.hdr && !image.alpha && image.alpha_codec_config.is_none());
        assert!(!image.exif_xmp_compressed);
        assert_eq!(image.chroma, MiniChroma::new(3, false, false));
        let read = MinimizedImage::parse(&payload(&image, Form::default()));
        assert_eq!(read.ok(), Some(image));
    }
}
