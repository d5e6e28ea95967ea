//! The record that a file is expanded from, by the words of document 02, point 3. Written from these and from
//! document 01's layout of the equivalent file: the file is taken apart box by box, what it does not carry gets the
//! values that the request names, and the record must be one that a payload gives and that the supplied Rust expands
//! to exactly the file. Whatever carries nothing is only passed over, since the files are compared.

mod items;
mod slots;

use crate::answer::Answer;
use crate::expanding::{self, OriginalType};
use crate::file_part::FilePart;
use crate::reading::{
    self, ALPHA_CONFIG, ALPHA_DATA, EXIF, GAIN_MAP_CONFIG, GAIN_MAP_DATA, GAIN_MAP_METADATA, ICC,
    MAIN_CONFIG, MAIN_DATA, Spans, TMAP_ICC, XMP,
};
use crate::same::inferred_triple;
use items::{
    ALPHA, EXIF_ITEM, GAIN_MAP, Items, Locations, MAIN, TONE_MAP, XMP_ITEM, has_reference,
};
use slots::{HDR_SLOTS, Slots, TMAP_HDR_SLOTS};
use upstream::mini::{MiniChroma, MiniGainMap, MiniHdrBoxes, MinimizedImage, SampleFormat};

/// The brand list is refused.
pub const BRANDS: u64 = 15;
/// No record with explicit codec types expands to the file under that file type.
pub const NO_RECORD: u64 = 17;

/// A record, and where the file holds its chunks, in stored order. An empty chunk lies at 0.
#[derive(Clone, Debug, PartialEq, Eq)]
pub struct Restored {
    pub image: MinimizedImage,
    pub spans: Spans,
}

impl Restored {
    /// The layout of docs/ABI.md.
    pub fn layout(&self) -> Vec<u8> {
        reading::layout(&self.image, &self.spans)
    }
}

/// The record found, or the refusal's number.
pub fn restore(file: &[u8], original: &OriginalType) -> Result<Restored, u64> {
    if !original.is_allowed() {
        return Err(BRANDS);
    }
    let restored = taken_apart(file).ok_or(NO_RECORD)?;
    match is_of_payload(&restored.image) && expands_to(&restored.image, original, file) {
        true => Ok(restored),
        false => Err(NO_RECORD),
    }
}

/// Whether a payload reads to the record. If one does, the box that the Rust writes does.
pub fn is_of_payload(image: &MinimizedImage) -> bool {
    let Ok(boxed) = image.to_box() else {
        return false;
    };
    MinimizedImage::parse(&boxed[8..]).is_ok_and(|read| read == *image)
}

/// Whether the Rust's file of the record is this one.
pub fn expands_to(image: &MinimizedImage, original: &OriginalType, file: &[u8]) -> bool {
    match expanding::of_record(image, original) {
        Ok(Answer::Done(expanded)) => expanded == file,
        _ => false,
    }
}

/// The record that the file's boxes tell, if they have the form of an equivalent file's.
fn taken_apart(file: &[u8]) -> Option<Restored> {
    let mut boxes = FilePart::whole(file);
    boxes.boxed(b"ftyp")?;
    let mut meta = boxes.boxed(b"meta")?.after_version(0, 0)?;
    boxes.boxed(b"mdat")?;
    boxes.finish()?;
    meta.boxed(b"hdlr")?;
    meta.boxed(b"pitm")?;
    let items = Items::read(meta.boxed(b"iinf")?)?;
    let references = meta.optional_box(b"iref")?;
    let mut properties = meta.boxed(b"iprp")?;
    let slots = Slots::read(properties.boxed(b"ipco")?)?;
    properties.boxed(b"ipma")?;
    properties.finish()?;
    meta.optional_box(b"grpl")?;
    let locations = Locations::read(meta.boxed(b"iloc")?)?;
    meta.finish()?;
    let is_premultiplied = match references {
        Some(references) => has_reference(references, b"prem")?,
        None => false,
    };
    let carried = Carried {
        file,
        items,
        is_premultiplied,
        slots,
        locations,
    };
    carried.restored()
}

/// What the file tells of its record.
struct Carried<'a> {
    file: &'a [u8],
    items: Items,
    is_premultiplied: bool,
    slots: Slots<'a>,
    locations: Locations,
}

impl Carried<'_> {
    fn restored(&self) -> Option<Restored> {
        let spans = self.spans()?;
        let spans = spans.map(|span| span.map(|(at, len)| (if len == 0 { 0 } else { at }, len)));
        let image = self.image(&spans)?;
        Some(Restored { image, spans })
    }

    /// Where the chunks lie, empty ones anywhere. Of an absent gain map there is none.
    fn spans(&self) -> Option<Spans> {
        let Items {
            has_alpha,
            has_tone_map,
            has_gain_map,
            exif,
            xmp,
            ..
        } = self.items;
        let mut spans = [None; 11];
        let empty = (0, 0);
        spans[MAIN_CONFIG] = Some(self.slots.config(1).map_or(empty, |slot| slot.body.span()));
        spans[MAIN_DATA] = Some(self.locations.of(MAIN)?);
        spans[ICC] = self.slots.profile(5)?;
        spans[ALPHA_DATA] = Some(empty);
        if has_alpha {
            spans[ALPHA_DATA] = Some(self.locations.of(ALPHA)?);
            spans[ALPHA_CONFIG] = self.own_config(6);
        }
        if has_tone_map {
            // One zero byte stands before the metadata.
            let (at, len) = self.locations.of(TONE_MAP)?;
            spans[GAIN_MAP_METADATA] = Some((at.checked_add(1)?, len.checked_sub(1)?));
            spans[TMAP_ICC] = self.slots.profile(23)?;
            spans[GAIN_MAP_DATA] = Some(empty);
        }
        if has_gain_map {
            spans[GAIN_MAP_DATA] = Some(self.locations.of(GAIN_MAP)?);
            spans[GAIN_MAP_CONFIG] = self.own_config(17);
        }
        if exif.is_some() {
            spans[EXIF] = Some(self.locations.of(EXIF_ITEM)?);
        }
        if xmp.is_some() {
            spans[XMP] = Some(self.locations.of(XMP_ITEM)?);
        }
        Some(spans)
    }

    /// The configuration of alpha or of the gain map, where it is not the main one again: absent is shorter.
    fn own_config(&self, number: usize) -> Option<(usize, usize)> {
        let own = self.slots.config(number)?.body;
        let is_main = self
            .slots
            .config(1)
            .is_some_and(|main| main.body.bytes() == own.bytes());
        (!is_main).then_some(own.span())
    }

    fn image(&self, spans: &Spans) -> Option<MinimizedImage> {
        let chunk = |place: usize| self.chunk(spans[place]);
        let present = |place: usize| chunk(place).map(Option::unwrap_or_default);
        let (width, height) = self.slots.size(2)?;
        let (format, chroma) = self.slots.samples(3)?;
        let (primaries, transfer, matrix, full_range) = self.slots.colours(4)?;
        let hdr_boxes = self.slots.hdr(HDR_SLOTS)?;
        let gain_map = match self.items.has_tone_map {
            true => Some(self.gain_map(spans, (width, height))?),
            false => None,
        };
        let mut image = MinimizedImage::new(
            Some((self.items.main_type, self.config_type())),
            format,
            full_range,
            chroma,
            self.slots.orientation()?,
            width,
            height,
            Some((primaries, transfer, matrix)),
            chunk(ICC)?,
            self.items.has_alpha,
            self.is_premultiplied,
            gain_map.is_some() || hdr_boxes != MiniHdrBoxes::default(),
            hdr_boxes,
            gain_map,
            present(MAIN_CONFIG)?,
            present(MAIN_DATA)?,
            chunk(ALPHA_CONFIG)?,
            present(ALPHA_DATA)?,
            self.items.exif.or(self.items.xmp).unwrap_or(false),
            chunk(EXIF)?,
            chunk(XMP)?,
        );
        // A triple that would be inferred is shorter absent.
        let inferred = inferred_triple(&image);
        image.explicit_cicp.take_if(|triple| *triple == inferred);
        Some(image)
    }

    /// The type of the first configuration that is written, zero if none is.
    fn config_type(&self) -> [u8; 4] {
        let written = [1, 6, 17].into_iter().find_map(|n| self.slots.config(n));
        written.map_or([0; 4], |slot| slot.box_type)
    }

    fn gain_map(&self, spans: &Spans, main_size: (u32, u32)) -> Option<MiniGainMap> {
        let chunk = |place: usize| self.chunk(spans[place]);
        let present = |place: usize| chunk(place).map(Option::unwrap_or_default);
        let own = match self.items.has_gain_map {
            true => self.own_fields()?,
            false => OwnFields::not_carried(main_size),
        };
        let has_profile = spans[TMAP_ICC].is_some();
        let mut colours = self.slots.optional_colours(22)?;
        // Without a profile, these stand also where none are given, which is shorter.
        colours.take_if(|colours| !has_profile && *colours == (1, 13, 6, true));
        Some(MiniGainMap::new(
            own.size.0,
            own.size.1,
            own.matrix,
            own.full_range,
            own.chroma,
            own.format,
            colours,
            chunk(TMAP_ICC)?,
            self.slots.hdr(TMAP_HDR_SLOTS)?,
            present(GAIN_MAP_METADATA)?,
            chunk(GAIN_MAP_CONFIG)?,
            present(GAIN_MAP_DATA)?,
        ))
    }

    fn own_fields(&self) -> Option<OwnFields> {
        let (format, chroma) = self.slots.samples(19)?;
        let (_, _, matrix, full_range) = self.slots.colours(20)?;
        Some(OwnFields {
            size: self.slots.size(18)?,
            matrix,
            full_range,
            chroma,
            format,
        })
    }

    /// A chunk's bytes, if it is present. None: it lies outside the file.
    fn chunk(&self, span: Option<(usize, usize)>) -> Option<Option<Vec<u8>>> {
        let Some((at, len)) = span else {
            return Some(None);
        };
        let bytes = self.file.get(at..at.checked_add(len)?)?;
        Some(Some(bytes.to_vec()))
    }
}

/// What describes the gain map's samples.
struct OwnFields {
    size: (u32, u32),
    matrix: u8,
    full_range: bool,
    chroma: MiniChroma,
    format: SampleFormat,
}

impl OwnFields {
    /// Those of a gain map without data: the main picture's size, 8-bit integers, and zero or false.
    fn not_carried(main_size: (u32, u32)) -> Self {
        OwnFields {
            size: main_size,
            matrix: 0,
            full_range: false,
            chroma: MiniChroma::new(0, false, false),
            format: SampleFormat::Integer { bits: 8 },
        }
    }
}

#[cfg(test)]
mod tests {
    use super::*;
    use crate::normal::normal;
    use crate::payloads::{payload_of, with_every_chunk};
    use crate::plan::Plan;
    use crate::random::Random;
    use crate::{changes, expanding};

    fn original() -> OriginalType {
        OriginalType {
            major: expanding::MIF3,
            minor: 0,
            brands: b"mif3".to_vec(),
        }
    }

    fn record(plan: Plan) -> MinimizedImage {
        let plan = Plan {
            types: expanding::plain().types,
            ..plan
        };
        MinimizedImage::parse(&payload_of(&plan)).expect("the plan is sound")
    }

    fn file(image: &MinimizedImage) -> Vec<u8> {
        match expanding::of_record(image, &original()) {
            Ok(Answer::Done(file)) => file,
            other => panic!("{other:?}"),
        }
    }

    fn found(file: &[u8]) -> Restored {
        restore(file, &original()).expect("a record expands to it")
    }

    fn refused(file: &[u8]) -> bool {
        restore(file, &original()) == Err(NO_RECORD)
    }

    /// Document 01's file of 484 bytes, in which item 1 lies at 483.
    #[test]
    fn the_file_of_the_paper() {
        let file = file(&record(Plan::smallest()));
        let Restored { image, spans } = found(&file);
        assert_eq!(file.len(), 484);
        assert_eq!(image.explicit_codec_types, Some((*b"av01", [0; 4])));
        let mut expected = [None; 11];
        for place in [MAIN_CONFIG, ALPHA_DATA] {
            expected[place] = Some((0, 0));
        }
        expected[MAIN_DATA] = Some((483, 1));
        assert_eq!(spans, expected);
    }

    #[test]
    fn chunks_lie_where_the_file_has_them() {
        let image = record(with_every_chunk());
        let file = file(&image);
        let Restored { image, spans } = found(&file);
        for (chunk, span) in reading::stored(&image).into_iter().zip(spans) {
            let (at, len) = span.expect("every chunk is there");
            assert_eq!(chunk, Some(&file[at..at + len]));
            assert!(at > 0);
        }
        // The main configuration repeated for alpha, and the one written first.
        let mut image = image.clone();
        image.alpha_codec_config = None;
        let again = found(&self::file(&image));
        assert_eq!(again.spans[MAIN_CONFIG], spans[MAIN_CONFIG]);
        assert_eq!(again.spans[ALPHA_CONFIG], None);
    }

    #[test]
    fn what_is_found_is_the_normal_form() {
        let mut r = Random::new(22);
        for _ in 0..4_000 {
            let image = changes::base(&mut r);
            assert_eq!(found(&file(&image)).image, normal(&image));
        }
    }

    /// The request's table: what the file does not carry.
    #[test]
    fn what_is_not_carried() {
        let mut image = record(with_every_chunk());
        (image.width, image.height) = (300, 200);
        image.main_codec_config.clear();
        image.alpha_codec_config = None;
        let gain_map = image.gain_map.as_mut().expect("a gain map");
        (gain_map.width, gain_map.height) = (7, 8);
        (gain_map.matrix_coefficients, gain_map.full_range) = (9, true);
        gain_map.chroma = MiniChroma::new(1, true, true);
        gain_map.format = SampleFormat::Float { bits: 64 };
        gain_map.data.clear();
        gain_map.codec_config = None;
        gain_map.metadata.clear();
        let Restored { image, spans } = found(&file(&image));
        let gain_map = image.gain_map.expect("a gain map");
        assert_eq!((gain_map.width, gain_map.height), (300, 200));
        assert_eq!(gain_map.matrix_coefficients, 0);
        assert!(!gain_map.full_range);
        assert_eq!(gain_map.chroma, MiniChroma::new(0, false, false));
        assert_eq!(gain_map.format, SampleFormat::Integer { bits: 8 });
        assert_eq!(image.explicit_codec_types, Some((*b"av01", [0; 4])));
        for empty in [MAIN_CONFIG, GAIN_MAP_METADATA, GAIN_MAP_DATA] {
            assert_eq!(spans[empty], Some((0, 0)));
        }
        assert!(spans[ALPHA_DATA].is_some_and(|(at, len)| at > 0 && len > 0));
    }

    /// Its 189 bytes of the layout are zeros.
    #[test]
    fn an_absent_gain_map_is_blank() {
        let mut image = record(with_every_chunk());
        image.gain_map = None;
        let layout = found(&file(&image)).layout();
        assert!(layout[151..341].iter().all(|byte| *byte == 0));
        let other = found(&file(&record(with_every_chunk()))).layout();
        assert_eq!(other[151], 1);
    }

    #[test]
    fn brands_are_tried_first() {
        let file = file(&record(Plan::smallest()));
        for (len, number) in [(4_096, NO_RECORD), (4_100, BRANDS), (3, BRANDS)] {
            let original = OriginalType {
                brands: vec![0; len],
                ..original()
            };
            for file in [&file[..], &[]] {
                assert_eq!(restore(file, &original), Err(number));
            }
        }
    }

    #[test]
    fn what_no_payload_holds_is_refused() {
        let base = record(with_every_chunk());
        let changes: [fn(&mut MinimizedImage); 16] = [
            |i| i.width = 0,
            |i| i.width = 32_769,
            |i| i.height = 0,
            |i| i.height = 32_769,
            |i| i.format = SampleFormat::Integer { bits: 7 },
            |i| i.format = SampleFormat::Integer { bits: 17 },
            |i| i.format = SampleFormat::Float { bits: 8 },
            |i| i.chroma = MiniChroma::new(2, false, true),
            |i| i.chroma = MiniChroma::new(3, true, false),
            |i| i.icc = Some(vec![]),
            |i| i.icc = Some(vec![0; (1 << 20) + 1]),
            |i| i.exif = Some(vec![]),
            |i| i.xmp = Some(vec![0; (1 << 20) + 1]),
            |i| i.main_codec_config = vec![0; 1 << 12],
            |i| i.hdr_boxes.cclv = Some(vec![0x20; 24]),
            |i| i.main_data.clear(),
        ];
        for change in changes {
            let mut image = base.clone();
            change(&mut image);
            assert!(refused(&file(&image)));
        }
        let mut image = base;
        image.icc = Some(vec![0; 1 << 20]);
        image.main_codec_config = vec![0; (1 << 12) - 1];
        assert_eq!(found(&file(&image)).image, normal(&image));
    }

    /// The Rust refuses to expand a type 'uuid'.
    #[test]
    fn a_type_of_extended_boxes_is_refused() {
        let mut image = record(with_every_chunk());
        image.explicit_codec_types = Some((*b"abcd", *b"efgh"));
        let file = file(&image);
        assert_eq!(found(&file).image, normal(&image));
        for named in [b"abcd", b"efgh"] {
            let mut other = file.clone();
            let places: Vec<usize> = (0..file.len() - 4)
                .filter(|&at| file[at..at + 4] == *named)
                .collect();
            assert_eq!(places.len(), 3);
            for at in places {
                other[at..at + 4].copy_from_slice(b"uuid");
            }
            assert!(refused(&other));
        }
    }

    #[test]
    fn a_file_with_less_or_more_is_refused() {
        let file = file(&record(with_every_chunk()));
        for end in 0..file.len() {
            assert!(refused(&file[..end]));
        }
        for more in [&[0][..], b"\0\0\0\x08free"] {
            assert!(refused(&[&file, more].concat()));
        }
    }
}
