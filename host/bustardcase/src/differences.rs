//! In which fields two records differ, and which of these their expanded files carry.

use crate::{Chunk, Cicp, MiniGainMap, MiniHdrBoxes, MinimizedImage, TmapCicp};

/// A field in which two records differ.
#[derive(Clone, Copy, Debug, PartialEq, Eq, Hash)]
#[non_exhaustive]
pub struct Difference {
    /// The field, by its path in [`MinimizedImage`], as in `gain_map.tmap_hdr.clli`. Where only one record has a
    /// gain map, that is the one difference `gain_map`.
    pub field: &'static str,
    /// Whether the expanded files carry the difference: whether it can be told from them.
    pub carried: bool,
}

/// The fields in which two records differ, each record with the payload that it was read from, in the order
/// of the fields. Chunks are compared by their bytes, wherever they lie.
///
/// If both expand under one original file type, the two files are equal, byte for byte, exactly when no
/// difference is carried. One that is not carried is in no expanded file: it is lost with the payloads, whichever
/// file is kept.
///
/// ```
/// use bustardcase::{FileType, differences, expand, read};
///
/// // The second sets the hdr flag, and has neither a gain map nor an HDR body.
/// let a = b"\x20\0\0\0av01av1C\0\0\0\xAA";
/// let b = b"\x21\0\0\0av01av1C\0\0\0\0\xAA";
/// let found = differences(&read(a)?, a, &read(b)?, b);
/// assert_eq!(found.len(), 1);
/// assert_eq!((found[0].field, found[0].carried), ("hdr", false));
/// let original = FileType::default();
/// assert_eq!(expand(a, &original)?, expand(b, &original)?);
///
/// // The third has another byte of main data.
/// let c = b"\x20\0\0\0av01av1C\0\0\0\xAB";
/// let found = differences(&read(a)?, a, &read(c)?, c);
/// assert_eq!((found[0].field, found[0].carried), ("main_data", true));
/// assert_ne!(expand(a, &original)?, expand(c, &original)?);
/// # Ok::<(), bustardcase::Refusal>(())
/// ```
pub fn differences(
    a: &MinimizedImage,
    a_payload: &[u8],
    b: &MinimizedImage,
    b_payload: &[u8],
) -> Vec<Difference> {
    let mut table = Table {
        a: Record {
            image: a,
            payload: a_payload,
        },
        b: Record {
            image: b,
            payload: b_payload,
        },
        found: Vec::new(),
    };
    table.picture();
    table.hdr();
    table.gain_map();
    table.chunks();
    table.found
}

/// The fields of two records, one beside the other.
struct Table<'a> {
    a: Record<'a>,
    b: Record<'a>,
    found: Vec<Difference>,
}

impl<'a> Table<'a> {
    fn picture(&mut self) {
        self.carried("explicit_codec_types.item_type", |r| {
            r.image.explicit_codec_types.map(|types| types.item_type)
        });
        self.unless(has_no_config, "explicit_codec_types.config_type", |r| {
            r.image.explicit_codec_types.map(|types| types.config_type)
        });
        self.carried("format", |r| r.image.format);
        self.carried("full_range", |r| r.image.full_range);
        self.carried("chroma", |r| r.image.chroma);
        self.carried("orientation", |r| r.image.orientation);
        self.carried("width", |r| r.image.width);
        self.carried("height", |r| r.image.height);
        let carried = cicp(self.a.image) != cicp(self.b.image);
        self.row("explicit_cicp", |r| r.image.explicit_cicp, carried);
        self.carried("icc", |r| r.maybe(r.image.icc));
        self.carried("alpha", |r| r.image.alpha);
        self.carried("alpha_premultiplied", |r| r.image.alpha_premultiplied);
    }

    fn hdr(&mut self) {
        self.unless(has_nothing_hdr, "hdr", |r| r.image.hdr);
        self.carried("hdr_boxes.clli", |r| r.image.hdr_boxes.clli);
        self.carried("hdr_boxes.mdcv", |r| r.image.hdr_boxes.mdcv);
        self.carried("hdr_boxes.cclv", |r| r.image.hdr_boxes.cclv);
        self.carried("hdr_boxes.amve", |r| r.image.hdr_boxes.amve);
        self.carried("hdr_boxes.reve", |r| r.image.hdr_boxes.reve);
        self.carried("hdr_boxes.ndwt", |r| r.image.hdr_boxes.ndwt);
    }

    fn gain_map(&mut self) {
        self.carried("gain_map", |r| r.gain_map().is_some());
        if self.a.gain_map().is_none() || self.b.gain_map().is_none() {
            return;
        }
        self.of_item("gain_map.width", |g| g.width);
        self.of_item("gain_map.height", |g| g.height);
        self.of_item("gain_map.matrix_coefficients", |g| g.matrix_coefficients);
        self.of_item("gain_map.full_range", |g| g.full_range);
        self.of_item("gain_map.chroma", |g| g.chroma);
        self.of_item("gain_map.format", |g| g.format);
        self.unless(has_default_tmap_cicp, "gain_map.tmap_cicp", |r| {
            r.gain_map().map(|g| g.tmap_cicp)
        });
        self.of_tmap("gain_map.tmap_icc", |r, g| r.maybe(g.tmap_icc));
        self.of_tmap("gain_map.tmap_hdr.clli", |_, g| g.tmap_hdr.clli);
        self.of_tmap("gain_map.tmap_hdr.mdcv", |_, g| g.tmap_hdr.mdcv);
        self.of_tmap("gain_map.tmap_hdr.cclv", |_, g| g.tmap_hdr.cclv);
        self.of_tmap("gain_map.tmap_hdr.amve", |_, g| g.tmap_hdr.amve);
        self.of_tmap("gain_map.tmap_hdr.reve", |_, g| g.tmap_hdr.reve);
        self.of_tmap("gain_map.tmap_hdr.ndwt", |_, g| g.tmap_hdr.ndwt);
        self.of_tmap("gain_map.metadata", |r, g| r.bytes(g.metadata));
        let own = |r: Record<'a>| r.gain_map().and_then(|g| r.maybe(g.codec_config));
        self.config("gain_map.codec_config", own);
        self.of_tmap("gain_map.data", |r, g| r.bytes(g.data));
    }

    fn chunks(&mut self) {
        self.carried("main_codec_config", |r| r.main_config());
        self.carried("main_data", |r| r.bytes(r.image.main_data));
        let own = |r: Record<'a>| r.maybe(r.image.alpha_codec_config);
        self.config("alpha_codec_config", own);
        self.carried("alpha_data", |r| r.bytes(r.image.alpha_data));
        self.carried("exif_xmp_compressed", |r| r.image.exif_xmp_compressed);
        self.carried("exif", |r| r.maybe(r.image.exif));
        self.carried("xmp", |r| r.maybe(r.image.xmp));
    }

    /// A field, and whether a difference in it is carried.
    fn row<T: PartialEq>(
        &mut self,
        field: &'static str,
        value: impl Fn(Record<'a>) -> T,
        carried: bool,
    ) {
        if value(self.a) != value(self.b) {
            self.found.push(Difference { field, carried });
        }
    }

    fn carried<T: PartialEq>(&mut self, field: &'static str, value: impl Fn(Record<'a>) -> T) {
        self.row(field, value, true);
    }

    /// A field that is not carried where the rule holds of both records.
    fn unless<T: PartialEq>(
        &mut self,
        rule: impl Fn(Record<'a>) -> bool,
        field: &'static str,
        value: impl Fn(Record<'a>) -> T,
    ) {
        let free = rule(self.a) && rule(self.b);
        self.row(field, value, !free);
    }

    /// A field of the gain map's own item, which the file has if there is data.
    fn of_item<T: PartialEq>(&mut self, field: &'static str, value: impl Fn(&MiniGainMap) -> T) {
        self.unless(has_no_gain_map_item, field, |r| r.gain_map().map(&value));
    }

    /// A field of the gain map that the file has whether there is data or not.
    fn of_tmap<T: PartialEq>(
        &mut self,
        field: &'static str,
        value: impl Fn(Record<'a>, &MiniGainMap) -> T,
    ) {
        self.carried(field, |r| r.gain_map().map(|g| value(r, g)));
    }

    /// The configuration of alpha or of the gain map.
    fn config(&mut self, field: &'static str, own: impl Fn(Record<'a>) -> Option<&'a [u8]> + Copy) {
        self.unless(|r| takes_main_config(r, own(r)), field, own);
    }
}

/// A record, and the payload that has its chunks.
#[derive(Clone, Copy)]
struct Record<'a> {
    image: &'a MinimizedImage,
    payload: &'a [u8],
}

impl<'a> Record<'a> {
    fn bytes(&self, chunk: Chunk) -> &'a [u8] {
        chunk.of(self.payload)
    }

    fn maybe(&self, chunk: Option<Chunk>) -> Option<&'a [u8]> {
        chunk.map(|chunk| self.bytes(chunk))
    }

    fn gain_map(&self) -> Option<&'a MiniGainMap> {
        self.image.gain_map.as_ref()
    }

    fn main_config(&self) -> &'a [u8] {
        self.bytes(self.image.main_codec_config)
    }
}

// When the file does not carry a field.

/// The code points that the file has: the explicit ones, else those that follow from ICC and chroma.
fn cicp(image: &MinimizedImage) -> Cicp {
    let (primaries, transfer) = match image.icc {
        Some(_) => (2, 2),
        None => (1, 13),
    };
    let matrix = match image.chroma.subsampling {
        0 => 2,
        _ => 6,
    };
    image.explicit_cicp.unwrap_or(Cicp {
        primaries,
        transfer,
        matrix,
    })
}

/// The flag announces a gain map and bodies; the file has only these.
fn has_nothing_hdr(record: Record) -> bool {
    let none = MiniHdrBoxes {
        clli: None,
        mdcv: None,
        cclv: None,
        amve: None,
        reve: None,
        ndwt: None,
    };
    record.gain_map().is_none() && record.image.hdr_boxes == none
}

/// The file gives the main configuration, if there is one, to an item that has none of its own.
fn takes_main_config(record: Record, own: Option<&[u8]>) -> bool {
    let main = record.main_config();
    !main.is_empty() && own.is_none_or(|own| own == main)
}

/// The file gives these to a tone map that has neither code points nor ICC.
const DEFAULT_TMAP_CICP: TmapCicp = TmapCicp {
    primaries: 1,
    transfer: 13,
    matrix: 6,
    full_range: true,
};

fn has_default_tmap_cicp(record: Record) -> bool {
    let default = |g: &MiniGainMap| {
        g.tmap_icc.is_none() && g.tmap_cicp.is_none_or(|cicp| cicp == DEFAULT_TMAP_CICP)
    };
    record.gain_map().is_some_and(default)
}

fn has_no_gain_map_item(record: Record) -> bool {
    record.gain_map().is_none_or(|g| g.data.len == 0)
}

/// No item has a configuration, neither its own nor the main one: the file has no box of its type. No payload
/// gives an item a configuration of its own that is empty or stands without data.
fn has_no_config(record: Record) -> bool {
    let image = record.image;
    let gain_map = record.gain_map().and_then(|g| g.codec_config);
    image.main_codec_config.len == 0 && image.alpha_codec_config.is_none() && gain_map.is_none()
}
