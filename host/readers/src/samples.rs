//! The payloads to expand.

use crate::pictures::{self, Coded};
use bustardcase::{FileType, FourCc};
use plan::{Alpha, Chroma, Depth, GainMap, Hdr, NO_BODIES, Plan};

/// A payload, and the original file type it comes with. Its major brand is always 'mif3'.
pub struct Sample {
    pub name: String,
    pub payload: Vec<u8>,
    pub original: FileType,
    /// Whether the main data is a picture.
    pub decodable: bool,
}

/// A payload being put together: the header's fields, and what the chunks hold.
#[derive(Clone)]
struct Draft {
    name: String,
    minor: [u8; 4],
    brands: Vec<[u8; 4]>,
    decodable: bool,
    plan: Plan,
    main: Coded,
    alpha: Option<Coded>,
    gain_map: Option<Coded>,
    metadata: Vec<u8>,
    icc: Option<Vec<u8>>,
    tmap_icc: Option<Vec<u8>>,
    exif: Option<Vec<u8>>,
    xmp: Option<Vec<u8>>,
}

const AV1: [[u8; 4]; 2] = [*b"av01", *b"av1C"];
const HVC: [[u8; 4]; 2] = [*b"hvc1", *b"hvcC"];
const JPEG: [[u8; 4]; 2] = [*b"jpeg", *b"jpgC"];
const UNCOMPRESSED: [[u8; 4]; 2] = [*b"unci", *b"uncC"];

/// Gain-map metadata of ISO 21496-1 for one channel: two versions of 0, no flags, then fractions, as
/// numerator and denominator: headroom of the main and of the tone-mapped picture, least and greatest
/// gain, gamma, two offsets.
fn metadata() -> Vec<u8> {
    let fractions = [[0, 1], [2, 1], [0, 1], [2, 1], [1, 1], [1, 64], [1, 64]];
    let mut bytes = vec![0; 5];
    for number in fractions.concat() {
        bytes.extend(u32::to_be_bytes(number));
    }
    bytes
}

pub fn all() -> Vec<Sample> {
    let mut drafts = vec![smallest(), plain("plain")];
    drafts.extend((2..=8).map(turned));
    drafts.extend(colours());
    drafts.extend(texts());
    drafts.extend(alphas());
    drafts.extend(gain_maps());
    drafts.push(everything());
    drafts.extend(other_codecs());
    drafts.extend(undecodable());
    drafts.into_iter().map(Draft::sample).collect()
}

/// The smallest payload with explicit codec types: no configuration, one byte of data.
fn smallest() -> Draft {
    let mut draft = av1("smallest", NO_PICTURE, 0);
    draft.minor = [0; 4];
    draft.plan = Plan::smallest();
    draft.plan.types = Some(AV1);
    draft
}

const NO_PICTURE: Coded = Coded {
    config: &[],
    data: &[0xAA],
};

/// A picture of 48 by 32 and nothing else.
fn av1(name: &str, main: Coded, subsampling: u32) -> Draft {
    let mut plan = Plan::smallest();
    plan.types = Some(AV1);
    plan.chroma = chroma(subsampling);
    (plan.width, plan.height) = (47, 31);
    Draft {
        name: name.to_string(),
        minor: *b"avif",
        brands: vec![*b"mif3"],
        decodable: main.data.len() > 1,
        plan,
        main,
        alpha: None,
        gain_map: None,
        metadata: metadata(),
        icc: None,
        tmap_icc: None,
        exif: None,
        xmp: None,
    }
}

fn plain(name: &str) -> Draft {
    av1(name, pictures::AV1_420, 1)
}

fn chroma(subsampling: u32) -> Chroma {
    Chroma {
        subsampling,
        horizontal: false,
        vertical: false,
    }
}

fn turned(orientation: u32) -> Draft {
    let mut draft = plain(&format!("orientation-{orientation}"));
    draft.plan.orientation = orientation - 1;
    draft
}

fn colours() -> Vec<Draft> {
    let mut centred = plain("centred-chroma");
    (centred.plan.chroma.horizontal, centred.plan.chroma.vertical) = (true, true);
    let mut ten = av1("ten-bits", pictures::AV1_420_TEN, 1);
    ten.plan.depth = Depth::More(1);
    let mut ten_444 = av1("444-ten-bits", pictures::AV1_444_TEN, 3);
    ten_444.plan.depth = Depth::More(1);
    let mut cicp = plain("cicp-full-range");
    cicp.plan.cicp = Some([9, 16, 9]);
    cicp.plan.full_range = true;
    let mut icc = plain("icc");
    icc.icc = Some(pictures::icc("Pool"));
    let mut both = plain("icc-cicp");
    both.icc = icc.icc.clone();
    both.plan.cicp = Some([12, 13, 6]);
    let mut hdr = av1("hdr", pictures::AV1_420_TEN, 1);
    hdr.plan.depth = Depth::More(1);
    hdr.plan.hdr = Some(Hdr {
        gain_map: None,
        bodies: bodies(),
    });
    vec![
        av1("grey", pictures::AV1_400, 0),
        av1("422", pictures::AV1_422, 2),
        av1("444", pictures::AV1_444, 3),
        centred,
        ten,
        ten_444,
        cicp,
        icc,
        both,
        hdr,
    ]
}

/// All six HDR bodies: clli, mdcv, cclv, amve, reve, ndwt.
fn bodies() -> plan::Bodies {
    let counted = |n: u8| Some((1..=n).collect());
    let mut cclv = vec![0x3C];
    cclv.extend(1..=36);
    [
        counted(4),
        counted(24),
        Some(cclv),
        counted(8),
        counted(20),
        counted(4),
    ]
}

fn texts() -> Vec<Draft> {
    let mut exif = plain("exif");
    exif.exif = Some(pictures::exif());
    let mut xmp = plain("xmp");
    xmp.xmp = Some(pictures::xmp());
    let mut both = plain("exif-xmp-turned");
    both.plan.orientation = 5;
    both.exif = exif.exif.clone();
    both.xmp = xmp.xmp.clone();
    let mut exif_compressed = plain("exif-compressed");
    exif_compressed.plan.compressed = true;
    exif_compressed.exif = Some(pictures::deflated(&pictures::exif()));
    let mut xmp_compressed = plain("xmp-compressed");
    xmp_compressed.plan.compressed = true;
    xmp_compressed.xmp = Some(pictures::deflated(&pictures::xmp()));
    vec![exif, xmp, both, exif_compressed, xmp_compressed]
}

fn alphas() -> Vec<Draft> {
    let mut own = plain("alpha");
    own.set_alpha(pictures::AV1_ALPHA, false);
    let mut premultiplied = plain("alpha-premultiplied");
    premultiplied.set_alpha(pictures::AV1_ALPHA, true);
    // The main picture is grey, so that its configuration serves the alpha picture too.
    let mut shared = av1("alpha-shared-configuration", pictures::AV1_400, 0);
    let without = Coded {
        config: &[],
        ..pictures::AV1_ALPHA
    };
    shared.set_alpha(without, false);
    shared.plan.orientation = 7;
    vec![own, premultiplied, shared]
}

fn gain_maps() -> Vec<Draft> {
    let mut small = plain("gain-map");
    small.set_gain_map(pictures::AV1_SMALL);
    let mut turned = plain("gain-map-turned");
    turned.set_gain_map(pictures::AV1_400);
    turned.plan.orientation = 5;
    turned.tmap_icc = Some(pictures::icc("Board"));
    let gain_map = turned.plan.gain_map_mut().expect("it was set");
    gain_map.dimensions = None;
    gain_map.tmap_cicp = None;
    gain_map.tmap_bodies = bodies();
    let mut empty = plain("gain-map-without-data");
    empty.set_gain_map(Coded {
        config: &[],
        data: &[],
    });
    vec![small, turned, empty]
}

/// Every chunk there can be.
fn everything() -> Draft {
    let mut draft = plain("everything");
    draft.brands = vec![*b"mif3", *b"avif", *b"miaf"];
    draft.plan.orientation = 6;
    draft.plan.cicp = Some([9, 16, 9]);
    draft.set_alpha(pictures::AV1_ALPHA, true);
    draft.set_gain_map(pictures::AV1_SMALL);
    draft.plan.hdr.as_mut().expect("it was set").bodies = bodies();
    draft.icc = Some(pictures::icc("Pool"));
    draft.tmap_icc = Some(pictures::icc("Board"));
    draft.exif = Some(pictures::exif());
    draft.xmp = Some(pictures::xmp());
    draft
}

fn other_codecs() -> Vec<Draft> {
    let mut hevc = av1("hevc", pictures::HEVC, 1);
    hevc.minor = *b"heic";
    hevc.brands = Vec::new();
    hevc.plan.types = Some(HVC);
    (hevc.plan.width, hevc.plan.height) = (63, 63);
    let mut full = hevc.clone();
    full.name = "hevc-alpha-exif-xmp".to_string();
    full.brands = vec![*b"mif1", *b"heic"];
    full.plan.orientation = 2;
    full.set_alpha(pictures::HEVC_ALPHA, false);
    full.exif = Some(pictures::exif());
    full.xmp = Some(pictures::xmp());
    let mut jpeg = av1("jpeg", pictures::JPEG, 1);
    jpeg.minor = *b"jpeg";
    jpeg.plan.types = Some(JPEG);
    (jpeg.plan.width, jpeg.plan.height) = (15, 7);
    vec![hevc, full, jpeg]
}

/// Sizes that need their long forms, and float samples.
fn undecodable() -> Vec<Draft> {
    let mut large = av1("large", LARGE, 1);
    large.decodable = false;
    (large.plan.width, large.plan.height) = (1919, 1079);
    large.plan.depth = Depth::More(3);
    large.exif = Some([pictures::exif(), vec![0; 2000]].concat());
    let mut float = av1("float", NO_PICTURE, 3);
    float.minor = *b"mif1";
    float.plan.types = Some(UNCOMPRESSED);
    float.plan.depth = Depth::Float(0);
    vec![large, float]
}

/// A configuration and data that need the long forms of their sizes.
const LARGE: Coded = Coded {
    config: &[0x81, 0x40, 0x6C, 0x00, 0x0A, 0x03, 0x58, 0x15, 0x2F],
    data: &[0x55; 40_000],
};

impl Draft {
    fn set_alpha(&mut self, coded: Coded, premultiplied: bool) {
        self.alpha = Some(coded);
        self.plan.alpha = Some(Alpha {
            premultiplied,
            data: 0,
            config: 0,
        });
    }

    fn set_gain_map(&mut self, coded: Coded) {
        self.gain_map = Some(coded);
        self.plan.hdr = Some(Hdr {
            gain_map: Some(GainMap {
                dimensions: Some((23, 15)),
                matrix: 2,
                full_range: true,
                chroma: chroma(0),
                depth: Depth::Eight,
                tmap_icc: None,
                tmap_cicp: Some(([9, 16, 9], true)),
                tmap_bodies: NO_BODIES,
                metadata: 0,
                data: 0,
                config: 0,
            }),
            bodies: NO_BODIES,
        });
    }

    fn sample(mut self) -> Sample {
        self.set_sizes();
        let mut payload = self.plan.header().bytes;
        for chunk in self.chunks() {
            payload.extend(chunk);
        }
        let original = FileType {
            minor_version: u32::from_be_bytes(self.minor),
            compatible_brands: self.brands.iter().map(FourCc::from).collect(),
            ..FileType::default()
        };
        Sample {
            name: self.name,
            payload,
            original,
            decodable: self.decodable,
        }
    }

    fn set_sizes(&mut self) {
        let one_less = |chunk: &Option<Vec<u8>>| chunk.as_ref().map(|c| c.len() as u32 - 1);
        let plan = &mut self.plan;
        plan.main_config = self.main.config.len() as u32;
        plan.main_data = self.main.data.len() as u32 - 1;
        plan.icc = one_less(&self.icc);
        plan.exif = one_less(&self.exif);
        plan.xmp = one_less(&self.xmp);
        if let (Some(alpha), Some(coded)) = (&mut plan.alpha, self.alpha) {
            alpha.data = coded.data.len() as u32;
            alpha.config = coded.config.len() as u32;
        }
        let metadata = self.metadata.len() as u32;
        if let (Some(gain_map), Some(coded)) = (plan.gain_map_mut(), self.gain_map) {
            gain_map.tmap_icc = one_less(&self.tmap_icc);
            gain_map.metadata = metadata;
            gain_map.data = coded.data.len() as u32;
            gain_map.config = coded.config.len() as u32;
        }
    }

    /// The chunks in the order in which they lie.
    fn chunks(&self) -> Vec<&[u8]> {
        let none = Coded {
            config: &[],
            data: &[],
        };
        let alpha = self.alpha.unwrap_or(none);
        let gain_map = self.gain_map.unwrap_or(none);
        let metadata = match self.gain_map {
            Some(_) => &self.metadata[..],
            None => &[],
        };
        vec![
            self.main.config,
            alpha.config,
            gain_map.config,
            self.icc.as_deref().unwrap_or(&[]),
            self.tmap_icc.as_deref().unwrap_or(&[]),
            metadata,
            alpha.data,
            gain_map.data,
            self.main.data,
            self.exif.as_deref().unwrap_or(&[]),
            self.xmp.as_deref().unwrap_or(&[]),
        ]
    }
}
