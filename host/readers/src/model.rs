//! What a file has to hold by its record and its original file type: items, references, properties,
//! brands, after ISO/IEC 23008-12 Amd 2, O.2.1.2 and O.4.

use bustardcase::{
    Chunk, CodecTypes, FileType, MiniChroma, MiniHdrBoxes, MinimizedImage, SampleFormat,
};

pub type Code = [u8; 4];

pub struct Item {
    pub id: u32,
    pub kind: Code,
    /// Content type and content encoding of an item of kind 'mime'.
    pub mime: Option<(&'static str, &'static str)>,
    pub hidden: bool,
    pub bytes: Vec<u8>,
}

pub struct Reference {
    pub kind: Code,
    pub from: u32,
    pub to: Vec<u32>,
}

/// A property box without its size and type. An unused one is an empty 'free'.
#[derive(Clone)]
pub struct Property {
    pub kind: Code,
    pub body: Vec<u8>,
}

/// A property's number, from 1, and whether it is essential.
pub type Link = (usize, bool);

pub struct Model {
    pub major: Code,
    pub brands: Vec<Code>,
    pub items: Vec<Item>,
    pub references: Vec<Reference>,
    pub properties: Vec<Property>,
    pub links: Vec<(u32, Vec<Link>)>,
    /// The alternatives, the tone-mapped picture before the main one.
    pub group: Option<[u32; 2]>,
}

pub const MAIN: u32 = 1;
pub const ALPHA: u32 = 2;
pub const TMAP: u32 = 3;
pub const GAIN_MAP: u32 = 4;
pub const GROUP: u32 = 5;
pub const EXIF: u32 = 6;
pub const XMP: u32 = 7;

pub const ALPHA_URN: &str = "urn:mpeg:mpegB:cicp:systems:auxiliary:alpha";

/// Exif's orientations from 1: the angle in quarter turns against the clock, and the axis: 0
/// exchanges top and bottom, 1 left and right.
const TURNS: [(Option<u8>, Option<u8>); 8] = [
    (None, None),
    (None, Some(1)),
    (Some(2), None),
    (None, Some(0)),
    (Some(1), Some(0)),
    (Some(3), None),
    (Some(1), Some(1)),
    (Some(1), None),
];

impl Model {
    /// The record is that of the payload.
    pub fn new(record: &MinimizedImage, payload: &[u8], original: &FileType) -> Self {
        let properties = properties(record, payload);
        let links = links(record)
            .into_iter()
            .map(|(id, links)| (id, kept(links, &properties)))
            .collect();
        let has_gain_map = record.gain_map.is_some();
        Model {
            major: major(original),
            brands: brands(original, has_gain_map),
            items: items(record, payload),
            references: references(record),
            properties,
            links,
            group: has_gain_map.then_some([TMAP, MAIN]),
        }
    }

    /// The properties of a kind that an item has, in the order of the container.
    pub fn properties_of(&self, id: u32, kind: &Code) -> Vec<&Property> {
        let links = self.links.iter().find(|(item, _)| *item == id);
        let mut numbers: Vec<usize> = links.map_or(Vec::new(), |(_, links)| {
            links.iter().map(|(number, _)| *number).collect()
        });
        numbers.sort();
        let found = numbers.iter().map(|number| &self.properties[number - 1]);
        found.filter(|p| p.kind == *kind).collect()
    }
}

/// The original major brand is 'mif3': a minor version other than 0 names the equivalent one.
fn major(original: &FileType) -> Code {
    match original.minor_version {
        0 => *b"mif3",
        minor => minor.to_be_bytes(),
    }
}

/// The original brands, and those that are added where they are missing.
fn brands(original: &FileType, has_gain_map: bool) -> Vec<Code> {
    let added = [
        (*b"mif3", original.minor_version != 0),
        (*b"mif1", true),
        (*b"tmap", has_gain_map),
    ];
    let mut brands: Vec<Code> = original.compatible_brands.iter().map(|b| b.0).collect();
    for (brand, is_due) in added {
        if is_due && !brands.contains(&brand) {
            brands.push(brand);
        }
    }
    brands
}

fn items(record: &MinimizedImage, payload: &[u8]) -> Vec<Item> {
    let coded = types(record).item_type.0;
    let compressed = record.exif_xmp_compressed;
    let mut items = vec![item(MAIN, coded, false, record.main_data.of(payload))];
    if has_data(record.alpha_data) {
        items.push(item(ALPHA, coded, true, record.alpha_data.of(payload)));
    }
    if let Some(gain_map) = record.gain_map {
        let bytes = [&[0], gain_map.metadata.of(payload)].concat();
        items.push(item(TMAP, *b"tmap", false, &bytes));
        if has_data(gain_map.data) {
            items.push(item(GAIN_MAP, coded, true, gain_map.data.of(payload)));
        }
    }
    if let Some(exif) = record.exif {
        let kind = if compressed { b"dExf" } else { b"Exif" };
        items.push(item(EXIF, *kind, true, exif.of(payload)));
    }
    if let Some(xmp) = record.xmp {
        let encoding = if compressed { "deflate" } else { "" };
        let mut item = item(XMP, *b"mime", true, xmp.of(payload));
        item.mime = Some(("application/rdf+xml", encoding));
        items.push(item);
    }
    items
}

/// Every payload here has them: without them it is not expanded.
fn types(record: &MinimizedImage) -> CodecTypes {
    record.explicit_codec_types.expect("explicit codec types")
}

/// A picture without data has no item.
fn has_data(chunk: Chunk) -> bool {
    chunk.len > 0
}

fn item(id: u32, kind: Code, hidden: bool, bytes: &[u8]) -> Item {
    Item {
        id,
        kind,
        mime: None,
        hidden,
        bytes: bytes.to_vec(),
    }
}

fn references(record: &MinimizedImage) -> Vec<Reference> {
    let mut all = Vec::new();
    let mut add = |kind: &Code, from, to: &[u32]| {
        all.push(Reference {
            kind: *kind,
            from,
            to: to.to_vec(),
        });
    };
    if has_data(record.alpha_data) {
        add(b"auxl", ALPHA, &[MAIN]);
        if record.alpha_premultiplied {
            add(b"prem", MAIN, &[ALPHA]);
        }
    }
    if let Some(gain_map) = record.gain_map {
        let inputs: &[u32] = match has_data(gain_map.data) {
            false => &[MAIN],
            true => &[MAIN, GAIN_MAP],
        };
        add(b"dimg", TMAP, inputs);
    }
    if record.exif.is_some() {
        add(b"cdsc", EXIF, &[MAIN]);
    }
    if record.xmp.is_some() {
        add(b"cdsc", XMP, &[MAIN]);
    }
    all
}

/// Which properties an item has, unused ones among them.
fn links(record: &MinimizedImage) -> Vec<(u32, Vec<Link>)> {
    let turn = [(9, true), (10, true)];
    let bodies = |first: usize| (first..first + 6).map(|number| (number, false));
    let mut main = vec![(1, true), (2, false), (3, false), (4, true), (5, true)];
    main.extend(bodies(11));
    main.extend(turn);
    let mut all = vec![(MAIN, main)];
    if has_data(record.alpha_data) {
        let mut links = vec![(6, true), (2, false), (7, true), (8, false)];
        links.extend(turn);
        all.push((ALPHA, links));
    }
    if let Some(gain_map) = record.gain_map {
        let mut links = vec![(21, false), (22, true), (23, true)];
        links.extend(bodies(24));
        all.push((TMAP, links));
        if has_data(gain_map.data) {
            let mut links = vec![(17, true), (18, false), (19, false), (20, true)];
            links.extend(turn);
            all.push((GAIN_MAP, links));
        }
    }
    all
}

fn kept(links: Vec<Link>, properties: &[Property]) -> Vec<Link> {
    let used = |link: &Link| properties[link.0 - 1].kind != *b"free";
    links.into_iter().filter(used).collect()
}

/// The 32 properties.
fn properties(record: &MinimizedImage, payload: &[u8]) -> Vec<Property> {
    let mut all = vec![property(b"free", &[]); 32];
    main_properties(record, payload, &mut all);
    alpha_properties(record, payload, &mut all);
    gain_map_properties(record, payload, &mut all);
    all
}

fn main_properties(record: &MinimizedImage, payload: &[u8], all: &mut [Property]) {
    let grey = record.chroma.subsampling == 0;
    let unspecified = [2, 2, if grey { 2 } else { 6 }];
    let usual = [1, 13, unspecified[2]];
    let implied = if record.icc.is_some() {
        unspecified
    } else {
        usual
    };
    let explicit = record.explicit_cicp;
    let numbers = explicit.map_or(implied, |c| [c.primaries, c.transfer, c.matrix]);
    all[0] = config(record, record.main_codec_config.of(payload));
    all[1] = size(record.width, record.height);
    all[2] = picture_bits(record.chroma, record.format);
    all[3] = cicp(numbers, record.full_range);
    if let Some(icc) = record.icc {
        all[4] = profile(icc.of(payload));
    }
    let (angle, axis) = TURNS[record.orientation as usize - 1];
    if let Some(angle) = angle {
        all[8] = property(b"irot", &[angle]);
    }
    if let Some(axis) = axis {
        all[9] = property(b"imir", &[axis]);
    }
    put_bodies(&record.hdr_boxes, &mut all[10..16]);
}

fn alpha_properties(record: &MinimizedImage, payload: &[u8], all: &mut [Property]) {
    if !has_data(record.alpha_data) {
        return;
    }
    let own = record.alpha_codec_config;
    let used = own.unwrap_or(record.main_codec_config);
    all[5] = config(record, used.of(payload));
    let urn = [&[0; 4], ALPHA_URN.as_bytes(), &[0]].concat();
    all[6] = property(b"auxC", &urn);
    all[7] = bits(&[Channel::Alpha], record.format);
}

fn gain_map_properties(record: &MinimizedImage, payload: &[u8], all: &mut [Property]) {
    let Some(gain_map) = record.gain_map else {
        return;
    };
    if has_data(gain_map.data) {
        let own = gain_map.codec_config;
        let used = own.unwrap_or(record.main_codec_config);
        all[16] = config(record, used.of(payload));
        all[17] = size(gain_map.width, gain_map.height);
        all[18] = picture_bits(gain_map.chroma, gain_map.format);
        all[19] = cicp([2, 2, gain_map.matrix_coefficients], gain_map.full_range);
    }
    // The tone-mapped picture is made of pictures that are turned already.
    let lying = record.orientation > 4;
    all[20] = match lying {
        true => size(record.height, record.width),
        false => size(record.width, record.height),
    };
    match (gain_map.tmap_cicp, gain_map.tmap_icc) {
        (Some(c), _) => all[21] = cicp([c.primaries, c.transfer, c.matrix], c.full_range),
        (None, None) => all[21] = cicp([1, 13, 6], true),
        (None, Some(_)) => {}
    }
    if let Some(icc) = gain_map.tmap_icc {
        all[22] = profile(icc.of(payload));
    }
    put_bodies(&gain_map.tmap_hdr, &mut all[23..29]);
}

fn property(kind: &Code, body: &[u8]) -> Property {
    Property {
        kind: *kind,
        body: body.to_vec(),
    }
}

/// An empty configuration has no box.
fn config(record: &MinimizedImage, bytes: &[u8]) -> Property {
    match bytes {
        [] => property(b"free", &[]),
        _ => property(&types(record).config_type.0, bytes),
    }
}

fn size(width: u32, height: u32) -> Property {
    let body = [[0; 4], width.to_be_bytes(), height.to_be_bytes()].concat();
    property(b"ispe", &body)
}

fn cicp(numbers: [u8; 3], full_range: bool) -> Property {
    let mut body = b"nclx".to_vec();
    for number in numbers {
        body.extend([0, number]);
    }
    body.push((full_range as u8) << 7);
    property(b"colr", &body)
}

fn profile(icc: &[u8]) -> Property {
    property(b"colr", &[b"prof", icc].concat())
}

#[derive(Clone, Copy)]
enum Channel {
    Luma,
    Blue(MiniChroma),
    Red(MiniChroma),
    Alpha,
}

fn picture_bits(chroma: MiniChroma, format: SampleFormat) -> Property {
    match chroma.subsampling {
        0 => bits(&[Channel::Luma], format),
        _ => bits(
            &[Channel::Luma, Channel::Blue(chroma), Channel::Red(chroma)],
            format,
        ),
    }
}

/// A pixi box with flag 1: after the bits, two bytes for each channel.
fn bits(channels: &[Channel], format: SampleFormat) -> Property {
    let mut body = vec![0, 0, 0, 1, channels.len() as u8];
    body.extend(channels.iter().map(|_| format.bits()));
    for channel in channels {
        let (number, place) = match *channel {
            Channel::Luma => (2, 0),
            Channel::Blue(chroma) => (3, place(chroma)),
            Channel::Red(chroma) => (4, place(chroma)),
            Channel::Alpha => (5, 0),
        };
        body.push(number << 5 | (format.is_float() as u8) << 2 | 2);
        body.push(place);
    }
    property(b"pixi", &body)
}

/// Subsampling type and location.
fn place(chroma: MiniChroma) -> u8 {
    let kind = match chroma.subsampling {
        1 => 2,
        2 => 1,
        _ => 0,
    };
    let location = match (chroma.horizontally_centered, chroma.vertically_centered) {
        (false, true) => 0,
        (true, true) => 1,
        (false, false) => 2,
        (true, false) => 3,
    };
    kind << 4 | location
}

/// In the order of the properties.
fn bodies(boxes: &MiniHdrBoxes) -> [Option<Vec<u8>>; 6] {
    [
        boxes.clli.map(Vec::from),
        boxes.mdcv.map(Vec::from),
        boxes.cclv.map(|body| body[..cclv_length(body[0])].to_vec()),
        boxes.amve.map(Vec::from),
        boxes.reve.map(Vec::from),
        boxes.ndwt.map(Vec::from),
    ]
}

/// The length of a cclv body by its flags: the record fills it up with zeros, the file does not.
fn cclv_length(flags: u8) -> usize {
    let part = |flag: u8, length: usize| if flags & flag == 0 { 0 } else { length };
    1 + part(0x20, 24) + part(0x10, 4) + part(0x08, 4) + part(0x04, 4)
}

fn put_bodies(boxes: &MiniHdrBoxes, slots: &mut [Property]) {
    const KINDS: [&Code; 6] = [b"clli", b"mdcv", b"cclv", b"amve", b"reve", b"ndwt"];
    for (i, body) in bodies(boxes).iter().enumerate() {
        // The last two are full boxes.
        let version: &[u8] = if i < 4 { &[] } else { &[0; 4] };
        if let Some(body) = body {
            slots[i] = property(KINDS[i], &[version, body].concat());
        }
    }
}
