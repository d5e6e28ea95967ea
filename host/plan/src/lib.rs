//! A payload's header by its stored fields, in their order. Sizes and dimensions are the stored
//! numbers: where a field stores one less, so do these.

pub mod bits;

use bits::BitString;

/// The greatest numbers of the short and the long forms.
pub const DIMENSION: Limit = Limit(7, 15);
pub const METADATA: Limit = Limit(10, 20);
pub const CONFIG: Limit = Limit(3, 12);
pub const DATA: Limit = Limit(15, 28);

/// The bits of a short and of a long field.
#[derive(Clone, Copy)]
pub struct Limit(u32, u32);

impl Limit {
    pub fn short(self) -> u32 {
        (1 << self.0) - 1
    }

    pub fn long(self) -> u32 {
        (1 << self.1) - 1
    }

    fn bits(self, large: bool) -> u32 {
        if large { self.1 } else { self.0 }
    }

    /// Whether the numbers need the long form.
    fn exceeded(self, numbers: &[Option<u32>]) -> bool {
        numbers.iter().flatten().any(|n| *n > self.short())
    }
}

#[derive(Clone, Copy, PartialEq, Eq)]
pub enum Depth {
    Eight,
    /// Nine bits and more, by the number stored.
    More(u32),
    /// By the code stored; 3 is refused.
    Float(u32),
}

#[derive(Clone, Copy)]
pub struct Chroma {
    pub subsampling: u32,
    pub horizontal: bool,
    pub vertical: bool,
}

#[derive(Clone, Copy)]
pub struct Alpha {
    pub premultiplied: bool,
    pub data: u32,
    pub config: u32,
}

pub type Bodies = [Option<Vec<u8>>; 6];

#[derive(Clone)]
pub struct Hdr {
    pub gain_map: Option<GainMap>,
    pub bodies: Bodies,
}

#[derive(Clone)]
pub struct GainMap {
    /// None: the main picture's.
    pub dimensions: Option<(u32, u32)>,
    pub matrix: u8,
    pub full_range: bool,
    pub chroma: Chroma,
    pub depth: Depth,
    pub tmap_icc: Option<u32>,
    pub tmap_cicp: Option<([u8; 3], bool)>,
    pub tmap_bodies: Bodies,
    pub metadata: u32,
    pub data: u32,
    pub config: u32,
}

/// Which long forms are taken without need.
#[derive(Clone, Copy, Default)]
pub struct Wide {
    pub dimensions: bool,
    pub metadata: bool,
    pub config: bool,
    pub data: bool,
}

#[derive(Clone)]
pub struct Plan {
    pub version: u32,
    pub types: Option<[[u8; 4]; 2]>,
    pub full_range: bool,
    pub depth: Depth,
    pub alpha: Option<Alpha>,
    pub cicp: Option<[u8; 3]>,
    pub hdr: Option<Hdr>,
    pub icc: Option<u32>,
    pub exif: Option<u32>,
    pub xmp: Option<u32>,
    pub compressed: bool,
    pub chroma: Chroma,
    pub orientation: u32,
    pub width: u32,
    pub height: u32,
    pub main_config: u32,
    pub main_data: u32,
    pub wide: Wide,
    /// What the bits up to the byte boundary hold, so far as there are any.
    pub padding: u32,
}

/// How many parts a header has.
pub const PARTS: usize = 12;

/// A header's bytes and the length of all chunks after it.
pub struct Header {
    pub bytes: Vec<u8>,
    /// Where each part ends, in bits.
    pub ends: [usize; PARTS],
    pub chunks: usize,
    /// Whether the padding holds a one.
    pub dirty: bool,
}

pub const NO_BODIES: Bodies = [const { None }; 6];

pub const PLAIN_CHROMA: Chroma = Chroma {
    subsampling: 0,
    horizontal: false,
    vertical: false,
};

impl Plan {
    /// The smallest payload: 1 by 1, one byte of main data.
    pub fn smallest() -> Self {
        Plan {
            version: 0,
            types: None,
            full_range: false,
            depth: Depth::Eight,
            alpha: None,
            cicp: None,
            hdr: None,
            icc: None,
            exif: None,
            xmp: None,
            compressed: false,
            chroma: PLAIN_CHROMA,
            orientation: 0,
            width: 0,
            height: 0,
            main_config: 0,
            main_data: 0,
            wide: Wide::default(),
            padding: 0,
        }
    }

    pub fn gain_map(&self) -> Option<&GainMap> {
        self.hdr.as_ref()?.gain_map.as_ref()
    }

    pub fn gain_map_mut(&mut self) -> Option<&mut GainMap> {
        self.hdr.as_mut()?.gain_map.as_mut()
    }

    /// Whether the header is one that is accepted when its chunks are there.
    pub fn is_sound(&self) -> bool {
        let reserved = Depth::Float(3);
        self.version == 0
            && self.depth != reserved
            && self.gain_map().is_none_or(|g| g.depth != reserved)
    }

    pub fn header(&self) -> Header {
        let mut b = BitString::default();
        let mut ends = [0; PARTS];
        for (part, end) in ends.iter_mut().enumerate() {
            self.put_part(&mut b, part);
            *end = b.len();
        }
        let padding = ends[PARTS - 1] - ends[PARTS - 2];
        Header {
            bytes: b.bytes,
            ends,
            chunks: self.chunk_lengths(),
            dirty: self.padding & ((1 << padding) - 1) != 0,
        }
    }

    fn put_part(&self, b: &mut BitString, part: usize) {
        let large = self.wide.dimensions || self.needs_large_dimensions();
        match part {
            0 => self.put_flags(b),
            1 => {
                b.flag(large);
                b.put(DIMENSION.bits(large), self.width);
                b.put(DIMENSION.bits(large), self.height);
            }
            2 => put_chroma(b, self.chroma),
            3 => put_depth(b, self.depth),
            4 => {
                if let Some(alpha) = &self.alpha {
                    b.flag(alpha.premultiplied);
                }
            }
            5 => b.bytes(self.cicp.as_ref().map_or(&[], |c| &c[..])),
            6 => self.types.iter().flatten().for_each(|kind| b.bytes(kind)),
            7 => {
                if let Some(hdr) = &self.hdr {
                    b.flag(hdr.gain_map.is_some());
                }
                if let Some(gain_map) = self.gain_map() {
                    put_gain_map(b, gain_map, large);
                }
            }
            8 => {
                if let Some(hdr) = &self.hdr {
                    put_bodies(b, &hdr.bodies);
                }
            }
            9 => {
                if let Some(gain_map) = self.gain_map() {
                    put_bodies(b, &gain_map.tmap_bodies);
                }
            }
            10 => self.put_sizes(b),
            _ => b.put(b.left(), self.padding),
        }
    }

    fn put_flags(&self, b: &mut BitString) {
        b.put(2, self.version);
        b.flag(self.types.is_some());
        b.flag(matches!(self.depth, Depth::Float(_)));
        b.flag(self.full_range);
        b.flag(self.alpha.is_some());
        b.flag(self.cicp.is_some());
        b.flag(self.hdr.is_some());
        b.flag(self.icc.is_some());
        b.flag(self.exif.is_some());
        b.flag(self.xmp.is_some());
        b.put(2, self.chroma.subsampling);
        b.put(3, self.orientation);
    }

    fn put_sizes(&self, b: &mut BitString) {
        let gain_map = self.gain_map();
        let has_metadata = gain_map.is_some() || [self.icc, self.exif, self.xmp] != [None; 3];
        let [metadata, config, data] = self.large_sizes();
        if has_metadata {
            b.flag(metadata);
        }
        b.flag(config);
        b.flag(data);
        let metadata = METADATA.bits(metadata);
        let config = CONFIG.bits(config);
        let data = DATA.bits(data);
        put_if(b, metadata, self.icc);
        if let Some(gain_map) = gain_map {
            put_if(b, metadata, gain_map.tmap_icc);
            b.put(metadata, gain_map.metadata);
            b.put(data, gain_map.data);
            put_if(b, config, beside(gain_map.data, gain_map.config));
        }
        b.put(config, self.main_config);
        b.put(data, self.main_data);
        if let Some(alpha) = &self.alpha {
            b.put(data, alpha.data);
            put_if(b, config, beside(alpha.data, alpha.config));
        }
        if self.exif.is_some() || self.xmp.is_some() {
            b.flag(self.compressed);
        }
        put_if(b, metadata, self.exif);
        put_if(b, metadata, self.xmp);
    }

    /// Whether metadata, configuration and data sizes take the long form.
    fn large_sizes(&self) -> [bool; 3] {
        let needs = self.needs_large_sizes();
        [
            self.wide.metadata || needs[0],
            self.wide.config || needs[1],
            self.wide.data || needs[2],
        ]
    }

    fn needs_large_dimensions(&self) -> bool {
        let (w, h) = self.gain_map().and_then(|g| g.dimensions).unzip();
        DIMENSION.exceeded(&[Some(self.width), Some(self.height), w, h])
    }

    fn needs_large_sizes(&self) -> [bool; 3] {
        let gain_map = self.gain_map();
        let tmap_icc = gain_map.and_then(|g| g.tmap_icc);
        let metadata = gain_map.map(|g| g.metadata);
        let alpha_config = self.alpha.and_then(|a| beside(a.data, a.config));
        let gain_map_config = gain_map.and_then(|g| beside(g.data, g.config));
        let alpha_data = self.alpha.map(|a| a.data);
        let gain_map_data = gain_map.map(|g| g.data);
        [
            METADATA.exceeded(&[self.icc, self.exif, self.xmp, tmap_icc, metadata]),
            CONFIG.exceeded(&[Some(self.main_config), alpha_config, gain_map_config]),
            DATA.exceeded(&[Some(self.main_data), alpha_data, gain_map_data]),
        ]
    }

    /// Which long forms are stored without need: dimensions, metadata, configuration, data.
    pub fn wide_without_need(&self) -> [bool; 4] {
        let [metadata, config, data] = self.needs_large_sizes();
        let has_metadata =
            self.gain_map().is_some() || [self.icc, self.exif, self.xmp] != [None; 3];
        [
            self.wide.dimensions && !self.needs_large_dimensions(),
            self.wide.metadata && has_metadata && !metadata,
            self.wide.config && !config,
            self.wide.data && !data,
        ]
    }

    fn chunk_lengths(&self) -> usize {
        let one_more = |n: Option<u32>| n.map_or(0, |n| n as usize + 1);
        let mut sum = one_more(self.icc) + one_more(self.exif) + one_more(self.xmp);
        sum += self.main_config as usize + self.main_data as usize + 1;
        if let Some(a) = &self.alpha {
            sum += a.data as usize + beside(a.data, a.config).unwrap_or(0) as usize;
        }
        if let Some(g) = self.gain_map() {
            sum += one_more(g.tmap_icc) + g.metadata as usize + g.data as usize;
            sum += beside(g.data, g.config).unwrap_or(0) as usize;
        }
        sum
    }
}

/// A configuration's size is stored only beside data.
fn beside(data: u32, config: u32) -> Option<u32> {
    (data > 0).then_some(config)
}

fn put_if(b: &mut BitString, n: u32, value: Option<u32>) {
    if let Some(value) = value {
        b.put(n, value);
    }
}

fn put_chroma(b: &mut BitString, chroma: Chroma) {
    if matches!(chroma.subsampling, 1 | 2) {
        b.flag(chroma.horizontal);
    }
    if chroma.subsampling == 1 {
        b.flag(chroma.vertical);
    }
}

fn put_depth(b: &mut BitString, depth: Depth) {
    match depth {
        Depth::Eight => b.flag(false),
        Depth::More(more) => {
            b.flag(true);
            b.put(3, more);
        }
        Depth::Float(code) => b.put(2, code),
    }
}

fn put_gain_map(b: &mut BitString, gain_map: &GainMap, large: bool) {
    b.flag(gain_map.dimensions.is_none());
    if let Some((width, height)) = gain_map.dimensions {
        b.put(DIMENSION.bits(large), width);
        b.put(DIMENSION.bits(large), height);
    }
    b.put(8, gain_map.matrix as u32);
    b.flag(gain_map.full_range);
    b.put(2, gain_map.chroma.subsampling);
    put_chroma(b, gain_map.chroma);
    b.flag(matches!(gain_map.depth, Depth::Float(_)));
    put_depth(b, gain_map.depth);
    b.flag(gain_map.tmap_icc.is_some());
    b.flag(gain_map.tmap_cicp.is_some());
    if let Some((numbers, full_range)) = &gain_map.tmap_cicp {
        b.bytes(numbers);
        b.flag(*full_range);
    }
}

fn put_bodies(b: &mut BitString, bodies: &Bodies) {
    for body in bodies {
        b.flag(body.is_some());
    }
    for body in bodies.iter().flatten() {
        b.bytes(body);
    }
}
