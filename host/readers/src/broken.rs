//! Files with one wrong byte: the tools that look there must report a difference.

use crate::case::Case;
use crate::samples::Sample;

pub struct Edit {
    pub name: &'static str,
    pub sample: &'static str,
    /// The bytes before the wrong one: after their first occurrence, and so many more, it stands.
    after: &'static [u8],
    skip: usize,
    /// What stands there, where that does not hang on the lengths of others.
    was: Option<u8>,
    /// The bits that are made wrong.
    flip: u8,
    pub seen_by: &'static [&'static str],
}

const BOXES: &str = "heif-info --dump-boxes";

pub const ALL: [Edit; 14] = [
    Edit {
        name: "width",
        sample: "everything",
        after: b"ispe",
        skip: 7,
        was: Some(48),
        flip: 0x01,
        seen_by: &["heif-info", BOXES, "exiftool", "exiv2", "avifdec --info"],
    },
    Edit {
        name: "height",
        sample: "plain",
        after: b"ispe",
        skip: 11,
        was: Some(32),
        flip: 0x01,
        seen_by: &[
            "heif-info",
            BOXES,
            "exiftool",
            "avifdec --info",
            "mediainfo",
        ],
    },
    // Of the first item the number, 12 and 16 bits that are zero, the number of extents, the place.
    Edit {
        name: "place-of-main-data",
        sample: "everything",
        after: b"iloc",
        skip: 8 + 11,
        was: None,
        flip: 0x03,
        seen_by: &[BOXES, "exiftool", "exiv2", "ffprobe"],
    },
    Edit {
        name: "length-of-main-data",
        sample: "plain",
        after: b"iloc",
        skip: 8 + 15,
        was: Some(36),
        flip: 0x07,
        seen_by: &[BOXES, "exiftool", "ffprobe", "mediainfo"],
    },
    Edit {
        name: "rotation",
        sample: "orientation-6",
        after: b"irot",
        skip: 0,
        was: Some(3),
        flip: 0x02,
        seen_by: &[BOXES, "heif-convert", "exiftool", "avifdec --info"],
    },
    Edit {
        name: "mirror",
        sample: "orientation-2",
        after: b"imir",
        skip: 0,
        was: Some(1),
        flip: 0x01,
        seen_by: &[BOXES, "heif-convert", "exiftool", "avifdec --info"],
    },
    Edit {
        name: "matrix",
        sample: "cicp-full-range",
        after: b"nclx",
        skip: 5,
        was: Some(9),
        flip: 0x08,
        seen_by: &[BOXES, "exiftool", "avifdec --info"],
    },
    Edit {
        name: "bits",
        sample: "ten-bits",
        after: b"pixi",
        skip: 5,
        was: Some(10),
        flip: 0x02,
        seen_by: &[BOXES, "exiftool", "avifdec --info"],
    },
    Edit {
        name: "premultiplied",
        sample: "alpha-premultiplied",
        after: b"pre",
        skip: 0,
        was: Some(b'm'),
        flip: 0x03,
        seen_by: &["heif-info", BOXES, "exiftool", "avifdec --info"],
    },
    Edit {
        name: "item-type",
        sample: "exif-xmp-turned",
        after: b"Exi",
        skip: 0,
        was: Some(b'f'),
        flip: 0x01,
        seen_by: &[
            "heif-info",
            BOXES,
            "exiftool",
            "exiv2",
            "avifdec --info",
            "mediainfo",
        ],
    },
    Edit {
        name: "content-type",
        sample: "xmp",
        after: b"application/rdf+xm",
        skip: 0,
        was: Some(b'l'),
        flip: 0x07,
        seen_by: &["heif-info", BOXES, "exiftool", "avifdec --info"],
    },
    // The last property of the last item: the mirror of the gain map, essential.
    Edit {
        name: "essential",
        sample: "everything",
        after: b"\0\x04\x06\x91\x12\x13\x94\x89",
        skip: 0,
        was: Some(0x8A),
        flip: 0x80,
        seen_by: &[BOXES],
    },
    Edit {
        name: "group",
        sample: "gain-map",
        after: b"altr",
        skip: 15,
        was: Some(3),
        flip: 0x07,
        seen_by: &[BOXES],
    },
    Edit {
        name: "brand",
        sample: "gain-map",
        after: b"mif1tma",
        skip: 0,
        was: Some(b'p'),
        flip: 0x01,
        seen_by: &["heif-info", BOXES, "exiftool", "ffprobe", "mediainfo"],
    },
];

impl Edit {
    pub fn case<'a>(&self, samples: &'a [Sample]) -> Result<Case<'a>, String> {
        let sample = samples.iter().find(|s| s.name == self.sample);
        let sample = sample.ok_or(format!("there is no sample {}", self.sample))?;
        let mut file = Case::new(sample)?.file;
        let found = file.windows(self.after.len()).position(|w| w == self.after);
        let at =
            found.ok_or(format!("{}: nothing to edit", self.name))? + self.after.len() + self.skip;
        if self.was.is_some_and(|was| was != file[at]) {
            return Err(format!("{}: byte {at} is {:#04X}", self.name, file[at]));
        }
        file[at] ^= self.flip;
        Case::with_file(sample, file, &format!("broken-{}", self.name))
    }
}
