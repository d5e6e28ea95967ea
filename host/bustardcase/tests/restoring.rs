//! `find_mini` and `restore` on expanded files, and on these with bytes changed.

use bustardcase::{
    Chunk, FileType, MinimizedImage, Refusal, differences, expand, expanded_file_type, find_box,
    find_mini, read, restore, usual_file_types,
};
use plan::{Alpha, Chroma, Depth, GainMap, Hdr, PLAIN_CHROMA, Plan};

const MIF3: u32 = u32::from_be_bytes(*b"mif3");

/// All that there is.
fn full() -> Plan {
    let bodies = [4, 24, 5, 8, 20, 4].map(|len| Some(vec![0x10; len]));
    let chroma = Chroma {
        subsampling: 1,
        horizontal: true,
        ..PLAIN_CHROMA
    };
    Plan {
        types: Some([*b"av01", *b"av1C"]),
        depth: Depth::More(1),
        alpha: Some(Alpha {
            premultiplied: true,
            data: 5,
            config: 2,
        }),
        cicp: Some([9, 16, 9]),
        hdr: Some(Hdr {
            gain_map: Some(GainMap {
                dimensions: Some((8, 16)),
                matrix: 5,
                full_range: true,
                chroma,
                depth: Depth::Float(1),
                tmap_icc: Some(10),
                tmap_cicp: Some(([12, 13, 14], true)),
                tmap_bodies: bodies.clone(),
                metadata: 12,
                data: 14,
                config: 5,
            }),
            bodies,
        }),
        icc: Some(20),
        exif: Some(30),
        xmp: Some(40),
        compressed: true,
        chroma,
        orientation: 5,
        width: 47,
        height: 31,
        main_config: 7,
        main_data: 50,
        ..Plan::smallest()
    }
}

/// `Plan::smallest` with codec types and a configuration.
fn plain() -> Plan {
    Plan {
        types: Some([*b"av01", *b"av1C"]),
        main_config: 4,
        ..Plan::smallest()
    }
}

/// The bytes after the header count up.
fn payload(plan: &Plan) -> Vec<u8> {
    let header = plan.header();
    let chunks = (0..header.chunks).map(|i| i as u8);
    header.bytes.into_iter().chain(chunks).collect()
}

fn chunks(image: &MinimizedImage) -> Vec<Chunk> {
    let gain_map = image.gain_map.as_ref();
    let chunks = [
        Some(image.main_codec_config),
        Some(image.main_data),
        image.alpha_codec_config,
        Some(image.alpha_data),
        image.icc,
        image.exif,
        image.xmp,
        gain_map.and_then(|g| g.tmap_icc),
        gain_map.map(|g| g.metadata),
        gain_map.and_then(|g| g.codec_config),
        gain_map.map(|g| g.data),
    ];
    chunks.into_iter().flatten().collect()
}

/// The record found in the file is that of the payload in the box; the payload expands to the file.
fn holds(file: &[u8], original: &FileType, boxed: &[u8]) {
    let found = find_mini(file, original).expect("a record where there is a box");
    let payload = find_box(boxed, b"mini".into())
        .expect("a box")
        .payload(boxed);
    let image = read(payload).expect("it is accepted");
    assert!(differences(&found, file, &image, payload).is_empty());
    for chunk in chunks(&found) {
        let at = if chunk.len == 0 { 0 } else { chunk.at };
        assert_eq!(chunk.at, at);
        assert_eq!(chunk.of(file).len(), chunk.len);
    }
    assert_eq!(expand(payload, original).as_deref(), Ok(file));
}

#[test]
fn the_payload_again() {
    let original = FileType::default();
    for plan in [plain(), full()] {
        let payload = payload(&plan);
        let file = expand(&payload, &original).expect("it expands");
        let boxed = restore(&file, &original).expect("a mini expands to it");
        assert_eq!(Ok(boxed.clone()), bustardcase::rewrite(&payload));
        holds(&file, &original, &boxed);
    }
}

/// Each byte changed in four ways, cut off and put in: there is no mini, or one that expands to exactly these
/// bytes.
#[test]
fn damaged_files() {
    let original = FileType::default();
    for plan in [plain(), full()] {
        let file = expand(&payload(&plan), &original).expect("it expands");
        let mut none = 0;
        let mut tried = 0;
        let mut tries = |bytes: &[u8]| {
            tried += 1;
            match restore(bytes, &original) {
                Ok(boxed) => holds(bytes, &original, &boxed),
                Err(refusal) => {
                    assert_eq!(refusal, Refusal::NotAnExpansion);
                    assert_eq!(find_mini(bytes, &original), Err(refusal));
                    none += 1;
                }
            }
        };
        for at in 0..file.len() {
            for mask in [1, 2, 0x10, 0xFF] {
                let mut bytes = file.clone();
                bytes[at] ^= mask;
                tries(&bytes);
            }
            tries(&file[..at]);
            let [before, after] = [&file[..at], &file[at..]];
            tries(&[before, b"\0", after].concat());
        }
        // Every chunk can be another one, and most of what is around them cannot.
        assert!(2 * none > tried && none < tried, "{none} of {tried}");
    }
}

#[test]
fn brands_that_are_refused() {
    let original = FileType::default();
    let file = expand(&payload(&plain()), &original).expect("it expands");
    let many = FileType {
        compatible_brands: vec![b"mif3".into(); 1025],
        ..original
    };
    assert_eq!(find_mini(&file, &many), Err(Refusal::Brands));
    assert_eq!(restore(&file, &many), Err(Refusal::Brands));
    assert_eq!(restore(b"", &many), Err(Refusal::Brands));
}

/// Of each major brand and minor version, with lists of brands to which expanding adds none to three.
fn originals() -> Vec<FileType> {
    let many = |last: &'static [u8; 4], n: usize| [vec![b"abcd"; n - 1], vec![last]].concat();
    let lists: [Vec<&[u8; 4]>; 12] = [
        vec![],
        vec![b"mif3"],
        vec![b"avif"],
        vec![b"avif", b"mif3"],
        vec![b"mif3", b"avif", b"mif1"],
        vec![b"mif1", b"mif3"],
        vec![b"tmap", b"mif1"],
        vec![b"abcd", b"mif3", b"tmap"],
        many(b"abcd", 1_024),
        many(b"mif3", 1_024),
        many(b"mif1", 1_024),
        many(b"abcd", 1_023),
    ];
    let codes = [
        b"mif3",
        b"avif",
        b"heic",
        b"heix",
        b"vvi3",
        b"vvic",
        b"\0\0\0\0",
        b"\0\0\0\x07",
    ];
    let mut originals = Vec::new();
    for (major, minor) in codes.into_iter().flat_map(|m| codes.map(|n| (m, n))) {
        originals.extend(lists.iter().map(|list| FileType {
            major_brand: major.into(),
            minor_version: u32::from_be_bytes(*minor),
            compatible_brands: list.iter().map(|brand| (*brand).into()).collect(),
        }));
    }
    originals
}

/// A type that fits is among those told, whatever the original type was, and those that fit give one file. An
/// original of major brand 'mif3' has itself a type among them, unless its minor version is 'mif3' too.
#[test]
fn types_that_fit() {
    for payload in [plain(), full()].map(|plan| payload(&plan)) {
        for original in originals() {
            let file = expand(&payload, &original).expect("it expands");
            let told = usual_file_types(&file);
            let mut fitting = Vec::new();
            for file_type in told {
                let fits = find_mini(&file, &file_type).is_ok();
                let expanded = expand(&payload, &file_type).expect("it expands");
                assert_eq!(fits, expanded == file);
                fitting.extend(fits.then_some(file_type));
            }
            assert!(!fitting.is_empty(), "{original:?}");
            let is_usual = original.major_brand.number() == MIF3 && original.minor_version != MIF3;
            assert!(!is_usual || fitting.contains(&original), "{original:?}");
        }
    }
}

/// The minor version of another major brand cannot be told.
#[test]
fn types_of_one_file() {
    let original = FileType {
        major_brand: b"vvic".into(),
        minor_version: 7,
        ..FileType::default()
    };
    let file = expand(&payload(&plain()), &original).expect("it expands");
    let file_type = |major: &[u8; 4], minor: &[u8; 4], brands: &[&[u8; 4]]| FileType {
        major_brand: major.into(),
        minor_version: u32::from_be_bytes(*minor),
        compatible_brands: brands.iter().map(|brand| (*brand).into()).collect(),
    };
    let expected = [
        file_type(b"mif3", b"vvic", &[b"mif3"]),
        file_type(b"mif3", b"vvic", &[b"mif3", b"mif1"]),
        file_type(b"mif3", b"vvic", &[]),
        file_type(b"mif3", b"vvi3", &[b"mif3"]),
        file_type(b"mif3", b"vvi3", &[b"mif3", b"mif1"]),
        file_type(b"mif3", b"vvi3", &[]),
        file_type(b"vvic", b"\0\0\0\0", &[b"mif3", b"mif1"]),
    ];
    assert_eq!(usual_file_types(&file), expected);
}

/// Of bytes that are no file, and of a file with too many brands, there are types to try.
#[test]
fn types_of_anything() {
    for bytes in [&b""[..], b"\0\0\0\x10ftypmif3\0\0\0\0", b"\0\0\0\x08ftyp"] {
        let told = usual_file_types(bytes);
        assert!(!told.is_empty());
    }
    let types = usual_file_types(b"no file");
    assert_eq!((types.len(), &types[0]), (2, &FileType::default()));
    let many = FileType {
        compatible_brands: vec![b"abcd".into(); 2_000],
        ..FileType::default()
    };
    let boxed = many.to_box();
    assert_eq!(expanded_file_type(&boxed), Ok(many));
    let types = usual_file_types(&boxed);
    assert_eq!(types[0].compatible_brands.len(), 1_024);
}

/// An 'ftyp' box says the type that it is made of.
#[test]
fn file_types_as_boxes() {
    for brands in [0, 1, 3, 1_024] {
        let file_type = FileType {
            major_brand: b"abcd".into(),
            minor_version: 0x1234_5678,
            compatible_brands: vec![b"efgh".into(); brands],
        };
        let boxed = file_type.to_box();
        let header = find_box(&boxed, b"ftyp".into()).expect("a box");
        assert_eq!(header.end(), boxed.len());
        assert_eq!(
            bustardcase::file_type(header.payload(&boxed)),
            Ok(file_type)
        );
    }
}
