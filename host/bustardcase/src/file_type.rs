//! File types.

use crate::answer::fixed;
use crate::layout::Fields;
use crate::{FourCc, Refusal, find_box, raw};

const MIF3: FourCc = FourCc(*b"mif3");
const VVI3: FourCc = FourCc(*b"vvi3");
const VVIC: FourCc = FourCc(*b"vvic");

/// How many brands expanding adds at most.
const MOST_ADDED: usize = 3;

/// How many brands an original file type has at most.
const MOST_BRANDS: usize = 1_024;

/// A file type: what an 'ftyp' box says.
#[derive(Clone, Debug, PartialEq, Eq)]
pub struct FileType {
    /// The major brand.
    pub major_brand: FourCc,
    /// The minor version.
    pub minor_version: u32,
    /// The compatible brands, in their order.
    pub compatible_brands: Vec<FourCc>,
}

/// The file type of a plain low-overhead file: major brand 'mif3', minor version 0, and 'mif3' as the
/// only compatible brand.
impl Default for FileType {
    fn default() -> Self {
        FileType {
            major_brand: MIF3,
            minor_version: 0,
            compatible_brands: vec![MIF3],
        }
    }
}

impl FileType {
    /// The 'ftyp' box that gives this file type.
    ///
    /// ```
    /// let boxed = bustardcase::FileType::default().to_box();
    /// assert_eq!(boxed, b"\0\0\0\x14ftypmif3\0\0\0\0mif3");
    /// ```
    ///
    /// # Panics
    ///
    /// Where a box of 32-bit size cannot hold the brands: from some 2^30 on.
    pub fn to_box(&self) -> Vec<u8> {
        let (major, minor, brands) = self.parts();
        let [major, minor] = [major, minor].map(u32::to_be_bytes);
        let size = u32::try_from(16 + brands.len()).expect("a size of 32 bits");
        [&size.to_be_bytes(), b"ftyp", &major, &minor, &brands[..]].concat()
    }

    /// Major brand, minor version, and the bytes of the compatible brands, one after another.
    pub(crate) fn parts(&self) -> (u32, u32, Vec<u8>) {
        let brands = self.compatible_brands.iter();
        let brands = brands.flat_map(|brand| brand.0).collect();
        (self.major_brand.number(), self.minor_version, brands)
    }
}

/// The file type that the payload of an 'ftyp' box gives. Refusal 28.
///
/// ```
/// let file_type = bustardcase::file_type(b"mif3\0\0\0\x07mif3avif")?;
/// assert_eq!(file_type.minor_version, 7);
/// assert_eq!(file_type.compatible_brands, [b"mif3".into(), b"avif".into()]);
/// # Ok::<(), bustardcase::Refusal>(())
/// ```
pub fn file_type(body: &[u8]) -> Result<FileType, Refusal> {
    let layout: [u8; 24] = fixed(|out| raw::file_type(body, out))?;
    let mut fields = Fields::new(&layout);
    let file_type = FileType {
        major_brand: fields.code(),
        minor_version: fields.u32(),
        compatible_brands: codes(fields.span().of(body)),
    };
    fields.finish();
    Ok(file_type)
}

/// The file type of a file that [`expand`](crate::expand) wrote. It may have a few brands more than an
/// original file type may. Refusals 1 to 4 where the file has no 'ftyp' box, and 28 where that is too short.
///
/// ```
/// use bustardcase::{FileType, expand, expanded_file_type};
///
/// let payload = b"\x20\0\0\0av01av1C\0\0\0\xAA";
/// let file = expand(payload, &FileType::default())?;
/// let file_type = expanded_file_type(&file)?;
/// assert_eq!(file_type.compatible_brands, [b"mif3".into(), b"mif1".into()]);
/// # Ok::<(), bustardcase::Refusal>(())
/// ```
pub fn expanded_file_type(file: &[u8]) -> Result<FileType, Refusal> {
    let body = find_box(file, FourCc(*b"ftyp"))?.payload(file);
    match &codes(body)[..] {
        [major_brand, minor_version, brands @ ..] => Ok(FileType {
            major_brand: *major_brand,
            minor_version: minor_version.number(),
            compatible_brands: brands.to_vec(),
        }),
        _ => Err(Refusal::NotAFileType),
    }
}

/// The file types that the original of an expanded file may have had, the usual ones first. They have major brand
/// 'mif3'; the minor version of which expanding makes the file's major brand M: M itself, for 'vvic' also 'vvi3', and
/// for 'mif3' 0, and 'mif3' only where the file lists over 1,024 brands; and the brands that the file lists, less up
/// to three at the end, which expanding may have added, lists with 'mif3' first. For another M than 'mif3', the last
/// one has major brand M, minor version 0 and the first 1,024 of the file's brands.
///
/// [`restore`](crate::restore) tells which of them fit: the file tells its original type only in part. Where none fits,
/// no file type does.
///
/// ```
/// use bustardcase::{FileType, expand, find_mini, usual_file_types};
///
/// let payload = b"\x20\0\0\0av01av1C\0\0\0\xAA";
/// let original = FileType { minor_version: u32::from_be_bytes(*b"avif"), ..FileType::default() };
/// let file = expand(payload, &original)?;
/// let fits = |file_type: &FileType| find_mini(&file, file_type).is_ok();
/// let fitting: Vec<FileType> = usual_file_types(&file).into_iter().filter(fits).collect();
/// assert_eq!(fitting[0], original);
/// # Ok::<(), bustardcase::Refusal>(())
/// ```
pub fn usual_file_types(file: &[u8]) -> Vec<FileType> {
    let own = expanded_file_type(file).unwrap_or_default();
    let lists = brand_lists(&own.compatible_brands);
    let with_minor = |minor_version| {
        let of_list = move |brands: &Vec<FourCc>| FileType {
            major_brand: MIF3,
            minor_version,
            compatible_brands: brands.clone(),
        };
        lists.iter().map(of_list)
    };
    let minors = minor_versions(&own).into_iter();
    let mut types: Vec<FileType> = minors.flat_map(with_minor).collect();
    if own.major_brand != MIF3 {
        let mut brands = own.compatible_brands;
        brands.truncate(MOST_BRANDS);
        types.push(FileType {
            major_brand: own.major_brand,
            minor_version: 0,
            compatible_brands: brands,
        });
    }
    types
}

/// The minor versions that, beside 'mif3', become the major brand of this type of an expanded file.
fn minor_versions(own: &FileType) -> Vec<u32> {
    let major = own.major_brand.number();
    match own.major_brand {
        // Beside minor version 'mif3' expanding adds 'mif3' to the brands. Where the original has room for it, 0 gives
        // the same file.
        MIF3 if own.compatible_brands.len() > MOST_BRANDS => vec![0, major],
        MIF3 => vec![0],
        VVIC => vec![major, VVI3.number()],
        _ => vec![major],
    }
}

/// The lists of brands that the original of an expanded file with these may have had.
fn brand_lists(own: &[FourCc]) -> Vec<Vec<FourCc>> {
    let shortest = own.len().saturating_sub(MOST_ADDED).min(MOST_BRANDS);
    let lengths = shortest..=own.len().min(MOST_BRANDS);
    let mut lists: Vec<_> = lengths.map(|n| own[..n].to_vec()).collect();
    lists.sort_by_key(|list| !list.contains(&MIF3));
    lists
}

fn codes(bytes: &[u8]) -> Vec<FourCc> {
    let (codes, _) = bytes.as_chunks();
    codes.iter().map(FourCc::from).collect()
}
