//! Payloads written back, expanded, and made of what they expanded to.

use crate::answer::sized;
use crate::{FileType, Refusal, raw};

/// The box of type `mini` that holds the record of a payload in its shortest form, header included.
/// Refusals 5 to 9. The payload of the box reads to the same record, and every other payload that does
/// is longer.
///
/// ```
/// // Ten bytes that store the dimensions in the long form without need: eight say the same.
/// let payload = [0, 0, 0x80, 0, 0, 0, 0, 0, 0, 0xAA];
/// let boxed = bustardcase::rewrite(&payload)?;
/// assert_eq!(boxed, b"\0\0\0\x10mini\0\0\0\0\0\0\0\xAA");
/// # Ok::<(), bustardcase::Refusal>(())
/// ```
pub fn rewrite(payload: &[u8]) -> Result<Vec<u8>, Refusal> {
    sized(|out| raw::rewrite(payload, out))
}

/// The equivalent HEIF file of a payload, under the original file's type. Refusals 5 to 9 and 12 to 15.
///
/// ```
/// use bustardcase::{FileType, Refusal, expand};
///
/// let payload = b"\x20\0\0\0av01av1C\0\0\0\xAA";
/// let file = expand(payload, &FileType::default())?;
/// assert_eq!(file.len(), 484);
/// assert_eq!(file[483], 0xAA);
///
/// // A payload without explicit codec types is not expanded.
/// let plain = [0, 0, 0, 0, 0, 0, 0, 0xAA];
/// assert_eq!(expand(&plain, &FileType::default()), Err(Refusal::NoCodecTypes));
/// # Ok::<(), Refusal>(())
/// ```
pub fn expand(payload: &[u8], original: &FileType) -> Result<Vec<u8>, Refusal> {
    let (major, minor, brands) = original.parts();
    sized(|out| raw::expand(payload, major, minor, &brands, out))
}

/// The box of type `mini` that holds the record of [`find_mini`](crate::find_mini) in its shortest form, header
/// included. Refusals 15 and 17. The payload of the box expands to exactly this file under the same file type,
/// and none that does is shorter. The original file is [`FileType::to_box`] and this box.
///
/// ```
/// use bustardcase::{FileType, expand, find_box, restore};
///
/// let payload = b"\x20\0\0\0av01av1C\0\0\0\xAA";
/// let original = FileType::default();
/// let file = expand(payload, &original)?;
/// let boxed = restore(&file, &original)?;
/// let found = find_box(&boxed, b"mini".into())?.payload(&boxed);
/// assert_eq!(expand(found, &original)?, file);
/// # Ok::<(), bustardcase::Refusal>(())
/// ```
pub fn restore(file: &[u8], original: &FileType) -> Result<Vec<u8>, Refusal> {
    let (major, minor, brands) = original.parts();
    sized(|out| raw::restore(file, major, minor, &brands, out))
}
