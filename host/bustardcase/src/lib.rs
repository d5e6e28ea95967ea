//! The low-overhead image format (ISO/IEC 23008-12 Amd 2, Annex O: the MinimizedImageBox, `mini`):
//! reading a payload, writing it back in its shortest form, expanding it to the equivalent HEIF file, and
//! making it again of such a file.
//!
//! Every answer comes from a static library whose functions are proved to equal short definitions,
//! for every input. This crate makes typed values of the library's bytes and knows nothing of the
//! format beside the layouts of docs/ABI.md, and, in [`differences`], which fields of a record an
//! expanded file carries; in [`FileType::to_box`] and [`usual_file_types`], what an 'ftyp' box is and
//! what expanding makes of it. It is not proved itself.
//!
//! ```
//! // The smallest payload there is: 1 by 1, one byte of main data.
//! let payload = [0, 0, 0, 0, 0, 0, 0, 0xAA];
//! let image = bustardcase::read(&payload)?;
//! assert_eq!((image.width, image.height), (1, 1));
//! // A chunk is a place in the payload, and is handed out as a part of it.
//! assert_eq!(image.main_data.of(&payload), [0xAA]);
//!
//! // With the last byte missing, the answer is a refusal: a number, its meaning, and the bit at which
//! // reading broke off.
//! let refusal = bustardcase::read(&payload[..7]).unwrap_err();
//! assert_eq!(refusal.number(), 9);
//! assert_eq!(refusal.meaning(), "a chunk, taken in stored order, ends past the payload");
//! assert_eq!(refusal.bit(), Some(56));
//! # Ok::<(), bustardcase::Refusal>(())
//! ```
//!
//! The bytes of a file come to a payload by [`find_box`]:
//!
//! ```
//! let file = b"\0\0\0\x14ftypmif3\0\0\0\0mif3\0\0\0\x10mini\0\0\0\0\0\0\0\xAA";
//! let payload = bustardcase::find_box(file, b"mini".into())?.payload(file);
//! assert_eq!(bustardcase::read(payload)?.orientation, 1);
//! # Ok::<(), bustardcase::Refusal>(())
//! ```
#![deny(unsafe_code)]
#![warn(missing_docs)]

mod answer;
mod boxes;
mod check;
mod chunk;
mod diagnosis;
mod differences;
mod file_type;
mod four_cc;
mod image;
mod layout;
mod outline;
pub mod raw;
mod refusal;
mod writing;

pub use boxes::{BoxHeader, box_header, find_box};
pub use check::{Check, check};
pub use chunk::Chunk;
pub use diagnosis::{Diagnosis, Place, diagnose};
pub use differences::{Difference, differences};
pub use file_type::{FileType, expanded_file_type, file_type, usual_file_types};
pub use four_cc::{FourCc, NotFourCharacters};
pub use image::{
    Cicp, CodecTypes, MiniChroma, MiniGainMap, MiniHdrBoxes, MinimizedImage, SampleFormat,
    TmapCicp, find_mini, read,
};
pub use outline::{ChunkKind, HeaderPart, Outline, PartKind, PlacedChunk, outline};
pub use refusal::Refusal;
pub use writing::{expand, restore, rewrite};
