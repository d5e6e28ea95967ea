//! The supplied Rust of `oxideav-heif`, as it is, so far as `mini.rs` needs it. The build script
//! copies the files; nothing of their text stands here.

include!(concat!(env!("OUT_DIR"), "/modules.rs"));

pub mod hvcc;
