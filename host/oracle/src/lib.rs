//! What the supplied Rust answers, in numbers and bytes as docs/ABI.md lays them out, and the inputs
//! on which answers are compared.

pub mod answer;
pub mod box_cases;
pub mod boxes;
pub mod breaking;
pub mod changes;
pub mod checking;
pub mod damaging;
pub mod expanding;
pub mod fields;
pub mod file_part;
pub mod file_types;
pub mod hex;
pub mod near_types;
pub mod normal;
pub mod outlining;
pub mod outside;
pub mod pairs;
pub mod payloads;
pub mod random;
pub mod reading;
pub mod records;
pub mod refusal;
pub mod restoring;
pub mod same;
pub mod samples;
pub mod walks;

pub use plan;
