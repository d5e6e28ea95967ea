//! The tool from end to end, on files that the tests make.

mod check;
mod errors;
mod explain;
mod folder;
mod help;
mod json;
mod payloads;
mod pipes;
mod readme;
mod restore;
mod same;
mod script;
mod show;
mod writing;
