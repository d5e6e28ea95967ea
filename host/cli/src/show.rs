//! `show`: every field of the record, the orientation in words, and the size as shown.

use crate::failure::Failure;
use crate::input::Input;
use crate::tree::{Group, Value};
use crate::{json, output, record, text};
use std::ffi::OsStr;

pub fn run(file: &OsStr, as_json: bool) -> Result<(), Failure> {
    let fields = fields(file);
    match as_json {
        true => output::print(&json::text(&json::told(fields)?)),
        false => output::print(&text::lines(&fields?)),
    }
}

/// Where the payload lies and what its file's type is, then the fields of the record.
fn fields(file: &OsStr) -> Result<Group, Failure> {
    let input = Input::open(file)?;
    let image = input.taken(bustardcase::read(input.payload()))?;
    let check = input.taken(bustardcase::check(input.payload()))?;
    let mut fields = vec![
        (
            "file_type",
            Value::maybe(input.file_type(), record::of_file_type),
        ),
        (
            "payload_position",
            Value::size(input.start_in_file().unwrap_or(0)),
        ),
        ("payload_length", Value::size(input.payload().len())),
    ];
    fields.extend(record::of_image(&image, &check));
    Ok(fields)
}
