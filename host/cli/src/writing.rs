//! `shrink` and `expand`.

use crate::args::Changes;
use crate::failure::Failure;
use crate::input::Input;
use crate::output;
use std::ffi::OsStr;

pub fn shrink(input: &OsStr, output: &OsStr) -> Result<(), Failure> {
    let input = Input::open(input)?;
    let boxed = input.taken(bustardcase::rewrite(input.payload()))?;
    let result = match input.mini() {
        Some(mini) => {
            let bytes = input.bytes();
            [&bytes[..mini.start], &boxed, &bytes[mini.end()..]].concat()
        }
        None => {
            // What the box holds, as the box layer tells.
            let header = input.taken(bustardcase::box_header(&boxed, 0))?;
            header.payload(&boxed).to_vec()
        }
    };
    output::write(output, &result)
}

pub fn expand(input: &OsStr, output: &OsStr, changes: &Changes) -> Result<(), Failure> {
    let input = Input::open(input)?;
    let original = changes.of(input.file_type());
    let file = input.taken(bustardcase::expand(input.payload(), &original))?;
    output::write(output, &file)
}
