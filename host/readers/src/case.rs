//! A file to open, with what its record says.

use crate::model::Model;
use crate::samples::Sample;
use bustardcase::{Chunk, MinimizedImage};
use std::fs;
use std::path::Path;

pub struct Case<'a> {
    pub sample: &'a Sample,
    pub record: MinimizedImage,
    pub model: Model,
    pub file: Vec<u8>,
    pub path: String,
    /// The path as the report has it.
    pub shown: String,
}

/// Where the files go: target/readers of the repository.
const FOLDER: &str = concat!(env!("CARGO_MANIFEST_DIR"), "/../../target/readers");

impl<'a> Case<'a> {
    pub fn new(sample: &'a Sample) -> Result<Self, String> {
        let refused = |refusal| format!("{}: {refusal}", sample.name);
        let Sample {
            payload, original, ..
        } = sample;
        let record = bustardcase::read(payload).map_err(refused)?;
        let mut case = Case {
            sample,
            model: Model::new(&record, payload, original),
            record,
            file: bustardcase::expand(payload, original).map_err(refused)?,
            path: String::new(),
            shown: String::new(),
        };
        case.write(&sample.name)?;
        Ok(case)
    }

    /// The same with another file.
    pub fn with_file(sample: &'a Sample, file: Vec<u8>, name: &str) -> Result<Self, String> {
        let mut case = Case::new(sample)?;
        case.file = file;
        case.write(name)?;
        Ok(case)
    }

    /// What a chunk of the record holds.
    pub fn bytes(&self, chunk: Chunk) -> &'a [u8] {
        chunk.of(&self.sample.payload)
    }

    fn write(&mut self, name: &str) -> Result<(), String> {
        let path = Path::new(FOLDER).join(format!("{name}.heif"));
        self.path = path.display().to_string();
        self.shown = format!("target/readers/{name}.heif");
        fs::create_dir_all(FOLDER)
            .and_then(|()| fs::write(&path, &self.file))
            .map_err(|error| format!("{}: {error}", self.path))
    }
}
