//! `restore`: the original file, made again of the file that it expanded to.

use crate::args::{Changes, usage};
use crate::failure::Failure;
use crate::tree::{Group, Value};
use crate::{input, json, output, record};
use bustardcase::{FileType, FourCc, Refusal, box_header, find_box, find_mini, usual_file_types};
use std::ffi::OsStr;

const MIF3: FourCc = FourCc(*b"mif3");

pub fn run(input: &OsStr, output: &OsStr, changes: &Changes, as_json: bool) -> Result<(), Failure> {
    let (name, file) = input::read(input)?;
    if output::is_one_file(input, output) {
        return Err(usage("restore: OUT is IN", "restore"));
    }
    let restored = Restored::of(&name, &file, changes);
    let restored = match as_json {
        true => json::told_with(restored, || vec![("fitting", usual(&file))])?,
        false => restored?,
    };
    // First, so that OUT stays as it was where this fails.
    if as_json {
        output::print(&json::text(&restored.named()))?;
    }
    output::write(output, &restored.bytes())?;
    if !changes.all() {
        output::note(&restored.told(&name));
    }
    Ok(())
}

struct Restored {
    original: FileType,
    /// The other file types, of those tried, under which it is the same file.
    others: Vec<FileType>,
    /// The 'mini' box.
    boxed: Vec<u8>,
}

impl Restored {
    /// Under the first file type that fits; where none does, the refusal is that of the first one tried.
    fn of(name: &str, file: &[u8], changes: &Changes) -> Result<Self, Failure> {
        let tried = tried(file, changes);
        let mut fitting = fitting(file, &tried).into_iter();
        let original = fitting.next().unwrap_or_else(|| tried[0].clone());
        match bustardcase::restore(file, &original) {
            Ok(boxed) => Ok(Restored {
                original,
                others: fitting.collect(),
                boxed,
            }),
            Err(refusal) => Err(Failure::Refused {
                name: name.to_string(),
                what: "",
                refusal,
                broken: None,
                hint: (refusal == Refusal::NotAnExpansion).then(|| hint(file)),
            }),
        }
    }

    /// The original file.
    fn bytes(&self) -> Vec<u8> {
        [&self.original.to_box()[..], &self.boxed].concat()
    }

    fn told(&self, name: &str) -> String {
        let mut out =
            format!("bustardcase: {name}: the original file type cannot be told from the file\n");
        out += &format!("  taken     {}\n", options(&self.original));
        for other in &self.others {
            out += &format!("  fits too  {}\n", options(other));
        }
        out
    }

    /// For programs.
    fn named(&self) -> Group {
        vec![
            ("file_type", record::of_file_type(&self.original)),
            ("others", types(&self.others)),
        ]
    }
}

/// The types that the original may have had, with what the arguments say of it.
fn tried(file: &[u8], changes: &Changes) -> Vec<FileType> {
    let mut types: Vec<FileType> = Vec::new();
    for usual in usual_file_types(file) {
        let mut changed = changes.of(Some(&usual));
        // Beside another major brand the minor version makes no difference.
        if changes.minor.is_none() && changed.major_brand != MIF3 {
            changed.minor_version = 0;
        }
        if !types.contains(&changed) {
            types.push(changed);
        }
    }
    types
}

fn fitting(file: &[u8], tried: &[FileType]) -> Vec<FileType> {
    let fits = |file_type: &&FileType| find_mini(file, file_type).is_ok();
    tried.iter().filter(fits).cloned().collect()
}

/// What may help where no mini expands to the file.
fn hint(file: &[u8]) -> String {
    let has = |box_type: &[u8; 4]| find_box(file, FourCc::from(box_type)).is_ok();
    if file.is_empty() {
        return "the file is empty".to_string();
    }
    if has(b"mini") {
        return "the file has a 'mini' box itself".to_string();
    }
    if !has(b"ftyp") {
        return without_ftyp(file).to_string();
    }
    match fitting(file, &usual_file_types(file)).first() {
        Some(fits) => format!("of the usual file types {} fits", options(fits)),
        None => "it is no expansion under any original file type".to_string(),
    }
}

fn without_ftyp(file: &[u8]) -> &'static str {
    if bustardcase::read(file).is_ok() {
        return "the file has no 'ftyp' box, which every expanded file has; it could be the payload of a 'mini' box";
    }
    // Other bytes hardly have a word where a box has its type.
    let named = file
        .get(4..8)
        .is_some_and(|name| name.iter().all(u8::is_ascii_alphanumeric));
    match box_header(file, 0) {
        Err(Refusal::BoxSize) if named => "the file's first box is cut",
        _ => "the file has no 'ftyp' box, which every expanded file has",
    }
}

/// The options that give a file type.
fn options(file_type: &FileType) -> String {
    let codec = FourCc(file_type.minor_version.to_be_bytes());
    let is_word = codec.0[0].is_ascii_alphabetic() && codec.0.iter().all(u8::is_ascii_alphanumeric);
    let minor = match is_word {
        true => codec.to_string(),
        false => file_type.minor_version.to_string(),
    };
    let brand = |brand: &FourCc| brand.to_string().replace(',', r"\x2c");
    let brands = file_type.compatible_brands.iter().map(brand);
    let brands = brands.collect::<Vec<_>>().join(",");
    let major = quoted(file_type.major_brand.to_string());
    format!(
        "--major {major} --minor {minor} --brands {}",
        quoted(brands)
    )
}

/// As a shell takes it for one word.
fn quoted(text: String) -> String {
    let is_plain = |c: char| c.is_ascii_alphanumeric() || c == ',';
    match !text.is_empty() && text.chars().all(is_plain) {
        true => text,
        false => format!("'{}'", text.replace('\'', "'\\''")),
    }
}

/// The usual file types that fit.
fn usual(file: &[u8]) -> Value {
    types(&fitting(file, &usual_file_types(file)))
}

fn types(types: &[FileType]) -> Value {
    Value::List(types.iter().map(record::of_file_type).collect())
}
