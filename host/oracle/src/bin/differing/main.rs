//! Records that no payload gives. `differing` prints those that the supplied Rust's `to_box` takes and
//! writes as bytes that read differently, as rows of a table, and those that it refuses as we do.
//! `differing --check FILE` holds the table in docs/DIFFERENCES.md to the rows, line by line.

mod fields;
mod records;
mod table;

use records::Kind;
use std::fs;
use std::process::ExitCode;

const USAGE: &str =
    "usage: differing                prints the rows, and the records that are refused
       differing --check FILE   compares the table in FILE, docs/DIFFERENCES.md, with the rows";

fn main() -> ExitCode {
    let arguments: Vec<String> = std::env::args().skip(1).collect();
    let result = match arguments.iter().map(String::as_str).collect::<Vec<_>>()[..] {
        [] => print(),
        ["--check", file] => check(file),
        _ => Err(USAGE.to_string()),
    };
    match result {
        Ok(()) => ExitCode::SUCCESS,
        Err(message) => {
            eprintln!("{message}");
            ExitCode::FAILURE
        }
    }
}

fn print() -> Result<(), String> {
    for row in rows()? {
        println!("{row}");
    }
    for (name, words) in refused()? {
        println!("refused: {name}: {words}");
    }
    Ok(())
}

fn check(file: &str) -> Result<(), String> {
    let text = fs::read_to_string(file).map_err(|e| format!("{file}: {e}"))?;
    let rows = rows()?;
    table::compare(&text, &rows).map_err(|e| format!("{file}: {e}"))?;
    println!(
        "differing: the {} records of {file} are written as it says; {} others are refused",
        rows.len(),
        refused()?.len()
    );
    Ok(())
}

fn rows() -> Result<Vec<String>, String> {
    records::taken()?.iter().map(row).collect()
}

/// What the record has, the box that the Rust writes, and what reading it again gives.
fn row(kind: &Kind) -> Result<String, String> {
    let name = &kind.name;
    let image = kind.image()?;
    let written = image.to_box();
    let bytes = written.map_err(|e| format!("the Rust refuses {name}: {e}"))?;
    let read = fields::read_again(&image, &bytes)?;
    let read = read.ok_or(format!("{name}: the box reads to the same record"))?;
    Ok(format!("| {name} | {} | {read} |", fields::bytes(&bytes)))
}

/// The records that are refused, each with the Rust's words.
fn refused() -> Result<Vec<(String, String)>, String> {
    let words = |kind: Kind| match kind.image()?.to_box() {
        Ok(bytes) => Err(format!(
            "the Rust does not refuse {}: it writes {} bytes",
            kind.name,
            bytes.len()
        )),
        Err(error) => Ok((kind.name, error.to_string())),
    };
    records::refused()?.into_iter().map(words).collect()
}
