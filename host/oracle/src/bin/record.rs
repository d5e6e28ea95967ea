//! Writes a fixed list of inputs with the supplied Rust's answers: `record boxes`, `record read`. A
//! program of the repository replays the list, so that it needs no Rust.

use oracle::answer::Answer;
use oracle::hex::hex;
use oracle::{box_cases, boxes, reading, samples};
use std::process::ExitCode;

fn main() -> ExitCode {
    let names: Vec<String> = std::env::args().skip(1).collect();
    let text = match names.iter().map(String::as_str).collect::<Vec<_>>()[..] {
        ["boxes"] => record_boxes(),
        ["read"] => record_read(),
        _ => Err("usage: record boxes | record read".to_string()),
    };
    match text {
        Ok(text) => {
            print!("{text}");
            ExitCode::SUCCESS
        }
        Err(message) => {
            eprintln!("{message}");
            ExitCode::FAILURE
        }
    }
}

fn record_boxes() -> Result<String, String> {
    let mut text = heading("boxes", "parse_box_header");
    text += "# buffer start refusal header\n";
    box_cases::sample(&mut |buf, start| {
        let answer = boxes::box_header(buf, start)?;
        text += &format!("{} {start} {}\n", hex(buf), said(&answer));
        Ok(())
    })?;
    Ok(text)
}

fn record_read() -> Result<String, String> {
    let mut text = heading("read", "MinimizedImage::parse");
    text += "# The bit comes of a reading bit by bit.\n# payload refusal bit record\n";
    for payload in samples::payloads() {
        let answer = reading::read(&payload)?.answer(&payload)?;
        let written = hex(answer.written(usize::MAX));
        let (number, bit) = (answer.number(), answer.bit());
        text += &format!("{} {number} {bit} {written}\n", hex(&payload));
    }
    Ok(text)
}

fn heading(name: &str, function: &str) -> String {
    format!(
        "# Answers of the supplied Rust's {function}, in the layout of docs/ABI.md.\n\
         # Made in host/ by: cargo run --release --bin record -- {name}\n\
         # Bytes are hexadecimal, numbers decimal; '-' is no bytes.\n"
    )
}

/// The refusal's number, 0 for none, and the bytes written.
fn said(answer: &Answer) -> String {
    format!("{} {}", answer.number(), hex(answer.written(usize::MAX)))
}
