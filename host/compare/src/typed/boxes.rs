//! `bustardcase::box_header` and `bustardcase::find_box` beside `parse_box_header` and `find_box`.

use super::{same, same_refusal};
use crate::report::Report;
use bustardcase::{BoxHeader, FourCc, Refusal};
use oracle::hex::hex;
use oracle::{box_cases, refusal, walks};
use upstream::boxes as theirs;
use upstream::error::HeifError;

/// How many random buffers with a start, and how many that are walked for six types.
const HEADERS: u64 = 300_000;
const WALKS: u64 = 50_000;

/// How often each refusal and each kind of header must come at least.
const LEAST: u64 = 1_000;

#[derive(Default)]
struct Outcomes {
    refused: [u64; 5],
    /// Without an extended type, and with one; in a walk, the first box and a later one.
    headers: [u64; 2],
}

pub fn compare(report: &mut Report) -> Result<(), String> {
    let mut seen = Outcomes::default();
    let mut header = |buf: &[u8], start: usize| {
        one_header(&mut seen, buf, start)
            .map_err(|e| format!("buffer {}\nstart {start}\n{e}", hex(buf)))
    };
    box_cases::sample(&mut header)?;
    box_cases::random(HEADERS, &mut header)?;
    seen.tell(report, "box headers: no extended type, extended type")?;

    let mut seen = Outcomes::default();
    walks::random(WALKS, &mut |buf, box_type| {
        one_walk(&mut seen, buf, box_type)
            .map_err(|e| format!("buffer {}\ntype {box_type:#010x}\n{e}", hex(buf)))
    })?;
    seen.tell(report, "walks: found first, found later")
}

impl Outcomes {
    fn tell(&self, report: &mut Report, what: &str) -> Result<(), String> {
        let refused = &self.refused[1..];
        report.cases += refused.iter().chain(&self.headers).sum::<u64>();
        report.line(format_args!(
            "{what}: {:?}; refusals 1 to 4: {refused:?}",
            self.headers
        ));
        match refused.iter().chain(&self.headers).all(|n| *n >= LEAST) {
            true => Ok(()),
            false => Err(format!("an outcome occurs fewer than {LEAST} times")),
        }
    }
}

fn one_header(seen: &mut Outcomes, buf: &[u8], start: usize) -> Result<(), String> {
    let ours = bustardcase::box_header(buf, start);
    match theirs::parse_box_header(buf, start) {
        Ok(header) => {
            seen.headers[header.user_type.is_some() as usize] += 1;
            same_header(ours, &header, buf)
        }
        Err(error) => refused(seen, ours, &error),
    }
}

fn one_walk(seen: &mut Outcomes, buf: &[u8], box_type: u32) -> Result<(), String> {
    let box_type = box_type.to_be_bytes();
    let ours = bustardcase::find_box(buf, FourCc(box_type));
    match theirs::find_box(buf, &box_type) {
        Ok(Some((header, _))) => {
            seen.headers[(header.start > 0) as usize] += 1;
            same_header(ours, &header, buf)
        }
        // The walk came to the end of the buffer, where there is no header.
        Ok(None) => {
            seen.refused[1] += 1;
            same_refusal("the walk", ours, 1, 0)
        }
        Err(error) => refused(seen, ours, &error),
    }
}

fn refused(
    seen: &mut Outcomes,
    ours: Result<BoxHeader, Refusal>,
    error: &HeifError,
) -> Result<(), String> {
    let number = refusal::of_box_header(error)?;
    seen.refused[number as usize] += 1;
    same_refusal("the header", ours, number, 0)
}

fn same_header(
    ours: Result<BoxHeader, Refusal>,
    expected: &theirs::BoxHeader,
    buf: &[u8],
) -> Result<(), String> {
    let ours = ours.map_err(|r| format!("a header is expected: {r}"))?;
    let told = theirs::BoxHeader::new(
        ours.box_type.0,
        ours.user_type,
        ours.start,
        ours.payload_start,
        ours.payload_len,
    );
    same("the header", &told, expected)?;
    same("the end", &ours.end(), &expected.end())?;
    same_part(&ours, buf, theirs::payload(buf, expected))?;
    // The Rust panics where a header passes its buffer: there document 01 has the empty part at the start.
    let shorter = &buf[..buf.len() / 2];
    match expected.end() <= shorter.len() {
        true => same_part(&ours, shorter, theirs::payload(shorter, expected)),
        false => same_part(&ours, shorter, &shorter[..0]),
    }
}

fn same_part(ours: &BoxHeader, buf: &[u8], expected: &[u8]) -> Result<(), String> {
    let part = ours.payload(buf);
    same("the payload", &part, &expected)?;
    same(
        "where the payload begins",
        &part.as_ptr(),
        &expected.as_ptr(),
    )
}
