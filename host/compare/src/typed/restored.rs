//! `bustardcase::find_mini` and `bustardcase::restore` beside a second reading of the file and `to_box`.

use super::payload::typed;
use super::{record, same, same_refusal};
use crate::read::shown;
use crate::report::Report;
use oracle::answer::Answer;
use oracle::expanding::{self, OriginalType};
use oracle::random::Random;
use oracle::restoring::{self, BRANDS};
use oracle::{changes, damaging, near_types};

/// How many files of records; each is also taken with a few bytes changed and under another file type.
const FILES: u64 = 20_000;

/// How often a record must be found, and each refusal must come, at least.
const LEAST: u64 = 100;

#[derive(Default)]
struct Outcomes {
    found: u64,
    brands: u64,
    no_record: u64,
}

pub fn compare(report: &mut Report) -> Result<(), String> {
    let mut r = Random::new(0x6275_7374_6172_6461);
    let types = expanding::allowed_types();
    let mut seen = Outcomes::default();
    for _ in 0..FILES {
        let original = expanding::random_allowed_type(&mut r, &types);
        let image = changes::base(&mut r);
        let Answer::Done(file) = expanding::of_record(&image, &original)? else {
            return Err(format!("no file of {image:?}"));
        };
        let damaged = damaging::few_bytes(&mut r, &file);
        let near = near_types::near(&mut r, &original);
        one(&mut seen, &file, &original)?;
        one(&mut seen, &damaged, &original)?;
        one(&mut seen, &file, &near)?;
    }
    seen.tell(report)
}

fn one(seen: &mut Outcomes, file: &[u8], original: &OriginalType) -> Result<(), String> {
    let mut original = original.clone();
    // Others cannot be said in the crate's type.
    original.brands.truncate(original.brands.len() / 4 * 4);
    of_file(seen, file, &original)
        .map_err(|e| format!("file {}\nunder {original:?}\n{e}", shown(file)))
}

fn of_file(seen: &mut Outcomes, file: &[u8], original: &OriginalType) -> Result<(), String> {
    let found = bustardcase::find_mini(file, &typed(original));
    let boxed = bustardcase::restore(file, &typed(original));
    match restoring::restore(file, original) {
        Ok(restored) => {
            seen.found += 1;
            let image = found.map_err(|r| format!("find_mini: {r}"))?;
            record::compare(file, &image, &restored.image, &restored.spans)?;
            let their_box = restored.image.to_box().map_err(|e| e.to_string())?;
            same("the box", &boxed, &Ok(their_box))
        }
        Err(number) => {
            seen.count(number);
            same_refusal("find_mini", found, number, 0)?;
            same_refusal("restore", boxed, number, 0)
        }
    }
}

impl Outcomes {
    fn count(&mut self, number: u64) {
        match number {
            BRANDS => self.brands += 1,
            _ => self.no_record += 1,
        }
    }

    fn tell(&self, report: &mut Report) -> Result<(), String> {
        let Outcomes {
            found,
            brands,
            no_record,
        } = self;
        report.cases += found + brands + no_record;
        report.line(format_args!(
            "files: {found} found; refusals 15: {brands}, 17: {no_record}"
        ));
        match [found, brands, no_record].into_iter().all(|n| *n >= LEAST) {
            true => Ok(()),
            false => Err(format!("an outcome comes fewer than {LEAST} times")),
        }
    }
}
