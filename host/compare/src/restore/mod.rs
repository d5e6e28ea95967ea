//! Back to a mini: `bustardcase_find_mini` and `bustardcase_restore` beside a reading of the file that is written from
//! document 02, point 3, and the Rust's `equivalent_file` and `to_box`.

mod damaged;
mod others;
mod ours;
mod records;

use crate::check::Checker;
use crate::features::Features;
use crate::read::shown;
use crate::report::Report;
use oracle::answer::Answer;
use oracle::expanding::{self, OriginalType};
use oracle::normal;
use oracle::outside::{is_shown, outside};
use oracle::random::Random;
use oracle::reading::RECORD_LEN;
use oracle::records::random_bytes;
use oracle::restoring::{self, BRANDS, NO_RECORD, Restored};
use oracle::{box_cases, fields, near_types, walks};
use upstream::mini::MinimizedImage;

const SEED: u64 = 0x6275_7374_6172_6439;

/// How many records that, for the most part, no payload gives.
const OUTSIDE: u64 = 60_000;

/// How many buffers of random bytes and of boxes.
const RANDOM: u64 = 50_000;

/// How often a record must be found, and each refusal must come, in each part of the run where it can; and how often
/// each clause must change a record.
const LEAST: u64 = 1_000;

struct Run {
    finder: Checker,
    writer: Checker,
    random: Random,
    types: Vec<OriginalType>,
    cases: u64,
    outcomes: Outcomes,
    /// How many records each clause of point 14 changes.
    changed: [u64; normal::NAMES.len()],
    /// How many have a shorter payload in their normal form.
    shorter: u64,
    features: Features,
}

/// What came of a part of the run.
#[derive(Default)]
struct Outcomes {
    found: u64,
    brands: u64,
    no_record: u64,
}

pub fn compare(report: &mut Report) -> Result<(), String> {
    let mut run = Run::new();
    run.records()?;
    run.tell(report, "files of records", [true, false, false])?;
    run.damaged()?;
    run.tell(report, "damaged files", [true, false, true])?;
    run.other_types()?;
    run.tell(report, "under other file types", [true, true, true])?;
    run.outside()?;
    run.tell(
        report,
        "of records that no payload gives",
        [true, false, true],
    )?;
    run.greatest()?;
    run.tell(
        report,
        "with the longest chunks, and one byte more",
        [false; 3],
    )?;
    run.others()?;
    run.tell(report, "other bytes", [false, false, true])?;
    report.cases = run.cases;
    run.check_cover(report)
}

impl Run {
    fn new() -> Self {
        Run {
            finder: Checker::new(fields::of_record),
            writer: Checker::new(|at| format!("byte {at} of the box")),
            random: Random::new(SEED),
            types: expanding::allowed_types(),
            cases: 0,
            outcomes: Outcomes::default(),
            changed: Default::default(),
            shorter: 0,
            features: Features::of_files(),
        }
    }

    fn outside(&mut self) -> Result<(), String> {
        for _ in 0..OUTSIDE {
            let original = self.random_type();
            let image = outside(&mut self.random);
            let expanded = expanding::of_record(&image, &original)?;
            match expanded {
                Answer::Done(file) if is_shown(&image) => self.no_record(&file, &original)?,
                Answer::Done(file) => drop(self.case(&file, &original)?),
                Answer::Refused { .. } => {}
            }
        }
        Ok(())
    }

    fn others(&mut self) -> Result<(), String> {
        let original = self.types[0].clone();
        for len in 0..64 {
            self.no_record(&vec![0; len], &original)?;
        }
        for _ in 0..RANDOM {
            let len = self.random.below(1_000) as usize;
            let bytes = random_bytes(&mut self.random, len);
            self.no_record(&bytes, &original)?;
        }
        walks::random(RANDOM / 6, &mut |buf, _| self.no_record(buf, &original))?;
        box_cases::random(RANDOM, &mut |buf, _| self.no_record(buf, &original))?;
        others::visit(&mut |file| {
            self.no_record(file, &original)?;
            match near_types::stated(file) {
                Some(stated) => self.no_record(file, &stated),
                None => Ok(()),
            }
        })
    }

    fn no_record(&mut self, file: &[u8], original: &OriginalType) -> Result<(), String> {
        match self.case(file, original)? {
            None => Ok(()),
            Some(found) => Err(format!(
                "file {}\nunder {original:?}\na record is found: {found:?}",
                shown(file)
            )),
        }
    }

    fn random_type(&mut self) -> OriginalType {
        expanding::random_allowed_type(&mut self.random, &self.types)
    }

    /// What is found, if the answers are equal.
    fn case(&mut self, file: &[u8], original: &OriginalType) -> Result<Option<Restored>, String> {
        let expected = restoring::restore(file, original);
        self.same(file, original, &expected)
            .map_err(|e| format!("file {}\nunder {original:?}\n{e}", shown(file)))?;
        self.cases += 1;
        match expected {
            Ok(_) => self.outcomes.found += 1,
            Err(BRANDS) => self.outcomes.brands += 1,
            Err(_) => self.outcomes.no_record += 1,
        }
        Ok(expected.ok())
    }

    /// With the outputs exactly long enough, and every fourth time also one byte short, longer or empty.
    fn same(
        &mut self,
        file: &[u8],
        original: &OriginalType,
        expected: &Result<Restored, u64>,
    ) -> Result<(), String> {
        let record = answer(expected, |restored| Ok(restored.layout()))?;
        let boxed = answer(expected, |restored| {
            restored.image.to_box().map_err(|e| e.to_string())
        })?;
        let exact = match &boxed {
            Answer::Done(bytes) => bytes.len(),
            Answer::Refused { .. } => 64,
        };
        self.with_outputs(file, original, (&record, RECORD_LEN), (&boxed, exact))?;
        if !self.cases.is_multiple_of(4) {
            return Ok(());
        }
        // Shifted by one after every four, since the fillings alternate.
        let turn = self.cases / 4 + self.cases / 16;
        let other =
            |exact: usize| [exact.saturating_sub(1), exact + 1, exact + 23, 0][turn as usize % 4];
        let lens = [RECORD_LEN, exact].map(other);
        self.with_outputs(file, original, (&record, lens[0]), (&boxed, lens[1]))
    }

    /// Each answer with the length of its output.
    fn with_outputs(
        &mut self,
        file: &[u8],
        original: &OriginalType,
        record: (&Answer, usize),
        boxed: (&Answer, usize),
    ) -> Result<(), String> {
        self.finder.call(record.0, record.1, |out| {
            ours::find_mini(file, original, out)
        })?;
        self.writer
            .call(boxed.0, boxed.1, |out| ours::restore(file, original, out))
    }

    /// Tells what came since it was last told. `must` says what must have come often: a record, 15, 17.
    fn tell(&mut self, report: &mut Report, what: &str, must: [bool; 3]) -> Result<(), String> {
        let Outcomes {
            found,
            brands,
            no_record,
        } = std::mem::take(&mut self.outcomes);
        report.line(format_args!(
            "{what}: {found} found, {brands} refused with {BRANDS}, {no_record} with {NO_RECORD}"
        ));
        let too_few = [found, brands, no_record]
            .into_iter()
            .zip(must)
            .any(|(count, must)| must && count < LEAST);
        match too_few {
            true => Err(format!("{what}: an outcome comes fewer than {LEAST} times")),
            false => Ok(()),
        }
    }

    /// Refuses a run in which a clause changes too few records.
    fn check_cover(&self, report: &mut Report) -> Result<(), String> {
        for (name, changed) in normal::NAMES.iter().zip(self.changed) {
            report.line(format_args!("{name}: {changed} records changed"));
            if changed < LEAST {
                return Err(format!("the clause '{name}' changes too few records"));
            }
        }
        report.line(format_args!(
            "{} have a shorter payload in their normal form; {} calls",
            self.shorter,
            self.finder.calls + self.writer.calls
        ));
        match self.shorter < LEAST {
            true => Err("too few records have a shorter payload".to_string()),
            false => self.features.check(report),
        }
    }
}

fn answer(
    expected: &Result<Restored, u64>,
    bytes: impl FnOnce(&Restored) -> Result<Vec<u8>, String>,
) -> Result<Answer, String> {
    match expected {
        Ok(restored) => bytes(restored).map(Answer::Done),
        Err(number) => Ok(Answer::refused(*number)),
    }
}

fn read(payload: &[u8]) -> Result<MinimizedImage, String> {
    MinimizedImage::parse(payload).map_err(|e| e.to_string())
}

/// The Rust's file of a record that is expanded.
fn expanded(image: &MinimizedImage, original: &OriginalType) -> Result<Vec<u8>, String> {
    match expanding::of_record(image, original)? {
        Answer::Done(file) => Ok(file),
        Answer::Refused { number, .. } => Err(format!("refusal {number} of {image:?}")),
    }
}

#[cfg(test)]
mod tests {
    use super::*;
    use oracle::payloads;
    use oracle::reading::MAIN_DATA;

    /// The smallest file, and the record that is found.
    pub fn smallest(run: &Run) -> (Vec<u8>, OriginalType, Restored) {
        let original = run.types[0].clone();
        let image = read(&payloads::payload_of(&expanding::plain())).expect("a sound plan");
        let file = expanded(&image, &original).expect("it is expanded");
        let found = restoring::restore(&file, &original).expect("a record is found");
        (file, original, found)
    }

    #[test]
    fn another_answer_is_seen() {
        let mut run = Run::new();
        let (file, original, found) = smallest(&run);
        assert_eq!(run.same(&file, &original, &Ok(found.clone())), Ok(()));
        let mut moved = found.clone();
        moved.spans[MAIN_DATA] = Some((482, 1));
        let mut other = found;
        other.image.orientation = 2;
        for wrong in [Ok(moved), Ok(other), Err(NO_RECORD), Err(BRANDS)] {
            assert!(run.same(&file, &original, &wrong).is_err());
        }
        let cut = &file[1..];
        assert_eq!(run.same(cut, &original, &Err(NO_RECORD)), Ok(()));
        assert!(run.same(cut, &original, &Err(BRANDS)).is_err());
    }

    #[test]
    fn a_record_found_where_there_is_none_is_seen() {
        let mut run = Run::new();
        let (file, original, found) = smallest(&run);
        assert_eq!(run.no_record(&file[1..], &original), Ok(()));
        assert!(run.no_record(&file, &original).is_err());
        assert_eq!(run.under(&found.image, &file, &original), Ok(()));
        let mut image = found.image;
        image.orientation = 2;
        assert!(run.under(&image, &file, &original).is_err());
    }

    #[test]
    fn outcomes_that_come_too_seldom_are_refused() {
        let mut run = Run::new();
        let mut report = Report::new("test");
        run.outcomes.found = LEAST;
        assert!(run.tell(&mut report, "files", [true, true, false]).is_err());
        run.outcomes.found = LEAST;
        assert_eq!(run.tell(&mut report, "files", [true, false, false]), Ok(()));
        assert!(
            run.tell(&mut report, "files", [true, false, false])
                .is_err()
        );
        run.features = Features::none();
        run.changed = [LEAST; normal::NAMES.len()];
        run.shorter = LEAST - 1;
        assert!(run.check_cover(&mut report).is_err());
        run.shorter = LEAST;
        run.changed[3] -= 1;
        let seen = run.check_cover(&mut report).expect_err("too few");
        assert!(seen.contains("'gain-map configuration'"));
    }
}
