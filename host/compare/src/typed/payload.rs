//! What is read and told of a payload, and what is written of it.

use super::{diagnosis, outline, record, same, same_refusal};
use crate::read::shown;
use crate::report::Report;
use bustardcase::{Check, FileType, FourCc};
use oracle::answer::Answer;
use oracle::checking::{self, FLAGS};
use oracle::expanding::{self, OriginalType};
use oracle::payloads::{self, Case};
use oracle::random::Random;
use oracle::reading::{self, Accepted, Reading, Refused};

/// How many structured headers, each giving four payloads; how many random tails after 24 bits; how many
/// headers with explicit codec types.
const STRUCTURED: u64 = 50_000;
const TAILS: u32 = 1 << 17;
const TYPED: u64 = 50_000;

/// How many payloads must be read, and become files, at least; how often each refusal must come, and each
/// answer of the check.
const LEAST_READ: u64 = 100_000;
const LEAST_FILES: u64 = 90_000;
const LEAST: u64 = 100;

struct Run {
    random: Random,
    types: Vec<OriginalType>,
    cases: u64,
    read: u64,
    /// How often each answer of expanding came, 0 for a file.
    expanded: [u64; 17],
    /// How often each of the check's six says yes, and how often no.
    checked: [[u64; 2]; FLAGS],
}

pub fn compare(report: &mut Report) -> Result<(), String> {
    let mut run = Run {
        random: Random::new(0x6275_7374_6172_6436),
        types: expanding::listed_types(),
        cases: 0,
        read: 0,
        expanded: [0; 17],
        checked: [[0; 2]; FLAGS],
    };
    let mut plans = Random::new(0x6275_7374_6172_6437);
    for payload in checking::payloads() {
        run.case(plain(&payload))?;
    }
    payloads::shortest(&mut |c| run.case(c))?;
    payloads::random_tails(TAILS, &mut |c| run.case(c))?;
    payloads::structured(STRUCTURED, &mut |c| run.case(c))?;
    for _ in 0..TYPED {
        let plan = expanding::random_plan(&mut plans);
        run.case(plain(&payloads::payload_of(&plan)))?;
    }
    run.tell(report)
}

fn plain(payload: &[u8]) -> Case<'_> {
    Case {
        payload,
        ..Case::default()
    }
}

impl Run {
    fn case(&mut self, case: Case) -> Result<(), String> {
        let original = self.file_type();
        self.cases += 1;
        self.one(case.payload, &original)
            .map_err(|e| format!("payload {}\nunder {original:?}\n{e}", shown(case.payload)))
    }

    fn one(&mut self, payload: &[u8], original: &OriginalType) -> Result<(), String> {
        let reading = reading::read(payload)?;
        match &reading {
            Reading::Refused(refused) => all_refuse(payload, refused)?,
            Reading::Accepted(accepted) => {
                self.read += 1;
                self.told(payload, accepted)?;
            }
        }
        diagnosis::compare(payload)?;
        let expected = expanding::answer(&reading, original)?;
        self.expanded[expected.number() as usize] += 1;
        let ours = bustardcase::expand(payload, &typed(original));
        match expected {
            Answer::Refused { number, bit } => same_refusal("expand", ours, number, bit),
            Answer::Done(file) => same("the file", &ours, &Ok(file)),
        }
    }

    /// All that is told of a payload that is read.
    fn told(&mut self, payload: &[u8], accepted: &Accepted) -> Result<(), String> {
        let image = bustardcase::read(payload).map_err(|r| format!("read: {r}"))?;
        let spans = accepted.spans(payload)?;
        record::compare(payload, &image, &accepted.image, &spans)?;
        let outline = bustardcase::outline(payload).map_err(|r| format!("outline: {r}"))?;
        outline::compare(payload, &outline, accepted)?;
        self.check(payload, accepted)?;
        let their_box = accepted.image.to_box().map_err(|e| e.to_string())?;
        same("the box", &bustardcase::rewrite(payload), &Ok(their_box))
    }

    fn check(&mut self, payload: &[u8], accepted: &Accepted) -> Result<(), String> {
        let (shown_width, shown_height) = checking::shown(&accepted.image);
        let flags = checking::flags(&accepted.image, shown_width, shown_height);
        for (seen, flag) in self.checked.iter_mut().zip(flags) {
            seen[flag as usize] += 1;
        }
        let [
            passes,
            integer_samples,
            no_gain_map,
            exif_present,
            width_fits,
            height_fits,
        ] = flags;
        let expected = Check {
            passes,
            integer_samples,
            no_gain_map,
            exif_present,
            width_fits,
            height_fits,
            shown_width,
            shown_height,
        };
        same("the check", &bustardcase::check(payload), &Ok(expected))
    }

    /// A listed type or a random one, with whole brands: others cannot be said in the crate's type.
    fn file_type(&mut self) -> OriginalType {
        let mut original = match self.random.flag() {
            true => expanding::random_type(&mut self.random),
            false => {
                let i = self.random.below(self.types.len() as u64);
                self.types[i as usize].clone()
            }
        };
        original.brands.truncate(original.brands.len() / 4 * 4);
        original
    }

    /// Refuses a run in which an answer comes too seldom.
    fn tell(&self, report: &mut Report) -> Result<(), String> {
        let refusals = [5, 6, 7, 8, 9, 12, 13, 14, 15];
        let counts = refusals.map(|n: usize| format!("{n}: {}", self.expanded[n]));
        let files = self.expanded[0];
        report.cases += self.cases;
        report.line(format_args!(
            "{} payloads, {} read, {files} files; refusals {}",
            self.cases,
            self.read,
            counts.join(", ")
        ));
        if self.read < LEAST_READ || files < LEAST_FILES {
            return Err("too few payloads are read or expanded".to_string());
        }
        if refusals.iter().any(|n| self.expanded[*n] < LEAST) {
            return Err(format!("a refusal comes fewer than {LEAST} times"));
        }
        match self.checked.iter().flatten().all(|n| *n >= LEAST) {
            true => Ok(()),
            false => Err("an answer of the check comes too seldom".to_string()),
        }
    }
}

/// Every function that reads a payload must refuse it alike.
fn all_refuse(payload: &[u8], refused: &Refused) -> Result<(), String> {
    let (number, bit) = (refused.number(), refused.bit);
    same_refusal("read", bustardcase::read(payload), number, bit)?;
    same_refusal("check", bustardcase::check(payload), number, bit)?;
    same_refusal("outline", bustardcase::outline(payload), number, bit)?;
    same_refusal("rewrite", bustardcase::rewrite(payload), number, bit)
}

pub fn typed(original: &OriginalType) -> FileType {
    let (brands, _) = original.brands.as_chunks();
    FileType {
        major_brand: FourCc(original.major.to_be_bytes()),
        minor_version: original.minor,
        compatible_brands: brands.iter().map(FourCc::from).collect(),
    }
}
