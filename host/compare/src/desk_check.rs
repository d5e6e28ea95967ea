//! The desk check: `bustardcase_check` beside document 01's sentence, of the picture as shown as document 02 has
//! it, over the record of `MinimizedImage::parse`.

use crate::check::Checker;
use crate::read::shown;
use crate::report::Report;
use bustardcase::raw;
use oracle::checking::{self, CHECK_LEN, FLAGS};
use oracle::fields;
use oracle::payloads::{self, Case};
use oracle::reading::{self, Reading};
use upstream::mini::MinimizedImage;

/// How many structured headers; each gives four payloads.
const STRUCTURED: u64 = 50_000;

/// How many random tails after 24 bits.
const TAILS: u32 = 1 << 17;

/// How often each answer must come under each orientation, and how often one that the size as stored would
/// not give must come under each of those that exchange it.
const LEAST: u64 = 20;

/// Outputs to lend by turns beside the exact one.
const OUTPUTS: [usize; 4] = [CHECK_LEN + 3, CHECK_LEN - 1, 0, CHECK_LEN + 1];

struct Run {
    checker: Checker,
    cases: u64,
    refused: u64,
    /// By orientation from 1.
    seen: [Seen; 8],
}

#[derive(Clone, Copy, Default)]
struct Seen {
    /// How often each of the six says no, and how often yes.
    said: [[u64; 2]; FLAGS],
    /// How often the size as stored would give another answer.
    not_as_stored: u64,
}

pub fn compare(report: &mut Report) -> Result<(), String> {
    let mut run = Run {
        checker: Checker::new(fields::of_check),
        cases: 0,
        refused: 0,
        seen: [Seen::default(); 8],
    };
    for payload in checking::payloads() {
        run.case(Case {
            payload: &payload,
            ..Case::default()
        })?;
    }
    payloads::shortest(&mut |c| run.case(c))?;
    payloads::random_tails(TAILS, &mut |c| run.case(c))?;
    payloads::structured(STRUCTURED, &mut |c| run.case(c))?;
    run.tell(report)
}

impl Run {
    fn case(&mut self, case: Case) -> Result<(), String> {
        self.compare_one(case.payload)
            .map_err(|e| format!("payload {}\n{e}", shown(case.payload)))
    }

    fn compare_one(&mut self, payload: &[u8]) -> Result<(), String> {
        let reading = reading::read(payload)?;
        match &reading {
            Reading::Refused(_) => self.refused += 1,
            Reading::Accepted(accepted) => {
                let row = usize::from(accepted.image.orientation) - 1;
                self.seen[row].count(&accepted.image);
            }
        }
        let answer = checking::answer(&reading);
        let other = OUTPUTS[((self.cases + self.cases / 4) % 4) as usize];
        self.cases += 1;
        for out_len in [CHECK_LEN, other] {
            self.checker
                .call(&answer, out_len, |out| raw::check(payload, out))?;
        }
        Ok(())
    }

    /// Refuses a run in which an answer comes too seldom.
    fn tell(&self, report: &mut Report) -> Result<(), String> {
        let not_as_stored = self.seen.map(|seen| seen.not_as_stored);
        report.line(format_args!(
            "{} payloads, {} refused; by orientation, {not_as_stored:?} that the stored size would answer \
             otherwise; {} calls",
            self.cases, self.refused, self.checker.calls
        ));
        report.cases = self.cases;
        let said = self.seen.iter().flat_map(|seen| seen.said.as_flattened());
        let exchanged = self.seen[4..].iter().map(|seen| &seen.not_as_stored);
        match said.chain(exchanged).all(|n| *n >= LEAST) {
            true => Ok(()),
            false => Err("an answer comes too seldom".to_string()),
        }
    }
}

impl Seen {
    fn count(&mut self, image: &MinimizedImage) {
        let (width, height) = checking::shown(image);
        let flags = checking::flags(image, width, height);
        for (said, flag) in self.said.iter_mut().zip(flags) {
            said[flag as usize] += 1;
        }
        let stored = checking::flags(image, image.width, image.height);
        self.not_as_stored += (flags != stored) as u64;
    }
}
