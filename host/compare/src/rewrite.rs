//! Rewriting: `bustardcase_rewrite` beside `MinimizedImage::parse` and then `to_box`.

use crate::check::Checker;
use crate::read::shown;
use crate::report::Report;
use bustardcase::raw;
use oracle::answer::Answer;
use oracle::payloads::{self, Case};
use oracle::reading::{self, Reading};

/// How many structured headers; each gives four payloads.
const STRUCTURED: u64 = 300_000;

/// How many random tails after 24 bits.
const TAILS: u32 = 1 << 20;

/// Every how many values of the first 24 bits one is taken.
const EVERY: usize = 4;

struct Run {
    checker: Checker,
    cases: u64,
    /// How many payloads came out shorter than they went in.
    shorter: u64,
    refused: u64,
}

pub fn compare(report: &mut Report) -> Result<(), String> {
    let mut run = Run {
        checker: Checker::new(field),
        cases: 0,
        shorter: 0,
        refused: 0,
    };
    payloads::shortest(&mut |c| run.case(c))?;
    for value in (0..1 << 24).step_by(EVERY) {
        payloads::first_bits(value, &mut |c| run.case(c))?;
    }
    payloads::random_tails(TAILS, &mut |c| run.case(c))?;
    if !payloads::limits(&mut |c| run.case(c))? {
        return Err("there is no room for a payload of 2^28 bytes".to_string());
    }
    payloads::structured(STRUCTURED, &mut |c| run.case(c))?;
    report.line(format_args!(
        "{} payloads, {} refused, {} shorter than they were; {} calls",
        run.cases, run.refused, run.shorter, run.checker.calls
    ));
    report.cases = run.cases;
    if run.shorter < 100_000 {
        return Err("too few payloads come out shorter".to_string());
    }
    Ok(())
}

fn field(at: usize) -> String {
    match at {
        0..8 => "box header".to_string(),
        _ => format!("payload byte {}", at - 8),
    }
}

impl Run {
    fn case(&mut self, case: Case) -> Result<(), String> {
        self.compare_one(case.payload)
            .map_err(|e| format!("payload {}\n{e}", shown(case.payload)))
    }

    /// With the output exactly long enough, and by turns one byte short, longer and empty.
    fn compare_one(&mut self, payload: &[u8]) -> Result<(), String> {
        let answer = answer(payload)?;
        let exact = match &answer {
            Answer::Done(bytes) => bytes.len(),
            Answer::Refused { .. } => 64,
        };
        self.refused += (answer.number() != 0) as u64;
        self.shorter += (answer.number() == 0 && exact < 8 + payload.len()) as u64;
        // Shifted by one after every four cases, since they come in fours.
        let turn = (self.cases + self.cases / 4) % 4;
        let other = [exact - 1, exact + 1, exact + 23, 0][turn as usize];
        self.cases += 1;
        for out_len in [exact, other] {
            self.checker
                .call(&answer, out_len, |out| raw::rewrite(payload, out))?;
        }
        Ok(())
    }
}

/// What the Rust gives: the reader's refusal, or the box.
fn answer(payload: &[u8]) -> Result<Answer, String> {
    match reading::read(payload)? {
        Reading::Refused(refused) => Ok(refused.answer()),
        Reading::Accepted(accepted) => match accepted.image.to_box() {
            Ok(bytes) => Ok(Answer::Done(bytes)),
            Err(e) => Err(format!("the Rust reads it, and does not write it: {e}")),
        },
    }
}
