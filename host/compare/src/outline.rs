//! Outlines: `bustardcase_outline` beside the record of `MinimizedImage::parse` and the bits of a plan
//! that makes the same header.

use crate::check::Checker;
use crate::read::shown;
use crate::report::Report;
use bustardcase::raw;
use oracle::fields;
use oracle::outlining::{self, OUTLINE_LEN};
use oracle::payloads::{self, Case};

/// How many structured headers; each gives four payloads.
const STRUCTURED: u64 = 100_000;

/// How many random tails after 24 bits.
const TAILS: u32 = 1 << 18;

/// How many payloads must have an outline at least.
const LEAST: u64 = 100_000;

/// Outputs to lend by turns beside the exact one.
const OUTPUTS: [usize; 4] = [OUTLINE_LEN + 23, OUTLINE_LEN - 1, 0, OUTLINE_LEN + 1];

struct Run {
    checker: Checker,
    cases: u64,
    refused: u64,
}

pub fn compare(report: &mut Report) -> Result<(), String> {
    let mut run = Run {
        checker: Checker::new(fields::of_outline),
        cases: 0,
        refused: 0,
    };
    payloads::shortest(&mut |c| run.case(c))?;
    payloads::random_tails(TAILS, &mut |c| run.case(c))?;
    if !payloads::limits(&mut |c| run.case(c))? {
        return Err("there is no room for a payload of 2^28 bytes".to_string());
    }
    payloads::structured(STRUCTURED, &mut |c| run.case(c))?;
    report.line(format_args!(
        "{} payloads, {} refused; {} calls",
        run.cases, run.refused, run.checker.calls
    ));
    report.cases = run.cases;
    match run.cases - run.refused >= LEAST {
        true => Ok(()),
        false => Err("too few payloads have an outline".to_string()),
    }
}

impl Run {
    fn case(&mut self, case: Case) -> Result<(), String> {
        self.compare_one(case.payload)
            .map_err(|e| format!("payload {}\n{e}", shown(case.payload)))
    }

    fn compare_one(&mut self, payload: &[u8]) -> Result<(), String> {
        let answer = outlining::answer(payload)?;
        self.refused += (answer.number() != 0) as u64;
        let other = OUTPUTS[((self.cases + self.cases / 4) % 4) as usize];
        self.cases += 1;
        for out_len in [OUTLINE_LEN, other] {
            self.checker
                .call(&answer, out_len, |out| raw::outline(payload, out))?;
        }
        Ok(())
    }
}
