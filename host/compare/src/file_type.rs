//! File types: `bustardcase_file_type` beside `FileType::parse`.

use crate::check::Checker;
use crate::report::Report;
use bustardcase::raw;
use oracle::fields;
use oracle::file_types::{self, FILE_TYPE_LEN, NoFileType};
use oracle::hex::hex;

/// How often a file type, and each reason for a refusal, must come at least.
const LEAST: u64 = 100;

/// Outputs to lend by turns beside the exact one.
const OUTPUTS: [usize; 4] = [FILE_TYPE_LEN + 5, FILE_TYPE_LEN - 1, 0, FILE_TYPE_LEN + 1];

struct Run {
    checker: Checker,
    cases: usize,
    file_types: u64,
    /// Too short, uneven, too long.
    refused: [u64; 3],
}

pub fn compare(report: &mut Report) -> Result<(), String> {
    let mut run = Run {
        checker: Checker::new(fields::of_file_type),
        cases: 0,
        file_types: 0,
        refused: [0; 3],
    };
    file_types::bodies(&mut |body| {
        run.case(body)
            .map_err(|e| format!("body {}\n{e}", hex(body)))
    })?;
    let [short, uneven, long] = run.refused;
    report.cases = run.cases as u64;
    report.line(format_args!(
        "{} bodies; file types {}; refusal 28: too short {short}, uneven {uneven}, too long {long}; \
         {} calls",
        run.cases, run.file_types, run.checker.calls
    ));
    match run.file_types.min(short).min(uneven).min(long) >= LEAST {
        true => Ok(()),
        false => Err(format!("an answer comes fewer than {LEAST} times")),
    }
}

impl Run {
    fn case(&mut self, body: &[u8]) -> Result<(), String> {
        let read = file_types::file_type(body)?;
        match read {
            Ok(_) => self.file_types += 1,
            Err(NoFileType::Short) => self.refused[0] += 1,
            Err(NoFileType::Uneven) => self.refused[1] += 1,
            Err(NoFileType::Long) => self.refused[2] += 1,
        }
        let answer = file_types::answer(body, &read)?;
        let other = OUTPUTS[(self.cases + self.cases / 4) % 4];
        self.cases += 1;
        for out_len in [FILE_TYPE_LEN, other] {
            self.checker
                .call(&answer, out_len, |out| raw::file_type(body, out))?;
        }
        Ok(())
    }
}
