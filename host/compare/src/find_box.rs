//! Walking boxes: `bustardcase_find_box` beside `find_box`.

use crate::check::Checker;
use crate::report::Report;
use bustardcase::raw;
use oracle::answer::Answer;
use oracle::boxes::HEADER_LEN;
use oracle::hex::hex;
use oracle::{box_cases, fields, walks};

/// How many random buffers; each is walked for six types.
const RANDOM: u64 = 300_000;

/// How often each refusal, a box found first and one found later must occur at least.
const LEAST: u64 = 1_000;

/// Outputs to lend by turns beside the exact one.
const OUTPUTS: [usize; 4] = [HEADER_LEN + 19, HEADER_LEN - 1, 0, HEADER_LEN + 1];

struct Run {
    checker: Checker,
    cases: u64,
    refused: [u64; 5],
    /// Found at the start, and found later.
    found: [u64; 2],
}

pub fn compare(report: &mut Report) -> Result<(), String> {
    let mut run = Run {
        checker: Checker::new(fields::of_box_header),
        cases: 0,
        refused: [0; 5],
        found: [0; 2],
    };
    // The buffers of the comparison of headers, from their starts on.
    box_cases::random(RANDOM, &mut |buf, start| {
        let rest = buf.get(start..).unwrap_or_default();
        let own = rest.get(4..8).unwrap_or(b"uuid");
        run.case(rest, u32::from_be_bytes([own[0], own[1], own[2], own[3]]))
    })?;
    walks::random(RANDOM, &mut |buf, box_type| run.case(buf, box_type))?;
    report.line(format_args!(
        "{} cases; refusals 1 to 4: {:?}; found first: {}, later: {}; {} calls",
        run.cases,
        &run.refused[1..],
        run.found[0],
        run.found[1],
        run.checker.calls
    ));
    report.cases = run.cases;
    let least = run.refused[1..].iter().chain(&run.found).min();
    match least.is_some_and(|least| *least >= LEAST) {
        true => Ok(()),
        false => Err(format!("an outcome occurs fewer than {LEAST} times")),
    }
}

impl Run {
    fn case(&mut self, buf: &[u8], box_type: u32) -> Result<(), String> {
        self.compare_one(buf, box_type)
            .map_err(|e| format!("buffer {}\ntype {box_type:#010x}\n{e}", hex(buf)))
    }

    fn compare_one(&mut self, buf: &[u8], box_type: u32) -> Result<(), String> {
        let answer = walks::answer(buf, box_type)?;
        match &answer {
            Answer::Refused { number, .. } => self.refused[*number as usize] += 1,
            Answer::Done(layout) => self.found[(layout[21..29] != [0; 8]) as usize] += 1,
        }
        let other = OUTPUTS[((self.cases + self.cases / 4) % 4) as usize];
        self.cases += 1;
        for out_len in [HEADER_LEN, other] {
            self.checker
                .call(&answer, out_len, |out| raw::find_box(buf, box_type, out))?;
        }
        Ok(())
    }
}
