//! Box headers: `bustardcase_box_header` beside `parse_box_header`.

use crate::check::Checker;
use crate::report::Report;
use bustardcase::raw;
use oracle::answer::Answer;
use oracle::box_cases;
use oracle::boxes::{HEADER_LEN, box_header};
use oracle::fields;
use oracle::hex::hex;

/// How many random buffers and starts.
const RANDOM: u64 = 1_500_000;

/// How often each outcome must occur at least, in each of the grid and the random cases.
const LEAST: u64 = 1_000;

/// Outputs to lend: none, one byte short, exact, and longer.
const OUTPUTS: [usize; 5] = [
    0,
    HEADER_LEN - 1,
    HEADER_LEN,
    HEADER_LEN + 1,
    HEADER_LEN + 19,
];

struct Run {
    checker: Checker,
    outcomes: Outcomes,
}

/// How many cases gave each refusal; for a success, whether there was an extended type.
#[derive(Clone, Default)]
struct Outcomes {
    refused: [u64; 5],
    plain: u64,
    extended: u64,
}

pub fn compare(report: &mut Report) -> Result<(), String> {
    let mut run = Run {
        checker: Checker::new(fields::of_box_header),
        outcomes: Outcomes::default(),
    };
    box_cases::grid(&mut |b, s| run.case(b, s))?;
    run.tell(report, "sizes 0 to 40, every place", LEAST)?;
    box_cases::large_sizes(&mut |b, s| run.case(b, s))?;
    run.tell(report, "large sizes", 0)?;
    box_cases::near_types(&mut |b, s| run.case(b, s))?;
    run.tell(report, "types near 'uuid'", 0)?;
    box_cases::far_starts(&mut |b, s| run.case(b, s))?;
    run.tell(report, "starts near powers of two", 0)?;
    if !box_cases::long_buffers(&mut |b, s| run.case(b, s))? {
        return Err("there is no room for a buffer of more than 2^32 bytes".to_string());
    }
    run.tell(report, "long buffers", 0)?;
    box_cases::random(RANDOM, &mut |b, s| run.case(b, s))?;
    run.tell(report, "random", LEAST)?;
    report.line(format_args!("{} calls", run.checker.calls));
    Ok(())
}

impl Run {
    fn case(&mut self, buf: &[u8], start: usize) -> Result<(), String> {
        let answer = box_header(buf, start).map_err(|e| with_input(buf, start, e))?;
        self.outcomes.count(&answer);
        for out_len in OUTPUTS {
            self.checker
                .call(&answer, out_len, |out| raw::box_header(buf, start, out))
                .map_err(|e| with_input(buf, start, e))?;
        }
        Ok(())
    }

    /// Tells and clears the counts; each must be at least `least`.
    fn tell(&mut self, report: &mut Report, what: &str, least: u64) -> Result<(), String> {
        let seen = std::mem::take(&mut self.outcomes);
        report.cases += seen.total();
        let mut line = format!("{what}: {} cases;", seen.total());
        for number in 1..=4 {
            line += &format!(" refusal {number}: {},", seen.refused[number]);
        }
        report.line(format_args!(
            "{line} a header: {}, with extended type: {}",
            seen.plain, seen.extended
        ));
        if seen.least() < least {
            return Err(format!("an outcome occurs fewer than {least} times"));
        }
        Ok(())
    }
}

impl Outcomes {
    fn count(&mut self, answer: &Answer) {
        match answer {
            Answer::Refused { number, .. } => self.refused[*number as usize] += 1,
            Answer::Done(bytes) if bytes[4] == 1 => self.extended += 1,
            Answer::Done(_) => self.plain += 1,
        }
    }

    fn total(&self) -> u64 {
        self.refused.iter().sum::<u64>() + self.plain + self.extended
    }

    fn least(&self) -> u64 {
        let refused = self.refused[1..].iter().min();
        self.plain
            .min(self.extended)
            .min(*refused.expect("four numbers"))
    }
}

fn with_input(buf: &[u8], start: usize, message: String) -> String {
    // A buffer of more than this is zero but for the header.
    let shown = if buf.len() <= 70_000 {
        hex(buf)
    } else {
        let near = buf.get(start..buf.len().min(start.saturating_add(32)));
        format!(
            "{} bytes, zero but from the start {}",
            buf.len(),
            hex(near.unwrap_or_default())
        )
    };
    format!("buffer {shown}\nstart {start}\n{message}")
}
