//! Readings: `bustardcase_read` beside `MinimizedImage::parse`.

use crate::check::Checker;
use crate::features::Features;
use crate::report::Report;
use bustardcase::raw;
use oracle::fields;
use oracle::hex::hex;
use oracle::payloads::{self, Case};
use oracle::reading::{self, RECORD_LEN, Reading};
use oracle::refusal::PLACES;

/// How many structured headers; each gives four payloads.
const STRUCTURED: u64 = 300_000;

/// How many random tails after 24 bits.
const TAILS: u32 = 1 << 20;

/// How often each place of a refusal must occur at least.
const LEAST_PLACE: u64 = 20;

/// How often each long form without need, and each refusal's number, must occur at least.
const LEAST: u64 = 1_000;

/// Outputs to lend by turns beside the exact one: longer, one byte short, none, one byte longer.
const OUTPUTS: [usize; 4] = [RECORD_LEN + 23, RECORD_LEN - 1, 0, RECORD_LEN + 1];

struct Run {
    checker: Checker,
    cases: u64,
    accepted: u64,
    /// How often each place of `PLACES` refused.
    refused: Vec<u64>,
    wide: [u64; 4],
    features: Features,
}

pub fn compare(report: &mut Report) -> Result<(), String> {
    let mut run = Run::new(Features::of_readings());
    payloads::random_tails(TAILS, &mut |c| run.case(c))?;
    run.tell(report, "24 bits over a random tail");
    if !payloads::limits(&mut |c| run.case(c))? {
        return Err("there is no room for a payload of 2^28 bytes".to_string());
    }
    run.tell(report, "and sizes at and around each limit");
    payloads::structured(STRUCTURED, &mut |c| run.case(c))?;
    run.tell(report, "and structured headers");
    report.cases = run.cases;
    run.check_cover(report)
}

/// Every short payload, and every value of the first 24 bits.
pub fn first_bits(report: &mut Report) -> Result<(), String> {
    let mut run = Run::new(Features::none());
    payloads::shortest(&mut |c| run.case(c))?;
    run.tell(report, "every payload of 0, 1 and 2 bytes");
    for value in 0..1 << 24 {
        payloads::first_bits(value, &mut |c| run.case(c))?;
    }
    run.tell(report, "and every value over a zero tail");
    report.line(format_args!("{} calls", run.checker.calls));
    report.cases = run.cases;
    Ok(())
}

impl Run {
    fn new(features: Features) -> Self {
        Run {
            checker: Checker::new(fields::of_record),
            cases: 0,
            accepted: 0,
            refused: vec![0; PLACES.len()],
            wide: [0; 4],
            features,
        }
    }

    fn case(&mut self, case: Case) -> Result<(), String> {
        self.compare_one(case)
            .map_err(|e| format!("payload {}\n{e}", shown(case.payload)))
    }

    fn compare_one(&mut self, case: Case) -> Result<(), String> {
        let payload = case.payload;
        let reading = reading::read(payload)?;
        self.count(case, &reading)?;
        let answer = reading.answer(payload)?;
        // Shifted by one after every four cases, since they come in fours.
        let other = OUTPUTS[((self.cases + self.cases / 4) % 4) as usize];
        self.cases += 1;
        for out_len in [RECORD_LEN, other] {
            self.checker
                .call(&answer, out_len, |out| raw::read(payload, out))?;
        }
        Ok(())
    }

    /// Counts what the Rust says, which must agree with what the payload's maker knows.
    fn count(&mut self, case: Case, reading: &Reading) -> Result<(), String> {
        match reading {
            Reading::Refused(refused) if case.sound.is_some() => Err(format!(
                "a sound payload is refused at {:?}",
                PLACES[refused.place]
            )),
            Reading::Refused(refused) => {
                self.refused[refused.place] += 1;
                Ok(())
            }
            Reading::Accepted(accepted) => {
                let len = accepted.header_len;
                if case.sound.is_some_and(|known| known != len) {
                    return Err(format!("the header is taken to have {len} bytes"));
                }
                self.accepted += 1;
                self.features.count(&accepted.image, None);
                for (count, wide) in self.wide.iter_mut().zip(case.wide) {
                    *count += wide as u64;
                }
                Ok(())
            }
        }
    }

    /// Tells the counts so far.
    fn tell(&self, report: &mut Report, what: &str) {
        let mut line = format!("{what}: {} cases;", self.cases);
        for number in 5..=9 {
            line += &format!(" refusal {number}: {},", self.number(number));
        }
        report.line(format_args!("{line} accepted: {}", self.accepted));
    }

    /// How often a refusal's number occurred.
    fn number(&self, number: u64) -> u64 {
        let places = PLACES.iter().zip(&self.refused);
        places
            .filter(|(p, _)| p.number == number)
            .map(|(_, n)| n)
            .sum()
    }

    /// Refuses a run in which a number, a place, a feature or a long form occurs too seldom.
    fn check_cover(&self, report: &mut Report) -> Result<(), String> {
        if let Some(number) = (5..=9).find(|n| self.number(*n) < LEAST) {
            return Err(format!("refusal {number} occurs too seldom"));
        }
        for (place, seen) in PLACES.iter().zip(&self.refused) {
            if *seen < LEAST_PLACE {
                return Err(format!("{place:?} occurs {seen} times"));
            }
        }
        let rarest = self.refused.iter().min().expect("places");
        report.line(format_args!(
            "{} places of a refusal, each in at least {rarest} payloads",
            PLACES.len()
        ));
        report.line(format_args!(
            "long forms without need (dimensions, metadata, configuration, data): {:?}",
            self.wide
        ));
        report.line(format_args!("{} calls", self.checker.calls));
        if self.wide.iter().any(|n| *n < LEAST) {
            return Err("a long form without need occurs too seldom".to_string());
        }
        self.features.check(report)
    }
}

/// The whole payload; of a very long one, which is zero after its header, the beginning.
pub fn shown(payload: &[u8]) -> String {
    if payload.len() <= 1 << 20 {
        return hex(payload);
    }
    format!(
        "of {} bytes, zero after {}",
        payload.len(),
        hex(&payload[..300])
    )
}
