//! Expanding: `bustardcase_expand` beside `MinimizedImage::parse` and then `equivalent_file`.

use crate::check::Checker;
use crate::features::Features;
use crate::read::shown;
use crate::report::Report;
use bustardcase::raw;
use oracle::answer::Answer;
use oracle::expanding::{self, OriginalType};
use oracle::payloads::{self, Case};
use oracle::random::Random;
use oracle::reading::{self, Reading};

const SEED: u64 = 0x6275_7374_6172_6433;

/// How many structured headers; each gives four payloads.
const STRUCTURED: u64 = 100_000;

/// How many headers with explicit codec types; each is expanded under one file type.
const TYPED: u64 = 200_000;

/// How many payloads must become files at least, and how often each refusal must come.
const LEAST_FILES: u64 = 230_000;
const LEAST: u64 = 500;

struct Run {
    checker: Checker,
    random: Random,
    types: Vec<OriginalType>,
    cases: u64,
    /// How often each number came back, 0 for a file.
    numbers: [u64; 17],
    /// Of what became a file.
    features: Features,
}

pub fn compare(report: &mut Report) -> Result<(), String> {
    let mut run = Run {
        checker: Checker::new(|at| format!("byte {at} of the file")),
        random: Random::new(SEED),
        types: expanding::listed_types(),
        cases: 0,
        numbers: [0; 17],
        features: Features::of_files(),
    };
    // Every listed file type with a gain map and without.
    for plan in [payloads::heavy(3), expanding::plain()] {
        let payload = payloads::payload_of(&plan);
        for i in 0..run.types.len() {
            let original = run.types[i].clone();
            run.compare_one(&payload, &original)?;
        }
    }
    // Each chunk as long as can be.
    let original = run.types[0].clone();
    for plan in expanding::greatest_plans() {
        run.compare_one(&payloads::payload_of(&plan), &original)?;
    }
    payloads::shortest(&mut |c| run.case(c))?;
    payloads::structured(STRUCTURED, &mut |c| run.case(c))?;
    for _ in 0..TYPED {
        let plan = expanding::random_plan(&mut run.random);
        let payload = payloads::payload_of(&plan);
        run.case(Case {
            payload: &payload,
            ..Case::default()
        })?;
    }
    run.tell(report)?;
    run.features.check(report)
}

impl Run {
    /// Refuses a run in which an answer comes too seldom. 10 and 11 cannot come: what is read is well
    /// placed and can be written.
    fn tell(&self, report: &mut Report) -> Result<(), String> {
        let refusals = [5, 6, 7, 8, 9, 12, 13, 14, 15];
        let counts = refusals.map(|n: usize| format!("{n}: {}", self.numbers[n]));
        report.line(format_args!(
            "{} payloads, {} files, {} calls; refusals {}",
            self.cases,
            self.numbers[0],
            self.checker.calls,
            counts.join(", ")
        ));
        report.cases = self.cases;
        if self.numbers[0] < LEAST_FILES {
            return Err(format!("fewer than {LEAST_FILES} payloads become files"));
        }
        match refusals.into_iter().find(|n| self.numbers[*n] < LEAST) {
            None => Ok(()),
            Some(n) => Err(format!("refusal {n} comes fewer than {LEAST} times")),
        }
    }

    fn case(&mut self, case: Case) -> Result<(), String> {
        let original = match self.random.once_in(2) {
            true => self.random_type(),
            false => {
                let i = self.random.below(self.types.len() as u64);
                self.types[i as usize].clone()
            }
        };
        self.compare_one(case.payload, &original)
    }

    fn random_type(&mut self) -> OriginalType {
        expanding::random_type(&mut self.random)
    }

    /// With the output exactly long enough, and by turns one byte short, longer and empty.
    fn compare_one(&mut self, payload: &[u8], original: &OriginalType) -> Result<(), String> {
        self.with_outputs(payload, original)
            .map_err(|e| format!("payload {}\nunder {original:?}\n{e}", shown(payload)))
    }

    fn with_outputs(&mut self, payload: &[u8], original: &OriginalType) -> Result<(), String> {
        let reading = reading::read(payload)?;
        let answer = expanding::answer(&reading, original)?;
        if let (Answer::Done(_), Reading::Accepted(accepted)) = (&answer, &reading) {
            self.features.count(&accepted.image, Some(original));
        }
        let exact = match &answer {
            Answer::Done(bytes) => bytes.len(),
            Answer::Refused { .. } => 64,
        };
        self.numbers[answer.number() as usize] += 1;
        // Shifted by one after every four cases, since they come in fours.
        let turn = (self.cases + self.cases / 4) % 4;
        let other = [exact - 1, exact + 1, exact + 23, 0][turn as usize];
        self.cases += 1;
        for out_len in [exact, other] {
            self.checker.call(&answer, out_len, |out| {
                raw::expand(
                    payload,
                    original.major,
                    original.minor,
                    &original.brands,
                    out,
                )
            })?;
        }
        Ok(())
    }
}
