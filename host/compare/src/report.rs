//! The lines that a job prints.

use std::fmt::{Display, Write};

/// Jobs run side by side, so each keeps its lines until it ends.
pub struct Report {
    job: &'static str,
    lines: String,
    /// How many inputs were compared.
    pub cases: u64,
}

impl Report {
    pub fn new(job: &'static str) -> Self {
        Report {
            job,
            lines: String::new(),
            cases: 0,
        }
    }

    /// Adds a line after the job's name.
    pub fn line(&mut self, words: impl Display) {
        writeln!(self.lines, "{}: {words}", self.job).expect("a String takes all");
    }

    /// The lines, each with its end.
    pub fn text(&self) -> &str {
        &self.lines
    }
}
