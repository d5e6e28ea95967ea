//! What a tool reports beside what the records say.

use crate::case::Case;
use crate::facts::{Comparison, Difference};
use crate::findings::{self, Finding};
use crate::tools::{Installed, Tool};

/// What came of a file, or of several.
#[derive(Default)]
struct Outcome {
    agreeing: usize,
    listed: usize,
    /// The findings that occur, once for each file.
    shown: Vec<&'static str>,
    /// In words, all that should not be.
    wrong: Vec<String>,
}

/// Compares all files and prints the counts. With a known version the first fault is the error.
pub fn compare(installed: &Installed, cases: &[&Case]) -> Result<(), String> {
    let mut sum = Outcome::default();
    for case in cases {
        let outcome = outcome(installed, case);
        for words in &outcome.wrong {
            installed.fault(words)?;
        }
        sum.add(outcome);
    }
    println!("{}", sum.counts(installed, cases.len()));
    print_findings(installed.tool, &sum.shown);
    Ok(())
}

/// Prints every difference, findings among them.
pub fn print_all(installed: &Installed, cases: &[&Case]) -> Result<(), String> {
    println!("{} {}", installed.tool.name, installed.version);
    for case in cases {
        match comparison(installed.tool, case) {
            Ok(found) => {
                for difference in &found.differences {
                    println!("{}", describe(installed.tool, case, difference));
                }
            }
            Err(words) => installed.fault(&words)?,
        }
    }
    Ok(())
}

/// The first fact of a wrong file that the tool tells otherwise.
pub fn noticed(tool: &Tool, case: &Case) -> Result<String, String> {
    let found = comparison(tool, case)?;
    let first = unlisted(tool, case, &found).next();
    first
        .map(|difference| difference.fact.clone())
        .ok_or(format!("{}: {} sees nothing", case.shown, tool.name))
}

impl Outcome {
    fn add(&mut self, other: Outcome) {
        self.agreeing += other.agreeing;
        self.listed += other.listed;
        self.shown.extend(other.shown);
        self.wrong.extend(other.wrong);
    }

    fn counts(&self, installed: &Installed, files: usize) -> String {
        let Installed { tool, version } = installed;
        let counted = format!(
            "{} {version}: {files} files, {} facts agree, {} deviate as listed",
            tool.name, self.agreeing, self.listed
        );
        match self.wrong.len() {
            0 => counted,
            others => format!("{counted}, {others} other differences not counted"),
        }
    }
}

fn outcome(installed: &Installed, case: &Case) -> Outcome {
    let tool = installed.tool;
    let found = match comparison(tool, case) {
        Ok(found) => found,
        Err(words) => {
            return Outcome {
                wrong: vec![words],
                ..Outcome::default()
            };
        }
    };
    let unlisted: Vec<&Difference> = unlisted(tool, case, &found).collect();
    let occurring = findings_of(tool, case).filter(|finding| occurs(finding, &found));
    let mut wrong: Vec<String> = unlisted.iter().map(|d| describe(tool, case, d)).collect();
    wrong.extend(missing_findings(installed, case, &found));
    Outcome {
        agreeing: found.agreeing,
        listed: found.differences.len() - unlisted.len(),
        shown: occurring.map(|finding| finding.why).collect(),
        wrong,
    }
}

/// An error: what the tool prints cannot be read.
fn comparison(tool: &Tool, case: &Case) -> Result<Comparison, String> {
    let expected = (tool.expected)(case);
    match (tool.reported)(case) {
        Ok(reported) => Ok(expected.compare(&reported)),
        Err(words) => Err(format!("{}: {}: {words}", case.shown, tool.name)),
    }
}

/// The differences that are no findings.
fn unlisted<'a>(
    tool: &'a Tool,
    case: &'a Case,
    found: &'a Comparison,
) -> impl Iterator<Item = &'a Difference> {
    let is_listed = |d: &Difference| findings_of(tool, case).any(|finding| (finding.is)(d));
    let all = found.differences.iter();
    all.filter(move |difference| !is_listed(difference))
}

fn findings_of(tool: &Tool, case: &Case) -> impl Iterator<Item = &'static Finding> {
    let all = findings::ALL.iter();
    all.filter(move |f| f.tool == tool.name && (f.files)(case))
}

fn occurs(finding: &Finding, found: &Comparison) -> bool {
    found.differences.iter().any(finding.is)
}

/// The findings that a file should show and does not.
fn missing_findings(installed: &Installed, case: &Case, found: &Comparison) -> Vec<String> {
    let Installed { tool, version } = installed;
    let is_due = |f: &&Finding| f.seen_with.iter().any(|seen| version.starts_with(seen));
    let due = findings_of(tool, case).filter(is_due);
    let missing = due.filter(|finding| !occurs(finding, found));
    let words = |finding: &Finding| {
        format!(
            "{}: {}: this finding no longer occurs: {}",
            case.shown, tool.name, finding.why
        )
    };
    missing.map(words).collect()
}

fn describe(tool: &Tool, case: &Case, difference: &Difference) -> String {
    format!(
        "{}: {}: {}\n  expected: {}\n  reported: {}",
        case.shown,
        tool.name,
        difference.fact,
        or_nothing(&difference.expected),
        or_nothing(&difference.reported)
    )
}

fn or_nothing(text: &str) -> &str {
    if text.is_empty() { "nothing" } else { text }
}

/// How many files show each finding.
fn print_findings(tool: &Tool, shown: &[&str]) {
    for finding in findings::ALL.iter().filter(|f| f.tool == tool.name) {
        match shown.iter().filter(|why| **why == finding.why).count() {
            0 => {}
            1 => println!("  finding in 1 file: {}", finding.why),
            files => println!("  finding in {files} files: {}", finding.why),
        }
    }
}

#[cfg(test)]
mod tests {
    use super::*;
    use crate::facts::Facts;
    use crate::samples;

    /// Says of every file that it was opened.
    const RIGHT: Tool = Tool {
        name: "tool",
        program: "tool",
        version: &[],
        known: &["1.15.", "1.19."],
        takes: |_| true,
        expected: |_| Facts::opened(),
        reported: |_| Ok(Facts::opened()),
    };
    const WRONG: Tool = Tool {
        reported: |_| Ok(Facts::refused("in other words")),
        ..RIGHT
    };
    const UNREADABLE: Tool = Tool {
        reported: |_| Err("'some' is no number".to_string()),
        ..RIGHT
    };
    /// It has findings, and shows none.
    const CURED: Tool = Tool {
        name: "exiftool",
        known: &["12.57", "13.25"],
        ..RIGHT
    };

    fn compared(tool: &'static Tool, version: &str) -> Result<(), String> {
        let samples = samples::all();
        let case = Case::new(&samples[0])?;
        let version = version.to_string();
        compare(&Installed { tool, version }, &[&case])
    }

    #[test]
    fn with_a_known_version_every_difference_is_an_error() {
        assert_eq!(compared(&RIGHT, "1.19.8"), Ok(()));
        let words = "target/readers/smallest.heif: tool: opened
  expected: yes
  reported: no: in other words";
        assert_eq!(compared(&WRONG, "1.19.8"), Err(words.to_string()));
        let words = "target/readers/smallest.heif: tool: 'some' is no number";
        assert_eq!(compared(&UNREADABLE, "1.15.1"), Err(words.to_string()));
        let words = compared(&CURED, "13.25").unwrap_err();
        assert!(words.contains("no longer occurs"), "{words}");
    }

    #[test]
    fn with_another_version_no_difference_is_an_error() {
        for tool in [&RIGHT, &WRONG, &UNREADABLE, &CURED] {
            for version in ["1.20.1", "1.1", "of unknown version"] {
                assert_eq!(compared(tool, version), Ok(()));
            }
        }
    }

    #[test]
    fn what_is_not_counted_is_told() {
        let installed = |version: &str| Installed {
            tool: &WRONG,
            version: version.to_string(),
        };
        assert_eq!(installed("1.15.1").remark(), None);
        let words = "tool 1.20.1 is not among the known versions (1.15., 1.19.): \
                     its differences are not counted";
        assert_eq!(installed("1.20.1").remark(), Some(words.to_string()));
        let outcome = Outcome {
            wrong: vec![String::new(); 2],
            ..Outcome::default()
        };
        let counts = outcome.counts(&installed("1.20.1"), 1);
        assert!(counts.ends_with("2 other differences not counted"));
    }

    /// Else a finding would be due with a version whose differences are not counted.
    #[test]
    fn findings_were_seen_with_known_versions() {
        for finding in &findings::ALL {
            let tool = crate::tools::ALL.iter().find(|t| t.name == finding.tool);
            let known = tool.expect("a tool").known;
            assert!(finding.seen_with.iter().all(|seen| known.contains(seen)));
        }
    }
}
