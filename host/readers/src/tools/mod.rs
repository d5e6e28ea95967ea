//! The tools that open the files.

mod avifdec;
mod exiftool;
mod exiv2;
mod ffprobe;
mod heif_convert;
mod heif_dump;
mod heif_info;
mod mediainfo;

use crate::case::Case;
use crate::facts::Facts;
use std::io::ErrorKind;
use std::process::{Command, Output};

pub struct Tool {
    /// What it is called in the report; one program may be called in two ways.
    pub name: &'static str,
    pub program: &'static str,
    /// Arguments that make the program print its version.
    pub version: &'static [&'static str],
    /// The versions whose every report is accounted for, by their first characters.
    pub known: &'static [&'static str],
    /// Whether the tool is for such files.
    pub takes: fn(&Case) -> bool,
    pub expected: fn(&Case) -> Facts,
    pub reported: fn(&Case) -> Result<Facts, String>,
}

pub const ALL: [&Tool; 8] = [
    &heif_info::TOOL,
    &heif_dump::TOOL,
    &heif_convert::TOOL,
    &exiftool::TOOL,
    &exiv2::TOOL,
    &avifdec::TOOL,
    &ffprobe::TOOL,
    &mediainfo::TOOL,
];

/// The known versions of its programs.
const LIBHEIF: &[&str] = &["1.15.", "1.19."];

fn every_file(_: &Case) -> bool {
    true
}

/// What a program printed, and whether its status was 0.
struct Answer {
    text: String,
    errors: String,
    good: bool,
}

fn run(program: &str, arguments: &[&str]) -> Result<Answer, String> {
    let output = output(program, arguments)?.ok_or(format!("{program} is gone"))?;
    Ok(Answer {
        text: String::from_utf8_lossy(&output.stdout).into_owned(),
        errors: String::from_utf8_lossy(&output.stderr).into_owned(),
        good: output.status.success(),
    })
}

/// None: the program is not installed.
fn output(program: &str, arguments: &[&str]) -> Result<Option<Output>, String> {
    // The same words and numbers whatever the user's language.
    let result = Command::new(program)
        .args(arguments)
        .env("LC_ALL", "C")
        .output();
    match result {
        Ok(output) => Ok(Some(output)),
        Err(error) if error.kind() == ErrorKind::NotFound => Ok(None),
        Err(error) => Err(format!("{program}: {error}")),
    }
}

/// A tool that is at hand. Its version is the first word with a digit and a dot.
pub struct Installed {
    pub tool: &'static Tool,
    pub version: String,
}

impl Tool {
    /// None: it is not installed.
    pub fn installed(&'static self) -> Result<Option<Installed>, String> {
        let Some(output) = output(self.program, self.version)? else {
            return Ok(None);
        };
        let bytes = [output.stdout, output.stderr].concat();
        let text = String::from_utf8_lossy(&bytes).into_owned();
        let is_version =
            |word: &&str| word.contains('.') && word.contains(|c: char| c.is_ascii_digit());
        let word = text
            .split_whitespace()
            .find(is_version)
            .unwrap_or("of unknown version");
        Ok(Some(Installed {
            tool: self,
            version: word.to_string(),
        }))
    }
}

impl Installed {
    pub fn is_known(&self) -> bool {
        let mut known = self.tool.known.iter();
        known.any(|known| self.version.starts_with(known))
    }

    /// What there is to say of a version that is not known.
    pub fn remark(&self) -> Option<String> {
        let Installed { tool, version } = self;
        let known = tool.known.join(", ");
        (!self.is_known()).then(|| {
            format!(
                "{} {version} is not among the known versions ({known}): its differences are not counted",
                tool.program
            )
        })
    }

    /// Something is not as expected. Another version may print the same in other words, which says
    /// nothing of the file: then it is shown, and no error.
    pub fn fault(&self, words: &str) -> Result<(), String> {
        if self.is_known() {
            return Err(words.to_string());
        }
        println!("{words}");
        Ok(())
    }
}

/// What stands before and after the first mark.
fn cut<'a>(line: &'a str, mark: &str) -> Option<(&'a str, &'a str)> {
    let (before, after) = line.split_once(mark)?;
    Some((before.trim(), after.trim()))
}

fn number(text: &str) -> Result<usize, String> {
    let text = text.trim();
    let parsed = match text.strip_prefix("0x") {
        Some(digits) => usize::from_str_radix(digits, 16),
        None => text.parse(),
    };
    parsed.map_err(|_| format!("'{text}' is no number"))
}

#[cfg(test)]
mod tests {
    use super::*;

    /// Those of Debian 12 and 13, by docs/DIFFERENCES.md.
    const VERSIONS: [(&str, [&str; 2]); 7] = [
        ("heif-info", ["1.15.1", "1.19.8"]),
        ("heif-convert", ["1.15.1", "1.19.8"]),
        ("exiftool", ["12.57", "13.25"]),
        ("exiv2", ["0.27.6", "0.28.5"]),
        ("avifdec", ["0.11.1", "1.2.1"]),
        ("ffprobe", ["5.1.9-0+deb12u1", "7.1.5"]),
        ("mediainfo", ["v23.04", "v25.04"]),
    ];

    fn is_known(tool: &'static Tool, version: &str) -> bool {
        let version = version.to_string();
        Installed { tool, version }.is_known()
    }

    #[test]
    fn both_versions_of_each_tool_are_known_and_no_later_one() {
        for tool in ALL {
            let (_, versions) = VERSIONS.iter().find(|(p, _)| *p == tool.program).unwrap();
            assert!(versions.iter().all(|version| is_known(tool, version)));
            for other in ["1.20.2", "13.30", "0.28.6", "1.3.0", "8.0", "v25.07"] {
                assert!(!is_known(tool, other), "{} {other}", tool.name);
            }
        }
    }
}
