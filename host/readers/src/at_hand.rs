//! Which tools are at hand, and what is left out without the others.

use crate::tools::{self, Installed};

pub struct AtHand {
    pub installed: Vec<Installed>,
    /// The programs that are not installed.
    missing: Vec<&'static str>,
}

impl AtHand {
    pub fn new() -> Result<Self, String> {
        let mut at_hand = AtHand {
            installed: Vec::new(),
            missing: Vec::new(),
        };
        for tool in tools::ALL {
            match tool.installed()? {
                Some(installed) => at_hand.installed.push(installed),
                None => at_hand.missing.push(tool.program),
            }
        }
        // A program that is called in two ways is missing twice.
        at_hand.missing.dedup();
        Ok(at_hand)
    }

    /// Says which tools are not at hand, and which are of a version that is not known.
    pub fn print_remarks(&self) {
        for program in &self.missing {
            println!("skipped: {program} is not installed");
        }
        let mut remarks: Vec<String> = self.installed.iter().filter_map(|i| i.remark()).collect();
        remarks.dedup();
        for remark in remarks {
            println!("{remark}");
        }
    }

    /// One line for the verdict. None: every tool is at hand, in a known version.
    pub fn left_out(&self) -> Option<String> {
        let missing = self.missing.join(", ");
        if self.installed.is_empty() {
            return Some(format!(
                "readers: nothing was compared: none of {missing} is installed"
            ));
        }
        let others = self.installed.iter().filter(|i| !i.is_known());
        let mut unknown: Vec<String> = others
            .map(|i| format!("{} {}", i.tool.program, i.version))
            .collect();
        unknown.dedup();
        let parts = [
            ("not installed", missing),
            (
                "differences not counted, the version is not known",
                unknown.join(", "),
            ),
        ];
        let told: Vec<String> = parts
            .into_iter()
            .filter(|(_, names)| !names.is_empty())
            .map(|(what, names)| format!("{what}: {names}"))
            .collect();
        (!told.is_empty()).then(|| format!("readers: {}", told.join("; ")))
    }
}

#[cfg(test)]
mod tests {
    use super::*;

    /// Every tool with the first version that it is known in, but for some programs.
    fn at_hand(missing: &[&'static str], unknown: &[&str]) -> AtHand {
        let version = |tool: &tools::Tool| match unknown.contains(&tool.program) {
            true => "99.1".to_string(),
            false => format!("{}1", tool.known[0]),
        };
        let installed = tools::ALL.into_iter();
        let installed = installed.filter(|tool| !missing.contains(&tool.program));
        AtHand {
            installed: installed
                .map(|tool| Installed {
                    tool,
                    version: version(tool),
                })
                .collect(),
            missing: missing.to_vec(),
        }
    }

    #[test]
    fn nothing_is_said_where_all_was_compared() {
        assert_eq!(at_hand(&[], &[]).left_out(), None);
    }

    #[test]
    fn what_is_left_out_takes_one_line() {
        let all = [
            "heif-info",
            "heif-convert",
            "exiftool",
            "exiv2",
            "avifdec",
            "ffprobe",
            "mediainfo",
        ];
        let line = "readers: nothing was compared: none of heif-info, heif-convert, exiftool, exiv2, \
                    avifdec, ffprobe, mediainfo is installed";
        assert_eq!(at_hand(&all, &[]).left_out(), Some(line.to_string()));
        let line = "readers: not installed: exiv2, ffprobe";
        let some = at_hand(&["exiv2", "ffprobe"], &[]);
        assert_eq!(some.left_out(), Some(line.to_string()));
        let line = "readers: differences not counted, the version is not known: heif-info 99.1";
        let newer = at_hand(&[], &["heif-info"]);
        assert_eq!(newer.left_out(), Some(line.to_string()));
        let line = "readers: not installed: exiv2; differences not counted, the version is not known: \
                    exiftool 99.1";
        let both = at_hand(&["exiv2"], &["exiftool"]);
        assert_eq!(both.left_out(), Some(line.to_string()));
    }
}
