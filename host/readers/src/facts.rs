//! What is said of a file, by name.

use std::collections::BTreeMap;

#[derive(Default)]
pub struct Facts {
    told: BTreeMap<String, String>,
    /// What only some versions of a tool tell: it may be missing.
    optional: BTreeMap<String, String>,
}

/// A fact that is not as expected. One that is not told is empty.
#[derive(Clone)]
pub struct Difference {
    pub fact: String,
    pub expected: String,
    pub reported: String,
}

#[derive(Default)]
pub struct Comparison {
    pub agreeing: usize,
    pub differences: Vec<Difference>,
}

/// Whether the tool takes the file at all.
pub const OPENED: &str = "opened";

impl Facts {
    /// A file that is taken.
    pub fn opened() -> Self {
        let mut facts = Facts::default();
        facts.say(OPENED, "yes");
        facts
    }

    /// A file that the tool turns away, in its words.
    pub fn refused(words: &str) -> Self {
        let mut facts = Facts::default();
        facts.say(OPENED, format!("no: {}", words.trim()));
        facts
    }

    /// What is told twice counts as told together, and so is no longer what was expected once.
    pub fn say(&mut self, fact: impl Into<String>, value: impl Into<String>) {
        let value = value.into();
        self.told
            .entry(fact.into())
            .and_modify(|told| *told = format!("{told}; {value}"))
            .or_insert(value);
    }

    pub fn may_say(&mut self, fact: impl Into<String>, value: impl Into<String>) {
        self.optional.insert(fact.into(), value.into());
    }

    fn value(&self, fact: &String) -> &str {
        let found = self.told.get(fact).or_else(|| self.optional.get(fact));
        found.map_or("", String::as_str)
    }

    /// These are what is expected. Of a file that was turned away, nothing else is asked.
    pub fn compare(&self, reported: &Facts) -> Comparison {
        let mut names: Vec<&String> = self.told.keys().chain(reported.told.keys()).collect();
        names.sort();
        names.dedup();
        if reported.told.get(OPENED).is_some_and(|told| told != "yes") {
            names.retain(|name| *name == OPENED);
        }
        let mut comparison = Comparison::default();
        for name in names {
            let [expected, reported] = [self, reported].map(|facts| facts.value(name).to_string());
            if expected == reported {
                comparison.agreeing += 1;
            } else {
                let fact = name.clone();
                comparison.differences.push(Difference {
                    fact,
                    expected,
                    reported,
                });
            }
        }
        comparison
    }
}

/// Bytes as a word: themselves where they are few, else their number and a sum over them.
pub fn fingerprint(bytes: &[u8]) -> String {
    if bytes.len() <= 8 {
        let digits: Vec<String> = bytes.iter().map(|b| format!("{b:02X}")).collect();
        return digits.join(" ");
    }
    let step = |sum: u32, byte: &u8| (sum ^ *byte as u32).wrapping_mul(0x0100_0193);
    let sum = bytes.iter().fold(0x811C_9DC5, step);
    format!("{} bytes with sum {sum:08X}", bytes.len())
}

/// The bytes of a file that a tool points at.
pub fn fingerprint_at(file: &[u8], start: usize, length: usize) -> String {
    match start
        .checked_add(length)
        .and_then(|end| file.get(start..end))
    {
        Some(part) => fingerprint(part),
        None => format!("{length} bytes at {start}, outside the file"),
    }
}

/// Numbers with blanks between them.
pub fn list(numbers: impl IntoIterator<Item = impl ToString>) -> String {
    let words: Vec<String> = numbers.into_iter().map(|n| n.to_string()).collect();
    words.join(" ")
}
