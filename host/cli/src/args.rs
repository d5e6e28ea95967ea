//! The arguments.

use crate::failure::Failure;
use crate::help;
use bustardcase::{FileType, FourCc};
use std::ffi::{OsStr, OsString};

pub enum Request {
    Help(&'static str),
    Version,
    Show {
        file: OsString,
        json: bool,
    },
    Explain {
        file: OsString,
    },
    Check {
        file: OsString,
        json: bool,
    },
    Shrink {
        input: OsString,
        output: OsString,
    },
    Expand {
        input: OsString,
        output: OsString,
        changes: Changes,
    },
    Restore {
        input: OsString,
        output: OsString,
        changes: Changes,
        json: bool,
    },
    Same {
        a: OsString,
        b: OsString,
        changes: Changes,
        json: bool,
    },
}

/// What the arguments say of the original file type.
#[derive(Default)]
pub struct Changes {
    pub major: Option<FourCc>,
    pub minor: Option<u32>,
    pub brands: Option<Vec<FourCc>>,
}

impl Changes {
    /// Whether all is said.
    pub fn all(&self) -> bool {
        self.major.is_some() && self.minor.is_some() && self.brands.is_some()
    }

    /// The original file type of a file whose own is this one, if it has one.
    pub fn of(&self, own: Option<&FileType>) -> FileType {
        let own = own.cloned().unwrap_or_default();
        FileType {
            major_brand: self.major.unwrap_or(own.major_brand),
            minor_version: self.minor.unwrap_or(own.minor_version),
            compatible_brands: self.brands.clone().unwrap_or(own.compatible_brands),
        }
    }
}

struct Command {
    name: &'static str,
    help: &'static str,
    /// The names of the files that it takes.
    files: &'static [&'static str],
    options: &'static [&'static str],
}

const COMMANDS: [Command; 7] = [
    Command {
        name: "show",
        help: help::SHOW,
        files: &["FILE"],
        options: &[JSON],
    },
    Command {
        name: "explain",
        help: help::EXPLAIN,
        files: &["FILE"],
        options: &[],
    },
    Command {
        name: "check",
        help: help::CHECK,
        files: &["FILE"],
        options: &[JSON],
    },
    Command {
        name: "shrink",
        help: help::SHRINK,
        files: &["IN", "OUT"],
        options: &[],
    },
    Command {
        name: "expand",
        help: help::EXPAND,
        files: &["IN", "OUT"],
        options: &[MAJOR, MINOR, BRANDS],
    },
    Command {
        name: "restore",
        help: help::RESTORE,
        files: &["IN", "OUT"],
        options: &[JSON, MAJOR, MINOR, BRANDS],
    },
    Command {
        name: "same",
        help: help::SAME,
        files: &["A", "B"],
        options: &[JSON, MAJOR, MINOR, BRANDS],
    },
];

const JSON: &str = "--json";
const MAJOR: &str = "--major";
const MINOR: &str = "--minor";
const BRANDS: &str = "--brands";

pub fn parse(words: impl Iterator<Item = OsString>) -> Result<Request, Failure> {
    let words: Vec<OsString> = words.collect();
    let Some((first, rest)) = words.split_first() else {
        return Err(usage("no command is given", ""));
    };
    match first.to_str() {
        Some("--help" | "-h") => Ok(Request::Help(help::ALL)),
        Some("help") => help_on(rest),
        Some("--version" | "-V") => Ok(Request::Version),
        _ => command(first)?.request(rest),
    }
}

fn command(name: &OsStr) -> Result<&'static Command, Failure> {
    let known = COMMANDS.iter().find(|c| name == c.name);
    known.ok_or_else(|| usage(&format!("there is no command '{}'", shown(name)), ""))
}

fn help_on(rest: &[OsString]) -> Result<Request, Failure> {
    match rest {
        [] => Ok(Request::Help(help::ALL)),
        [name, ..] => Ok(Request::Help(command(name)?.help)),
    }
}

/// A message and the command that helps on.
pub fn usage(message: &str, command: &str) -> Failure {
    let space = if command.is_empty() { "" } else { " " };
    Failure::Usage(format!(
        "{message}; see 'bustardcase{space}{command} --help'"
    ))
}

/// A word or a file's name on one line.
pub fn shown(name: &OsStr) -> String {
    let mut text = String::new();
    for c in name.to_string_lossy().chars() {
        match c.is_control() {
            true => text.extend(c.escape_default()),
            false => text.push(c),
        }
    }
    text
}

/// A code as it is shown: `\\` stands for a backslash, and `\xNN` for any byte.
fn escaped(text: &str) -> Option<FourCc> {
    let digit = |c: u8| char::from(c).to_digit(16);
    let mut code = FourCc([0; 4]);
    let mut rest = text.as_bytes();
    for byte in &mut code.0 {
        (*byte, rest) = match rest {
            [b'\\', b'\\', rest @ ..] => (b'\\', rest),
            [b'\\', b'x', high, low, rest @ ..] => {
                let number = 16 * digit(*high)? + digit(*low)?;
                (number.try_into().ok()?, rest)
            }
            [c @ b' '..=b'~', rest @ ..] if *c != b'\\' => (*c, rest),
            _ => return None,
        };
    }
    rest.is_empty().then_some(code)
}

/// The files and options of a command.
#[derive(Default)]
struct Given {
    files: Vec<OsString>,
    /// Options with what was given for them.
    options: Vec<(&'static str, String)>,
    help: bool,
}

impl Command {
    fn request(&self, words: &[OsString]) -> Result<Request, Failure> {
        let given = self.given(words)?;
        if given.help {
            return Ok(Request::Help(self.help));
        }
        if let Some(name) = self.files.get(given.files.len()) {
            return Err(self.usage(&format!("{name} is missing")));
        }
        if let Some(file) = given.files.get(self.files.len()) {
            return Err(self.usage(&format!("'{}' is one file too many", shown(file))));
        }
        if self.name == "same" && given.files.iter().all(|file| file == "-") {
            return Err(self.usage("A and B cannot both be the standard input"));
        }
        if self.name == "restore" && given.files[1] == "-" && given.value(JSON).is_some() {
            return Err(
                self.usage("OUT and what '--json' prints cannot both be the standard output")
            );
        }
        self.make(given)
    }

    fn make(&self, given: Given) -> Result<Request, Failure> {
        let json = given.value(JSON).is_some();
        let changes = self.changes(&given)?;
        let mut files = given.files.into_iter();
        let mut file = || files.next().unwrap_or_default();
        Ok(match self.name {
            "show" => Request::Show { file: file(), json },
            "explain" => Request::Explain { file: file() },
            "check" => Request::Check { file: file(), json },
            "shrink" => Request::Shrink {
                input: file(),
                output: file(),
            },
            "expand" => Request::Expand {
                input: file(),
                output: file(),
                changes,
            },
            "restore" => Request::Restore {
                input: file(),
                output: file(),
                changes,
                json,
            },
            _ => Request::Same {
                a: file(),
                b: file(),
                changes,
                json,
            },
        })
    }

    fn given(&self, words: &[OsString]) -> Result<Given, Failure> {
        let mut given = Given::default();
        let mut words = words.iter();
        while let Some(word) = words.next() {
            match word.to_str() {
                Some("--") => given.files.extend(words.by_ref().cloned()),
                Some("--help" | "-h") => given.help = true,
                Some(text) if text.starts_with('-') && text != "-" => {
                    let (name, inline) = match text.split_once('=') {
                        Some((name, value)) => (name, Some(value.to_string())),
                        None => (text, None),
                    };
                    let option = self.option(name, &given)?;
                    let value = self.value(option, inline, &mut words)?;
                    given.options.push((option, value));
                }
                _ => given.files.push(word.clone()),
            }
        }
        Ok(given)
    }

    fn option(&self, name: &str, given: &Given) -> Result<&'static str, Failure> {
        let known = self.options.iter().find(|o| **o == name);
        let Some(option) = known else {
            let name = shown(OsStr::new(name));
            return Err(self.usage(&format!("there is no option '{name}'")));
        };
        match given.value(option) {
            Some(_) => Err(self.usage(&format!("'{option}' is given twice"))),
            None => Ok(option),
        }
    }

    /// What is given for an option, in the same word or in the next.
    fn value<'a>(
        &self,
        option: &str,
        inline: Option<String>,
        words: &mut impl Iterator<Item = &'a OsString>,
    ) -> Result<String, Failure> {
        match (option, inline) {
            (JSON, None) => Ok(String::new()),
            (JSON, Some(_)) => Err(self.usage("'--json' takes no value")),
            (_, Some(value)) => Ok(value),
            (_, None) => match words.next() {
                Some(word) => Ok(word.to_string_lossy().into_owned()),
                None => Err(self.usage(&format!("'{option}' takes a value"))),
            },
        }
    }

    fn changes(&self, given: &Given) -> Result<Changes, Failure> {
        let brand = |text: &str| self.brand(text);
        Ok(Changes {
            major: given.value(MAJOR).map(brand).transpose()?,
            minor: given.value(MINOR).map(|m| self.minor(m)).transpose()?,
            brands: match given.value(BRANDS) {
                None => None,
                Some("") => Some(Vec::new()),
                Some(list) => Some(list.split(',').map(brand).collect::<Result<_, _>>()?),
            },
        })
    }

    fn brand(&self, text: &str) -> Result<FourCc, Failure> {
        let brand = text.parse().ok().or_else(|| escaped(text));
        brand.ok_or_else(|| {
            let text = shown(OsStr::new(text));
            self.usage(&format!("'{text}' is no brand of four characters"))
        })
    }

    /// A number of 32 bits, decimal, or hexadecimal after `0x`; or a brand that begins with a letter.
    fn minor(&self, text: &str) -> Result<u32, Failure> {
        if text.starts_with(char::is_alphabetic)
            && let Ok(brand) = text.parse::<FourCc>()
        {
            return Ok(brand.number());
        }
        let number = match text.strip_prefix("0x") {
            Some(digits) if digits.starts_with(|c: char| c.is_ascii_hexdigit()) => {
                u32::from_str_radix(digits, 16).ok()
            }
            _ if text.starts_with(|c: char| c.is_ascii_digit()) => text.parse().ok(),
            _ => None,
        };
        number.ok_or_else(|| {
            let text = shown(OsStr::new(text));
            self.usage(&format!("'{text}' is no number from 0 to 4294967295"))
        })
    }

    fn usage(&self, message: &str) -> Failure {
        usage(&format!("{}: {message}", self.name), self.name)
    }
}

impl Given {
    fn value(&self, option: &str) -> Option<&str> {
        let given = self.options.iter().find(|(name, _)| *name == option);
        given.map(|(_, value)| value.as_str())
    }
}
