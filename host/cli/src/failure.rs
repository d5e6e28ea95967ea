//! Why a command failed: one line, and the status with which the tool ends.

use crate::broken::Broken;
use bustardcase::Refusal;
use std::fmt;
use std::io;

/// The status for a payload that is refused, and for an answer that is no.
pub const REFUSED: u8 = 1;
/// The status for wrong usage, for what cannot be read or written, and for a question without an answer.
const TROUBLE: u8 = 2;

pub enum Failure {
    /// What is wrong with the arguments.
    Usage(String),
    /// A file, by its name, that cannot be read or written.
    Io { name: String, error: io::Error },
    /// A file, by its name, that is refused; where it is not the payload, what of the file.
    Refused {
        name: String,
        what: &'static str,
        refusal: Refusal,
        /// Where reading the payload broke off, if it did.
        broken: Option<Box<Broken>>,
        /// What may help.
        hint: Option<String>,
    },
    /// Why a question whose no has the status of a refusal has no answer.
    Unanswered(Box<Failure>),
}

impl Failure {
    pub fn io(name: &str, error: io::Error) -> Self {
        Failure::Io {
            name: name.to_string(),
            error,
        }
    }

    pub fn unanswered(self) -> Self {
        Failure::Unanswered(Box::new(self))
    }

    pub fn status(&self) -> u8 {
        match self {
            Failure::Usage(_) | Failure::Io { .. } | Failure::Unanswered(_) => TROUBLE,
            Failure::Refused { .. } => REFUSED,
        }
    }
}

impl fmt::Display for Failure {
    fn fmt(&self, f: &mut fmt::Formatter) -> fmt::Result {
        match self {
            Failure::Usage(message) => f.write_str(message),
            Failure::Unanswered(failure) => failure.fmt(f),
            Failure::Io { name, error } => write!(f, "{name}: {}", told(error)),
            Failure::Refused {
                name,
                what,
                refusal,
                broken,
                hint,
            } => {
                write!(f, "{name}: {what}{refusal}")?;
                if let Some(broken) = broken {
                    write!(f, ": {broken}")?;
                }
                match hint {
                    Some(hint) => write!(f, "; {hint}"),
                    None => Ok(()),
                }
            }
        }
    }
}

/// The usual errors in plain words, any other in those of the system.
fn told(error: &io::Error) -> String {
    match error.kind() {
        io::ErrorKind::NotFound => "no such file or folder".to_string(),
        io::ErrorKind::PermissionDenied => "permission denied".to_string(),
        io::ErrorKind::IsADirectory => "it is a folder".to_string(),
        _ => error.to_string(),
    }
}
