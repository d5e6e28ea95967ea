//! A file given to read: a bare payload, or a file with a 'mini' box.

use crate::args::shown;
use crate::broken::Broken;
use crate::failure::Failure;
use bustardcase::{BoxHeader, FileType, FourCc, Refusal, box_header, file_type, find_box};
use std::ffi::OsStr;
use std::fs;
use std::io::{self, Read};

const FTYP: FourCc = FourCc(*b"ftyp");
const MINI: FourCc = FourCc(*b"mini");

pub struct Input {
    /// What messages call it.
    name: String,
    bytes: Vec<u8>,
    /// Nothing for a bare payload.
    file: Option<File>,
}

/// What was found in a file.
pub struct File {
    pub mini: BoxHeader,
    /// Nothing where there is no 'ftyp' box.
    pub file_type: Option<FileType>,
}

impl Input {
    pub fn open(name: &OsStr) -> Result<Self, Failure> {
        let (name, bytes) = read(name)?;
        let file = match is_file(&bytes) {
            true => Some(find(&name, &bytes)?),
            false => None,
        };
        Ok(Input { name, bytes, file })
    }

    pub fn bytes(&self) -> &[u8] {
        &self.bytes
    }

    pub fn payload(&self) -> &[u8] {
        match &self.file {
            Some(file) => file.mini.payload(&self.bytes),
            None => &self.bytes,
        }
    }

    /// Where the payload begins; nothing for a bare payload.
    pub fn start_in_file(&self) -> Option<usize> {
        self.mini().map(|mini| mini.payload_start)
    }

    pub fn mini(&self) -> Option<&BoxHeader> {
        self.file.as_ref().map(|file| &file.mini)
    }

    pub fn file_type(&self) -> Option<&FileType> {
        self.file.as_ref()?.file_type.as_ref()
    }

    /// What a library's function says of the payload. Where reading it broke off, the failure says so.
    pub fn taken<T>(&self, answer: Result<T, Refusal>) -> Result<T, Failure> {
        answer.map_err(|refusal| {
            let broken = refusal.bit().and_then(|_| self.broken());
            Failure::Refused {
                name: self.name.clone(),
                what: "",
                refusal,
                broken: broken.map(Box::new),
                hint: None,
            }
        })
    }

    /// Where reading the payload broke off; nothing where it is accepted.
    pub fn broken(&self) -> Option<Broken> {
        Broken::of(self.payload(), self.start_in_file())
    }
}

/// What messages call a file, and its bytes.
pub fn read(name: &OsStr) -> Result<(String, Vec<u8>), Failure> {
    let (name, bytes) = match name == "-" {
        true => ("standard input".to_string(), standard_input()),
        false => (shown(name), fs::read(name)),
    };
    let bytes = bytes.map_err(|e| Failure::io(&name, e))?;
    Ok((name, bytes))
}

fn standard_input() -> io::Result<Vec<u8>> {
    let mut bytes = Vec::new();
    io::stdin().read_to_end(&mut bytes)?;
    Ok(bytes)
}

/// A file begins with one of the two boxes, or has both. Whatever else is a bare payload: to be taken for
/// a file, one would have to look like a box from its first byte on.
fn is_file(bytes: &[u8]) -> bool {
    let first = box_header(bytes, 0).map(|header| header.box_type);
    let has = |box_type| find_box(bytes, box_type).is_ok();
    matches!(first, Ok(FTYP | MINI)) || (has(FTYP) && has(MINI))
}

fn find(name: &str, bytes: &[u8]) -> Result<File, Failure> {
    let mini = find_box(bytes, MINI).map_err(|r| refused(name, "no 'mini' box is found: ", r))?;
    let file_type = match find_box(bytes, FTYP) {
        Ok(header) => {
            let read = file_type(header.payload(bytes));
            Some(read.map_err(|r| refused(name, "the 'ftyp' box: ", r))?)
        }
        Err(_) => None,
    };
    Ok(File { mini, file_type })
}

fn refused(name: &str, what: &'static str, refusal: Refusal) -> Failure {
    Failure::Refused {
        name: name.to_string(),
        what,
        refusal,
        broken: None,
        hint: None,
    }
}
