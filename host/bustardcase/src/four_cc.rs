//! Four-character codes.

use std::fmt;
use std::str::FromStr;

/// A four-character code: a box type, a brand, a codec type.
///
/// ```
/// use bustardcase::FourCc;
///
/// let brand: FourCc = "mif3".parse().unwrap();
/// assert_eq!(brand, FourCc(*b"mif3"));
/// assert_eq!(brand.number(), 0x6D69_6633);
/// assert_eq!(FourCc([0, b'a', b'\\', 0xFF]).to_string(), r"\x00a\\\xff");
/// assert!("mif".parse::<FourCc>().is_err());
/// ```
#[derive(Clone, Copy, PartialEq, Eq, Hash)]
pub struct FourCc(pub [u8; 4]);

impl FourCc {
    /// The code as a number, its first character the highest byte.
    pub fn number(self) -> u32 {
        u32::from_be_bytes(self.0)
    }
}

impl From<&[u8; 4]> for FourCc {
    fn from(bytes: &[u8; 4]) -> Self {
        FourCc(*bytes)
    }
}

/// The text is not four printable characters of ASCII.
#[derive(Clone, Copy, Debug, PartialEq, Eq)]
pub struct NotFourCharacters;

impl fmt::Display for NotFourCharacters {
    fn fmt(&self, f: &mut fmt::Formatter) -> fmt::Result {
        f.write_str("not four printable characters of ASCII")
    }
}

impl std::error::Error for NotFourCharacters {}

impl FromStr for FourCc {
    type Err = NotFourCharacters;

    fn from_str(text: &str) -> Result<Self, NotFourCharacters> {
        let printable = text.bytes().all(|b| b == b' ' || b.is_ascii_graphic());
        match text.as_bytes().try_into() {
            Ok(bytes) if printable => Ok(FourCc(bytes)),
            _ => Err(NotFourCharacters),
        }
    }
}

/// The four characters; what is not printable, and the backslash, escaped.
impl fmt::Display for FourCc {
    fn fmt(&self, f: &mut fmt::Formatter) -> fmt::Result {
        for byte in self.0 {
            match byte {
                b'\\' => f.write_str(r"\\")?,
                b' ' | b'!'..=b'~' => write!(f, "{}", byte as char)?,
                _ => write!(f, "\\x{byte:02x}")?,
            }
        }
        Ok(())
    }
}

impl fmt::Debug for FourCc {
    fn fmt(&self, f: &mut fmt::Formatter) -> fmt::Result {
        write!(f, "'{self}'")
    }
}
