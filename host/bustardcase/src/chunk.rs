//! Where a chunk lies.

/// The place of a chunk: its position in the payload that was read, or in the file that a record was found in, and
/// its length.
///
/// ```
/// let payload = [0, 0, 0, 0, 0, 0, 0, 0xAA, 0xFF];
/// let chunk = bustardcase::read(&payload)?.main_data;
/// assert_eq!((chunk.at, chunk.len), (7, 1));
/// assert_eq!(chunk.of(&payload), [0xAA]);
/// # Ok::<(), bustardcase::Refusal>(())
/// ```
#[derive(Clone, Copy, Debug, Default, PartialEq, Eq, Hash)]
pub struct Chunk {
    /// The position of its first byte, counted from the first of payload or file.
    pub at: usize,
    /// How many bytes it has.
    pub len: usize,
}

impl Chunk {
    /// The chunk's bytes, as a part of the payload or file. A chunk of another one may pass the end: then it
    /// is the empty part at the start.
    pub fn of<'a>(&self, source: &'a [u8]) -> &'a [u8] {
        let part = self.end().and_then(|end| source.get(self.at..end));
        part.unwrap_or(&source[..0])
    }

    /// The position after the last byte, if it can be counted.
    fn end(&self) -> Option<usize> {
        self.at.checked_add(self.len)
    }
}

#[cfg(test)]
mod tests {
    use super::*;

    #[test]
    fn a_chunk_that_does_not_fit_is_empty() {
        let payload = [1, 2, 3];
        let of = |at, len| Chunk { at, len }.of(&payload);
        assert_eq!(of(1, 2), [2, 3]);
        assert_eq!(of(3, 0), []);
        assert_eq!(of(1, 3), []);
        assert_eq!(of(4, 0), []);
        assert_eq!(of(usize::MAX, 1), []);
        assert_eq!(of(1, usize::MAX), []);
        assert_eq!(of(4, 0).as_ptr(), payload.as_ptr());
    }
}
