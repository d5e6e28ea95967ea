//! Parts of a file of boxes, taken from the front.

/// What is left of a part. Places are counted from the file's first byte.
#[derive(Clone, Copy)]
pub struct FilePart<'a> {
    file: &'a [u8],
    at: usize,
    end: usize,
}

/// A box: its type and its body.
#[derive(Clone, Copy)]
pub struct FileBox<'a> {
    pub box_type: [u8; 4],
    pub body: FilePart<'a>,
}

impl<'a> FilePart<'a> {
    pub fn whole(file: &'a [u8]) -> Self {
        FilePart {
            file,
            at: 0,
            end: file.len(),
        }
    }

    /// The position and the length of what is left.
    pub fn span(self) -> (usize, usize) {
        (self.at, self.end - self.at)
    }

    pub fn bytes(self) -> &'a [u8] {
        &self.file[self.at..self.end]
    }

    pub fn is_empty(self) -> bool {
        self.at == self.end
    }

    /// The next `len` bytes, taken as a part of their own.
    pub fn part(&mut self, len: usize) -> Option<FilePart<'a>> {
        let end = self.at.checked_add(len).filter(|end| *end <= self.end)?;
        let part = FilePart { end, ..*self };
        self.at = end;
        Some(part)
    }

    pub fn array<const N: usize>(&mut self) -> Option<[u8; N]> {
        self.part(N)?.bytes().try_into().ok()
    }

    pub fn byte(&mut self) -> Option<u8> {
        self.array().map(u8::from_be_bytes)
    }

    pub fn u16(&mut self) -> Option<u16> {
        self.array().map(u16::from_be_bytes)
    }

    pub fn u32(&mut self) -> Option<u32> {
        self.array().map(u32::from_be_bytes)
    }

    /// Passes over these bytes.
    pub fn literal(&mut self, bytes: &[u8]) -> Option<()> {
        (self.part(bytes.len())?.bytes() == bytes).then_some(())
    }

    /// What is left, if that is nothing.
    pub fn finish(self) -> Option<()> {
        self.is_empty().then_some(())
    }

    /// The next box. Its size takes 32 bits: no box of an equivalent file is longer.
    pub fn any_box(&mut self) -> Option<FileBox<'a>> {
        let len = (self.u32()? as usize).checked_sub(8)?;
        Some(FileBox {
            box_type: self.array()?,
            body: self.part(len)?,
        })
    }

    /// The body of the next box, which is of this type.
    pub fn boxed(&mut self, box_type: &[u8; 4]) -> Option<FilePart<'a>> {
        self.any_box()?.of_type(box_type)
    }

    /// Likewise, if the next box is of this type. None: the box is broken.
    pub fn optional_box(&mut self, box_type: &[u8; 4]) -> Option<Option<FilePart<'a>>> {
        let mut ahead = *self;
        let next = ahead.any_box()?;
        if next.box_type != *box_type {
            return Some(None);
        }
        *self = ahead;
        Some(Some(next.body))
    }

    /// What follows the version and the flags.
    pub fn after_version(mut self, version: u8, flags: u32) -> Option<FilePart<'a>> {
        let both = u32::from(version) << 24 | flags;
        (self.u32()? == both).then_some(self)
    }
}

impl<'a> FileBox<'a> {
    pub fn of_type(self, box_type: &[u8; 4]) -> Option<FilePart<'a>> {
        (self.box_type == *box_type).then_some(self.body)
    }
}

#[cfg(test)]
mod tests {
    use super::*;

    #[test]
    fn boxes_are_taken_one_after_another() {
        let file = b"\0\0\0\x0afreeab\0\0\0\x08mdat\0\0\0\x07mdat";
        let mut part = FilePart::whole(file);
        let free = part.boxed(b"free").expect("a box");
        assert_eq!((free.span(), free.bytes()), ((8, 2), &b"ab"[..]));
        assert!(part.optional_box(b"iref").expect("a box").is_none());
        assert!(part.boxed(b"mdat").expect("a box").is_empty());
        // A size below 8.
        assert!(part.optional_box(b"mdat").is_none());
        assert!(part.finish().is_none());
    }

    #[test]
    fn what_is_cut_is_none() {
        let file = b"\0\0\0\x0afreeab";
        for end in 0..file.len() {
            assert!(FilePart::whole(&file[..end]).any_box().is_none());
        }
        let mut part = FilePart::whole(file);
        assert!(part.part(usize::MAX).is_none());
        assert_eq!(part.u16(), Some(0));
        assert_eq!(part.span(), (2, 8));
    }

    #[test]
    fn the_version_and_the_flags_are_held_to() {
        let part = FilePart::whole(&[2, 0, 0, 1, 5]);
        let rest = part.after_version(2, 1).expect("they are these");
        assert_eq!(rest.bytes(), [5]);
        assert!(part.after_version(2, 0).is_none());
        assert!(part.after_version(1, 1).is_none());
    }
}
