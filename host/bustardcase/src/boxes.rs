//! Box headers.

use crate::answer::fixed;
use crate::layout::Fields;
use crate::{FourCc, Refusal, raw};

/// The header of a box of the ISO base media file format. Positions count from the first byte of the
/// buffer that it was read from.
#[derive(Clone, Copy, Debug, PartialEq, Eq)]
pub struct BoxHeader {
    /// The type.
    pub box_type: FourCc,
    /// The extended type, of a 'uuid' box.
    pub user_type: Option<[u8; 16]>,
    /// Where the box begins.
    pub start: usize,
    /// Where its payload begins.
    pub payload_start: usize,
    /// How long its payload is.
    pub payload_len: usize,
}

impl BoxHeader {
    /// The payload, as a part of the buffer that the header was read from. For a header that passes the
    /// buffer it is the empty part at the buffer's start.
    pub fn payload<'a>(&self, buf: &'a [u8]) -> &'a [u8] {
        let part = buf.get(self.payload_start..self.end());
        part.unwrap_or(&buf[..0])
    }

    /// The position after the box's last byte.
    pub fn end(&self) -> usize {
        self.payload_start.saturating_add(self.payload_len)
    }

    fn of_layout(layout: &[u8; 45]) -> Self {
        let mut fields = Fields::new(layout);
        let header = BoxHeader {
            box_type: fields.code(),
            user_type: fields.option(Fields::bytes),
            start: fields.size(),
            payload_start: fields.size(),
            payload_len: fields.size(),
        };
        fields.finish();
        header
    }
}

/// The header of the box at `start` of `buf`. Refusals 1 to 4.
///
/// ```
/// let header = bustardcase::box_header(b"__\0\0\0\x0Afree\x01\x02", 2)?;
/// assert_eq!(header.box_type.to_string(), "free");
/// assert_eq!((header.payload_start, header.payload_len), (10, 2));
/// # Ok::<(), bustardcase::Refusal>(())
/// ```
pub fn box_header(buf: &[u8], start: usize) -> Result<BoxHeader, Refusal> {
    let layout = fixed(|out| raw::box_header(buf, start, out))?;
    Ok(BoxHeader::of_layout(&layout))
}

/// The header of the first box of a type among the boxes that follow one another from the start of
/// `buf`. Where there is none, the refusal is that of the header at which the walk ended: 1 at the end
/// of the buffer, or 1 to 4 where a header is refused.
///
/// ```
/// use bustardcase::{Refusal, find_box};
///
/// let buf = b"\0\0\0\x08free\0\0\0\x09mini\xAA";
/// assert_eq!(find_box(buf, b"mini".into())?.payload(buf), [0xAA]);
/// assert_eq!(find_box(buf, b"ftyp".into()), Err(Refusal::BoxHeaderCut));
/// # Ok::<(), Refusal>(())
/// ```
pub fn find_box(buf: &[u8], box_type: FourCc) -> Result<BoxHeader, Refusal> {
    let layout = fixed(|out| raw::find_box(buf, box_type.number(), out))?;
    Ok(BoxHeader::of_layout(&layout))
}
