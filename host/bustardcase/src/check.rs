//! The desk check.

use crate::answer::fixed;
use crate::layout::Fields;
use crate::{Refusal, raw};

/// The desk check of a payload's record: whether a display takes the picture as it is, the five conditions
/// for it, and the size as shown, which two of them are about.
#[derive(Clone, Copy, Debug, PartialEq, Eq)]
pub struct Check {
    /// The display takes the picture as it is: all five conditions hold.
    pub passes: bool,
    /// The samples are integers.
    pub integer_samples: bool,
    /// There is no gain map.
    pub no_gain_map: bool,
    /// Exif is present.
    pub exif_present: bool,
    /// The width as shown is at most 1,920.
    pub width_fits: bool,
    /// The height as shown is at most 1,080.
    pub height_fits: bool,
    /// The width as shown: under the orientations 5 to 8 the stored height, else the stored width.
    pub shown_width: u32,
    /// The height as shown: under the orientations 5 to 8 the stored width, else the stored height.
    pub shown_height: u32,
}

/// The desk check of a payload. Refusals 5 to 9.
///
/// ```
/// let check = bustardcase::check(&[0, 0, 0, 0, 0, 0, 0, 0xAA])?;
/// assert!(check.integer_samples && check.no_gain_map && check.width_fits && check.height_fits);
/// assert!(!check.exif_present && !check.passes);
/// assert_eq!((check.shown_width, check.shown_height), (1, 1));
/// # Ok::<(), bustardcase::Refusal>(())
/// ```
pub fn check(payload: &[u8]) -> Result<Check, Refusal> {
    let layout: [u8; 14] = fixed(|out| raw::check(payload, out))?;
    let mut fields = Fields::new(&layout);
    let check = Check {
        passes: fields.flag(),
        integer_samples: fields.flag(),
        no_gain_map: fields.flag(),
        exif_present: fields.flag(),
        width_fits: fields.flag(),
        height_fits: fields.flag(),
        shown_width: fields.u32(),
        shown_height: fields.u32(),
    };
    fields.finish();
    Ok(check)
}
