//! `explain`: how a payload is put together.

use crate::drawing::CELLS;
use crate::failure::Failure;
use crate::flags::{Flag, flags};
use crate::input::Input;
use crate::output;
use crate::refused::told;
use crate::rows::{PARTS_HEADING, chunk_row, chunks_heading, drawn_row, part_row};
use crate::text::{count, grouped, paragraph};
use bustardcase::{Chunk, HeaderPart, MinimizedImage, Outline, PartKind};
use std::ffi::OsStr;

pub fn run(file: &OsStr) -> Result<(), Failure> {
    let input = Input::open(file)?;
    let payload = input.payload();
    if let Some(broken) = input.broken() {
        output::print(&told(payload, &broken))?;
    }
    let picture = Picture {
        payload,
        start: input.start_in_file(),
        image: input.taken(bustardcase::read(payload))?,
        outline: input.taken(bustardcase::outline(payload))?,
        shortest: input.taken(bustardcase::rewrite(payload))?,
    };
    output::print(&picture.explained())
}

struct Picture<'a> {
    payload: &'a [u8],
    /// Where the payload begins in its file.
    start: Option<usize>,
    image: MinimizedImage,
    outline: Outline,
    /// The box that holds the shortest form.
    shortest: Vec<u8>,
}

/// For a file, where the payload begins in it.
pub fn start_in_words(start: Option<usize>) -> String {
    let words = |start| {
        paragraph(&format!(
            "In the file it begins at byte {start}; positions here count from the payload's first byte."
        ))
    };
    start.map(words).unwrap_or_default()
}

impl Picture<'_> {
    fn explained(&self) -> String {
        [
            self.parts(),
            self.header(),
            self.flags(),
            self.by_size(),
            self.as_stored(),
            self.after(),
            self.shorter(),
        ]
        .join("\n")
    }

    fn parts(&self) -> String {
        let header = self.outline.header_len();
        let ignored = self.outline.ignored;
        let chunks = self.payload.len() - header - ignored;
        let mut out = paragraph(&format!(
            "The payload has {}: {} of header, {} of chunks, {} that are ignored.",
            count(self.payload.len(), "byte"),
            grouped(header),
            grouped(chunks),
            grouped(ignored)
        ));
        out += &start_in_words(self.start);
        out
    }

    fn header(&self) -> String {
        let bits = self.outline.part(PartKind::TrailingBits).end;
        let mut out = format!(
            "THE HEADER: {} bits, the high bit of a byte first\n\n",
            grouped(bits)
        );
        out += PARTS_HEADING;
        for part in self.outline.header {
            out += &part_row(self.payload, part);
        }
        out
    }

    fn flags(&self) -> String {
        let mut out = String::from("THE OPTIONAL FLAGS, and what each brought into the header\n\n");
        for flag in flags(&self.image) {
            let set = if flag.set { "set" } else { "not set" };
            for (i, line) in self.brought(&flag).iter().enumerate() {
                let (name, set) = if i == 0 { (flag.name, set) } else { ("", "") };
                out += &format!("  {name:<20}  {set:<7}  {line}\n");
            }
        }
        out + "\n" + &paragraph("Whatever a flag brings moves every later bit of the header.")
    }

    fn brought(&self, flag: &Flag) -> Vec<String> {
        if !flag.set {
            return vec!["nothing".to_string()];
        }
        let parts = flag.parts.iter().map(|kind| self.outline.part(*kind));
        let with_bits = parts.filter(|part| part.bits() > 0);
        let mut lines: Vec<String> = with_bits.map(place_of_part).collect();
        lines.extend(flag.notes.iter().map(|note| note.to_string()));
        lines
    }

    fn by_size(&self) -> String {
        let mut out = String::from("THE CHUNKS in the order in which their sizes are given\n\n");
        let total = self.payload.len();
        out += &chunks_heading(total);
        for chunk in self.outline.by_size {
            out += &chunk_row(total, chunk);
        }
        out
    }

    fn as_stored(&self) -> String {
        let mut out = String::from("THE CHUNKS in the order in which they lie\n\n");
        let total = self.payload.len();
        out += &chunks_heading(total);
        let header = Chunk {
            at: 0,
            len: self.outline.header_len(),
        };
        out += &drawn_row(total, "", "(header)", header, '=');
        for chunk in self.outline.as_stored {
            out += &chunk_row(total, chunk);
        }
        let ignored = Chunk {
            at: total - self.outline.ignored,
            len: self.outline.ignored,
        };
        if ignored.len > 0 {
            out += &drawn_row(total, "", "(ignored)", ignored, '~');
        }
        out + "\n" + &paragraph(&self.legend())
    }

    fn legend(&self) -> String {
        let bytes = self.payload.len() as f64 / CELLS as f64;
        let bytes = match bytes < 100.0 {
            true => format!("{bytes:.1}"),
            false => grouped(bytes.round() as usize),
        };
        format!(
            "A bar stands for the whole payload, each of its {CELLS} cells for {bytes} bytes: # a chunk's \
             bytes, one cell at least, . an empty chunk, = the header, ~ what is ignored."
        )
    }

    fn after(&self) -> String {
        let ignored = count(self.outline.ignored, "byte");
        let verb = if self.outline.ignored == 1 {
            "is"
        } else {
            "are"
        };
        let mut out = paragraph(&format!("After the last chunk, {ignored} {verb} ignored."));
        let wrong = self.wrong_cuts();
        if !wrong.is_empty() {
            out += "\nA reader that believed the order of the sizes would cut from the wrong place:\n\n";
            out += &wrong;
        }
        out
    }

    /// What the shortest form saves, told by its own outline.
    fn shorter(&self) -> String {
        let boxed = &self.shortest;
        let payload = bustardcase::box_header(boxed, 0).map(|header| header.payload(boxed));
        let Ok((shortest, Ok(outline))) = payload.map(|p| (p, bustardcase::outline(p))) else {
            return String::new();
        };
        if shortest.len() == self.payload.len() {
            return paragraph(
                "This is the shortest form: every other payload that reads so is longer.",
            );
        }
        let mut less: Vec<String> = Vec::new();
        for (here, there) in self.outline.header.into_iter().zip(outline.header) {
            if here.kind != PartKind::TrailingBits && there.bits() != here.bits() {
                less.push(format!(
                    "{} in {} bits instead of {}",
                    here.kind,
                    there.bits(),
                    here.bits()
                ));
            }
        }
        if self.outline.ignored > 0 {
            less.push("without what is ignored".to_string());
        }
        paragraph(&format!(
            "The shortest form that reads the same has {}: {}.",
            count(shortest.len(), "byte"),
            less.join(", ")
        ))
    }

    /// Where chunks would be taken from if they lay in the order of their sizes, for those that do not.
    fn wrong_cuts(&self) -> String {
        let mut at = self.outline.header_len();
        let mut out = String::new();
        for chunk in self.outline.by_size {
            let Some(place) = chunk.place.filter(|p| p.len > 0) else {
                continue;
            };
            if place.at != at {
                out += &format!(
                    "      {:<22} {at:>9}  instead of {:>9}\n",
                    chunk.kind, place.at
                );
            }
            at += place.len;
        }
        out
    }
}

fn place_of_part(part: HeaderPart) -> String {
    let bits = count(part.bits(), "bit");
    format!("{}: {bits}, from bit {}", part.kind, part.start)
}
