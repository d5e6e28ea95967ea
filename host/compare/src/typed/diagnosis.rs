//! A diagnosis beside a reading bit by bit.

use super::outline::{CHUNKS, PARTS};
use super::{named, same};
use bustardcase::{Chunk, Diagnosis, HeaderPart, Place, PlacedChunk, diagnose};
use oracle::breaking::{self, Placed, walk};

pub fn compare(payload: &[u8]) -> Result<(), String> {
    let walked = walk(payload);
    let ends = walked.ends.map(|end| end as usize);
    let header: [HeaderPart; 12] = std::array::from_fn(|i| HeaderPart {
        kind: PARTS[i],
        start: if i == 0 { 0 } else { ends[i - 1] },
        end: ends[i],
    });
    let ours = diagnose(payload);
    let Some(broken) = walked.broken else {
        return same("the diagnosis", &ours, &None);
    };
    let (place, read) = match broken.place {
        breaking::Place::Part(part) => {
            let part = part as usize - 1;
            (Place::Part(PARTS[part]), &header[..part])
        }
        breaking::Place::Chunk {
            number,
            length,
            missing,
        } => {
            let place = Place::Chunk {
                kind: CHUNKS[number as usize - 1],
                position: (broken.bit / 8) as usize,
                length: length as usize,
                missing: missing as usize,
            };
            (place, &header[..])
        }
    };
    let expected = Diagnosis {
        refusal: named(broken.number, broken.bit)?,
        place,
        header,
        as_stored: walked.chunks.map(|chunks| chunks.map(placed)),
    };
    same("the diagnosis", &ours, &Some(expected))?;
    for (part, kind) in header.into_iter().zip(PARTS) {
        same("a part", &expected.part(kind), &part)?;
    }
    same("what was read", &expected.parts_read(), &read)?;
    let fits = |chunk: &&PlacedChunk| chunk.place.is_some_and(|c| c.at + c.len <= payload.len());
    let chunks = expected.as_stored.iter().flatten();
    let whole: Vec<&PlacedChunk> = chunks.filter(fits).collect();
    let read = expected.chunks_read().iter();
    let read: Vec<&PlacedChunk> = read.filter(|c| c.place.is_some()).collect();
    same("the chunks that were read", &read, &whole)
}

fn placed((number, place): Placed) -> PlacedChunk {
    PlacedChunk {
        kind: CHUNKS[number as usize - 1],
        place: place.map(|(at, len)| Chunk {
            at: at as usize,
            len: len as usize,
        }),
    }
}
