//! Holds one call of an exported function to the answer that is expected of it.

use oracle::answer::Answer;
use oracle::hex::hex;
use std::hint::black_box;

/// The name of the field that a byte of the output belongs to.
pub type FieldName = fn(usize) -> String;

/// How many bytes lie before and behind the output that is lent. No call may change one of them.
const GUARD: usize = 64;

/// What outputs are filled with repeats after this many bytes.
const PERIOD: usize = 256;

/// How many bytes are filled, and looked at, at once.
const BLOCK: usize = 1 << 14;

/// An output to lend between guard bytes, filled anew before each call, and the count of calls.
pub struct Checker {
    room: Vec<u8>,
    fills: [Fill; 2],
    field: FieldName,
    pub calls: u64,
}

/// The bytes that the room is filled with, over and over.
struct Fill(Vec<u8>);

impl Checker {
    pub fn new(field: FieldName) -> Self {
        let byte = |i: usize| (i * 167 + 13) as u8;
        let fill = |byte: &dyn Fn(usize) -> u8| Fill((0..PERIOD + BLOCK).map(byte).collect());
        Checker {
            room: Vec::new(),
            fills: [fill(&byte), fill(&|i| !byte(i))],
            field,
            calls: 0,
        }
    }

    /// Calls with an output of `out_len` bytes. The number that comes back and every byte of the
    /// output must be as expected; bytes that are not written keep what they were filled with, and so
    /// do the guard bytes on both sides. The filling alternates between two that differ in every byte.
    pub fn call(
        &mut self,
        answer: &Answer,
        out_len: usize,
        call: impl FnOnce(&mut [u8]) -> u64,
    ) -> Result<(), String> {
        let len = GUARD + out_len + GUARD;
        if self.room.len() < len {
            self.room.resize(len, 0);
        }
        // Shifted by one after every two calls, since a case may take two.
        let turn = (self.calls + self.calls / 2) % 2;
        let fill = &self.fills[turn as usize];
        let room = &mut self.room[..len];
        self.calls += 1;
        fill.put(room);
        let word = call(&mut room[GUARD..GUARD + out_len]);
        // The compiler may take the bytes outside the part that was lent for unchanged: it has to look.
        let room = &*black_box(room);
        let written = answer.written(out_len);
        let (before, rest) = room.split_at(GUARD);
        let (head, rest) = rest.split_at(written.len());
        if word == answer.word(out_len)
            && head == written
            && fill.is_in(rest, GUARD + written.len())
            && fill.is_in(before, 0)
        {
            return Ok(());
        }
        Err(difference(answer, word, room, fill, self.field))
    }
}

impl Fill {
    fn put(&self, room: &mut [u8]) {
        for block in room.chunks_mut(BLOCK) {
            block.copy_from_slice(&self.0[..block.len()]);
        }
    }

    /// Whether the part of the room that begins at `at` is as it was filled.
    fn is_in(&self, part: &[u8], at: usize) -> bool {
        let fill = &self.0[at % PERIOD..];
        part.chunks(BLOCK)
            .all(|block| block == &fill[..block.len()])
    }
}

fn difference(answer: &Answer, word: u64, room: &[u8], fill: &Fill, field: FieldName) -> String {
    let out_len = room.len() - 2 * GUARD;
    let written = answer.written(out_len);
    let mut expected = vec![0; room.len()];
    fill.put(&mut expected);
    expected[GUARD..GUARD + written.len()].copy_from_slice(written);
    let at = expected.iter().zip(room).position(|(a, b)| a != b);
    let place = match at {
        Some(at) if at < GUARD => format!("byte {} before the output is changed", GUARD - at),
        Some(at) if at < GUARD + out_len => {
            let at = at - GUARD;
            format!("the outputs differ first at byte {at} ({})", field(at))
        }
        Some(at) => format!("byte {} behind the output is changed", at - GUARD - out_len),
        None => "the outputs are equal".to_string(),
    };
    let out = GUARD..GUARD + out_len;
    format!(
        "output of {out_len} bytes; {place}\nexpected {}\n  output {}\n     got {}\n  output {}",
        said(answer.word(out_len)),
        hex(&expected[out.clone()]),
        said(word),
        hex(&room[out])
    )
}

fn said(word: u64) -> String {
    format!("refusal {} value {}", word >> 48, word & ((1 << 48) - 1))
}

#[cfg(test)]
mod tests {
    use super::*;

    /// Calls twice, once with each filling, with an output of `out_len` bytes.
    fn called(answer: &Answer, out_len: usize, call: fn(&mut [u8]) -> u64) -> Result<(), String> {
        let mut checker = Checker::new(|_| "field".to_string());
        checker.call(answer, out_len, call)?;
        checker.call(answer, out_len, call)
    }

    fn place(result: Result<(), String>) -> String {
        let message = result.expect_err("a fault is seen");
        let (first, _) = message.split_once('\n').expect("several lines");
        first.split_once("; ").expect("a place").1.to_string()
    }

    fn nine() -> Answer {
        Answer::Refused {
            number: 9,
            bit: 504,
        }
    }

    fn done() -> Answer {
        Answer::Done(vec![1, 2, 3])
    }

    fn put(out: &mut [u8]) -> u64 {
        out[..3].copy_from_slice(&[1, 2, 3]);
        3
    }

    /// Alters the byte so far from the output's first.
    fn alter(out: &mut [u8], distance: isize) {
        // SAFETY: the checker has guard bytes there; whether they are looked at is what is tested.
        unsafe { *out.as_mut_ptr().offset(distance) ^= 1 }
    }

    #[test]
    fn what_is_expected_passes() {
        for out_len in [3, 4, 300, BLOCK - 64, BLOCK, 3 * BLOCK + 5] {
            assert_eq!(called(&done(), out_len, put), Ok(()));
        }
        assert_eq!(called(&done(), 2, |_| (16 << 48) + 3), Ok(()));
        assert_eq!(called(&nine(), 2, |_| (9 << 48) + 504), Ok(()));
    }

    #[test]
    fn a_byte_behind_the_output_is_seen() {
        let next = |out: &mut [u8]| {
            let len = out.len() as isize;
            alter(out, len);
            put(out)
        };
        for out_len in [3, 300, BLOCK, 3 * BLOCK + 5] {
            let seen = place(called(&done(), out_len, next));
            assert_eq!(seen, "byte 0 behind the output is changed");
        }
        let last = |out: &mut [u8]| {
            let len = out.len() as isize;
            alter(out, len + GUARD as isize - 1);
            (9 << 48) + 504
        };
        let seen = place(called(&nine(), 0, last));
        assert_eq!(seen, "byte 63 behind the output is changed");
    }

    #[test]
    fn a_byte_before_the_output_is_seen() {
        let previous = |out: &mut [u8]| {
            alter(out, -1);
            put(out)
        };
        let seen = place(called(&done(), 3, previous));
        assert_eq!(seen, "byte 1 before the output is changed");
    }

    #[test]
    fn a_byte_in_the_output_and_a_number_are_seen() {
        let beyond = |out: &mut [u8]| {
            out[4] ^= 1;
            put(out)
        };
        let seen = place(called(&done(), 5, beyond));
        assert_eq!(seen, "the outputs differ first at byte 4 (field)");
        let seen = place(called(&done(), 5, |out| put(out) + 1));
        assert_eq!(seen, "the outputs are equal");
        assert!(called(&nine(), 0, |_| (9 << 32) + 504).is_err());
        assert!(called(&nine(), 0, |_| (9 << 48) + 503).is_err());
    }
}
