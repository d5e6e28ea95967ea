//! Where reading breaks off: `bustardcase_diagnose`, and the refusal of every other function that takes a
//! payload, beside a reading bit by bit, whose numbers are those of `MinimizedImage::parse`, and whose chunks
//! are those of its record.

use crate::check::Checker;
use crate::read::shown;
use crate::report::Report;
use bustardcase::raw;
use oracle::answer::Answer;
use oracle::box_cases::zeros;
use oracle::breaking::{DIAGNOSIS_LEN, Place, Walked, walk};
use oracle::expanding::MIF3;
use oracle::fields;
use oracle::outlining::outline;
use oracle::payloads::{self, payload_of};
use oracle::plan::Plan;
use oracle::reading::{self, Accepted, Reading, Refused};

/// How many structured headers; each gives four payloads.
const STRUCTURED: u64 = 100_000;

/// How many random tails after 24 bits.
const TAILS: u32 = 1 << 18;

/// How often each refusal must come, at least, and each part of the header and each chunk must be the one at
/// which reading breaks off.
const LEAST: u64 = 100;

/// How many payloads that lack bytes of their chunks are made whole, at least.
const LEAST_WHOLE: u64 = 10_000;

/// Outputs to lend by turns beside the exact one.
const OUTPUTS: [usize; 4] = [DIAGNOSIS_LEN + 23, DIAGNOSIS_LEN - 1, 0, DIAGNOSIS_LEN + 1];

/// Outputs to lend by turns to the other functions; the greatest has room for any layout of theirs.
const OTHER_OUTPUTS: [usize; 3] = [512, 0, 24];

/// Up to which length a payload that lacks bytes of its chunks is made whole, to be read by the Rust.
const MOST_WHOLE: usize = 1 << 16;

/// How much the far payload lacks: nothing, a byte of its last chunk, all of it and a byte more, and so on up to
/// the gain map's data.
const MISSING: [usize; 7] = [
    0,
    1,
    1 << 20,
    (1 << 20) + 1,
    (1 << 21) + 1,
    1 << 28,
    (1 << 28) + (1 << 21) + 1,
];

struct Run {
    checker: Checker,
    /// For the functions that refuse.
    refusing: Checker,
    cases: u64,
    seen: Seen,
}

/// How often reading broke off.
#[derive(Default)]
struct Seen {
    accepted: u64,
    /// Refused with 9, and made whole.
    whole: u64,
    /// Under each of the refusals 5 to 9.
    numbers: [u64; 5],
    /// In each part, and in each chunk.
    parts: [u64; 12],
    chunks: [u64; 11],
    /// The greatest bit.
    furthest: u64,
}

pub fn compare(report: &mut Report) -> Result<(), String> {
    let mut run = Run {
        checker: Checker::new(fields::of_diagnosis),
        refusing: Checker::new(|_| "of an output that must keep its bytes".to_string()),
        cases: 0,
        seen: Seen::default(),
    };
    payloads::shortest(&mut |c| run.case(c.payload))?;
    for plan in cut_plans() {
        run.cuts_and_flips(&plan)?;
    }
    payloads::random_tails(TAILS, &mut |c| run.case(c.payload))?;
    payloads::structured(STRUCTURED, &mut |c| run.case(c.payload))?;
    if !payloads::limits(&mut |c| run.case(c.payload))? {
        return Err("there is no room for a payload of 2^28 bytes".to_string());
    }
    run.far_chunks()?;
    report.cases = run.cases;
    report.line(format_args!(
        "{} payloads; {} calls, {} more of the other functions",
        run.cases, run.checker.calls, run.refusing.calls
    ));
    run.seen.tell(report)
}

/// Plans whose payloads are cut at every length: with every chunk, with every HDR body, with every flags byte of
/// a 'cclv' body for the main picture and for the tone-mapped one.
fn cut_plans() -> Vec<Plan> {
    let mut plans = vec![payloads::with_every_chunk(), payloads::heavy(5)];
    for flags in 0..=255 {
        let mut cclv = vec![0x5a; payloads::cclv_len(flags)];
        cclv[0] = flags;
        let mut plan = payloads::heavy(1);
        if let Some(hdr) = &mut plan.hdr {
            hdr.bodies[2] = Some(cclv.clone());
        }
        if let Some(gain_map) = plan.gain_map_mut() {
            gain_map.tmap_bodies[2] = Some(cclv);
        }
        plans.push(plan);
    }
    plans
}

/// A plan whose last chunks begin far beyond byte 2^29.
fn far_plan() -> Plan {
    let mut plan = payloads::with_every_chunk();
    let most = (1 << 28) - 1;
    plan.main_data = most;
    if let Some(alpha) = &mut plan.alpha {
        alpha.data = most;
    }
    if let Some(gain_map) = plan.gain_map_mut() {
        gain_map.data = most;
    }
    plan.exif = Some((1 << 20) - 1);
    plan.xmp = Some((1 << 20) - 1);
    plan
}

impl Run {
    fn case(&mut self, payload: &[u8]) -> Result<(), String> {
        self.one(payload)
            .map_err(|e| format!("payload {}\n{e}", shown(payload)))
    }

    fn one(&mut self, payload: &[u8]) -> Result<(), String> {
        let walked = walk(payload);
        // The number is the Rust's, and so are the chunks.
        match reading::read(payload)? {
            Reading::Refused(refused) => {
                self.all_refuse(payload, &refused)?;
                self.made_whole(payload, &walked)?;
            }
            Reading::Accepted(accepted) => same_chunks(payload, &accepted, &walked)?,
        }
        self.seen.count(&walked);
        let answer = Answer::Done(walked.layout());
        let other = OUTPUTS[((self.cases + self.cases / 4) % 4) as usize];
        self.cases += 1;
        for out_len in [DIAGNOSIS_LEN, other] {
            self.checker
                .call(&answer, out_len, |out| raw::diagnose(payload, out))?;
        }
        Ok(())
    }

    /// Every other function that takes the payload refuses it with the same number and bit.
    fn all_refuse(&mut self, payload: &[u8], refused: &Refused) -> Result<(), String> {
        let answer = refused.answer();
        let expand = |payload: &[u8], out: &mut [u8]| raw::expand(payload, MIF3, 0, b"mif3", out);
        for call in [raw::read, raw::check, raw::outline, raw::rewrite, expand] {
            let out_len = OTHER_OUTPUTS[(self.refusing.calls % 3) as usize];
            self.refusing
                .call(&answer, out_len, |out| call(payload, out))?;
        }
        Ok(())
    }

    /// What the payload lacks of its chunks is added as zeros, unless that is much: then it is accepted, and has
    /// the same chunks.
    fn made_whole(&mut self, payload: &[u8], walked: &Walked) -> Result<(), String> {
        let Some(len) = walked.chunks_end().map(|end| end as usize) else {
            return Ok(());
        };
        if len > MOST_WHOLE {
            return Ok(());
        }
        let mut whole = payload.to_vec();
        whole.resize(len, 0);
        let Reading::Accepted(accepted) = reading::read(&whole)? else {
            return Err("the Rust refuses it with all its chunks".to_string());
        };
        self.seen.whole += 1;
        same_chunks(&whole, &accepted, walked)
    }

    /// Every length of the plan's payload, and every bit of its header flipped.
    fn cuts_and_flips(&mut self, plan: &Plan) -> Result<(), String> {
        let header_len = plan.header().bytes.len();
        let mut payload = payload_of(plan);
        for len in 0..=payload.len() {
            self.case(&payload[..len])?;
        }
        for bit in 0..header_len * 8 {
            payload[bit / 8] ^= 0x80 >> (bit % 8);
            self.case(&payload)?;
            payload[bit / 8] ^= 0x80 >> (bit % 8);
        }
        Ok(())
    }

    /// A payload of over 3 * 2^28 bytes, cut inside its last chunks. Only the Rust looks behind its header, at
    /// pages that are all one page of zeros; it copies the chunks before the one that it refuses.
    fn far_chunks(&mut self) -> Result<(), String> {
        let header = far_plan().header();
        let len = header.bytes.len() + header.chunks;
        let mut payload = zeros(len).ok_or("there is no room for 3 * 2^28 bytes")?;
        payload[..header.bytes.len()].copy_from_slice(&header.bytes);
        for missing in MISSING {
            self.case(&payload[..len - missing])?;
        }
        Ok(())
    }
}

/// The chunks are those of the Rust's record.
fn same_chunks(payload: &[u8], accepted: &Accepted, walked: &Walked) -> Result<(), String> {
    let theirs = outline(payload, accepted)?.as_stored.map(|(number, span)| {
        let place = span.map(|(at, len)| (at as u64, len as u64));
        (number, place)
    });
    match walked.chunks == Some(theirs) {
        true => Ok(()),
        false => Err(format!(
            "the Rust's chunks: {theirs:?}; those read bit by bit: {:?}",
            walked.chunks
        )),
    }
}

impl Seen {
    fn count(&mut self, walked: &Walked) {
        let Some(broken) = walked.broken else {
            self.accepted += 1;
            return;
        };
        self.numbers[broken.number as usize - 5] += 1;
        self.furthest = self.furthest.max(broken.bit);
        match broken.place {
            Place::Part(part) => self.parts[part as usize - 1] += 1,
            Place::Chunk { number, .. } => self.chunks[number as usize - 1] += 1,
        }
    }

    /// Refuses a run in which a place comes too seldom, or no chunk begins beyond byte 2^29.
    fn tell(&self, report: &mut Report) -> Result<(), String> {
        let Seen {
            accepted,
            whole,
            numbers,
            parts,
            chunks,
            furthest,
        } = self;
        report.line(format_args!(
            "{accepted} accepted; refused with 5 to 9: {numbers:?}"
        ));
        report.line(format_args!(
            "in each part of the header: {parts:?}; at each chunk: {chunks:?}"
        ));
        report.line(format_args!(
            "{whole} of those refused with 9 are accepted by the Rust with all their chunks; the furthest bit is {furthest}"
        ));
        let mut counts = numbers.iter().chain(parts).chain(chunks);
        if counts.any(|n| *n < LEAST) {
            return Err(format!(
                "a refusal, a part or a chunk comes fewer than {LEAST} times"
            ));
        }
        if *whole < LEAST_WHOLE {
            return Err(format!(
                "fewer than {LEAST_WHOLE} payloads that lack bytes of their chunks are made whole"
            ));
        }
        match *furthest > 1 << 32 {
            true => Ok(()),
            false => Err("no refused chunk begins beyond byte 2^29".to_string()),
        }
    }
}
