//! Times the exported functions beside the supplied Rust on the same payloads, in one run, by turns:
//! `bench NAME..`, where a NAME is `read`, `rewrite` or `expand`. Each time is the best of many batches, per call.

use bustardcase::raw;
use oracle::payloads::{heavy, payload_of};
use oracle::plan::Plan;
use oracle::reading::RECORD_LEN;
use std::hint::black_box;
use std::process::ExitCode;
use std::time::{Duration, Instant};
use upstream::ftyp::FileType;
use upstream::mini::MinimizedImage;

const BATCHES: usize = 60;
const BATCH: Duration = Duration::from_millis(4);

fn main() -> ExitCode {
    let names: Vec<String> = std::env::args().skip(1).collect();
    if names.is_empty()
        || names
            .iter()
            .any(|n| !["read", "rewrite", "expand"].contains(&n.as_str()))
    {
        eprintln!("usage: bench NAME.. with NAME among: read rewrite expand");
        return ExitCode::from(2);
    }
    for name in names {
        match name.as_str() {
            "read" => bench_read(),
            "rewrite" => bench_rewrite(),
            _ => bench_expand(),
        }
    }
    ExitCode::SUCCESS
}

/// The smallest, one with every HDR body and a gain map, and two of much main data.
fn plans() -> [(&'static str, Plan); 4] {
    let of_data = |main_data: u32| Plan {
        main_data: main_data - 1,
        ..Plan::smallest()
    };
    [
        ("smallest", Plan::smallest()),
        ("header-heavy", heavy(1)),
        ("50 kB", of_data(50_000)),
        ("8 MB", of_data(8_000_000)),
    ]
}

fn payloads() -> [(&'static str, Vec<u8>); 4] {
    plans().map(|(name, plan)| (name, payload_of(&plan)))
}

fn bench_read() {
    println!(
        "{:<14}{:>10}{:>14}{:>14}{:>12}",
        "read", "bytes", "Rust ns", "ours ns", "Rust/ours"
    );
    let mut ours = Vec::new();
    for (name, payload) in payloads() {
        let mut out = [0; RECORD_LEN];
        let accepted = MinimizedImage::parse(&payload).is_ok();
        assert!(accepted && raw::read(&payload, &mut out) == RECORD_LEN as u64);
        let [rust, our] = best([
            &mut || {
                let _ = black_box(MinimizedImage::parse(black_box(&payload)));
            },
            &mut || {
                black_box(raw::read(black_box(&payload), black_box(&mut out)));
            },
        ]);
        let len = payload.len();
        println!(
            "{name:<14}{len:>10}{rust:>14.1}{our:>14.1}{:>12.2}",
            rust / our
        );
        ours.push(our);
    }
    println!("ours, 8 MB to 50 kB: {:.2}", ours[3] / ours[2]);
}

/// Beside the Rust's `parse` and `to_box`, and beside one copy of as many bytes.
fn bench_rewrite() {
    println!(
        "{:<14}{:>10}{:>14}{:>14}{:>14}{:>12}{:>12}",
        "rewrite", "bytes", "Rust ns", "ours ns", "copy ns", "Rust/ours", "ours/copy"
    );
    for (name, payload) in payloads() {
        let boxed = MinimizedImage::parse(&payload).and_then(|i| i.to_box());
        let len = boxed.map(|b| b.len()).unwrap_or(0);
        let mut out = vec![0; len];
        assert!(len > 8 && raw::rewrite(&payload, &mut out) == len as u64);
        let mut copy = vec![0; payload.len()];
        let [rust, our, copied] = best([
            &mut || {
                let image = MinimizedImage::parse(black_box(&payload));
                let _ = black_box(image.and_then(|i| i.to_box()));
            },
            &mut || {
                black_box(raw::rewrite(black_box(&payload), black_box(&mut out)));
            },
            &mut || black_box(&mut copy[..]).copy_from_slice(black_box(&payload)),
        ]);
        println!(
            "{name:<14}{:>10}{rust:>14.1}{our:>14.1}{copied:>14.1}{:>12.2}{:>12.2}",
            payload.len(),
            rust / our,
            our / copied
        );
    }
}

/// Beside the Rust's `parse` and `equivalent_file`, and beside one copy of as many bytes.
fn bench_expand() {
    println!(
        "{:<14}{:>10}{:>14}{:>14}{:>14}{:>12}{:>12}",
        "expand", "bytes", "Rust ns", "ours ns", "copy ns", "Rust/ours", "ours/copy"
    );
    let brands = *b"mif3";
    let original = FileType::new(*b"ftyp", brands, 0, vec![brands]);
    let major = u32::from_be_bytes(brands);
    for (name, mut plan) in plans() {
        plan.types = Some([*b"av01", *b"av1C"]);
        let payload = payload_of(&plan);
        let file = MinimizedImage::parse(&payload).and_then(|i| i.equivalent_file(&original));
        let file = file.unwrap_or_default();
        let mut out = vec![0; file.len()];
        assert!(
            raw::expand(&payload, major, 0, &brands, &mut out) == file.len() as u64 && out == file
        );
        let mut copy = vec![0; payload.len()];
        let [rust, our, copied] = best([
            &mut || {
                let image = MinimizedImage::parse(black_box(&payload));
                let _ = black_box(image.and_then(|i| i.equivalent_file(&original)));
            },
            &mut || {
                black_box(raw::expand(
                    black_box(&payload),
                    major,
                    0,
                    &brands,
                    black_box(&mut out),
                ));
            },
            &mut || black_box(&mut copy[..]).copy_from_slice(black_box(&payload)),
        ]);
        println!(
            "{name:<14}{:>10}{rust:>14.1}{our:>14.1}{copied:>14.1}{:>12.2}{:>12.2}",
            payload.len(),
            rust / our,
            our / copied
        );
    }
}

/// The least time of a call of each, in nanoseconds, the batches of all taken by turns.
fn best<const N: usize>(mut calls: [&mut dyn FnMut(); N]) -> [f64; N] {
    let counts: Vec<u32> = calls.iter_mut().map(|call| calls_in_batch(call)).collect();
    let mut least = [f64::INFINITY; N];
    for _ in 0..BATCHES {
        for i in 0..N {
            let time = batch(calls[i], counts[i]).as_secs_f64() * 1e9 / counts[i] as f64;
            least[i] = least[i].min(time);
        }
    }
    least
}

/// How many calls fill a batch.
fn calls_in_batch(call: &mut dyn FnMut()) -> u32 {
    let mut count = 1;
    while batch(call, count) < BATCH {
        count *= 2;
    }
    count
}

fn batch(call: &mut dyn FnMut(), count: u32) -> Duration {
    let begin = Instant::now();
    for _ in 0..count {
        call();
    }
    begin.elapsed()
}
