//! Compares the exported functions with the supplied Rust: `compare NAME..`, where a NAME is one of
//! the parts below. Ends with status 1 at the first difference, which it prints with its input. With
//! `--promises FILE` before the names, so many cases must run as FILE, docs/PROMISES.md, says.

mod boxes;
mod check;
mod desk_check;
mod diagnose;
mod expand;
mod features;
mod file_type;
mod find_box;
mod outline;
mod promises;
mod read;
mod report;
mod restore;
mod rewrite;
mod same;
mod typed;

use report::Report;
use std::fs;
use std::io::{self, Write};
use std::process::{ExitCode, exit};
use std::sync::Mutex;
use std::thread;
use std::time::Instant;

/// A piece of work that runs on one thread.
#[derive(Clone, Copy)]
struct Job {
    /// The part that it belongs to: what a user asks for.
    part: &'static str,
    name: &'static str,
    run: fn(&mut Report) -> Result<(), String>,
}

const fn job(name: &'static str, run: fn(&mut Report) -> Result<(), String>) -> Job {
    Job {
        part: name,
        name,
        run,
    }
}

/// The longest first: one that began last would run alone.
const JOBS: &[Job] = &[
    job("rewrite", rewrite::compare),
    Job {
        part: "read",
        name: "read, first 24 bits",
        run: read::first_bits,
    },
    job("expand", expand::compare),
    job("restore", restore::compare),
    job("read", read::compare),
    job("same", same::compare),
    job("outline", outline::compare),
    job("diagnose", diagnose::compare),
    job("typed", typed::compare),
    job("boxes", boxes::compare),
    job("find_box", find_box::compare),
    job("check", desk_check::compare),
    job("file_type", file_type::compare),
];

/// Jobs at once. Some hold payloads and files of more than 2^28 bytes in memory.
const MOST_THREADS: usize = 4;

/// What the arguments ask for.
struct Asked {
    names: Vec<String>,
    /// The text of docs/PROMISES.md.
    promises: Option<String>,
}

fn main() -> ExitCode {
    let asked = match Asked::new(std::env::args().skip(1).collect()) {
        Ok(asked) => asked,
        Err(message) => {
            eprintln!("{message}");
            return ExitCode::from(2);
        }
    };
    match compare(&asked) {
        Ok(()) => ExitCode::SUCCESS,
        Err(message) => {
            println!("{message}");
            ExitCode::FAILURE
        }
    }
}

impl Asked {
    fn new(mut arguments: Vec<String>) -> Result<Self, String> {
        let file = match arguments.first().is_some_and(|a| a == "--promises") {
            true => arguments.drain(..arguments.len().min(2)).nth(1),
            false => None,
        };
        let known = parts(|_| true);
        if arguments.is_empty() || arguments.iter().any(|a| !known.contains(&a.as_str())) {
            let known = known.join(" ");
            return Err(format!(
                "usage: compare [--promises FILE] NAME.. with NAME among: {known}"
            ));
        }
        let text = |file: String| fs::read_to_string(&file).map_err(|e| format!("{file}: {e}"));
        Ok(Asked {
            names: arguments,
            promises: file.map(text).transpose()?,
        })
    }

    fn has(&self, part: &str) -> bool {
        self.names.iter().any(|name| name == part)
    }
}

/// The parts that are asked for, each once.
fn parts(asked: impl Fn(&str) -> bool) -> Vec<&'static str> {
    let parts = JOBS.iter().map(|job| job.part);
    let mut parts: Vec<&str> = parts.filter(|part| asked(part)).collect();
    parts.sort();
    parts.dedup();
    parts
}

fn compare(asked: &Asked) -> Result<(), String> {
    let jobs: Vec<Job> = JOBS.iter().filter(|j| asked.has(j.part)).copied().collect();
    let ran = run_all(&jobs);
    let Some(text) = &asked.promises else {
        return Ok(());
    };
    let of_part = |part: &'static str| {
        let jobs = ran.iter().filter(|(p, _)| *p == part);
        (part, jobs.map(|(_, cases)| cases).sum())
    };
    let sums: Vec<(&str, u64)> = parts(|p| asked.has(p)).into_iter().map(of_part).collect();
    promises::check(text, &sums)
}

/// Runs the jobs on several threads. Each job's part with the cases that it ran.
fn run_all(jobs: &[Job]) -> Vec<(&'static str, u64)> {
    let count = thread::available_parallelism().map_or(1, |n| n.get());
    let queue = Mutex::new(jobs.iter());
    let ran = Mutex::new(Vec::new());
    thread::scope(|scope| {
        for _ in 0..count.min(MOST_THREADS).min(jobs.len()) {
            scope.spawn(|| {
                while let Some(job) = next(&queue) {
                    let cases = run(job);
                    ran.lock().expect(UNBROKEN).push((job.part, cases));
                }
            });
        }
    });
    ran.into_inner().expect(UNBROKEN)
}

const UNBROKEN: &str = "no thread panics with the lock";

fn next<'a>(queue: &Mutex<impl Iterator<Item = &'a Job>>) -> Option<&'a Job> {
    queue.lock().expect(UNBROKEN).next()
}

/// Prints the job's lines together. A difference ends the program, whatever else is running.
fn run(job: &Job) -> u64 {
    let begin = Instant::now();
    let mut report = Report::new(job.name);
    let result = (job.run)(&mut report);
    let seconds = begin.elapsed().as_secs_f64();
    report.line(match &result {
        Ok(()) => format!("no difference ({seconds:.1} s)"),
        Err(message) => format!("FAILED\n{message}"),
    });
    let mut out = io::stdout().lock();
    let printed = out.write_all(report.text().as_bytes());
    if result.is_err() || printed.is_err() {
        exit(1);
    }
    report.cases
}
