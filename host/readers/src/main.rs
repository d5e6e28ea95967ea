//! Expands payloads by the library, has other software open the files, and compares what it reports
//! with the records.

mod at_hand;
mod broken;
mod case;
mod compare;
mod expect;
mod facts;
mod findings;
mod model;
mod pictures;
mod samples;
mod tools;

use at_hand::AtHand;
use broken::Edit;
use case::Case;
use samples::Sample;
use std::fs;
use std::process::ExitCode;
use tools::Installed;

const USAGE: &str = "usage: readers            compares what the tools report with the records
       readers --all      prints every difference, findings among them, and goes on
       readers --broken   files with one wrong byte: the tools must report a difference
with --summary FILE: one line of what was left out goes to FILE, nothing where all was compared";

fn main() -> ExitCode {
    match run(std::env::args().skip(1).collect()) {
        Ok(()) => ExitCode::SUCCESS,
        Err(words) => {
            println!("{words}");
            ExitCode::FAILURE
        }
    }
}

type Work = fn(&[Sample], &[Installed]) -> Result<(), String>;

/// What was left out is the last line, so that it stands beside the outcome.
fn run(mut arguments: Vec<String>) -> Result<(), String> {
    let summary = take_summary(&mut arguments)?;
    let work: Work = match arguments.iter().map(String::as_str).collect::<Vec<_>>()[..] {
        [] => |samples, tools| each_tool(samples, tools, compare::compare),
        ["--all"] => |samples, tools| each_tool(samples, tools, compare::print_all),
        ["--broken"] => break_all,
        _ => return Err(USAGE.to_string()),
    };
    let at_hand = AtHand::new()?;
    let left_out = at_hand.left_out();
    if let Some(file) = summary {
        let line = left_out.iter().map(|line| format!("{line}\n"));
        fs::write(&file, line.collect::<String>()).map_err(|e| format!("{file}: {e}"))?;
    }
    at_hand.print_remarks();
    work(&samples::all(), &at_hand.installed)?;
    if let Some(line) = left_out {
        println!("{line}");
    }
    Ok(())
}

/// Takes `--summary FILE` out of the arguments.
fn take_summary(arguments: &mut Vec<String>) -> Result<Option<String>, String> {
    let Some(at) = arguments.iter().position(|a| a == "--summary") else {
        return Ok(None);
    };
    let taken: Vec<String> = arguments.drain(at..arguments.len().min(at + 2)).collect();
    match taken.get(1) {
        Some(file) => Ok(Some(file.clone())),
        None => Err(USAGE.to_string()),
    }
}

/// Does the work with each tool that is at hand and the files that it is for.
fn each_tool(
    samples: &[Sample],
    tools: &[Installed],
    work: fn(&Installed, &[&Case]) -> Result<(), String>,
) -> Result<(), String> {
    let cases: Result<Vec<Case>, String> = samples.iter().map(Case::new).collect();
    let cases = cases?;
    for installed in tools {
        let takes = installed.tool.takes;
        let taken: Vec<&Case> = cases.iter().filter(|case| takes(case)).collect();
        work(installed, &taken)?;
    }
    Ok(())
}

fn break_all(samples: &[Sample], tools: &[Installed]) -> Result<(), String> {
    if tools.is_empty() {
        return Ok(());
    }
    for edit in &broken::ALL {
        let seen = seen_by(edit, &edit.case(samples)?, tools)?;
        let seen = match seen[..] {
            [] => "none".to_string(),
            _ => seen.join(", "),
        };
        println!("wrong {}: seen by {seen}", edit.name);
    }
    Ok(())
}

/// The tools that notice the wrong byte, each with a fact that it tells otherwise.
fn seen_by(edit: &Edit, case: &Case, installed: &[Installed]) -> Result<Vec<String>, String> {
    let mut seen = Vec::new();
    for one in installed {
        let tool = one.tool;
        if !edit.seen_by.contains(&tool.name) {
            continue;
        }
        match compare::noticed(tool, case) {
            Ok(fact) => seen.push(format!("{} ({fact})", tool.name)),
            Err(words) => one.fault(&words)?,
        }
    }
    Ok(seen)
}
