//! The command-line tool. It holds no knowledge of the format: what it prints comes from the
//! functions of the crate `bustardcase`, in words of its own.
#![forbid(unsafe_code)]

mod args;
mod broken;
mod check;
mod drawing;
mod explain;
mod failure;
mod flags;
mod help;
mod input;
mod json;
mod output;
mod record;
mod refused;
mod restore;
mod rows;
mod same;
mod show;
mod text;
mod tree;
mod writing;

use args::Request;
use failure::Failure;
use std::io::Write;
use std::process::ExitCode;

fn main() -> ExitCode {
    let done = args::parse(std::env::args_os().skip(1)).and_then(run);
    match done {
        Ok(true) => ExitCode::SUCCESS,
        Ok(false) => ExitCode::from(failure::REFUSED),
        Err(failure) => {
            // Where there is no standard error, the status must do.
            let _ = writeln!(std::io::stderr(), "bustardcase: {failure}");
            ExitCode::from(failure.status())
        }
    }
}

/// Whether the answer is yes; a command that asks nothing says yes.
fn run(request: Request) -> Result<bool, Failure> {
    match request {
        Request::Help(text) => output::print(text)?,
        Request::Version => {
            output::print(concat!("bustardcase ", env!("CARGO_PKG_VERSION"), "\n"))?
        }
        Request::Show { file, json } => show::run(&file, json)?,
        Request::Explain { file } => explain::run(&file)?,
        Request::Check { file, json } => return check::run(&file, json),
        Request::Shrink { input, output } => writing::shrink(&input, &output)?,
        Request::Expand {
            input,
            output,
            changes,
        } => writing::expand(&input, &output, &changes)?,
        Request::Restore {
            input,
            output,
            changes,
            json,
        } => restore::run(&input, &output, &changes, json)?,
        Request::Same {
            a,
            b,
            changes,
            json,
        } => return same::run([&a, &b], &changes, json),
    }
    Ok(true)
}
