//! The command `memory`, which makes one call and prints its outcome, so that each allocation of the call can
//! fail in turn.
//!
//! Each argument and each line of standard input is a case: the name of a row or a group of calls, a call, and how many
//! boxes are taken and dropped between the set-up and the call. If one allocation of the process fails, the boxes
//! decide which allocation of the call that is. The output says whether the failure was before the call, in it or after
//! it.

mod built;
mod calls;
mod growths;
mod problem;
mod rows;
mod standard;

use growths::Seen;
use problem::Problem;
use std::alloc::Global;
use std::fmt::Display;
use std::process::ExitCode;
use std::{env, io};

/// The groups of calls besides the pages of the standard tags; every other name is a row's.
const GROUPS: [&str; 9] = [
    "dates", "errors", "filters", "json", "paths", "plugins", "runtimes", "scopes", "values",
];

/// Returns the outcome of a case.
fn tried(alloc: Global, case: &str) -> Result<Seen, Problem> {
    let Some((name, rest)) = case.split_once(' ') else {
        return Err(Problem::Case);
    };
    let Some((word, number)) = rest.split_once(' ') else {
        return Err(Problem::Case);
    };
    let Ok(boxes) = number.parse::<usize>() else {
        return Err(Problem::Case);
    };
    if GROUPS.contains(&name) {
        calls::tried(alloc, name, word, boxes)
    } else if name == "standard" {
        standard::tried(alloc, word, boxes)
    } else {
        rows::tried(alloc, name, word, boxes)
    }
}

/// Writes the outcome of a case.
fn write_outcome<D: Display>(rt: &HostRuntime, case: &str, outcome: &D) -> Result<(), Problem> {
    Ok(rt.print(format_args!("{case}: {outcome}\n"))?)
}

/// Makes the call of a case, and writes its outcome.
fn write_case(rt: &HostRuntime, case: &str) -> Result<(), Problem> {
    match tried(rt.alloc(), case) {
        Ok(seen) => write_outcome(rt, case, &seen),
        Err(problem) => write_outcome(rt, case, &problem),
    }
}

/// Makes the call of a line, and writes its outcome.
fn write_line(rt: &HostRuntime, line: io::Result<String>) -> Result<(), Problem> {
    match line {
        Ok(case) => write_case(rt, case.as_str()),
        Err(error) => Err(Problem::from(error)),
    }
}

fn serve_arguments(rt: &HostRuntime) -> Result<(), Problem> {
    for case in env::args(rt)?.skip(1) {
        write_case(rt, case.as_str())?;
    }
    Ok(())
}

fn serve_lines(rt: &HostRuntime) -> Result<(), Problem> {
    for line in rt.lines(rt.alloc()) {
        write_line(rt, line)?;
    }
    Ok(())
}

fn serve(rt: &HostRuntime) -> Result<(), Problem> {
    serve_arguments(rt)?;
    serve_lines(rt)
}

fn main(rt: HostRuntime) -> ExitCode {
    match serve(&rt) {
        Ok(()) => ExitCode::SUCCESS,
        Err(problem) => {
            let _ = rt.eprint(format_args!("memory: {problem}\n"));
            ExitCode::FAILURE
        }
    }
}
