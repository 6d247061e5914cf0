//! The partner's commands.

use std::io::{self, BufWriter, Write};
use std::process::ExitCode;

use partner::compare::{compare, singles, sweep, Comparison, Other};
use partner::vectors::write_vectors;

const USAGE: &str = "usage:
  partner compare --seed S --count N [--limit L]   random cases beside Sangolid
  partner singles --seed S --count N [--limit L]   random calculations and comparisons of singles beside Sangolid
  partner sweep [--limit L]                        block check of every short code beside Sangolid
  partner vectors --seed S --count N               cases with expected results, one a line
  partner replies --seed S --count N               the same lines with Sangolid's results";

/// Disagreements printed in full unless a limit is given.
const LIMIT: u64 = 20;

/// The number after an option.
fn option(arguments: &[String], name: &str, default: Option<u64>) -> Result<u64, String> {
    match arguments.iter().position(|argument| argument == name) {
        None => default.ok_or(format!("{name} is missing")),
        Some(at) => {
            arguments.get(at + 1).and_then(|value| value.parse().ok()).ok_or(format!("{name} needs a decimal number"))
        }
    }
}

/// The linked library.
#[cfg(sangolid)]
fn sangolid() -> Result<Box<dyn Other>, String> {
    Ok(Box::new(partner::sangolid::Sangolid))
}

/// The library of another processor, in a program of its own.
#[cfg(sangolid_remote)]
fn sangolid() -> Result<Box<dyn Other>, String> {
    Ok(Box::new(partner::remote::Remote::start(&[env!("SANGOLID_RUN"), env!("SANGOLID_SERVE")])?))
}

/// Tells that there is no library.
#[cfg(not(any(sangolid, sangolid_remote)))]
fn sangolid() -> Result<Box<dyn Other>, String> {
    Err("built without Sangolid: set SANGOLID_LIB and build again".to_string())
}

/// Prints a comparison's disagreements and tells whether all agreed.
fn print(comparison: &Comparison) -> bool {
    for report in &comparison.reports {
        println!("{report}");
    }
    println!("disagreements: {} defined, {} policy", comparison.defined, comparison.policy);
    comparison.defined == 0 && comparison.policy == 0
}

/// Writes vectors to standard output and their coverage to standard error.
fn vectors(other: Option<&dyn Other>, seed: u64, count: u64) -> Result<bool, String> {
    let mut out = BufWriter::new(io::stdout().lock());
    let coverage = write_vectors(&mut out, other, seed, count)
        .and_then(|coverage| out.flush().map(|()| coverage))
        .map_err(|error| error.to_string())?;
    eprint!("{coverage}");
    Ok(true)
}

/// Carries out the command line.
fn carry_out(arguments: &[String]) -> Result<bool, String> {
    let seed_and_count = || Ok::<_, String>((option(arguments, "--seed", None)?, option(arguments, "--count", None)?));
    let limit = || option(arguments, "--limit", Some(LIMIT)).map(|limit| limit as usize);
    match arguments.first().map(String::as_str) {
        Some("compare") => {
            let (seed, count) = seed_and_count()?;
            let (limit, other) = (limit()?, sangolid()?);
            let comparison = compare(&*other, seed, count, limit);
            print!("{}", comparison.coverage);
            Ok(print(&comparison))
        }
        Some("singles") => {
            let (seed, count) = seed_and_count()?;
            let (limit, other) = (limit()?, sangolid()?);
            let comparison = singles(&*other, seed, count, limit);
            for (name, count) in comparison.coverage.single_counts() {
                println!("{count}\t{name}");
            }
            Ok(print(&comparison))
        }
        Some("sweep") => {
            let (limit, other) = (limit()?, sangolid()?);
            Ok(print(&sweep(&*other, limit)))
        }
        Some("vectors") => {
            let (seed, count) = seed_and_count()?;
            vectors(None, seed, count)
        }
        Some("replies") => {
            let (seed, count) = seed_and_count()?;
            vectors(Some(&*sangolid()?), seed, count)
        }
        _ => Err(USAGE.to_string()),
    }
}

fn main() -> ExitCode {
    let arguments: Vec<String> = std::env::args().skip(1).collect();
    match carry_out(&arguments) {
        Ok(true) => ExitCode::SUCCESS,
        Ok(false) => ExitCode::FAILURE,
        Err(message) => {
            eprintln!("{message}");
            ExitCode::from(2)
        }
    }
}
