//! Writes generated inputs with their answers, to hold another implementation against.

use oracle::case::Case;
use oracle::generate::Random;
use std::env;
use std::io::{self, BufWriter, Write};
use std::process::ExitCode;

/// Writes so many of them.
fn write_cases(count: u64, seed: u64, list: &str) -> io::Result<()> {
    let mut out = BufWriter::new(io::stdout().lock());
    let mut random = Random::new(seed);
    for _ in 0..count {
        let case = Case::generated(&mut random, list);
        for line in case.iter().flat_map(Case::lines) {
            writeln!(out, "{line}")?;
        }
    }
    out.flush()
}

/// The two numbers and the list's name.
fn parsed(arguments: &[String]) -> Option<(u64, u64, &str)> {
    let [count, seed, list] = arguments else {
        return None;
    };
    match list.as_str() {
        "texts" | "long" | "numbers" | "edits" | "scripts" | "calls" | "free" => {
            Some((count.parse().ok()?, seed.parse().ok()?, list))
        }
        _ => None,
    }
}

/// cases N SEED texts|long|numbers|edits|scripts|calls|free
fn main() -> ExitCode {
    let arguments: Vec<String> = env::args().skip(1).collect();
    let Some((count, seed, list)) = parsed(&arguments) else {
        eprintln!("usage: cases N SEED texts|long|numbers|edits|scripts|calls|free");
        return ExitCode::from(2);
    };
    match write_cases(count, seed, list) {
        Ok(()) => ExitCode::SUCCESS,
        Err(_) => ExitCode::FAILURE,
    }
}
