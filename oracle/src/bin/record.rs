//! Writes a fixed list of inputs with their answers, the same bytes each time.

use oracle::format::{recorded, Case};
use std::env;
use std::io::{self, BufWriter, Write};
use std::process::ExitCode;

/// Writes the lines.
fn write_lines(cases: &[Case]) -> io::Result<()> {
    let mut out = BufWriter::new(io::stdout().lock());
    for case in cases {
        writeln!(out, "{}", case.line)?;
    }
    out.flush()
}

/// record texts|altered|edits|altered-edits|calls|altered-calls
fn main() -> ExitCode {
    let arguments: Vec<String> = env::args().skip(1).collect();
    let lines = match &arguments[..] {
        [list] => recorded(list),
        _ => None,
    };
    match lines.map(|lines| write_lines(&lines)) {
        Some(Ok(())) => ExitCode::SUCCESS,
        Some(Err(_)) => ExitCode::FAILURE,
        None => {
            eprintln!("usage: record texts|altered|edits|altered-edits|calls|altered-calls");
            ExitCode::from(2)
        }
    }
}
