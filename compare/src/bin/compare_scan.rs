//! Holds the proved program `scan` against the oracle: each generated text in a process of its own.

use oracle::case::Case;
use oracle::generate::Random;
use oracle::page::scan_output;
use std::io::Write;
use std::process::{Command, ExitCode, Stdio};

/// What the program writes for this text.
fn printed(program: &str, text: &[u8]) -> Option<Vec<u8>> {
    let mut command = Command::new(program);
    let piped = command.stdin(Stdio::piped()).stdout(Stdio::piped());
    let mut run = piped.spawn().ok()?;
    // a program that has read its 513 bytes may be gone before the rest is written
    let _ = run.stdin.take()?.write_all(text);
    let output = run.wait_with_output().ok()?;
    output.status.success().then_some(output.stdout)
}

/// A generated text; one in eight is long.
fn text(random: &mut Random) -> Vec<u8> {
    let list = if random.one_in(8) { "long" } else { "texts" };
    match Case::generated(random, list) {
        Some(Case::Text(text)) => text,
        _ => Vec::new(),
    }
}

/// compare_scan PROGRAM N: the last line is `N passed, M failed`.
fn main() -> ExitCode {
    let arguments: Vec<String> = std::env::args().skip(1).collect();
    let [program, count] = &arguments[..] else {
        eprintln!("usage: compare_scan PROGRAM N");
        return ExitCode::from(2);
    };
    let count: u64 = count.parse().unwrap_or(0);
    let mut random = Random::new(1);
    let mut failed = 0;
    for _ in 0..count {
        let text = text(&mut random);
        if printed(program, &text) != Some(scan_output(&text)) {
            failed += 1;
            println!("differs: {:?}", String::from_utf8_lossy(&text));
        }
    }
    println!("{} passed, {failed} failed", count - failed);
    match failed {
        0 if count > 0 => ExitCode::SUCCESS,
        _ => ExitCode::FAILURE,
    }
}
