//! Writes what `scan` prints for the text on standard input.

use oracle::page::scan_output;
use std::io::{self, Read, Write};

/// scan < FILE
fn main() -> io::Result<()> {
    let mut text = Vec::new();
    io::stdin().lock().read_to_end(&mut text)?;
    io::stdout().lock().write_all(&scan_output(&text))
}
