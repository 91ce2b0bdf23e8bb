//! Writes what `walk_tokens` prints for the text on standard input.

use oracle::page::walk_output;
use std::io::{self, Read, Write};

/// walk < FILE
fn main() -> io::Result<()> {
    let mut text = Vec::new();
    io::stdin().lock().read_to_end(&mut text)?;
    io::stdout().lock().write_all(&walk_output(&text))
}
