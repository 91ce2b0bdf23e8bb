//! The proved library, over its C interface, against the Rust lexer and plain copies: the tables of docs/BENCHMARKS.md.

extern crate alloc;

mod by_hand;
mod calls;
mod clock;
mod edits;
mod floor;
#[path = "../bindings/rust/src/declarations.rs"]
#[rustfmt::skip]
mod lexpage;
#[path = "../oracle/src/original.rs"]
mod original;
mod page;
mod parts;
mod reads;
mod texts;
mod worst;
#[path = "../bindings/rust/tests/worst/mod.rs"]
#[rustfmt::skip]
mod worst_texts;

use original::types;
use page::{read, Page, MIB};

/// The sizes of the texts, in bytes.
const SIZES: [usize; 3] = [MIB / 16, MIB / 4, MIB];

/// A thread with a stack of this size reads the text.
fn small_stack(text: &[u8], size: usize) {
    let mut page = Page::new(text);
    let reader = || read(text, &mut page.lines, &mut page.tokens, &mut page.reply);
    std::thread::scope(|scope| {
        let thread = std::thread::Builder::new().stack_size(size);
        thread.spawn_scoped(scope, reader).unwrap().join().unwrap();
    });
    assert_eq!(page.reply[0], 0);
    let (bytes, stack) = (text.len() >> 10, size >> 10);
    println!("- A script of {bytes} KiB was read in a thread with a stack of {stack} KiB.");
}

/// bench [TURNS]
fn main() {
    let turns = std::env::args().nth(1).map_or(101, |n| n.parse().unwrap());
    small_stack(&texts::script(MIB), 16 << 10);
    println!("\n### Reads\n");
    reads::table(&SIZES, turns / 3 + 1);
    println!("\n### Edits\n");
    edits::table(&SIZES, turns);
    println!("\n### Parts of an edit\n");
    parts::table(&SIZES, turns);
    println!("\n### The floor of an edit\n");
    floor::table(&SIZES, turns);
    println!("\n### Worst texts\n");
    worst::table(&SIZES, turns / 10 + 1);
    println!("\n### Calls on a text\n");
    calls::table(&SIZES, turns);
}
